//! What readings have brought: a test that met too little would show nothing.

use super::receiver::{
    compare_accepted, read_by, Reading, BREAK, CARRIER_LOST, DOUBT, NO_STOP_BIT,
};
use reference::library::Numbers;

/// How many events are characters, missing stop bits, lost carriers, breaks and doubts.
pub type Kinds = [usize; 5];

pub fn kinds(events: &[u16]) -> Kinds {
    let mut kinds = [0; 5];
    for &event in events {
        kinds[match event {
            0..=255 => 0,
            NO_STOP_BIT => 1,
            CARRIER_LOST => 2,
            BREAK => 3,
            DOUBT => 4,
            _ => panic!("event {event}"),
        }] += 1;
    }
    kinds
}

/// A line inside the margin never shows a doubt.
pub fn assert_no_doubt(events: &[u16], what: impl Fn() -> String) {
    assert_eq!(kinds(events)[4], 0, "doubts: {}", what());
}

/// At least so many of each.
pub fn assert_frequent(kinds: Kinds, least: Kinds) {
    let enough = (0..5).all(|kind| kinds[kind] >= least[kind]);
    assert!(enough, "{kinds:?} is too rare for {least:?}");
}

/// Counts of the events, and of the states that the library left behind blocks
/// of one sample or more. An empty block leaves what it was handed.
pub struct Met {
    pub kinds: Kinds,
    /// The states that search, those that wait and those that hold a break, by run.
    runs: [Counts; 3],
    /// The states that wait, by slot and wait.
    waits: [Counts; 10],
}

/// For each number from 0 to 32.
type Counts = [usize; 33];

impl Met {
    pub fn new() -> Met {
        Met {
            kinds: [0; 5],
            runs: [[0; 33]; 3],
            waits: [[0; 33]; 10],
        }
    }

    fn count(&mut self, samples: &[i16], reading: &Reading) {
        for (all, kind) in self.kinds.iter_mut().zip(kinds(reading.events())) {
            *all += kind;
        }
        if !samples.is_empty() {
            let state = reading.answer.state;
            let [stage, wait, slot, _] = state.stage_numbers().map(usize::from);
            self.runs[stage][usize::from(state.run)] += 1;
            self.waits[slot][wait] += usize::from(stage == 1);
        }
    }

    pub fn compare(&mut self, state: Numbers, samples: &[i16]) -> Reading {
        let reading = compare_accepted(state, samples);
        self.count(samples, &reading);
        reading
    }

    /// The events of the blocks joined, and the state after the last one.
    pub fn read_on<'a>(
        &mut self,
        state: Numbers,
        blocks: impl IntoIterator<Item = &'a [i16]>,
    ) -> (Vec<u16>, Numbers) {
        read_by(state, blocks, |state, samples| self.compare(state, samples))
    }

    /// States that search had every run, each at least so often.
    pub fn assert_searching_runs(&self, least: usize) {
        assert_each("run while searching", &self.runs[0], 0, least);
    }

    /// The same of states that wait.
    pub fn assert_waiting_runs(&self, least: usize) {
        assert_each("run while waiting", &self.runs[1], 0, least);
    }

    /// The same of states that hold a break.
    pub fn assert_held_runs(&self, least: usize) {
        assert_each("run while holding", &self.runs[2], 0, least);
    }

    /// Every wait for every slot was met at least so often.
    pub fn assert_waits(&self, least: usize) {
        for (slot, waits) in self.waits.iter().enumerate() {
            let waits = if slot == 0 { &waits[..17] } else { &waits[..] };
            assert_each(&format!("wait for slot {slot}"), waits, 1, least);
        }
    }
}

/// Each number from `first` on was met at least so often.
fn assert_each(what: &str, counts: &[usize], first: usize, least: usize) {
    for (number, &count) in counts.iter().enumerate().skip(first) {
        assert!(count >= least, "{what} {number}: {count}, not {least}");
    }
}
