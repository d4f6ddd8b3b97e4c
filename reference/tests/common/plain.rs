//! The receiver as it was before events had differences, once more and by itself; and
//! the differences of a recording, worked out from the windows of its slots.

use super::receiver::{Event, BREAK, CARRIER_LOST, DOUBT, MOST_SAMPLES, NO_STOP_BIT};
use super::states::{is_good_without, HELD};
use super::weighed::Weighed;
use reference::library::Numbers;
use std::mem;

const SEARCH: [u8; 4] = [0; 4];

/// A state without a difference; what it has in the place of one is not looked at.
#[derive(Clone, Copy, Debug)]
pub struct Plain(Numbers);

impl Plain {
    /// The same state without its difference.
    pub fn of(state: Numbers) -> Plain {
        Plain(state.with_smallest(None))
    }

    pub fn stage(&self) -> [u8; 4] {
        self.0.stage_numbers()
    }

    /// Everything but the difference is the same.
    pub fn agrees(&self, state: Numbers) -> bool {
        state.with_smallest(None) == self.0
    }

    /// Reads a sample, and gives the window that it brought and the event.
    pub fn take(&mut self, sample: i16) -> (Weighed, Option<u16>) {
        let state = &mut self.0;
        state.window.rotate_left(1);
        state.window[31] = sample;
        let weighed = Weighed::new(state.band, state.window);
        let (run, stage, event) = moved(state.run, state.stage_numbers(), &weighed);
        state.run = run;
        *state = state.with_stage(stage);
        (weighed, event)
    }

    /// Reads a block into a list of so many places: the number and the events.
    pub fn block(&mut self, samples: &[i16], places: usize) -> (u8, Vec<u16>) {
        let number = if !is_good_without(&self.0) {
            2
        } else if samples.len() > MOST_SAMPLES {
            3
        } else if samples
            .iter()
            .any(|sample| !(-8_191..=8_191).contains(sample))
        {
            5
        } else if places < samples.len() / 48 + 1 {
            4
        } else {
            0
        };
        if number != 0 {
            return (number, vec![]);
        }
        // Of a stage that does not wait, nothing else is kept.
        if self.0.stage != 1 {
            self.0 = self.0.with_stage([self.0.stage, 0, 0, 0]);
        }
        let events = samples.iter().filter_map(|&sample| self.take(sample).1);
        (0, events.collect())
    }
}

/// The rule of one sample: the next run and stage, and the event.
fn moved(run: u8, stage: [u8; 4], weighed: &Weighed) -> (u8, [u8; 4], Option<u16>) {
    let good = weighed.is_good();
    let space = weighed.space > weighed.mark;
    let run = if good { (run + 1).min(32) } else { 0 };
    let (stage, event) = match stage {
        [0, ..] if run == 32 && space => ([1, 16, 0, 0], None),
        [2, ..] if run == 32 && !space => (SEARCH, None),
        [1, wait, slot, byte] if wait > 1 => ([1, wait - 1, slot, byte], None),
        [1, _, 0, _] if good && space => ([1, 32, 1, 0], None),
        [1, _, 0, _] => (SEARCH, None),
        [1, ..] if !good => (SEARCH, Some(CARRIER_LOST)),
        [1, ..] if weighed.is_doubtful() => (SEARCH, Some(DOUBT)),
        [1, _, 9, 0] if space => (HELD, Some(BREAK)),
        [1, _, 9, _] if space => (SEARCH, Some(NO_STOP_BIT)),
        [1, _, 9, byte] => (SEARCH, Some(u16::from(byte))),
        [1, _, slot, byte] => {
            let bit = u8::from(!space) << (slot - 1);
            ([1, 32, slot + 1, byte + bit], None)
        }
        other => (other, None),
    };
    (run, stage, event)
}

/// What a recording gives, as it is worked out here.
pub struct Worked {
    /// Each event, with the differences at the slots of its character, the first one first.
    pub events: Vec<(u16, Vec<i64>)>,
    /// Behind each sample, the smallest difference of the present character.
    pub smallest: Vec<Option<i64>>,
}

impl Worked {
    /// From the fresh state of the band. A slot is where the wait of a data or stop bit ends.
    pub fn new(fresh: Numbers, recording: &[i16]) -> Worked {
        let mut plain = Plain::of(fresh);
        let (mut events, mut smallest, mut taken) = (vec![], vec![], vec![]);
        for &sample in recording {
            let before = plain.stage();
            let (weighed, event) = plain.take(sample);
            if let [1, 1, slot @ 1..=9, _] = before {
                taken.push(weighed.difference());
                assert_eq!(taken.len(), usize::from(slot), "one for each slot");
            }
            if let Some(event) = event {
                events.push((event, mem::take(&mut taken)));
            }
            smallest.push(taken.iter().min().copied());
        }
        Worked { events, smallest }
    }

    /// Each event with the smallest of its differences.
    pub fn measured(&self) -> Vec<Event> {
        let least = |(event, differences): &(u16, Vec<i64>)| {
            let least = differences.iter().min();
            (*event, *least.expect("an event comes with a slot"))
        };
        self.events.iter().map(least).collect()
    }

    /// Each event with the number of its slots.
    pub fn slots(&self) -> Vec<(u16, usize)> {
        let events = self.events.iter();
        events.map(|(event, taken)| (*event, taken.len())).collect()
    }
}
