//! The receiver of the specification, which it calls the reader, step by step.

use crate::sine::Sines;
use crate::transmitter::{is_band, STEPS};
use std::array;

pub const WINDOW: usize = 32;
pub const MOST_SAMPLES: usize = 16_384;
pub const LARGEST_SAMPLE: i16 = 8_191;
pub const FULL_RUN: u8 = 32;
pub const LAST_SLOT: u8 = 9;
/// From the full run with space above mark to the middle of the start bit.
pub const HALF_BIT: u8 = 16;
pub const BIT: u8 = 32;
/// The least energy of a good level.
pub const GOOD_ENERGY: i64 = 32_400_000_000_000_000;
pub const NO_STOP_BIT: u16 = 256;
pub const CARRIER_LOST: u16 = 257;
pub const BREAK: u16 = 258;
pub const DOUBT: u16 = 259;

/// What the specification calls the moment is the slot here: 0 start, 1 to 8 data,
/// 9 stop. A break is held from its event until the line is back in mark.
#[derive(Clone, Copy, Debug, PartialEq, Eq)]
pub enum Stage {
    Searching,
    Waiting { wait: u8, slot: u8, byte: u8 },
    Held,
}

#[derive(Clone, Copy, Debug, PartialEq, Eq)]
pub struct State {
    pub band: u8,
    /// The last samples, oldest first.
    pub window: [i16; WINDOW],
    pub run: u8,
    pub stage: Stage,
    /// The smallest difference of the two energies at the data slots of the present
    /// character so far. There is none before the first of them is taken.
    pub smallest: Option<i64>,
}

/// A character or a fault, and beside it the smallest difference of the two energies at
/// the data and stop slots of its character, up to and with the slot that brought it.
#[derive(Clone, Copy, Debug, PartialEq, Eq)]
pub struct Event {
    pub number: u16,
    pub difference: i64,
}

/// What a call returns besides the events it leaves in the lent lists.
#[derive(Clone, Copy, Debug, PartialEq, Eq)]
pub struct Answer<S = State> {
    pub number: u8,
    pub count: usize,
    pub state: S,
}

/// The number and the fresh state; band 1 stands in for a refused band.
pub fn open(band: u8) -> (u8, State) {
    let fresh = |band| State {
        band,
        window: [0; WINDOW],
        run: 0,
        stage: Stage::Searching,
        smallest: None,
    };
    if is_band(band) {
        (0, fresh(band))
    } else {
        (1, fresh(1))
    }
}

/// The list places that a block of `samples` samples needs.
pub fn places_needed(samples: usize) -> usize {
    samples / 48 + 1
}

pub(crate) fn is_sample(sample: i16) -> bool {
    (-LARGEST_SAMPLE..=LARGEST_SAMPLE).contains(&sample)
}

impl Stage {
    fn is_in_range(self) -> bool {
        let Stage::Waiting { wait, slot, byte } = self else {
            return true;
        };
        if slot > LAST_SLOT {
            return false;
        }
        let longest = if slot == 0 { HALF_BIT } else { BIT };
        let byte_is_in_range = if slot < 2 {
            byte == 0
        } else {
            u16::from(byte) < 1 << (slot - 1)
        };
        (1..=longest).contains(&wait) && byte_is_in_range
    }
}

impl State {
    pub(crate) fn is_in_range(&self) -> bool {
        is_band(self.band)
            && self.window.iter().all(|&sample| is_sample(sample))
            && self.run <= FULL_RUN
            && self.stage.is_in_range()
            && self.smallest_is_in_range()
    }

    /// It is there exactly while one of the slots 2 to 9 is waited for, and never negative.
    fn smallest_is_in_range(&self) -> bool {
        let is_due = matches!(self.stage, Stage::Waiting { slot, .. } if slot >= 2);
        match self.smallest {
            Some(difference) => is_due && difference >= 0,
            None => !is_due,
        }
    }

    /// Space and mark.
    pub(crate) fn tones(&self, sines: &Sines) -> [Tone; 2] {
        STEPS[usize::from(self.band) - 1].map(|step| Tone::new(sines, step))
    }
}

/// The two lent lists, and how much of them is filled: the number of an event goes to the
/// one and its difference to the same place of the other.
pub struct Lists<'a> {
    numbers: &'a mut [u16],
    differences: &'a mut [i64],
    pub(crate) count: usize,
}

impl<'a> Lists<'a> {
    pub fn new(numbers: &'a mut [u16], differences: &'a mut [i64]) -> Lists<'a> {
        Lists {
            numbers,
            differences,
            count: 0,
        }
    }

    /// The length that is tested: that of the shorter.
    pub(crate) fn places(&self) -> usize {
        self.numbers.len().min(self.differences.len())
    }

    #[inline(always)]
    pub(crate) fn put(&mut self, event: Option<Event>) {
        if let Some(Event { number, difference }) = event {
            self.numbers[self.count] = number;
            self.differences[self.count] = difference;
            self.count += 1;
        }
    }
}

/// Reads a block and writes its events to the front of the lists.
pub fn block(sines: &Sines, state: State, samples: &[i16], lists: Lists) -> Answer {
    let has_places = lists.places() >= places_needed(samples.len());
    match tested(state.is_in_range(), samples, has_places) {
        0 => read(sines, state, samples, lists),
        number => refused(number, state),
    }
}

/// Why a block is refused, or 0 if it is not, in the order of the tests.
pub(crate) fn tested(is_in_range: bool, samples: &[i16], has_places: bool) -> u8 {
    if !is_in_range {
        2
    } else if samples.len() > MOST_SAMPLES {
        3
    } else if !samples.iter().all(|&sample| is_sample(sample)) {
        5
    } else if !has_places {
        4
    } else {
        0
    }
}

pub(crate) fn refused<S>(number: u8, state: S) -> Answer<S> {
    Answer {
        number,
        count: 0,
        state,
    }
}

fn read(sines: &Sines, mut state: State, samples: &[i16], mut lists: Lists) -> Answer {
    let tones = state.tones(sines);
    for &sample in samples {
        lists.put(state.take(&tones, sample));
    }
    Answer {
        number: 0,
        count: lists.count,
        state,
    }
}

/// C(j t) and S(j t) of a tone with step t, for j from 0 to 31. They are
/// looked up once for each call, only because it is quicker.
pub(crate) struct Tone {
    pub(crate) cosines: [i64; WINDOW],
    pub(crate) sines: [i64; WINDOW],
}

impl Tone {
    pub(crate) fn new(sines: &Sines, step: u16) -> Tone {
        let step = usize::from(step);
        Tone {
            cosines: array::from_fn(|j| i64::from(sines.c(j * step))),
            sines: array::from_fn(|j| i64::from(sines.s(j * step))),
        }
    }

    /// I and Q.
    pub(crate) fn sums(&self, window: &[i16; WINDOW]) -> [i64; 2] {
        [&self.cosines, &self.sines].map(|weights| weighed(window, weights))
    }

    /// At most 2 (32 * 8191 * 6000)^2, which is below 2^63.
    fn energy(&self, window: &[i16; WINDOW]) -> i64 {
        let [i, q] = self.sums(window);
        i * i + q * q
    }
}

fn weighed(window: &[i16; WINDOW], weights: &[i64; WINDOW]) -> i64 {
    (0..WINDOW).map(|j| i64::from(window[j]) * weights[j]).sum()
}

impl State {
    /// Steps 1 to 5 for one sample.
    pub(crate) fn take(&mut self, tones: &[Tone; 2], sample: i16) -> Option<Event> {
        // 1. The sample enters and the oldest leaves.
        self.window.copy_within(1.., 0);
        self.window[WINDOW - 1] = sample;

        // 2. The energies, bit 0 being space and bit 1 mark.
        let [space, mark] = [0, 1].map(|bit: usize| tones[bit].energy(&self.window));

        // 3 to 5.
        let event;
        (self.run, self.stage, self.smallest, event) =
            moved(self.run, self.stage, self.smallest, space, mark);
        event
    }
}

/// Steps 3 to 5 with the difference: the next run, stage and smallest difference, and the
/// event if there is one.
#[inline]
pub(crate) fn moved(
    run: u8,
    stage: Stage,
    smallest: Option<i64>,
    space: i64,
    mark: i64,
) -> (u8, Stage, Option<i64>, Option<Event>) {
    let smallest = match stage {
        Stage::Waiting { wait: 1, slot, .. } => lowered(slot, smallest, space, mark),
        _ => smallest,
    };
    let (run, stage, number) = decided(run, stage, space, mark);
    let (smallest, event) = carried(smallest, number);
    (run, stage, smallest, event)
}

/// The smallest difference when a slot is taken. The start slot has no part in it.
#[inline]
pub(crate) fn lowered(slot: u8, smallest: Option<i64>, space: i64, mark: i64) -> Option<i64> {
    if slot == 0 {
        return smallest;
    }
    // Larger minus smaller, of two numbers from 0 on.
    let difference = space.max(mark) - space.min(mark);
    Some(smallest.map_or(difference, |smallest| smallest.min(difference)))
}

/// An event takes the difference with it, so that the state has none, and otherwise the
/// state keeps it.
#[inline]
pub(crate) fn carried(smallest: Option<i64>, number: Option<u16>) -> (Option<i64>, Option<Event>) {
    let Some(number) = number else {
        return (smallest, None);
    };
    let difference = smallest.expect("an event comes with a slot");
    (None, Some(Event { number, difference }))
}

/// The level of step 3.
#[inline]
pub(crate) fn is_good(space: i64, mark: i64) -> bool {
    space.max(mark) >= GOOD_ENERGY
}

/// What the weighing of a data or stop slot reports.
#[derive(Clone, Copy, Debug, PartialEq, Eq)]
enum Weighing {
    Space,
    Mark,
    Doubtful,
}

/// It is doubtful when four times the larger energy is less than five times the
/// smaller. Such products may not fit 64 bits. 0 against 0 is not doubtful.
#[inline]
fn weighing(space: i64, mark: i64) -> Weighing {
    let larger = i128::from(space.max(mark));
    let smaller = i128::from(space.min(mark));
    if 4 * larger < 5 * smaller {
        Weighing::Doubtful
    } else if space > mark {
        Weighing::Space
    } else {
        Weighing::Mark
    }
}

/// Steps 3 to 5: the next run and stage, and the event if there is one.
#[inline]
fn decided(run: u8, stage: Stage, space: i64, mark: i64) -> (u8, Stage, Option<u16>) {
    // 3. The level and the run.
    let good = is_good(space, mark);
    let run = if good { (run + 1).min(FULL_RUN) } else { 0 };

    let (stage, event) = match stage {
        // 4. The stage is the one before this sample, the run the new one.
        Stage::Searching if run == FULL_RUN && space > mark => (waiting(HALF_BIT, 0, 0), None),
        Stage::Searching => (Stage::Searching, None),
        // 5. The wait falls by 1, and at 0 the slot is taken.
        Stage::Waiting { wait, slot, byte } if wait > 1 => (waiting(wait - 1, slot, byte), None),
        Stage::Waiting { slot, byte, .. } => taken(slot, byte, good, space, mark),
        // A break ends with the new run, as in 4. No event tells of it, nor of a
        // lost level.
        Stage::Held if run == FULL_RUN && mark >= space => (Stage::Searching, None),
        Stage::Held => (Stage::Held, None),
    };
    (run, stage, event)
}

/// What two energies decide.
#[derive(Clone, Copy, Debug, PartialEq, Eq)]
pub struct Decision {
    /// The level is good.
    pub good: bool,
    /// Space is above mark.
    pub space: bool,
    pub doubtful: bool,
}

/// The same from a decision. A run or a stage out of its range comes back as it is,
/// without an event.
pub fn moved_by(run: u8, stage: Stage, decision: Decision) -> (u8, Stage, Option<u16>) {
    if run > FULL_RUN || !stage.is_in_range() {
        return (run, stage, None);
    }
    let larger = GOOD_ENERGY - i64::from(!decision.good);
    let smaller = if decision.doubtful { larger - 1 } else { 0 };
    if decision.space {
        decided(run, stage, larger, smaller)
    } else {
        decided(run, stage, smaller, larger)
    }
}

pub(crate) fn waiting(wait: u8, slot: u8, byte: u8) -> Stage {
    Stage::Waiting { wait, slot, byte }
}

/// Step 5 when the wait is over.
pub(crate) fn taken(slot: u8, byte: u8, good: bool, space: i64, mark: i64) -> (Stage, Option<u16>) {
    if slot == 0 {
        // Start, which compares only.
        if good && space > mark {
            (waiting(BIT, 1, 0), None)
        } else {
            (Stage::Searching, None)
        }
    } else if !good {
        (Stage::Searching, Some(CARRIER_LOST))
    } else {
        match weighing(space, mark) {
            Weighing::Doubtful => (Stage::Searching, Some(DOUBT)),
            Weighing::Space => bit_taken(slot, byte, 0),
            Weighing::Mark => bit_taken(slot, byte, 1),
        }
    }
}

/// The bit of a data or stop slot, of which there is no doubt.
fn bit_taken(slot: u8, byte: u8, bit: u8) -> (Stage, Option<u16>) {
    if slot < LAST_SLOT {
        // Data.
        return (waiting(BIT, slot + 1, byte + (bit << (slot - 1))), None);
    }
    // Stop.
    let (stage, event) = match (bit, byte) {
        (0, 0) => (Stage::Held, BREAK),
        (0, _) => (Stage::Searching, NO_STOP_BIT),
        _ => (Stage::Searching, u16::from(byte)),
    };
    (stage, Some(event))
}
