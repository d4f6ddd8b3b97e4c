//! A receiver call made on either side, and compared; and what a tap's call has in
//! common with it.

use super::lent::{no_difference, no_event, Lent};
use super::states::hostile;
use super::{sines, Side, SIDES};
use reference::library::{self, BlockAnswer, Numbers};
use reference::random::Random;
use reference::receiver::{self, Answer, Lists};
use reference::sine::Sines;
use std::fmt::Debug;

// The specification's numbers once more, so that a slip in the reference's own shows.
pub const WINDOW: usize = 32;
pub const MOST_SAMPLES: usize = 16_384;
pub const NO_STOP_BIT: u16 = 256;
pub const CARRIER_LOST: u16 = 257;
pub const BREAK: u16 = 258;
pub const DOUBT: u16 = 259;
/// An event is below this.
pub const EVENTS: usize = 260;

pub const FRESH: Numbers = Numbers {
    band: 1,
    window: [0; WINDOW],
    run: 0,
    stage: 0,
    wait: 0,
    slot: 0,
    byte: 0,
    measured: 0,
    smallest: 0,
};

/// An event's number and its difference.
pub type Event = (u16, i64);

pub fn numbers(events: &[Event]) -> Vec<u16> {
    events.iter().map(|&(number, _)| number).collect()
}

/// The lengths of the two lists, that of the numbers first.
pub type Lengths = [usize; 2];

/// Two lists of which the shorter has this length. One of them is longer, or neither is:
/// as the numbers fall.
pub fn uneven(samples: &[i16], length: usize) -> Lengths {
    let longer = [[0, 0], [3, 0], [0, 3]][(samples.len() + length) % 3];
    longer.map(|more| length + more)
}

/// What a block is read from: the state of a receiver or of a tap.
pub trait BlockState: Copy + Debug + PartialEq {
    /// The places that a block of so many samples needs.
    fn places_needed(samples: usize) -> usize;

    /// The library must answer the call as the reference does, in every place.
    fn compare_lists(self, samples: &[i16], lengths: Lengths) -> Reading<Self>;

    /// Another one, which must be refused with 2.
    fn spoiled(self, random: &mut Random) -> Self;
}

/// An answer with the lent lists as they stood on return.
pub struct Reading<S = Numbers> {
    pub answer: BlockAnswer<S>,
    pub places: Vec<u16>,
    pub difference_places: Vec<i64>,
}

impl<S> Reading<S> {
    pub fn events(&self) -> &[u16] {
        &self.places[..self.answer.count]
    }

    pub fn differences(&self) -> &[i64] {
        &self.difference_places[..self.answer.count]
    }

    /// Each event with its difference.
    pub fn measured(&self) -> Vec<Event> {
        let events = self.events().iter().copied();
        events.zip(self.differences().iter().copied()).collect()
    }
}

pub fn open(side: Side, band: u8) -> (u8, Numbers) {
    match side {
        Side::Reference => {
            let (number, state) = receiver::open(band);
            (number, Numbers::from(state))
        }
        Side::Library => library::receiver_open(band),
    }
}

/// The fresh state of a known band, opened on both sides.
pub fn fresh(band: u8) -> Numbers {
    let state = Numbers { band, ..FRESH };
    for side in SIDES {
        assert_eq!(open(side, band), (0, state), "{side:?}");
    }
    state
}

/// A Rust receiver or tap behind the C functions' numbers. A refusal changes none
/// of them, and an accepted call stores the next state in its one form.
pub fn in_numbers<N, S>(
    block: impl FnOnce(&Sines, S, &[i16], Lists) -> Answer<S>,
    state: N,
    samples: &[i16],
    events: &mut [u16],
    differences: &mut [i64],
) -> BlockAnswer<N>
where
    N: Copy + From<S>,
    S: Copy + Debug + PartialEq + From<N>,
{
    let handed = S::from(state);
    let answer = block(sines(), handed, samples, Lists::new(events, differences));
    let state = if answer.number == 0 {
        N::from(answer.state)
    } else {
        assert_eq!(answer.state, handed, "refused with {}", answer.number);
        state
    };
    BlockAnswer {
        number: answer.number,
        count: answer.count,
        state,
    }
}

/// Who answers a block call: the reference, or the library through one of its
/// two entries.
#[derive(Clone, Copy, Debug)]
pub enum Entry {
    Reference,
    ByValue,
    Lent,
}

/// The library's entries.
pub const ENTRIES: [Entry; 2] = [Entry::ByValue, Entry::Lent];

impl Entry {
    fn answer(
        self,
        state: Numbers,
        samples: &[i16],
        events: &mut [u16],
        differences: &mut [i64],
    ) -> BlockAnswer {
        match self {
            Entry::Reference => in_numbers(receiver::block, state, samples, events, differences),
            Entry::ByValue => library::receiver_block(state, samples, events, differences),
            Entry::Lent => library::receiver_block_lent(state, samples, events, differences),
        }
    }

    /// Makes the call with lists of these lengths, and checks what holds of every
    /// call: the places not covered by the count keep their fill, and a refusal
    /// leaves the state with count 0.
    fn block(self, state: Numbers, samples: &[i16], lengths: Lengths) -> Reading {
        let call = |samples: &[i16], events: &mut [u16], differences: &mut [i64]| {
            self.answer(state, samples, events, differences)
        };
        guarded(call, state, samples, lengths, || format!("{self:?}"))
    }
}

/// The same for any function that answers such a call.
pub fn guarded<S: Copy + Debug + PartialEq>(
    call: impl FnOnce(&[i16], &mut [u16], &mut [i64]) -> BlockAnswer<S>,
    state: S,
    samples: &[i16],
    lengths: Lengths,
    who: impl Fn() -> String,
) -> Reading<S> {
    let mut events = Lent::new(lengths[0], no_event);
    let mut differences = Lent::new(lengths[1], no_difference);
    let answer = call(samples, events.places(), differences.places());
    let what = || format!("{}: {}", who(), told(state, samples, lengths));
    if answer.number != 0 {
        assert_eq!((answer.count, answer.state), (0, state), "{}", what());
    }
    let places = events.returned(answer.count, what);
    let of_differences = || format!("differences, {}", what());
    let difference_places = differences.returned(answer.count, of_differences);
    Reading {
        answer,
        places,
        difference_places,
    }
}

/// A call in words, without its many samples.
pub fn told(state: impl Debug, samples: &[i16], lengths: impl Debug) -> String {
    let count = samples.len();
    format!("{count} samples from {state:?} into {lengths:?} places")
}

/// Each entry must answer the call as the reference does, in every place.
pub fn compare_through<const N: usize>(
    entries: [Entry; N],
    state: Numbers,
    samples: &[i16],
    lengths: Lengths,
) -> [Reading; N] {
    let expected = Entry::Reference.block(state, samples, lengths);
    entries.map(|entry| {
        let found = entry.block(state, samples, lengths);
        let what = || format!("{entry:?}: {}", told(state, samples, lengths));
        assert_same(&found, &expected, what);
        found
    })
}

/// Equal in the answer and in every place of both lists.
pub fn assert_same<S: Debug + PartialEq>(
    found: &Reading<S>,
    expected: &Reading<S>,
    what: impl Fn() -> String,
) {
    assert_eq!(found.answer, expected.answer, "{}", what());
    assert_eq!(found.places, expected.places, "{}", what());
    let places = [&found.difference_places, &expected.difference_places];
    assert_eq!(places[0], places[1], "differences: {}", what());
}

impl BlockState for Numbers {
    fn places_needed(samples: usize) -> usize {
        samples / 48 + 1
    }

    /// Both entries must answer as the reference does. What is returned, and with
    /// it the state that is passed on, is from the lent entry.
    fn compare_lists(self, samples: &[i16], lengths: Lengths) -> Reading {
        let [_, lent] = compare_through(ENTRIES, self, samples, lengths);
        lent
    }

    fn spoiled(self, random: &mut Random) -> Numbers {
        hostile(random, self)
    }
}

/// The same with lists of which the shorter has this length.
pub fn compare<S: BlockState>(state: S, samples: &[i16], length: usize) -> Reading<S> {
    state.compare_lists(samples, uneven(samples, length))
}

/// The same into exactly the places needed. The call must be accepted.
pub fn compare_accepted<S: BlockState>(state: S, samples: &[i16]) -> Reading<S> {
    accepted(compare(state, samples, S::places_needed(samples.len())))
}

/// The reading, which must be of an accepted call.
pub fn accepted<S: Debug>(reading: Reading<S>) -> Reading<S> {
    assert_eq!(reading.answer.number, 0, "{:?}", reading.answer);
    reading
}

/// The events of the blocks joined, each with its difference, and the state after the
/// last one. Each block is read from the state that the one before it left.
pub fn measured_by<'a, S: BlockState>(
    mut state: S,
    blocks: impl IntoIterator<Item = &'a [i16]>,
    mut read: impl FnMut(S, &'a [i16]) -> Reading<S>,
) -> (Vec<Event>, S) {
    let mut events = Vec::new();
    for samples in blocks {
        let reading = read(state, samples);
        events.extend(reading.measured());
        state = reading.answer.state;
    }
    (events, state)
}

/// The same when every block must be accepted.
pub fn measured_on<'a, S: BlockState>(
    state: S,
    blocks: impl IntoIterator<Item = &'a [i16]>,
) -> (Vec<Event>, S) {
    measured_by(state, blocks, compare_accepted)
}

/// The numbers alone of the events of the blocks.
pub fn read_by<'a, S: BlockState>(
    state: S,
    blocks: impl IntoIterator<Item = &'a [i16]>,
    read: impl FnMut(S, &'a [i16]) -> Reading<S>,
) -> (Vec<u16>, S) {
    let (events, state) = measured_by(state, blocks, read);
    (numbers(&events), state)
}

/// The same when every block must be accepted.
pub fn read_on<'a, S: BlockState>(
    state: S,
    blocks: impl IntoIterator<Item = &'a [i16]>,
) -> (Vec<u16>, S) {
    read_by(state, blocks, compare_accepted)
}

/// The events of a recording from the fresh state, in blocks of `size`.
pub fn read(band: u8, recording: &[i16], size: usize) -> Vec<u16> {
    read_on(fresh(band), recording.chunks(size)).0
}

/// Equal, or the first event that differs is told instead of all of them.
pub fn assert_events<E: PartialEq + Debug>(found: &[E], expected: &[E], what: impl Fn() -> String) {
    if found != expected {
        let pairs = found.iter().zip(expected);
        let place = pairs.take_while(|(found, expected)| found == expected);
        let place = place.count();
        let (first, second) = (found.get(place), expected.get(place));
        let counts = format!("{} events, not {}", found.len(), expected.len());
        panic!(
            "{}: {counts}; event {place} is {first:?}, not {second:?}",
            what()
        );
    }
}
