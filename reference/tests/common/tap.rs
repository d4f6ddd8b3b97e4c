//! A tap's calls made on either side, and compared.

use super::met::{kinds, Kinds};
use super::receiver::{
    assert_same, fresh, guarded, in_numbers, told, BlockState, Event, Lengths, Reading,
};
use super::recording::mixed;
use super::states::{any_samples, good_state_of};
use super::{Side, SIDES};
use reference::library::{self, Numbers, Tap};
use reference::random::Random;
use reference::tap;

/// The bands that a tap can have.
pub const PAIRS: [[u8; 2]; 2] = [[1, 2], [3, 4]];

/// The number and the state that an opening gives.
pub fn opened(side: Side, [first, second]: [u8; 2]) -> (u8, Tap) {
    match side {
        Side::Reference => {
            let (number, state) = tap::open(first, second);
            (number, Tap::from(state))
        }
        Side::Library => library::tap_open(first, second),
    }
}

/// The fresh state of a pair, opened on both sides.
pub fn open(pair: [u8; 2]) -> Tap {
    let [first, second] = pair.map(fresh);
    let expected = tapped(first, second);
    for side in SIDES {
        assert_eq!(opened(side, pair), (0, expected), "{side:?}");
    }
    expected
}

pub fn tapped(first: Numbers, second: Numbers) -> Tap {
    Tap { first, second }
}

/// Any state in range of a pair. The windows seldom agree, as they would behind a
/// line.
pub fn good_tap_of(random: &mut Random, pair: [u8; 2]) -> Tap {
    let [first, second] = pair.map(|band| good_state_of(random, band));
    tapped(first, second)
}

/// The same of any pair.
pub fn good_tap(random: &mut Random) -> Tap {
    let pair = PAIRS[random.below(PAIRS.len())];
    good_tap_of(random, pair)
}

/// Any samples of both bands on one line.
pub fn any_line(random: &mut Random, pair: [u8; 2], count: usize) -> Vec<i16> {
    let [first, second] = pair.map(|band| any_samples(random, band, count));
    mixed(&first, &second)
}

/// A receiver's events as a tap tells them.
pub fn of_tap(band: u8, events: &[u16]) -> Vec<u16> {
    let told = |&event: &u16| 1_000 * u16::from(band) + event;
    events.iter().map(told).collect()
}

/// The events of a band among those of a tap, as a receiver tells them.
pub fn of_band(band: u8, events: &[u16]) -> Vec<u16> {
    let own = events
        .iter()
        .filter(|&&event| event / 1_000 == u16::from(band));
    own.map(|&event| event % 1_000).collect()
}

/// The same with their differences.
pub fn measured_of_band(band: u8, events: &[Event]) -> Vec<Event> {
    let own = events
        .iter()
        .filter(|(event, _)| event / 1_000 == u16::from(band));
    own.map(|&(event, difference)| (event % 1_000, difference))
        .collect()
}

/// How many events of each kind either band has.
pub fn kinds_of(pair: [u8; 2], events: &[u16]) -> [Kinds; 2] {
    pair.map(|band| kinds(&of_band(band, events)))
}

/// Makes the call with lists of these lengths, and checks what holds of every call.
fn block(side: Side, tap: Tap, samples: &[i16], lengths: Lengths) -> Reading<Tap> {
    let call = |samples: &[i16], events: &mut [u16], differences: &mut [i64]| match side {
        Side::Reference => in_numbers(tap::block, tap, samples, events, differences),
        Side::Library => library::tap_block(tap, samples, events, differences),
    };
    guarded(call, tap, samples, lengths, || format!("{side:?}"))
}

/// Taken apart, the events with their differences and the next state of an accepted
/// call are those that the library's receivers give by themselves, and there are no
/// others.
fn assert_apart(tap: Tap, samples: &[i16], reading: &Reading<Tap>) {
    let (all, next) = (reading.measured(), reading.answer.state);
    let mut count = 0;
    for (handed, next) in [(tap.first, next.first), (tap.second, next.second)] {
        let what = || format!("{} alone of {tap:?}, {}", handed.band, samples.len());
        let places = samples.len() / 48 + 1;
        let (mut events, mut differences) = (vec![0; places], vec![0; places]);
        let alone = library::receiver_block(handed, samples, &mut events, &mut differences);
        assert_eq!((alone.number, alone.state), (0, next), "{}", what());
        let events = events.into_iter().zip(differences).take(alone.count);
        let own = measured_of_band(handed.band, &all);
        assert_eq!(own, events.collect::<Vec<_>>(), "{}", what());
        count += alone.count;
    }
    assert_eq!(all.len(), count, "{all:?}");
}

impl BlockState for Tap {
    fn places_needed(samples: usize) -> usize {
        2 * (samples / 48 + 1)
    }

    fn compare_lists(self, samples: &[i16], lengths: Lengths) -> Reading<Tap> {
        let [expected, found] = SIDES.map(|side| block(side, self, samples, lengths));
        assert_same(&found, &expected, || told(self, samples, lengths));
        if found.answer.number == 0 {
            assert_apart(self, samples, &found);
        }
        found
    }

    /// A receiver is out of its range, or the bands are no pair.
    fn spoiled(self, random: &mut Random) -> Tap {
        let Tap { first, second } = self;
        // The band at the same place of the other pair.
        let across = |state: Numbers| Numbers {
            band: (state.band + 1) % 4 + 1,
            ..state
        };
        match random.below(8) {
            0 | 1 => tapped(first.spoiled(random), second),
            2 | 3 => tapped(first, second.spoiled(random)),
            4 => tapped(second, first),
            5 => [tapped(first, first), tapped(second, second)][random.below(2)],
            6 => tapped(across(first), second),
            _ => tapped(first, across(second)),
        }
    }
}
