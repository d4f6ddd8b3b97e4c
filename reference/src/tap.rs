//! The tap: the receivers of two bands that are fed the same block.

use crate::receiver::{self, refused, tested, Answer, Event, Lists};
use crate::sine::Sines;
use crate::transmitter::is_band;

/// The pairs of bands that a tap can have, the lower band first.
pub const PAIRS: [[u8; 2]; 2] = [[1, 2], [3, 4]];

/// An event is so many times its band, plus its number.
pub const BAND: u16 = 1_000;

#[derive(Clone, Copy, Debug, PartialEq, Eq)]
pub struct State {
    pub first: receiver::State,
    pub second: receiver::State,
}

/// The number and both receivers fresh; those of bands 1 and 2 stand in for a
/// refused pair.
pub fn open(first: u8, second: u8) -> (u8, State) {
    let bands = [first, second];
    let (number, bands) = if !bands.into_iter().all(is_band) {
        (1, PAIRS[0])
    } else if !PAIRS.contains(&bands) {
        (8, PAIRS[0])
    } else {
        (0, bands)
    };
    let [(_, first), (_, second)] = bands.map(receiver::open);
    (number, State { first, second })
}

/// Twice the list places of a receiver.
pub fn places_needed(samples: usize) -> usize {
    2 * receiver::places_needed(samples)
}

impl State {
    fn is_in_range(&self) -> bool {
        let bands = [self.first.band, self.second.band];
        self.first.is_in_range() && self.second.is_in_range() && PAIRS.contains(&bands)
    }
}

/// Reads a block and writes the events of both bands to the front of the lists.
pub fn block(sines: &Sines, tap: State, samples: &[i16], lists: Lists) -> Answer<State> {
    let has_places = lists.places() >= places_needed(samples.len());
    match tested(tap.is_in_range(), samples, has_places) {
        0 => read(sines, tap, samples, lists),
        number => refused(number, tap),
    }
}

/// Each sample goes to the first receiver and then to the second.
fn read(sines: &Sines, mut tap: State, samples: &[i16], mut lists: Lists) -> Answer<State> {
    let first_tones = tap.first.tones(sines);
    let second_tones = tap.second.tones(sines);
    for &sample in samples {
        for (state, tones) in [
            (&mut tap.first, &first_tones),
            (&mut tap.second, &second_tones),
        ] {
            let event = state.take(tones, sample);
            lists.put(event.map(|event| Event {
                number: BAND * u16::from(state.band) + event.number,
                ..event
            }));
        }
    }
    Answer {
        number: 0,
        count: lists.count,
        state: tap,
    }
}
