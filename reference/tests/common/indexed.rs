//! A receiver's call that also tells where its events came, made on either side, and
//! compared.

use super::lent::{no_event, Lent};
use super::receiver::{assert_same, guarded, in_numbers, told, BlockState, Lengths, Reading};
use super::{Side, SIDES};
use reference::indexed;
use reference::library::{self, BlockAnswer, Numbers};
use reference::random::Random;

/// A reading with the lent list of indices as it stood on return.
pub struct Located {
    pub reading: Reading,
    pub places: Vec<u16>,
}

impl Located {
    pub fn indices(&self) -> &[u16] {
        &self.places[..self.reading.answer.count]
    }
}

/// The lengths of the lists of numbers, of differences and of indices.
pub type ThreeLengths = [usize; 3];

/// Makes the call with lists of these lengths, and checks of all three what holds of
/// every call.
fn block(side: Side, state: Numbers, samples: &[i16], lengths: ThreeLengths) -> Located {
    let [events, differences, index_places] = lengths;
    let mut lent = Lent::new(index_places, no_event);
    let indices = lent.places();
    let call = |samples: &[i16], events: &mut [u16], differences: &mut [i64]| match side {
        Side::Reference => in_numbers(
            |sines, state, samples, lists| indexed::block(sines, state, samples, lists, indices),
            state,
            samples,
            events,
            differences,
        ),
        Side::Library => {
            library::receiver_block_indexed(state, samples, events, differences, indices)
        }
    };
    let who = || format!("{side:?}, {index_places} for indices");
    let reading = guarded(call, state, samples, [events, differences], who);
    let what = || format!("indices, {side:?}: {}", told(state, samples, lengths));
    let places = lent.returned(reading.answer.count, what);
    Located { reading, places }
}

/// The library must answer as the reference does, in every place of the three lists,
/// and but for the indices as it does without them, into the shortest list.
pub fn compare_three(state: Numbers, samples: &[i16], lengths: ThreeLengths) -> Located {
    let [expected, found] = SIDES.map(|side| block(side, state, samples, lengths));
    let what = || told(state, samples, lengths);
    assert_same(&found.reading, &expected.reading, what);
    assert_eq!(found.places, expected.places, "{}", what());

    let shortest = lengths.into_iter().min().expect("three lengths");
    let call = |samples: &[i16], events: &mut [u16], differences: &mut [i64]| {
        library::receiver_block(state, samples, events, differences)
    };
    let who = || "without indices".into();
    let plain = guarded(call, state, samples, [shortest; 2], who);
    assert_eq!(found.reading.answer, plain.answer, "{}", what());
    let [found_events, plain_events] = [&found.reading, &plain].map(Reading::measured);
    assert_eq!(found_events, plain_events, "{}", what());
    found
}

/// The same into lists of exactly the places needed. The call must be accepted.
pub fn compare_accepted(state: Numbers, samples: &[i16]) -> Located {
    let found = compare_three(state, samples, [samples.len() / 48 + 1; 3]);
    assert_eq!(found.reading.answer.number, 0, "{:?}", found.reading.answer);
    found
}

/// The state of a receiver that is read on by such calls.
#[derive(Clone, Copy, Debug, PartialEq)]
pub struct Indexed(pub Numbers);

impl BlockState for Indexed {
    fn places_needed(samples: usize) -> usize {
        samples / 48 + 1
    }

    /// The list of indices is as long as the shorter of the other two, or longer.
    fn compare_lists(self, samples: &[i16], lengths: Lengths) -> Reading<Indexed> {
        let [events, differences] = lengths;
        let indices = events.min(differences) + samples.len() % 2;
        let located = compare_three(self.0, samples, [events, differences, indices]);
        let Reading {
            answer,
            places,
            difference_places,
        } = located.reading;
        let answer = BlockAnswer {
            state: Indexed(answer.state),
            number: answer.number,
            count: answer.count,
        };
        Reading {
            answer,
            places,
            difference_places,
        }
    }

    fn spoiled(self, random: &mut Random) -> Indexed {
        Indexed(self.0.spoiled(random))
    }
}
