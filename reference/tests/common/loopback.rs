//! A message sent, disturbed and read back by the library.

use super::lent::{no_difference, no_event, no_sample, Lent};
use super::receiver::Event;
use reference::library::{self, CallAnswer};

pub struct Call<'a> {
    pub band: u8,
    pub message: &'a [u8],
    pub added: &'a [i16],
    pub block: usize,
}

/// What a call answered and left at the front of its lists.
pub struct Looped {
    pub answer: CallAnswer,
    pub samples: Vec<i16>,
    /// With their differences.
    pub events: Vec<Event>,
}

impl Call<'_> {
    pub fn told(&self) -> String {
        let Call {
            band,
            message,
            added,
            block,
        } = self;
        let (count, numbers) = (message.len(), added.len());
        format!("band {band}, {count} bytes, {numbers} numbers, blocks of {block}")
    }

    /// Makes the call with so many places for samples, for events and for differences.
    /// None may have changed but those of an accepted call at the front.
    pub fn make(&self, places: [usize; 3]) -> Looped {
        let mut samples = Lent::new(places[0], no_sample);
        let mut events = Lent::new(places[1], no_event);
        let mut differences = Lent::new(places[2], no_difference);
        let answer = library::loopback(
            self.band,
            self.message,
            self.added,
            self.block,
            samples.places(),
            events.places(),
            differences.places(),
        );
        let written = if answer.number == 0 {
            192 + 320 * self.message.len()
        } else {
            0
        };
        let what = || format!("{} into {places:?}: {answer:?}", self.told());
        let mut samples = samples.returned(written, what);
        samples.truncate(written);
        let events = events.returned(answer.count, what);
        let differences = differences.returned(answer.count, what);
        let events = events.into_iter().zip(differences);
        Looped {
            answer,
            samples,
            events: events.take(answer.count).collect(),
        }
    }
}
