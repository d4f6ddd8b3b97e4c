//! Loopbacks that are refused, for each condition and for several at once. The
//! order is 1, 3, 5, 4.

use crate::common::loopback::Call;
use crate::common::{BANDS, NO_BAND};

/// What a call is made with.
#[derive(Clone, Debug)]
struct Made {
    band: u8,
    bytes: usize,
    block: usize,
    /// A number of the disturbance, and its place.
    bad: Option<(usize, i16)>,
    numbers: usize,
    /// For samples, events and differences.
    places: [usize; 3],
}

/// An accepted call with so many bytes, into exactly the places needed.
fn accepted(bytes: usize) -> Made {
    let samples = 192 + 320 * bytes;
    Made {
        band: 2,
        bytes,
        block: 320,
        bad: None,
        numbers: samples,
        places: [samples, bytes, bytes],
    }
}

impl Made {
    fn number(&self) -> u8 {
        let mut added = vec![100; self.numbers];
        if let Some((place, number)) = self.bad {
            added[place] = number;
        }
        let call = Call {
            band: self.band,
            message: &vec![0x55; self.bytes],
            added: &added,
            block: self.block,
        };
        let answer = call.make(self.places).answer;
        let count = if answer.number == 0 { self.bytes } else { 0 };
        assert_eq!(answer.count, count, "{self:?}");
        answer.number
    }
}

type Change = (u8, fn(&mut Made));

/// Changes that are refused, each with its number, in the order of the call.
fn changes() -> [Change; 18] {
    [
        (1, |made| made.band = 0),
        (1, |made| made.band = NO_BAND),
        (1, |made| made.band = 255),
        (3, |made| made.block = 0),
        (3, |made| made.block = 16_385),
        (3, |made| made.block = usize::MAX),
        (5, |made| made.bad = Some((0, 101))),
        (5, |made| made.bad = Some((made.numbers - 1, -101))),
        (5, |made| made.bad = Some((1, 32_767))),
        (5, |made| made.bad = Some((1, -32_768))),
        // Behind those that are needed.
        (5, |made| {
            made.bad = Some((made.numbers, 101));
            made.numbers += 1;
        }),
        (4, |made| made.numbers -= 1),
        (4, |made| made.places[0] -= 1),
        (4, |made| made.places[1] -= 1),
        (4, |made| made.places[2] -= 1),
        (4, |made| made.places[1] = 0),
        (4, |made| made.places[2] = 0),
        (4, |made| made.places = [0; 3]),
    ]
}

#[test]
fn each_condition() {
    for bytes in [1, 2, 99, 100] {
        assert_eq!(accepted(bytes).number(), 0);
        for (place, (number, change)) in changes().into_iter().enumerate() {
            let mut made = accepted(bytes);
            change(&mut made);
            assert_eq!(made.number(), number, "change {place}, {bytes} bytes");
        }
    }
}

/// Each two of them: the one that comes first in the order is told.
#[test]
fn two_conditions() {
    let changes = changes();
    for (place, (number, change)) in changes.iter().enumerate() {
        let later = changes[place..].iter().filter(|(other, _)| other != number);
        for (other, second) in later {
            // A list is cut short before one of its numbers is changed.
            let mut made = accepted(2);
            second(&mut made);
            change(&mut made);
            assert_eq!(made.number(), *number, "and {other}: {made:?}");
        }
    }
}

/// One byte too many comes behind the band and before everything else.
#[test]
fn too_many_bytes() {
    for bytes in [101, 102, 5_000] {
        assert_eq!(accepted(bytes).number(), 3);
        for (number, change) in changes() {
            let mut made = accepted(bytes);
            change(&mut made);
            let expected = if number == 1 { 1 } else { 3 };
            assert_eq!(made.number(), expected, "{made:?}");
        }
    }
}

/// Either list of events is too short, or both are, or neither.
#[test]
fn every_two_lengths() {
    for bytes in [1, 3, 100] {
        let lengths = [0, 1, bytes - 1, bytes, bytes + 1, bytes + 50];
        for events in lengths {
            for differences in lengths {
                let mut made = accepted(bytes);
                made.places[1..].copy_from_slice(&[events, differences]);
                let is_short = events.min(differences) < bytes;
                assert_eq!(made.number(), if is_short { 4 } else { 0 }, "{made:?}");
            }
        }
    }
}

/// An empty message needs its leader and trailer, and no place for events.
#[test]
fn no_bytes() {
    assert_eq!(accepted(0).number(), 0);
    for places in [0, 1, 191] {
        let short = Made {
            places: [places, 0, 0],
            ..accepted(0)
        };
        assert_eq!(short.number(), 4);
        let few = Made {
            numbers: places,
            ..accepted(0)
        };
        assert_eq!(few.number(), 4);
    }
}

#[test]
fn every_band() {
    for band in 0..=255 {
        let made = Made {
            band,
            ..accepted(1)
        };
        let expected = if BANDS.contains(&band) { 0 } else { 1 };
        assert_eq!(made.number(), expected, "band {band}");
    }
}
