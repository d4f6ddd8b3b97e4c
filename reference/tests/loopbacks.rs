//! Messages sent, disturbed and read back in one call.

use crate::common::disturbances::largest;
use crate::common::loopback::{Call, Looped};
use crate::common::receiver::{fresh, measured_on, numbers};
use crate::common::recording::{as_events, disturbed, noise, sending};
use crate::common::{assert_places, BANDS};
use reference::disturbance::MOST;
use reference::random::Random;

/// One sample at a time; one less than a bit; a character at a time; as many as
/// a block can have.
const BLOCKS: [usize; 4] = [1, 31, 320, 16_384];

/// The samples left must be the reference's, each with its number added, and the
/// events the message, with the differences that a receiver gives of these samples.
/// There are `more` numbers and places than are needed, of events or of differences.
fn check(band: u8, message: &[u8], added: &[i16], block: usize, more: usize) {
    let expected = disturbed(&sending(band, message), |place| added[place]);
    let call = Call {
        band,
        message,
        added,
        block,
    };
    let [events, differences] = [[more, 0], [0, more]][block % 2];
    let lists = [events, differences].map(|more| message.len() + more);
    let Looped {
        answer,
        samples,
        events,
    } = call.make([expected.len() + more, lists[0], lists[1]]);
    let what = || call.told();
    assert_eq!(
        (answer.number, answer.count),
        (0, message.len()),
        "{}",
        what()
    );
    assert_places(&samples, &expected, what);
    assert_eq!(numbers(&events), as_events(message), "{}", what());
    let (measured, _) = measured_on(fresh(band), expected.chunks(16_384));
    assert_eq!(events, measured, "{}", what());
}

#[test]
fn the_largest_disturbances() {
    let mut random = Random::new(8);
    let ends = [&[0, 255], &random.bytes(96)[..], &[255, 0]].concat();
    let messages = [0, 1, 2, 99, 100].map(|count| random.bytes(count));
    for message in messages.iter().chain([&ends]) {
        for band in BANDS {
            for (_, added) in largest(band, message) {
                for block in BLOCKS {
                    check(band, message, &added, block, 0);
                }
            }
        }
    }
}

/// The five differ, so that each of them is one of its own.
#[test]
fn the_disturbances_differ() {
    for band in BANDS {
        let all = largest(band, b"A");
        for (place, (name, added)) in all.iter().enumerate() {
            assert_eq!(added.len(), 512, "{name}");
            assert!(added.iter().all(|number| number.abs() == MOST), "{name}");
            let same = |(_, other): &(&str, Vec<i16>)| other == added;
            assert_eq!(all.iter().position(same), Some(place), "{name}");
        }
    }
}

#[test]
fn random_disturbances_and_blocks() {
    let mut random = Random::new(68);
    for _ in 0..300 {
        let band = BANDS[random.below(BANDS.len())];
        let count = random.below(101);
        let message = random.bytes(count);
        let more = random.below(40);
        let most = [0, 1, 50, MOST][random.below(4)];
        let added = noise(&mut random, most, 192 + 320 * count + more);
        let longest = [10, 100, 1_000, 16_384][random.below(4)];
        let block = 1 + random.below(longest);
        check(band, &message, &added, block, more);
    }
}

/// Every size of a block up to more than a character, and those of the most.
#[test]
fn every_block() {
    let mut random = Random::new(69);
    let message = random.bytes(3);
    for band in BANDS {
        for block in (1..=400).chain([1_151, 1_152, 1_153, 16_383, 16_384]) {
            let added = noise(&mut random, MOST, 1_152);
            check(band, &message, &added, block, 0);
        }
    }
}
