//! Lines that a tap reads in other blocks, or with refused blocks between them: the
//! events are the same.

use crate::common::receiver::{BREAK, CARRIER_LOST, NO_STOP_BIT};
use crate::common::recording::{
    around_0, disturbed, keyed, mixed, no_stop_bit, sending, space, surrounded,
};
use crate::common::rows::{cut_alike, cut_everywhere, refused_between, row_of_calls};
use crate::common::states::block_of;
use crate::common::tap::{any_line, of_band, open, PAIRS};
use reference::disturbance::MOST;
use reference::random::Random;

/// A character, a lost carrier, a break and a missing stop bit in either band, those
/// of the second later by so many samples.
fn line(random: &mut Random, pair: [u8; 2], late: usize) -> Vec<i16> {
    let [first, second] = pair.map(|band| {
        let character = sending(band, &[0x40 + band]);
        let lost = &sending(band, &[0x35])[..290];
        // A jump of phase can be taken for a start bit, so silence is between them.
        let [character, lost] = [&character, lost].map(|line| surrounded(line, 0, 100));
        let no_stop_bit = keyed(band, &no_stop_bit(&[0x5a]));
        [character, lost, space(band, 400), no_stop_bit].concat()
    });
    let line = mixed(&first, &surrounded(&second, late, 0));
    disturbed(&surrounded(&line, 40, 40), |_| around_0(random, MOST))
}

/// All of it must have been told. Space for a stop bit may be taken for a start, so
/// there may be more behind it.
fn assert_told(pair: [u8; 2], events: &[u16]) {
    for band in pair {
        let expected = [0x40 + u16::from(band), CARRIER_LOST, BREAK, NO_STOP_BIT];
        let found = of_band(band, events);
        assert!(found.starts_with(&expected), "band {band}: {found:?}");
    }
}

#[test]
fn blocks_of_every_size() {
    let mut random = Random::new(93);
    for pair in PAIRS {
        for late in [0, 7, 150] {
            let line = line(&mut random, pair, late);
            let sizes = (1..=300).chain([480, 1_000, line.len() - 1]);
            assert_told(pair, &cut_alike(open(pair), &line, sizes));
        }
    }
}

#[test]
fn every_cut_between_two_blocks() {
    let mut random = Random::new(94);
    for pair in PAIRS {
        let line = line(&mut random, pair, 60);
        assert_told(pair, &cut_everywhere(open(pair), &line));
    }
}

#[test]
fn refused_calls_between_the_blocks() {
    let mut random = Random::new(95);
    let sizes = [1, 13, 47, 48, 160, 1_000, 16_384];
    for pair in PAIRS {
        let line = line(&mut random, pair, 100);
        let events = refused_between(&mut random, open(pair), &line, sizes);
        assert_told(pair, &events);
    }
}

/// Lines in large blocks, the largest among them.
#[test]
fn large_blocks() {
    let mut random = Random::new(96);
    for pair in PAIRS {
        let line = any_line(&mut random, pair, 60_000);
        let events = cut_alike(open(pair), &line, [48, 160, 4_096, 16_383]);
        assert!(events.len() >= 50, "{pair:?}: {}", events.len());
    }
}

#[test]
fn a_row_of_calls() {
    let mut random = Random::new(97);
    for pair in PAIRS {
        row_of_calls(&mut random, open(pair), 7_000, |random| {
            block_of(random, |random, size| any_line(random, pair, size))
        });
    }
}
