//! Sheet calls with every combination of the conditions to refuse them: the first
//! one in the order of the call is told.

use crate::common::sheet_calls::{read_into, write_into};
use crate::common::sheets::{sheet, text, HEAD};
use crate::common::{BANDS, NO_BAND};

/// All sets of these numbers.
fn sets(numbers: &[u8]) -> impl Iterator<Item = Vec<u8>> + '_ {
    let chosen = move |set: usize| {
        let is_in = |&(place, _): &(usize, &u8)| set >> place & 1 == 1;
        numbers
            .iter()
            .enumerate()
            .filter(is_in)
            .map(|(_, &number)| number)
            .collect()
    };
    (0..1 << numbers.len()).map(chosen)
}

/// The first of them, or 0.
fn first(set: &[u8]) -> u8 {
    set.first().copied().unwrap_or(0)
}

/// Samples of which there are too many (3), which are too long as text (6), and
/// of which one, at the front or at the end, is out of range (5).
fn samples_with(set: &[u8], at_the_end: bool) -> Vec<i16> {
    let has = |number| set.contains(&number);
    let sample = if has(6) { -1_000 } else { 0 };
    let count = match (has(3), has(6)) {
        (true, _) => 16_385,
        (false, true) => 16_384,
        (false, false) => 3,
    };
    let mut samples = vec![sample; count];
    if has(5) {
        samples[if at_the_end { count - 1 } else { 0 }] = 9_999;
    }
    samples
}

fn band_with(set: &[u8]) -> u8 {
    if set.contains(&1) {
        NO_BAND
    } else {
        2
    }
}

#[test]
fn reading_looks_for_6_7_1_3_5_4_in_this_order() {
    for set in sets(&[6, 7, 1, 3, 5, 4]) {
        for at_the_end in [false, true] {
            let samples = samples_with(&set, at_the_end);
            let mut text = sheet(band_with(&set), &samples);
            if set.contains(&7) {
                // The first line of a sample, or the last, is no longer one.
                let place = if at_the_end { text.len() - 2 } else { HEAD };
                text[place] = b'x';
            }
            let places = samples.len() - usize::from(set.contains(&4));
            let (answer, _) = read_into(&text, places);
            assert_eq!(answer.number, first(&set), "{set:?}, {at_the_end}");
        }
    }
}

#[test]
fn writing_looks_for_1_3_5_6_4_in_this_order() {
    for set in sets(&[1, 3, 5, 6, 4]) {
        for at_the_end in [false, true] {
            let samples = samples_with(&set, at_the_end);
            let band = band_with(&set);
            let places = sheet(band, &samples).len() - usize::from(set.contains(&4));
            let (answer, _) = write_into(band, &samples, places);
            assert_eq!(answer.number, first(&set), "{set:?}, {at_the_end}");
        }
    }
}

/// At the limits, with the numbers written out.
#[test]
fn writing_at_the_limits() {
    let with = |count, sample, last| [vec![sample; count], vec![last]].concat();
    for (band, samples, places, number) in [
        (0, with(16_384, 8_192, 0), 0, 1),
        (NO_BAND, with(0, 1, 8_192), 0, 1),
        (255, vec![], 0, 1),
        (1, with(16_384, -1_000, 8_192), 0, 3),
        (1, with(16_384, 0, 0), 0, 3),
        (1, with(16_383, -1_000, 8_192), 0, 5),
        (1, with(0, 1, -8_192), 0, 5),
        (1, with(16_383, -1_000, 0), 0, 6),
        (2, with(10_920, -1_000, 10), 65_536, 6),
        (2, with(10_920, -1_000, 0), 65_535, 4),
        (2, with(10_920, -1_000, 0), 65_536, 0),
        (2, vec![], HEAD - 1, 4),
        (2, vec![], HEAD, 0),
    ] {
        let (answer, _) = write_into(band, &samples, places);
        let count = samples.len();
        assert_eq!(answer.number, number, "band {band}, {count} samples");
    }
}

/// Every number as a band, written and, where it is one digit, read.
#[test]
fn every_band() {
    for band in 0..=255 {
        let number = if BANDS.contains(&band) { 0 } else { 1 };
        assert_eq!(write_into(band, &[5], 100).0.number, number, "band {band}");
        if band < 10 {
            let text = text(&band.to_string(), "5\n");
            assert_eq!(read_into(&text, 1).0.number, number, "band {band}");
        }
    }
}
