//! Sheets written and read back, against texts made by hand.

use crate::common::sheet_calls::{read_into, reading, write_into};
use crate::common::sheets::{any_samples, lines, sheet, text, HEAD, MOST_BYTES};
use crate::common::BANDS;
use reference::random::Random;

fn write_number(band: u8, samples: &[i16]) -> u8 {
    write_into(band, samples, MOST_BYTES).0.number
}

/// The sheet is written as one made by hand, and read back as what it is made
/// from, each into exactly the places needed and refused with one fewer.
fn round_trip(band: u8, samples: &[i16]) {
    let made = sheet(band, samples);
    let (answer, written) = write_into(band, samples, made.len());
    assert_eq!((answer.number, answer.count), (0, made.len()));
    assert!(written == made, "band {band}, {} samples", samples.len());
    assert_eq!(write_into(band, samples, made.len() - 1).0.number, 4);
    let (answer, found) = read_into(&made, samples.len());
    assert_eq!((answer.number, answer.band), (0, band));
    assert!(found == samples, "band {band}, {} samples", samples.len());
    if let Some(fewer) = samples.len().checked_sub(1) {
        assert_eq!(read_into(&made, fewer).0.number, 4);
    }
}

#[test]
fn random_samples() {
    let mut random = Random::new(51);
    for band in BANDS {
        for count in (0..300).chain([1_000, 10_900]) {
            round_trip(band, &any_samples(&mut random, count));
        }
    }
}

#[test]
fn every_sample() {
    let all: Vec<i16> = (-8_191..=8_191).collect();
    for samples in all.chunks(1_000) {
        for band in BANDS {
            round_trip(band, samples);
        }
    }
}

#[test]
fn the_largest_samples() {
    for (sample, number) in [
        (8_191, 0),
        (-8_191, 0),
        (8_192, 5),
        (-8_192, 5),
        (32_767, 5),
        (-32_768, 5),
    ] {
        assert_eq!(write_number(1, &[0, sample, 0]), number, "{sample}");
    }
}

#[test]
fn the_most_samples_and_bytes() {
    for count in [16_383, 16_384] {
        round_trip(1, &vec![0; count]);
    }
    assert_eq!(write_number(1, &vec![0; 16_385]), 3);
    let longest = text("2", &lines(MOST_BYTES - HEAD));
    let (_, band, mut samples) = reading(&longest);
    round_trip(band, &samples);
    // A minus more, and no longer a sheet.
    samples[9] = -samples[9];
    assert_eq!(sheet(band, &samples).len(), MOST_BYTES + 1);
    assert_eq!(write_number(band, &samples), 6);
}
