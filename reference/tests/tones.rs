//! The tones of Bell 103 and of V.21 in hertz, against the steps of the reference and
//! against what the library sends and reads.

use crate::common::receiver::read;
use crate::common::recording::{as_events, bits};
use crate::common::{Call, Side};
use reference::random::Random;
use reference::transmitter::STEPS;
use std::f64::consts::TAU;

/// Samples in a second.
const RATE: usize = 9_600;

/// A band with its mark and its space: Bell 103, originate and answer, then V.21,
/// originate and answer.
const TONES: [(u8, usize, usize); 4] = [
    (1, 1_270, 1_070),
    (2, 2_225, 2_025),
    (3, 980, 1_180),
    (4, 1_650, 1_850),
];

/// One unit of step is 5 Hz.
#[test]
fn the_steps() {
    assert_eq!(STEPS.len(), TONES.len());
    for (band, mark, space) in TONES {
        let found = STEPS[usize::from(band) - 1].map(|step| 5 * usize::from(step));
        assert_eq!(found, [space, mark], "band {band}");
    }
}

/// The sample after so many cycles, which are at most 10,000, so that doubles tell
/// it.
fn sample(cycles: f64) -> i16 {
    (6_000.0 * (TAU * cycles).sin()).round() as i16
}

/// A second of the library's idle, which is mark.
fn mark_of(band: u8) -> Vec<i16> {
    let mut state = Side::Library.fresh(band);
    let mut samples = Vec::new();
    while samples.len() < RATE {
        let outcome = Side::Library.call(Call::Idle, state, 96);
        samples.extend_from_slice(outcome.samples());
        state = outcome.answer.state;
    }
    samples
}

/// The nine bits of space with which the character 00 begins.
fn space_of(band: u8) -> Vec<i16> {
    let fresh = Side::Library.fresh(band);
    let outcome = Side::Library.call(Call::Characters(&[0]), fresh, 320);
    outcome.samples()[..9 * 32].to_vec()
}

#[test]
fn the_samples_that_are_sent() {
    for (band, mark, space) in TONES {
        for (samples, hertz) in [(mark_of(band), mark), (space_of(band), space)] {
            for (place, &found) in samples.iter().enumerate() {
                let expected = sample((place * hertz) as f64 / RATE as f64);
                assert_eq!(found, expected, "band {band}, {hertz} Hz, sample {place}");
            }
        }
    }
}

/// How often the samples, from phase 0 on, come from below 0.
fn cycles(samples: &[i16]) -> usize {
    let rises = |two: &&[i16]| two[0] < 0 && two[1] >= 0;
    samples.windows(2).filter(rises).count()
}

/// The sample behind the second would end the last cycle.
#[test]
fn the_cycles_in_a_second_of_mark() {
    for (band, mark, _) in TONES {
        assert_eq!(cycles(&mark_of(band)), mark - 1, "band {band}");
    }
}

/// A message in these tones, made from hertz alone, is read by the band.
#[test]
fn a_message_in_hertz() {
    let mut random = Random::new(113);
    for (band, mark, space) in TONES {
        let message = random.bytes(100);
        let mut turned = 0;
        let mut samples = Vec::new();
        for bit in bits(&message) {
            for _ in 0..32 {
                samples.push(sample((turned % RATE) as f64 / RATE as f64));
                turned += [space, mark][bit];
            }
        }
        assert_eq!(
            read(band, &samples, 1_000),
            as_events(&message),
            "band {band}"
        );
    }
}
