//! Accepted and refused transmitter calls, each compared in every place.

use crate::common::{compare, Call, Side, BANDS, CHARACTER_SAMPLES, IDLE_SAMPLES};
use reference::random::Random;
use reference::transmitter::State;

#[test]
fn every_band_number_is_opened_alike() {
    for band in 0..=255 {
        let expected = match band {
            _ if BANDS.contains(&band) => (0, State { band, phase: 0 }),
            _ => (1, State { band: 1, phase: 0 }),
        };
        assert_eq!(Side::Library.open(band), expected, "band {band}");
        assert_eq!(Side::Reference.open(band), expected, "band {band}");
    }
}

#[test]
fn idle_from_every_phase() {
    for band in BANDS {
        for phase in 0..1_920 {
            let state = State { band, phase };
            let outcome = compare(Call::Idle, state, IDLE_SAMPLES);
            assert_eq!(outcome.answer.number, 0, "{state:?}");
            assert_eq!(outcome.answer.count, IDLE_SAMPLES, "{state:?}");
        }
    }
}

#[test]
fn every_character_from_many_phases() {
    for band in BANDS {
        for phase in (0..1_920).step_by(7).chain([1, 1_918, 1_919]) {
            let state = State { band, phase };
            for byte in 0..=255 {
                let call = Call::Characters(&[byte]);
                let outcome = compare(call, state, CHARACTER_SAMPLES);
                assert_eq!(outcome.answer.number, 0, "{byte} from {state:?}");
                assert_eq!(outcome.answer.count, CHARACTER_SAMPLES);
            }
        }
    }
}

#[test]
fn idle_into_every_length() {
    for band in BANDS {
        let state = State { band, phase: 77 };
        for length in (0..=2 * IDLE_SAMPLES).chain([10_000]) {
            let number = if length < IDLE_SAMPLES { 4 } else { 0 };
            let outcome = compare(Call::Idle, state, length);
            assert_eq!(outcome.answer.number, number, "{length} places");
        }
    }
}

#[test]
fn messages_of_many_lengths_into_outputs_of_many_lengths() {
    let mut random = Random::new(2);
    for count in [0, 1, 2, 50, 99, 100, 101, 102, 300] {
        let message = random.bytes(count);
        for length in lengths(count * CHARACTER_SAMPLES) {
            let expected = if count > 100 {
                (3, 0)
            } else if length < count * CHARACTER_SAMPLES {
                (4, 0)
            } else {
                (0, count * CHARACTER_SAMPLES)
            };
            for (band, phase) in BANDS.into_iter().zip([1_919, 0, 1_234, 1]) {
                let state = State { band, phase };
                let answer = compare(Call::Characters(&message), state, length).answer;
                let what = format!("{count} characters into {length} from {state:?}");
                assert_eq!((answer.number, answer.count), expected, "{what}");
            }
        }
    }
}

/// None, about half, one short, exact, one longer and much longer.
fn lengths(exact: usize) -> Vec<usize> {
    let mut lengths = vec![0, exact / 2, exact, exact + 1, exact + 320, exact + 20_000];
    lengths.extend(exact.checked_sub(1));
    lengths
}
