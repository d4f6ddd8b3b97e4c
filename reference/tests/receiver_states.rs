//! Blocks read on from any state in range.

use crate::common::receiver::{
    compare_accepted, BREAK, CARRIER_LOST, DOUBT, EVENTS, FRESH, NO_STOP_BIT, WINDOW,
};
use crate::common::states::{
    any_samples, byte_limit, good_state, longest_wait, window_of, with_stage,
};
use crate::common::BANDS;
use reference::library::Numbers;
use reference::random::Random;

/// Windows of silence, of space and of mark.
fn windows(band: u8) -> [[i16; WINDOW]; 3] {
    [[0; WINDOW], window_of(band, 0, 1), window_of(band, 1, 1)]
}

/// Every stage that waits, over windows and blocks of either tone or none.
#[test]
fn every_slot_and_wait() {
    let mut random = Random::new(38);
    let mut seen = [0; EVENTS];
    for band in BANDS {
        let windows = windows(band);
        for slot in 0..=9_u8 {
            for wait in 1..=longest_wait(slot) {
                let limit = byte_limit(slot);
                for byte in [0, limit - 1, random.below(limit)] {
                    for window in windows {
                        for tone in windows {
                            let state = Numbers {
                                band,
                                window,
                                run: random.below(33) as u8,
                                ..with_stage([1, wait, slot, byte as u8])
                            };
                            let samples = tone.repeat(2);
                            let size = random.below(samples.len() + 1);
                            for event in compare_accepted(state, &samples[..size]).events() {
                                seen[usize::from(*event)] += 1;
                            }
                        }
                    }
                }
            }
        }
    }
    assert!(seen[usize::from(NO_STOP_BIT)] >= 100);
    assert!(seen[usize::from(CARRIER_LOST)] >= 1_000);
    assert!(seen[usize::from(BREAK)] >= 100);
    assert!(seen[usize::from(DOUBT)] >= 1_000);
    assert!(seen[..256].iter().filter(|&&count| count > 0).count() >= 30);
}

/// Every run of a stage that does not wait; the next is one more, at most 32, or 0.
fn every_run(stage: u8) {
    for band in BANDS {
        for window in windows(band) {
            for run in 0..=32 {
                let state = Numbers {
                    band,
                    window,
                    run,
                    stage,
                    ..FRESH
                };
                for size in 0..=40 {
                    let long = window.repeat(2);
                    let next = compare_accepted(state, &long[..size]).answer.state;
                    let grown = (usize::from(run) + size).min(32) as u8;
                    let expected = if size > 0 && window == [0; WINDOW] {
                        0
                    } else {
                        grown
                    };
                    assert_eq!(next.run, expected, "band {band}, {size} samples");
                }
            }
        }
    }
}

#[test]
fn every_run_of_a_search() {
    every_run(0);
}

#[test]
fn every_run_of_a_held_break() {
    every_run(2);
}

/// The state after a block is the state to read the next one from: a block cut
/// in two gives the same as the whole.
#[test]
fn random_states() {
    let mut random = Random::new(39);
    let mut seen = [0; EVENTS];
    for _ in 0..20_000 {
        let state = good_state(&mut random);
        let size = random.below(300);
        let samples = any_samples(&mut random, state.band, size);
        let whole = compare_accepted(state, &samples);
        let (head, tail) = samples.split_at(random.below(size + 1));
        let first = compare_accepted(state, head);
        let second = compare_accepted(first.answer.state, tail);
        let joined = [first.measured(), second.measured()].concat();
        assert_eq!(whole.measured(), joined, "{state:?}");
        assert_eq!(whole.answer.state, second.answer.state, "{state:?}");
        for &event in whole.events() {
            seen[usize::from(event)] += 1;
        }
    }
    assert!(seen[usize::from(NO_STOP_BIT)] >= 300);
    assert!(seen[usize::from(CARRIER_LOST)] >= 300);
    assert!(seen[usize::from(BREAK)] >= 10);
    assert!(seen[usize::from(DOUBT)] >= 300);
    assert!(seen[..256].iter().filter(|&&count| count > 0).count() >= 200);
}

/// After 32 samples the window holds the last 32, whatever was there before.
#[test]
fn the_window_holds_the_last_samples() {
    let mut random = Random::new(40);
    for size in 0..=100 {
        let state = good_state(&mut random);
        let samples = any_samples(&mut random, state.band, size);
        let next = compare_accepted(state, &samples).answer.state;
        let all = [&state.window[..], &samples].concat();
        assert_eq!(next.window, all[size..], "{size} samples");
        assert_eq!(next.band, state.band);
    }
}
