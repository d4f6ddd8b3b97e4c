//! Long rows of pseudo-random calls, refused ones among them.

use crate::common::{compare, Call, Side, BANDS, NO_BAND};
use reference::random::Random;
use reference::transmitter::State;

const CALLS: usize = 20_000;

/// Each call gets the state that the call before it returned. A hostile state
/// is a turn aside, after which the row goes on from the last good one.
fn row_of_calls(band: u8, seed: u64) {
    let mut random = Random::new(seed);
    let mut state = Side::Library.fresh(band);
    let mut seen = [0; 8];
    for _ in 0..CALLS {
        let bytes = message(&mut random);
        let call = match random.below(4) {
            0 => Call::Idle,
            _ => Call::Characters(&bytes),
        };
        let length = length(&mut random, call.samples());
        if random.below(12) == 0 {
            let answer = compare(call, hostile(&mut random), length).answer;
            seen[usize::from(answer.number)] += 1;
        } else {
            let answer = compare(call, state, length).answer;
            seen[usize::from(answer.number)] += 1;
            state = answer.state;
        }
    }
    for number in [0, 2, 3, 4] {
        assert!(seen[number] >= 100, "{number} was too rare: {seen:?}");
    }
    assert_eq!(seen[0] + seen[2] + seen[3] + seen[4], CALLS, "{seen:?}");
}

/// Mostly short, now and then up to the most or above it.
fn message(random: &mut Random) -> Vec<u8> {
    let count = match random.below(16) {
        0 => random.below(102),
        1 => 101 + random.below(30),
        _ => random.below(6),
    };
    random.bytes(count)
}

/// Mostly exact or longer, now and then too short.
fn length(random: &mut Random, exact: usize) -> usize {
    match random.below(8) {
        0 => random.below(exact + 1),
        1 => exact.saturating_sub(1),
        2 | 3 => exact + random.below(500),
        _ => exact,
    }
}

/// A bad band with any phase, a bad phase with any band, or both.
fn hostile(random: &mut Random) -> State {
    let bad_bands = [0, NO_BAND, NO_BAND + 1, 255];
    let bad_band = bad_bands[random.below(bad_bands.len())];
    let good_band = BANDS[random.below(BANDS.len())];
    let bad_phase = 1_920 + random.below(65_536 - 1_920) as u16;
    let good_phase = random.below(1_920) as u16;
    let (band, phase) = match random.below(3) {
        0 => (bad_band, good_phase),
        1 => (good_band, bad_phase),
        _ => (bad_band, bad_phase),
    };
    State { band, phase }
}

#[test]
fn a_row_of_calls_in_band_1() {
    row_of_calls(1, 3);
}

#[test]
fn a_row_of_calls_in_band_2() {
    row_of_calls(2, 4);
}

#[test]
fn a_row_of_calls_in_band_3() {
    row_of_calls(3, 7);
}

#[test]
fn a_row_of_calls_in_band_4() {
    row_of_calls(4, 110);
}
