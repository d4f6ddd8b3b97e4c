//! States out of range, and the order of several conditions at once.

use crate::common::{compare, Call, BANDS, CHARACTER_SAMPLES, IDLE_SAMPLES, NO_BAND};
use reference::transmitter::State;

/// The states of all combinations, the good ones among them.
fn states() -> impl Iterator<Item = State> {
    let phases = [0, 1, 1_919, 1_920, 1_921, 3_840, 32_768, 65_535];
    let bands = [0, NO_BAND, NO_BAND + 1, 128, 255];
    let combined = move |band| phases.map(|phase| State { band, phase });
    BANDS.into_iter().chain(bands).flat_map(combined)
}

fn is_good(state: State) -> bool {
    BANDS.contains(&state.band) && (0..=1_919).contains(&state.phase)
}

/// The number of the first condition that holds, or 0.
fn first_condition(state: State, count: usize, too_short: bool) -> u8 {
    if !is_good(state) {
        2
    } else if count > 100 {
        3
    } else if too_short {
        4
    } else {
        0
    }
}

#[test]
fn idle_refuses_the_state_before_the_length() {
    for state in states() {
        for length in [0, 1, 95, 96, 97, 1_000] {
            let number = first_condition(state, 0, length < IDLE_SAMPLES);
            let answer = compare(Call::Idle, state, length).answer;
            assert_eq!(answer.number, number, "{state:?}, {length} places");
        }
    }
}

#[test]
fn characters_refuse_the_state_then_the_number_then_the_length() {
    let message = [0x41; 200];
    for state in states() {
        for count in [0, 1, 2, 100, 101, 200] {
            let exact = count * CHARACTER_SAMPLES;
            for length in [0, exact.saturating_sub(1), exact, exact + 1] {
                let number = first_condition(state, count, length < exact);
                let answer = compare(Call::Characters(&message[..count]), state, length).answer;
                let what = format!("{state:?}, {count} characters, {length} places");
                assert_eq!(answer.number, number, "{what}");
            }
        }
    }
}

#[test]
fn no_characters_from_a_good_state_change_nothing() {
    for state in states().filter(|&state| is_good(state)) {
        for length in [0, 1, 1_000] {
            let answer = compare(Call::Characters(&[]), state, length).answer;
            let found = (answer.number, answer.count, answer.state);
            assert_eq!(found, (0, 0, state), "{length} places");
        }
    }
}

#[test]
fn every_number_that_is_no_band_is_refused_with_2() {
    for band in 0..=255 {
        for phase in [0, 959, 1_919, 1_920, 2_048, 65_535] {
            let state = State { band, phase };
            let number = if is_good(state) { 0 } else { 2 };
            let idle = compare(Call::Idle, state, 100).answer;
            assert_eq!(idle.number, number, "{state:?}");
            let characters = compare(Call::Characters(b"a"), state, 400).answer;
            assert_eq!(characters.number, number, "{state:?}");
        }
    }
}

#[test]
fn every_phase_of_a_cycle_or_more_is_refused_with_2() {
    for band in BANDS {
        for phase in 0..=65_535 {
            let number = if phase < 1_920 { 0 } else { 2 };
            let answer = compare(Call::Idle, State { band, phase }, IDLE_SAMPLES).answer;
            assert_eq!(answer.number, number, "band {band}, phase {phase}");
        }
    }
}
