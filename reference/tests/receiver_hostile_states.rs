//! States with each field out of its range in turn.

use crate::common::receiver::{compare, FRESH, WINDOW};
use crate::common::states::{good_state, hostile_state, is_good, with_stage};
use crate::common::BANDS;
use reference::library::Numbers;
use reference::random::Random;

/// An empty block from the state must be accepted or refused with 2, by the
/// ranges. Returns whether it was accepted.
fn taken(state: Numbers) -> bool {
    let good = is_good(&state);
    let number = compare(state, &[], 1).answer.number;
    assert_eq!(number, if good { 0 } else { 2 }, "{state:?}");
    good
}

fn count_taken(states: impl Iterator<Item = Numbers>) -> usize {
    states.filter(|&state| taken(state)).count()
}

#[test]
fn every_band() {
    let states = (0..=255).map(|band| Numbers { band, ..FRESH });
    assert_eq!(count_taken(states), BANDS.len());
}

#[test]
fn every_run() {
    let states = (0..=255).map(|run| Numbers { run, ..FRESH });
    assert_eq!(count_taken(states), 33);
}

#[test]
fn every_place_of_the_window() {
    let mut random = Random::new(15);
    let values = [
        -32_768, -32_767, -8_193, -8_192, -8_191, 8_191, 8_192, 8_193, 32_767,
    ];
    for place in 0..WINDOW {
        let states = values.map(|value| {
            let mut state = good_state(&mut random);
            state.window[place] = value;
            state
        });
        assert_eq!(count_taken(states.into_iter()), 2, "place {place}");
    }
}

/// Every sample at the ends of the window.
#[test]
fn every_sample_in_the_window() {
    for place in [0, 31] {
        let states = (i16::MIN..=i16::MAX).map(|value| {
            let mut state = FRESH;
            state.window[place] = value;
            state
        });
        assert_eq!(count_taken(states), 16_383, "place {place}");
    }
}

/// Every slot with every wait, and bytes on both sides of each power of two.
#[test]
fn every_slot_and_wait() {
    let bytes = [0, 1, 2, 3, 4, 7, 8, 15, 16, 31, 32, 63, 64, 127, 128, 255];
    let below = |limit: u8| bytes.iter().filter(|&&byte| byte < limit).count();
    for slot in 0..=255 {
        let stages = (0..=255).flat_map(|wait| bytes.map(|byte| [1, wait, slot, byte]));
        let expected = match slot {
            0 => 16,
            1 => 32,
            2..=8 => 32 * below(1 << (slot - 1)),
            9 => 32 * bytes.len(),
            _ => 0,
        };
        assert_eq!(count_taken(stages.map(with_stage)), expected, "slot {slot}");
    }
}

#[test]
fn every_slot_and_byte() {
    for slot in 0..=11 {
        for wait in [1, 16, 17, 32] {
            let stages = (0..=255).map(|byte| [1, wait, slot, byte]);
            let expected = match slot {
                0 => usize::from(wait <= 16),
                1 => 1,
                2..=9 => 1 << (slot - 1),
                _ => 0,
            };
            let what = format!("slot {slot}, wait {wait}");
            assert_eq!(count_taken(stages.map(with_stage)), expected, "{what}");
        }
    }
}

/// 0 is searching and 2 a held break, whatever stands behind it, 1 is waiting, in
/// range or not, and any other is out of range.
#[test]
fn every_number_of_a_stage() {
    for stage in 0..=255 {
        for (rest, good) in [
            ([0, 0, 0], false),
            ([17, 0, 0], false),
            ([16, 0, 0], true),
            ([33, 5, 0], false),
            ([32, 5, 15], true),
            ([32, 5, 16], false),
            ([1, 10, 0], false),
            ([255, 255, 255], false),
        ] {
            let [wait, slot, byte] = rest;
            let state = with_stage([stage, wait, slot, byte]);
            let expected = stage == 0 || stage == 1 && good || stage == 2;
            assert_eq!(taken(state), expected, "{:?}", state.stage_numbers());
        }
    }
}

/// Behind 0 and behind 2 every number is taken, in every place, and none is kept.
#[test]
fn every_number_behind_a_search_and_a_break() {
    for stage in [0, 2] {
        for n in 0..=255 {
            for [wait, slot, byte] in [[n, 0, 0], [0, n, 0], [0, 0, n], [n, n, n]] {
                let handed = with_stage([stage, wait, slot, byte]);
                let answer = compare(handed, &[], 1).answer;
                let one_form = with_stage([stage, 0, 0, 0]);
                assert_eq!((answer.number, answer.state), (0, one_form), "{handed:?}");
            }
        }
    }
}

/// From hostile states nothing is read, whatever the block.
#[test]
fn random_hostile_states() {
    let mut random = Random::new(16);
    for _ in 0..20_000 {
        let state = hostile_state(&mut random);
        let samples = vec![random.below(9_000) as i16; random.below(100)];
        let places = random.below(5);
        let answer = compare(state, &samples, places).answer;
        assert_eq!(answer.number, 2, "{state:?}");
    }
}
