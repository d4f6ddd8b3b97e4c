//! Blocks that are refused, and the order of several conditions at once.

use crate::common::receiver::{compare, fresh, Reading, FRESH};
use crate::common::refused::{
    bad_samples, first_condition_counts, other_forms, refused_blocks, refused_with, short_lists,
};
use crate::common::states::{good_state, with_stage};
use crate::common::BANDS;
use reference::library::Numbers;
use reference::random::Random;

fn number(reading: Reading) -> u8 {
    reading.answer.number
}

#[test]
fn the_first_condition_in_the_order_2_3_5_4_counts() {
    first_condition_counts(13, good_state);
}

#[test]
fn every_list_that_is_too_short_is_refused_with_4() {
    for band in BANDS {
        short_lists(fresh(band), |count| [0, 1, count / 48 + 1_001]);
    }
}

#[test]
fn a_sample_out_of_range_is_refused_with_5_wherever_it_stands() {
    for band in BANDS {
        bad_samples(fresh(band));
    }
}

#[test]
fn every_sample_is_taken_or_refused() {
    let mut taken = 0;
    for sample in i16::MIN..=i16::MAX {
        let expected = if (-8_191..=8_191).contains(&sample) {
            0
        } else {
            5
        };
        let found = number(compare(FRESH, &[sample], 1));
        assert_eq!(found, expected, "{sample}");
        taken += usize::from(found == 0);
    }
    assert_eq!(taken, 16_383);
}

/// Many samples out of range at once.
#[test]
fn noise_out_of_range_is_refused() {
    let mut random = Random::new(14);
    for count in 1..=200 {
        let mut sample = || {
            let above = 8_192 + random.below(24_576) as i16;
            [above, -above][random.below(2)]
        };
        let samples: Vec<i16> = (0..count).map(|_| sample()).collect();
        let state = good_state(&mut random);
        assert_eq!(number(compare(state, &samples, count)), 5, "{count}");
    }
}

#[test]
fn other_forms_of_a_search() {
    other_forms(0, |state| state);
}

#[test]
fn other_forms_of_a_held_break() {
    other_forms(2, |state| state);
}

/// There are the stages 0, 1 and 2 alone. Any other is refused with 2, before all
/// else, and handed back as it is, though as a wait it would be in range, with a difference
/// or without one.
#[test]
fn other_numbers_of_a_stage() {
    let blocks = refused_blocks::<Numbers>();
    for stage in 3..=255 {
        for rest in [[0, 0, 0], [16, 0, 0], [32, 9, 255], [1, 2, 1]] {
            let [wait, slot, byte] = rest;
            let state = with_stage([stage, wait, slot, byte]);
            for smallest in [None, Some(1)] {
                refused_with(2, state.with_smallest(smallest), &[], 1);
            }
        }
        for (samples, places, _) in &blocks {
            refused_with(2, with_stage([stage, 16, 0, 0]), samples, *places);
        }
    }
}
