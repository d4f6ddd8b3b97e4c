//! Blocks that are refused by the receiver's call with indices.

use crate::common::indexed::{compare_three, Indexed};
use crate::common::receiver::{fresh, BlockState};
use crate::common::refused::{
    bad_samples, first_condition_counts, other_forms, refused_blocks, refused_with, samples,
    short_lists,
};
use crate::common::states::{good_state, hostile_state};
use crate::common::BANDS;
use reference::random::Random;

#[test]
fn the_first_condition_in_the_order_2_3_5_4_counts() {
    first_condition_counts(107, |random| Indexed(good_state(random)));
}

#[test]
fn every_list_that_is_too_short_is_refused_with_4() {
    for band in BANDS {
        let state = Indexed(fresh(band));
        short_lists(state, |count| [0, 1, count / 48 + 1_001]);
    }
}

/// Each list alone is too short, or two of them, or all, or none.
#[test]
fn every_three_lengths() {
    for count in [0, 1, 47, 48, 95, 96, 160, 1_000] {
        let samples = samples(count, &[]);
        let exact = count / 48 + 1;
        let lengths = [0, 1, exact - 1, exact, exact + 1, exact + 50];
        let pairs = lengths.map(|first| lengths.map(|second| [first, second]));
        let mut seen = [0; 5];
        for [events, differences] in pairs.concat() {
            for indices in lengths {
                let lengths = [events, differences, indices];
                let found = compare_three(fresh(1), &samples, lengths);
                let is_short = lengths.iter().any(|&length| length < exact);
                let expected = if is_short { 4 } else { 0 };
                let number = found.reading.answer.number;
                assert_eq!(number, expected, "{count} samples into {lengths:?}");
                seen[usize::from(number)] += 1;
            }
        }
        assert!(seen[0] >= 27 && seen[4] >= 91, "{seen:?}");
    }
}

#[test]
fn a_sample_out_of_range_is_refused_with_5_wherever_it_stands() {
    for band in BANDS {
        bad_samples(Indexed(fresh(band)));
    }
}

#[test]
fn other_forms_of_a_stage() {
    for stage in [0, 2] {
        other_forms(stage, Indexed);
    }
}

/// A state out of range is refused with 2, before all else.
#[test]
fn random_hostile_states() {
    let mut random = Random::new(108);
    let blocks = refused_blocks::<Indexed>();
    for _ in 0..2_000 {
        let state = Indexed(hostile_state(&mut random));
        refused_with(2, state, &[], Indexed::places_needed(0));
        let (samples, places, _) = &blocks[random.below(blocks.len())];
        refused_with(2, state, samples, *places);
    }
}
