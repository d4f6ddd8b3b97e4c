//! Blocks that a tap refuses.

use crate::common::receiver::{compare, fresh, BlockState, FRESH};
use crate::common::refused::{
    bad_samples, first_condition_counts, other_forms, refused_blocks, refused_with, short_lists,
};
use crate::common::states::is_good;
use crate::common::tap::{good_tap, open, tapped, PAIRS};
use crate::common::NO_BAND;
use reference::library::{Numbers, Tap};
use reference::random::Random;

#[test]
fn the_first_condition_in_the_order_2_3_5_4_counts() {
    first_condition_counts(91, good_tap);
}

/// A list for one receiver is too short, and so is one for a block of twice the
/// samples, if the last 48 of the block are fewer than 24.
#[test]
fn every_list_that_is_too_short_is_refused_with_4() {
    let others = |count| [0, count / 48 + 1, 2 * count / 48 + 1];
    for pair in PAIRS {
        short_lists(open(pair), others);
    }
    let is_short = |&count: &usize| others(count)[2] < Tap::places_needed(count);
    assert_eq!((0..48).filter(is_short).count(), 24);
}

#[test]
fn a_sample_out_of_range_is_refused_with_5_wherever_it_stands() {
    for pair in PAIRS {
        bad_samples(open(pair));
    }
}

/// The numbers behind a search or a held break, in either receiver.
#[test]
fn other_forms_of_a_stage() {
    let of = |band, state| Numbers { band, ..state };
    for [first, second] in PAIRS {
        for stage in [0, 2] {
            other_forms(stage, |state| tapped(of(first, state), fresh(second)));
            other_forms(stage, |state| tapped(fresh(first), of(second, state)));
        }
    }
}

/// An empty block must be accepted or refused with 2, by the ranges and the bands.
/// Returns whether it was accepted.
fn taken(tap: Tap) -> bool {
    let Tap { first, second } = tap;
    let is_pair = PAIRS.contains(&[first.band, second.band]);
    let good = is_good(&first) && is_good(&second) && is_pair;
    let number = compare(tap, &[], 2).answer.number;
    assert_eq!(number, if good { 0 } else { 2 }, "{tap:?}");
    good
}

/// Exchanged, one of them twice, one of either pair, or others. In a call that is
/// refused for something else too, 2 comes first.
#[test]
fn every_pair_of_bands() {
    let blocks = refused_blocks::<Tap>();
    let mut accepted = Vec::new();
    for both in 0..=u16::MAX {
        let bands = both.to_le_bytes();
        let [first, second] = bands.map(|band| Numbers { band, ..FRESH });
        let tap = tapped(first, second);
        if taken(tap) {
            accepted.push(bands);
        } else if bands.iter().all(|&band| band <= NO_BAND) {
            for (samples, places, _) in &blocks {
                refused_with(2, tap, samples, *places);
            }
        }
    }
    accepted.sort();
    assert_eq!(accepted, [[1, 2], [3, 4]]);
}

/// Either receiver out of its range, both of them, and both in the other's place.
#[test]
fn random_hostile_states() {
    let mut random = Random::new(92);
    for _ in 0..10_000 {
        let tap = good_tap(&mut random);
        assert!(taken(tap));
        let Tap { first, second } = tap;
        let [bad_first, bad_second] = [first, second].map(|state| state.spoiled(&mut random));
        for hostile in [
            tapped(bad_first, second),
            tapped(first, bad_second),
            tapped(bad_first, bad_second),
            tapped(second, first),
        ] {
            assert!(!taken(hostile));
        }
    }
}
