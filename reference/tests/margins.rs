//! The margin test behind demand 3: how large a disturbance it allows, and how
//! close its limits are.

use crate::common::sines;
use reference::disturbance::{
    beginnings, largest_share, least_difference, margins, Limits, CLEAR, LIMITS, MOST,
};
use reference::transmitter::STEPS;

/// Of each band the phase between the beginnings of bits, and the largest
/// disturbance with which the test passes.
const EXPECTED: [(u8, usize, i16); STEPS.len()] =
    [(1, 64, 139), (2, 160, 143), (3, 128, 122), (4, 320, 133)];

fn steps(band: u8) -> [u16; 2] {
    STEPS[usize::from(band) - 1]
}

fn tried(band: u8, most: i16, limits: &Limits) -> Result<(), String> {
    margins(sines(), steps(band), most, limits)
}

#[test]
fn bits_begin_at_few_phases() {
    for (band, stride, _) in EXPECTED {
        let mut found = beginnings(steps(band));
        found.sort();
        let expected = (0..1_920).step_by(stride);
        assert!(expected.eq(found), "band {band}");
    }
}

#[test]
fn the_largest_disturbances() {
    for (band, _, largest) in EXPECTED {
        for most in [MOST, largest] {
            assert_eq!(tried(band, most, &LIMITS), Ok(()), "band {band}, {most}");
        }
        assert!(tried(band, largest + 1, &LIMITS).is_err(), "band {band}");
    }
}

/// The bands that the specification's disturbance can bring to fail.
fn failing(limits: Limits) -> Vec<u8> {
    let bands = EXPECTED.map(|(band, ..)| band).into_iter();
    let fails = |&band: &u8| tried(band, MOST, &limits).is_err();
    bands.filter(fails).collect()
}

/// One sample closer, and each of the three fails for some band.
#[test]
fn no_limit_can_be_closer() {
    let earlier = Limits {
        last_of_earlier: LIMITS.last_of_earlier + 1,
        ..LIMITS
    };
    let later = Limits {
        first_of_later: LIMITS.first_of_later - 1,
        ..LIMITS
    };
    let silent = Limits {
        last_silent: LIMITS.last_silent + 1,
        ..LIMITS
    };
    assert_eq!(failing(earlier), [1, 2, 3]);
    assert_eq!(failing(later), [1, 2, 3]);
    assert_eq!(failing(silent), [1]);
}

/// The window of a slot is that of its bit, but for one sample of the bit before or up to
/// three of the next.
const SLOTS: [i64; 2] = [3, 31];

/// Of each band the largest share of the larger energy that the smaller can be in the
/// window of a slot, in thousandths.
#[test]
fn how_far_slots_are_from_doubt() {
    let shares = EXPECTED.map(|(band, ..)| largest_share(sines(), steps(band), MOST, SLOTS));
    assert_eq!(shares, [274, 255, 279, 257].map(Some));
}

/// The bands in which a window within these limits can be doubtful under a disturbance.
fn doubtful(most: i16, limits: [i64; 2]) -> Vec<u8> {
    let bands = EXPECTED.map(|(band, ..)| band).into_iter();
    let can_be = |&band: &u8| largest_share(sines(), steps(band), most, limits) > Some(800);
    bands.filter(can_be).collect()
}

#[test]
fn no_slot_is_doubtful() {
    for most in [MOST, 7 * MOST] {
        assert_eq!(doubtful(most, SLOTS), [], "{most}");
    }
    assert_eq!(doubtful(10 * MOST, SLOTS), [1, 2, 3, 4]);
}

/// Nor is any window that is not about half of each of two bits.
#[test]
fn where_there_is_no_doubt() {
    let [last, first] = CLEAR;
    assert_eq!(doubtful(MOST, CLEAR), []);
    assert_eq!(doubtful(MOST, [last + 1, first]), [1, 3]);
    assert_eq!(doubtful(MOST, [last, first - 1]), [1, 3]);
}

/// What no difference at a slot is below.
const LEAST: i64 = 200_000_000_000_000_000;

/// Of each band, what the bounds show of the difference in the window of a slot.
fn differences(most: i16) -> [i64; EXPECTED.len()] {
    EXPECTED.map(|(band, ..)| {
        let found = least_difference(sines(), steps(band), most, SLOTS);
        found.expect("there are windows")
    })
}

/// It is the largest number of one digit and zeros that is shown in all four bands.
#[test]
fn how_far_apart_the_energies_are_at_slots() {
    let found = differences(MOST);
    let expected = [
        208_497_600_419_689_251,
        219_495_945_029_547_944,
        204_387_357_949_620_764,
        221_608_263_537_025_295,
    ];
    assert_eq!(found, expected);
    assert!(found.iter().all(|&difference| difference >= LEAST));
    assert!(found.iter().any(|&difference| difference < LEAST / 2 * 3));
}

/// A larger disturbance brings it below this, in some band first.
#[test]
fn how_much_more_the_differences_bear() {
    let below = |most| differences(most).map(|difference| difference < LEAST);
    assert_eq!(below(MOST + 5), [false; 4]);
    assert_eq!(below(MOST + 20), [false, false, true, false]);
}
