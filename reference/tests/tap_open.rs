//! The tap's opening.

use crate::common::receiver::FRESH;
use crate::common::tap::{opened, tapped};
use crate::common::SIDES;
use reference::library::Numbers;

/// On both sides an opening gives this number and the fresh receivers of the bands,
/// every place of which is stored, whatever stood there before.
fn check(asked: [u8; 2], number: u8, bands: [u8; 2]) {
    let [first, second] = bands.map(|band| Numbers { band, ..FRESH });
    for side in SIDES {
        let found = opened(side, asked);
        assert_eq!(
            found,
            (number, tapped(first, second)),
            "{side:?}, {asked:?}"
        );
    }
}

#[test]
fn the_two_pairs() {
    check([1, 2], 0, [1, 2]);
    check([3, 4], 0, [3, 4]);
}

/// Exchanged, twice the same, or one of either pair.
#[test]
fn bands_that_are_no_pair() {
    for asked in [
        [2, 1],
        [1, 1],
        [1, 3],
        [3, 3],
        [4, 3],
        [2, 3],
        [1, 4],
        [4, 1],
    ] {
        check(asked, 8, [1, 2]);
    }
}

/// Either is tested by itself before both are.
#[test]
fn numbers_that_are_no_band() {
    for asked in [
        [0, 1],
        [1, 0],
        [0, 0],
        [5, 2],
        [1, 5],
        [3, 5],
        [5, 4],
        [255, 255],
    ] {
        check(asked, 1, [1, 2]);
    }
}

#[test]
fn every_two_numbers() {
    let mut seen = [0; 9];
    for both in 0..=u16::MAX {
        let asked = both.to_le_bytes();
        let (number, bands) = match asked {
            [0 | 5.., _] | [_, 0 | 5..] => (1, [1, 2]),
            [1, 2] | [3, 4] => (0, asked),
            _ => (8, [1, 2]),
        };
        check(asked, number, bands);
        seen[usize::from(number)] += 1;
    }
    assert_eq!(seen, [2, 65_536 - 16, 0, 0, 0, 0, 0, 0, 14]);
}
