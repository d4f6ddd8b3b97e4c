//! The receiver's opening.

use crate::common::receiver::{open, FRESH};
use crate::common::{BANDS, SIDES};
use reference::library::Numbers;

/// Every place is stored, whatever stood there before.
#[test]
fn every_band_number_is_opened_alike() {
    for band in 0..=255 {
        let expected = match band {
            _ if BANDS.contains(&band) => (0, Numbers { band, ..FRESH }),
            _ => (1, FRESH),
        };
        for side in SIDES {
            assert_eq!(open(side, band), expected, "{side:?}, band {band}");
        }
    }
}
