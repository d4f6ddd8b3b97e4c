//! The ranges of t, the number of the character's samples that have entered
//! the window: where a tone wins for certain, and where the receiver looks.

use super::CHARACTER;
use crate::disturbance::LIMITS;
use crate::receiver::{BIT, HALF_BIT, LAST_SLOT};
use crate::transmitter::framed;

/// What is drawn: from before the character's first sample to behind its last.
pub(super) const FIRST: i64 = -16;
pub(super) const LAST: i64 = 336;

pub(super) const CELL: i64 = BIT as i64;

/// The first and the last t.
pub(super) type Range = (i64, i64);

/// The bit that is sent in the cell of this number; cells below 0 are the
/// leader's, and those above 9 the trailer's.
pub(super) fn bit(cell: i64) -> u8 {
    let bits = framed(CHARACTER);
    let sent = usize::try_from(cell).ok().and_then(|cell| bits.get(cell));
    sent.copied().unwrap_or(1)
}

/// The t at which a bit begins or ends.
pub(super) fn boundaries() -> impl Iterator<Item = i64> {
    (0..=i64::from(LAST_SLOT) + 1).map(|cell| cell * CELL)
}

/// All ranges in which one tone wins for certain, and those in which none does.
pub(super) fn certain_ranges() -> Vec<(Option<u8>, Range)> {
    let mut ranges: Vec<(Option<u8>, Range)> = Vec::new();
    for t in FIRST..=LAST {
        let cell = t.div_euclid(CELL);
        let winner = LIMITS.certain(bit(cell - 1), bit(cell), t.rem_euclid(CELL));
        match ranges.last_mut() {
            Some((before, range)) if *before == winner => range.1 = t,
            _ => ranges.push((winner, (t, t))),
        }
    }
    ranges
}

/// Where the start bit is found: not while mark wins for certain, and at the
/// latest where space does.
pub(super) const FOUND: Range = (LIMITS.last_of_earlier + 1, LIMITS.first_of_later);

/// Where a slot is taken: half a bit behind that, and a bit for each slot.
pub(super) fn slot_range(slot: u8) -> Range {
    let later = i64::from(HALF_BIT) + CELL * i64::from(slot);
    (FOUND.0 + later, FOUND.1 + later)
}

pub(super) fn slots() -> impl Iterator<Item = u8> {
    0..=LAST_SLOT
}
