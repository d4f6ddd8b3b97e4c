//! Recordings with refused blocks anywhere, which must change nothing.

use crate::common::receiver::{assert_events, compare_accepted, fresh, read_by};
use crate::common::recording::{as_events, every_character, sending, surrounded};
use crate::common::refused::{refused, too_long};
use crate::common::BANDS;
use reference::random::Random;

#[test]
fn a_recording_is_read_as_if_no_block_had_been_refused() {
    let mut random = Random::new(17);
    let too_long = too_long(&mut random);
    for band in BANDS {
        for size in [1, 13, 47, 48, 160, 1_000, 16_384] {
            let message = every_character(&mut random);
            let message = &message[..if size == 1 { 8 } else { 64 }];
            let recording = surrounded(&sending(band, message), 40, 40);
            let blocks = recording.chunks(size);
            let (events, state) = read_by(fresh(band), blocks, |state, samples| {
                refused(&mut random, state, samples, &too_long);
                compare_accepted(state, samples)
            });
            refused(&mut random, state, &recording[..size.min(50)], &too_long);
            let what = || format!("band {band}, blocks of {size}");
            assert_events(&events, &as_events(message), what);
        }
    }
}
