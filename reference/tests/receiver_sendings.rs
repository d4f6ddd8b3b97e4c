//! Every character in each band, read in blocks of many sizes.

use crate::common::receiver::{assert_events, fresh, read, read_on};
use crate::common::recording::{as_events, every_character, random_blocks, sending, surrounded};
use crate::common::BANDS;
use reference::random::Random;

fn read_in_blocks_of(sizes: impl Iterator<Item = usize>, band: u8, seed: u64) {
    let mut random = Random::new(seed);
    for size in sizes {
        let message = every_character(&mut random);
        let (before, behind) = (random.below(200), random.below(200));
        let recording = surrounded(&sending(band, &message), before, behind);
        assert_eq!(recording.len(), before + 96 + 256 * 320 + 96 + behind);
        let what = || format!("band {band}, blocks of {size}, silence of {before}");
        assert_events(&read(band, &recording, size), &as_events(&message), what);
    }
}

#[test]
fn small_blocks_in_band_1() {
    read_in_blocks_of(1..=64, 1, 8);
}

#[test]
fn small_blocks_in_band_2() {
    read_in_blocks_of(1..=64, 2, 9);
}

#[test]
fn small_blocks_in_band_3() {
    read_in_blocks_of(1..=64, 3, 111);
}

#[test]
fn small_blocks_in_band_4() {
    read_in_blocks_of(1..=64, 4, 112);
}

#[test]
fn large_blocks() {
    let sizes = [100, 160, 320, 1_000, 1_024, 4_096, 16_383, 16_384];
    for band in BANDS {
        read_in_blocks_of(sizes.into_iter(), band, 10);
    }
}

/// Each block of a size of its own, empty ones among them.
#[test]
fn blocks_of_random_sizes() {
    let mut random = Random::new(11);
    for band in BANDS {
        for longest in [3, 40, 400, 16_384] {
            let message = every_character(&mut random);
            let recording = surrounded(&sending(band, &message), 50, 50);
            let blocks = random_blocks(&mut random, &recording, longest);
            let (events, _) = read_on(fresh(band), blocks);
            let what = || format!("band {band}, blocks of up to {longest}");
            assert_events(&events, &as_events(&message), what);
        }
    }
}

/// A trailer right behind the leader is nothing but mark.
#[test]
fn a_sending_without_characters() {
    for band in BANDS {
        for before in 0..=64 {
            let recording = surrounded(&sending(band, &[]), before, 300);
            assert_eq!(read(band, &recording, 77), [], "band {band}, {before}");
        }
    }
}

/// One character alone, and the same one many times over.
#[test]
fn each_character_alone_and_repeated() {
    for band in BANDS {
        for byte in 0..=255 {
            for count in [1, 12] {
                let message = vec![byte; count];
                let recording = surrounded(&sending(band, &message), 33, 150);
                let what = || format!("band {band}, {count} times {byte}");
                assert_events(&read(band, &recording, 160), &as_events(&message), what);
            }
        }
    }
}
