//! Doubtful bits: both tones are on the line at once, about equally strong. At a data or
//! stop bit this is told, and the character is given up.

use crate::common::met::{assert_frequent, kinds, Kinds};
use crate::common::receiver::{assert_events, fresh, read_on, BREAK, DOUBT};
use crate::common::recording::{
    around_0, bits, disturbed, keyed_in_doubt, random_blocks, sending, surrounded, toned,
};
use crate::common::rows::read_in_turn;
use crate::common::states::{any_doubt, HELD};
use crate::common::tap::{of_band, open, PAIRS};
use crate::common::{BANDS, IDLE_SAMPLES};
use reference::disturbance::MOST;
use reference::library::Tap;
use reference::random::Random;

const SIZES: [usize; 4] = [7, 48, 160, 16_384];

/// The fresh tap that has a band.
fn tap_of(band: u8) -> Tap {
    let pair = PAIRS.into_iter().find(|pair| pair.contains(&band));
    open(pair.expect("each band is in a pair"))
}

/// The events must be these, however the samples are cut into blocks, also over the
/// tap, and a break is held at the end or not.
fn check(band: u8, samples: &[i16], expected: &[u16], held: bool, what: &str) {
    for size in SIZES {
        let what = || format!("{what}, band {band}, blocks of {size}");
        let (events, state) = read_on(fresh(band), samples.chunks(size));
        assert_events(&events, expected, what);
        assert_eq!(state.stage_numbers() == HELD, held, "{}", what());
        let (events, _) = read_on(tap_of(band), samples.chunks(size));
        assert_events(&of_band(band, &events), expected, what);
    }
}

/// A character with a data bit or the stop bit in doubt, and mark behind it. Then
/// silence, and another one.
fn one_bit(band: u8, slot: usize, byte: u8, which: usize) -> Vec<i16> {
    let mut bits = bits(&[byte]);
    bits[3 + slot..].fill(1);
    let line = keyed_in_doubt(band, &bits, 3 + slot, which);
    [surrounded(&line, 0, 64), sending(band, &[0x42])].concat()
}

/// The bits before it, and the byte that they make, do not change what is told.
#[test]
fn a_doubtful_bit_at_each_slot() {
    for band in BANDS {
        for slot in 1..=9 {
            for byte in [0, 0x55, 0xaa, 0xff] {
                for which in 0..2 {
                    let samples = one_bit(band, slot, byte, which);
                    let what = format!("slot {slot} of {byte:02x}");
                    check(band, &samples, &[DOUBT, 0x42], false, &what);
                }
            }
        }
    }
}

/// A search follows a doubtful stop bit, so that space which goes on is a start bit and
/// nine bits later a break. If mark follows there is none.
#[test]
fn a_break_with_a_doubtful_stop_bit() {
    for band in BANDS {
        for which in 0..2 {
            for (bit, expected, held) in [(0, &[DOUBT, BREAK][..], true), (1, &[DOUBT], false)] {
                let bits = [&[1; 3][..], &[0; 9], &[bit; 13]].concat();
                let samples = keyed_in_doubt(band, &bits, 12, which);
                check(band, &samples, expected, held, "a break");
            }
        }
    }
}

/// The events of the samples, by either entry, by both in turn and over the tap.
fn read(random: &mut Random, band: u8, samples: &[i16], longest: usize) -> Vec<u16> {
    let blocks = random_blocks(random, samples, longest);
    let (events, last) = read_on(fresh(band), blocks.iter().copied());
    let what = || format!("band {band}, blocks of up to {longest}");
    let (in_turn, state) = read_in_turn(random, band, samples, longest);
    assert_events(&in_turn, &events, what);
    assert_eq!(state, last, "{}", what());
    let (tapped, _) = read_on(tap_of(band), blocks);
    assert_events(&of_band(band, &tapped), &events, what);
    events
}

/// What is met in many such lines, in blocks of several sizes.
fn met(seed: u64, band: u8, line: fn(&mut Random, u8) -> Vec<i16>) -> Kinds {
    let mut random = Random::new(seed);
    let mut events = Vec::new();
    for (longest, lines) in [(2, 4), (40, 20), (400, 50), (16_384, 50)] {
        for _ in 0..lines {
            let samples = line(&mut random, band);
            events.extend(read(&mut random, band, &samples, longest));
        }
    }
    kinds(&events)
}

/// In the place of some samples of three characters, for up to three bits. Every sample
/// is altered.
#[test]
fn both_tones_in_a_character() {
    for band in BANDS {
        let met = met(115, band, |random, band| {
            let mut samples = sending(band, &random.bytes(3));
            let count = 20 + random.below(77);
            let place = IDLE_SAMPLES + random.below(3 * 320 - count);
            let doubt = any_doubt(random, band, count);
            samples[place..place + count].copy_from_slice(&doubt);
            disturbed(&samples, |_| around_0(random, MOST))
        });
        assert_frequent(met, [150, 20, 4, 0, 50]);
    }
}

/// Behind a leader and to the end.
#[test]
fn both_tones_behind_a_leader() {
    for band in BANDS {
        let met = met(116, band, |random, band| {
            let doubt = any_doubt(random, band, 600);
            let samples = [toned(band, [1; 96]), doubt].concat();
            disturbed(&samples, |_| around_0(random, MOST))
        });
        assert_frequent(met, [0, 0, 4, 0, 400]);
    }
}
