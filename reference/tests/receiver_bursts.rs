//! Short bursts: of noise in silence and in either tone, and of silence in a
//! sending. They break the run where hardly any window is looked at.

use crate::common::met::{assert_frequent, Met};
use crate::common::receiver::{fresh, read_on};
use crate::common::recording::{
    around_0, as_events, bits, disturbed, noise, sending, surrounded, toned,
};
use crate::common::{BANDS, CHARACTER_SAMPLES, IDLE_SAMPLES};
use reference::disturbance::MOST;
use reference::random::Random;
use std::ops::Range;

/// Before a burst as many samples as fill run and window, and behind it as many
/// as make a silent receiver a fresh one.
const AROUND: usize = 64;

/// Reads the samples up to a cut, and all of the rest in one block, whose events
/// are returned. Before that, blocks from the cut that end in the burst or soon
/// behind it, where the run is a broken one.
fn read_burst(
    met: &mut Met,
    random: &mut Random,
    band: u8,
    (samples, cut): (&[i16], usize),
    burst: Range<usize>,
) -> Vec<u16> {
    let (_, state) = read_on(fresh(band), [&samples[..cut]]);
    for _ in 0..3 {
        let end = burst.start + random.below(burst.len() + AROUND);
        met.compare(state, &samples[cut..end]);
    }
    met.read_on(state, [&samples[cut..]]).0
}

/// A character behind so many samples of silence or of the tone of a bit. Seven bits
/// of mark stand between that tone and the leader, all with one phase that runs on: a
/// jump of it can be taken for a start bit.
fn line(band: u8, bit: Option<usize>, before: usize, character: u8) -> Vec<i16> {
    let Some(bit) = bit else {
        return surrounded(&sending(band, &[character]), before, 0);
    };
    let behind = [vec![1; 7], bits(&[character])].concat();
    let behind = behind.into_iter().flat_map(|bit| [bit; 32]);
    toned(band, vec![bit; before].into_iter().chain(behind))
}

/// Noise of 1 to 40 samples at each of 32 places behind a block's beginning, and
/// behind it a character. It comes out whatever the noise did, because silence
/// ends a character that the noise began, and so do ten bits of mark.
fn read_noise(met: &mut Met, random: &mut Random, band: u8, bit: Option<usize>, most: i16) {
    for count in 1..=40 {
        for place in 0..32 {
            let begin = AROUND + place;
            let burst = begin..begin + count;
            let message = random.bytes(1);
            let samples = line(band, bit, burst.end + AROUND, message[0]);
            let mut samples = disturbed(&samples, |_| around_0(random, most));
            samples[burst.clone()].copy_from_slice(&noise(random, 8_191, count));
            let events = read_burst(met, random, band, (&samples, AROUND), burst);
            let told = events.ends_with(&as_events(&message));
            assert!(told, "band {band}, {count} at {place}: {events:?}");
        }
    }
}

/// Reads noise in silence, or in the tone of a bit.
fn noise_in(seed: u64, bit: Option<usize>) -> Met {
    let mut random = Random::new(seed);
    let mut met = Met::new();
    for band in BANDS {
        for most in [0, MOST] {
            read_noise(&mut met, &mut random, band, bit, most);
        }
    }
    met
}

/// Noise has now and then the level of a tone, and hardly ever for 32 windows.
#[test]
fn noise_in_silence() {
    let met = noise_in(62, None);
    assert_frequent(met.kinds, [10_240, 0, 0, 0, 0]);
    met.assert_searching_runs(4);
}

#[test]
fn noise_in_mark() {
    let met = noise_in(63, Some(1));
    assert_frequent(met.kinds, [11_000, 0, 0, 0, 40]);
    met.assert_searching_runs(40);
    met.assert_waiting_runs(6);
}

#[test]
fn noise_in_space() {
    let met = noise_in(64, Some(0));
    assert_frequent(met.kinds, [18_000, 0, 2_000, 0, 2_000]);
    met.assert_searching_runs(10);
    met.assert_waiting_runs(40);
}

/// Silence of 1 to 70 samples in the first of two characters. It begins at every
/// eleventh sample, and with other lengths at others, so that each is met. A block
/// begins up to 63 samples before it.
#[test]
fn silence_in_a_character() {
    let mut random = Random::new(65);
    for band in BANDS {
        let mut met = Met::new();
        for most in [0, MOST] {
            for count in 1..=70 {
                for begin in (count % 11..CHARACTER_SAMPLES).step_by(11) {
                    let begin = IDLE_SAMPLES + begin;
                    let burst = begin..begin + count;
                    let mut samples = sending(band, &random.bytes(2));
                    samples[burst.clone()].fill(0);
                    let samples = disturbed(&samples, |_| around_0(&mut random, most));
                    let cut = begin - random.below(AROUND);
                    read_burst(&mut met, &mut random, band, (&samples, cut), burst);
                }
            }
        }
        assert_frequent(met.kinds, [5_000, 400, 4_000, 0, 600]);
        met.assert_searching_runs(30);
        met.assert_waiting_runs(2);
    }
}
