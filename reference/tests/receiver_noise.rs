//! Noise, and bursts of tone in it, where faults are frequent.

use crate::common::met::{assert_frequent, kinds, Kinds};
use crate::common::receiver::{fresh, read_on};
use crate::common::recording::{around_0, noise, random_blocks, sending};
use crate::common::states::{any_samples, steps};
use crate::common::{other_bands, sines, BANDS};
use reference::random::Random;

/// The kinds of the events that either side tells of the samples, in blocks of
/// random sizes up to `longest`.
fn read(random: &mut Random, band: u8, samples: &[i16], longest: usize) -> Kinds {
    let blocks = random_blocks(random, samples, longest);
    kinds(&read_on(fresh(band), blocks).0)
}

/// The level is good often enough to begin, and hardly ever to the end.
#[test]
fn noise_of_full_range() {
    let mut random = Random::new(18);
    for band in BANDS {
        let samples = noise(&mut random, 8_191, 400_000);
        let kinds = read(&mut random, band, &samples, 500);
        assert_frequent(kinds, [0, 0, 300, 0, 10]);
    }
}

#[test]
fn bursts_of_tone_in_noise() {
    let mut random = Random::new(19);
    for band in BANDS {
        let samples = any_samples(&mut random, band, 1_600_000);
        let kinds = read(&mut random, band, &samples, 2_000);
        assert_frequent(kinds, [50, 50, 300, 50, 50]);
    }
}

/// Sendings under noise that is far louder than what they must bear.
#[test]
fn sendings_in_loud_noise() {
    let mut random = Random::new(20);
    for band in BANDS {
        let mut all = [0; 5];
        for most in [500, 1_000, 2_000, 2_191, 4_000, 8_000, 16_000] {
            let message = random.bytes(150);
            let mut samples = sending(band, &message);
            for sample in &mut samples {
                let noisy = *sample + around_0(&mut random, most);
                *sample = noisy.clamp(-8_191, 8_191);
            }
            let kinds = read(&mut random, band, &samples, 16_384);
            for (all, kind) in all.iter_mut().zip(kinds) {
                *all += kind;
            }
        }
        assert_frequent(all, [850, 5, 0, 0, 50]);
    }
}

/// Sendings so faint that the level is good only now and then: 1875 of 6000
/// is about the least.
#[test]
fn sendings_near_the_least_good_level() {
    let mut random = Random::new(21);
    for band in BANDS {
        let mut all = [0; 5];
        for loudness in (1_700..=2_100).step_by(20) {
            let message = random.bytes(40);
            let samples: Vec<i16> = sending(band, &message)
                .iter()
                .map(|&sample| (i32::from(sample) * loudness / 6_000) as i16)
                .map(|sample| sample + around_0(&mut random, 100))
                .collect();
            let kinds = read(&mut random, band, &samples, 700);
            for (all, kind) in all.iter_mut().zip(kinds) {
                *all += kind;
            }
        }
        assert_frequent(all, [10, 10, 50, 0, 0]);
    }
}

/// Bursts of space just long enough to begin a character, and enough silence to
/// lose it, so that a block has far more events than one of a sending.
#[test]
fn short_bursts_of_space() {
    for band in BANDS {
        let mut most = 0;
        let [space, _] = steps(band);
        for burst in 40..=80 {
            for silence in [20, 30, 33, 40, 60] {
                let cycle = burst + silence;
                let sample = |place: usize| match place % cycle {
                    place if place < burst => sines().s(place * space),
                    _ => 0,
                };
                let samples: Vec<i16> = (0..16_384).map(sample).collect();
                let (events, _) = read_on(fresh(band), [&samples[..]]);
                most = most.max(events.len());
            }
        }
        assert!(most >= 170, "band {band}: {most}");
    }
}

/// Another band's tones.
#[test]
fn sendings_of_another_band() {
    let mut random = Random::new(22);
    for band in BANDS {
        for other in other_bands(band) {
            let mut samples = sending(other, &random.bytes(150));
            for sample in &mut samples {
                *sample += around_0(&mut random, 2_191);
            }
            read(&mut random, band, &samples, 3_000);
        }
    }
}

/// Samples that make the sums as large as they can be. Space without end is a
/// break, and mark is no event.
#[test]
fn the_largest_sums() {
    let mut random = Random::new(23);
    for band in BANDS {
        for (step, expected) in steps(band).into_iter().zip([[0, 0, 0, 1, 0], [0; 5]]) {
            for phase in (0..1_920).step_by(15) {
                let square = |place: usize| {
                    let sample = sines().s(phase + place * step);
                    8_191 * if sample < 0 { -1 } else { 1 }
                };
                let samples: Vec<i16> = (0..400).map(square).collect();
                let kinds = read(&mut random, band, &samples, 100);
                assert_eq!(kinds, expected, "step {step}, phase {phase}");
            }
        }
        for sample in [8_191, -8_191] {
            let kinds = read(&mut random, band, &[sample; 1_000], 100);
            assert_eq!(kinds, [0; 5], "always {sample}");
        }
    }
}
