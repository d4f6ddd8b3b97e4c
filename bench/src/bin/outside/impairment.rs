//! What a line does to the samples.

use crate::signal::{Signal, LARGEST_TONE, SAMPLES_PER_SECOND};
use bench::recording::SEED;
use reference::random::Random;
use reference::receiver::LARGEST_SAMPLE;
use std::f64::consts::TAU;
use std::fmt;

/// Another than that of the message.
const NOISE_SEED: u64 = SEED + 1;
const HUM_HERTZ: f64 = 50.0;

/// One impairment with its size.
#[derive(Clone, Copy)]
pub enum Impairment {
    /// All samples made smaller or larger, to so many percent.
    Amplitude(f64),
    /// To each sample a whole number added, evenly distributed up to this size.
    Uniform(f64),
    /// Gaussian noise, so many decibels below the tone.
    Gaussian(f64),
    /// The same number added to each sample.
    Offset(f64),
    /// A sine of 50 Hz and this amplitude added.
    Hum(f64),
    /// Each sample taken so much of a sample late.
    Late(f64),
    /// The samples taken farther apart by so many millionths, or nearer together.
    Clock(f64),
    /// So many percent of the signal added to it, so many milliseconds later.
    Echo { percent: f64, milliseconds: f64 },
}

/// What comes out, each sample to the nearest whole number and within the range of
/// a sample, with how many of them were clipped to that range.
pub struct Received {
    pub samples: Vec<i16>,
    pub clipped: usize,
}

impl Received {
    /// The most that a sample was changed by. Behind its end either has silence.
    pub fn change(&self, signal: &Signal) -> u16 {
        let longest = self.samples.len().max(signal.samples.len());
        let at = |samples: &[i16], k: usize| samples.get(k).copied().unwrap_or(0_i16);
        let change = |k| at(&self.samples, k).abs_diff(at(&signal.samples, k));
        (0..longest).map(change).max().unwrap_or(0)
    }
}

impl Impairment {
    pub fn received(self, signal: &Signal) -> Received {
        let largest = f64::from(LARGEST_SAMPLE);
        let mut random = Random::new(NOISE_SEED);
        let mut clipped = 0;
        let samples = (0..self.length(signal)).map(|k| {
            let value = self.value(signal, k, &mut random).round();
            clipped += usize::from(value.abs() > largest);
            value.clamp(-largest, largest) as i16
        });
        Received {
            samples: samples.collect(),
            clipped,
        }
    }

    /// With samples farther apart there are fewer.
    fn length(self, signal: &Signal) -> usize {
        let length = signal.samples.len();
        match self {
            Impairment::Clock(ppm) => (length as f64 / spacing(ppm)).ceil() as usize,
            _ => length,
        }
    }

    /// Sample k before it is rounded.
    fn value(self, signal: &Signal, k: usize, random: &mut Random) -> f64 {
        let time = k as f64;
        let sent = || f64::from(signal.samples[k]);
        match self {
            Impairment::Amplitude(percent) => sent() * percent / 100.0,
            Impairment::Uniform(most) => sent() + uniform(random, most),
            Impairment::Gaussian(decibels) => sent() + deviation(decibels) * gaussian(random),
            Impairment::Offset(offset) => sent() + offset,
            Impairment::Hum(amplitude) => sent() + amplitude * hum(time),
            Impairment::Late(part) => signal.at(time + part),
            Impairment::Clock(ppm) => signal.at(time * spacing(ppm)),
            Impairment::Echo {
                percent,
                milliseconds,
            } => {
                let delay = milliseconds / 1e3 * SAMPLES_PER_SECOND;
                sent() + percent / 100.0 * signal.at(time - delay)
            }
        }
    }
}

/// From one sample to the next, in samples of a clock that is right.
fn spacing(ppm: f64) -> f64 {
    1.0 + ppm / 1e6
}

/// A whole number from -`most` to `most`.
fn uniform(random: &mut Random, most: f64) -> f64 {
    random.below(2 * most as usize + 1) as f64 - most
}

/// The standard deviation of noise whose power, all of it between 0 and 4,800 Hz,
/// is so many decibels below the power of a tone.
fn deviation(decibels: f64) -> f64 {
    let tone_power = LARGEST_TONE * LARGEST_TONE / 2.0;
    (tone_power / 10_f64.powf(decibels / 10.0)).sqrt()
}

/// With mean 0 and deviation 1, by the method of Box and Muller.
fn gaussian(random: &mut Random) -> f64 {
    // Above 0, so that there is a logarithm.
    let mut part = || ((random.number() >> 11) + 1) as f64 / (1_u64 << 53) as f64;
    let (size, turn) = (part(), part());
    (-2.0 * size.ln()).sqrt() * (TAU * turn).cos()
}

fn hum(time: f64) -> f64 {
    (TAU * HUM_HERTZ * time / SAMPLES_PER_SECOND).sin()
}

/// A comma before the last three digits of a long number.
fn grouped(size: f64) -> String {
    if size.abs() < 1e3 {
        return size.to_string();
    }
    let size = size as i64;
    format!("{},{:03}", size / 1_000, size.abs() % 1_000)
}

impl fmt::Display for Impairment {
    fn fmt(&self, out: &mut fmt::Formatter) -> fmt::Result {
        match *self {
            Impairment::Amplitude(percent) => write!(out, "amplitude {percent} %"),
            Impairment::Uniform(most) => write!(out, "uniform noise up to ±{}", grouped(most)),
            Impairment::Gaussian(decibels) => write!(out, "Gaussian noise, S/N {decibels} dB"),
            Impairment::Offset(offset) => write!(out, "constant offset {}", grouped(offset)),
            Impairment::Hum(amplitude) => write!(out, "hum of 50 Hz, {}", grouped(amplitude)),
            Impairment::Late(part) => write!(out, "sampled {part} of a sample late"),
            Impairment::Clock(ppm) if ppm > 0.0 => write!(out, "clock +{} ppm", grouped(ppm)),
            Impairment::Clock(ppm) => write!(out, "clock {} ppm", grouped(ppm)),
            Impairment::Echo {
                percent,
                milliseconds,
            } => write!(out, "echo of {percent} % after {milliseconds} ms"),
        }
    }
}

#[cfg(test)]
mod tests {
    use super::*;
    use reference::sine::Sines;

    fn signal() -> Signal {
        Signal::new(&Sines::new(), 1, 2, 20)
    }

    #[test]
    fn what_changes_nothing_gives_the_exact_samples() {
        let signal = signal();
        let nothing = [
            Impairment::Amplitude(100.0),
            Impairment::Uniform(0.0),
            Impairment::Offset(0.0),
            Impairment::Late(0.0),
            Impairment::Clock(0.0),
        ];
        for impairment in nothing {
            let received = impairment.received(&signal);
            assert_eq!(received.samples, signal.samples, "{impairment}");
            assert_eq!((received.change(&signal), received.clipped), (0, 0));
        }
    }

    #[test]
    fn samples_are_changed_as_told_and_clipped() {
        let signal = signal();
        let offset = Impairment::Offset(2_200.0).received(&signal);
        let clipped = signal
            .samples
            .iter()
            .filter(|&&s| s > 8_191 - 2_200)
            .count();
        assert!(clipped > 0);
        assert_eq!((offset.change(&signal), offset.clipped), (2_200, clipped));
        assert_eq!(offset.samples.iter().max(), Some(&8_191));
        // By a whole number of samples, here 48.
        let (percent, milliseconds) = (-100.0, 5.0);
        let echo = Impairment::Echo {
            percent,
            milliseconds,
        }
        .received(&signal);
        for (k, &sample) in echo.samples.iter().enumerate().skip(48) {
            let sum = signal.samples[k] - signal.samples[k - 48];
            assert_eq!(sample, sum.clamp(-8_191, 8_191), "sample {k}");
        }
    }

    #[test]
    fn noise_has_the_power_that_is_told() {
        let mut random = Random::new(1);
        let count = 1_000_000;
        let power: f64 = (0..count).map(|_| gaussian(&mut random).powi(2)).sum();
        assert!((power / f64::from(count) - 1.0).abs() < 0.01);
        let below_tone = 20.0 * (LARGEST_TONE / 2_f64.sqrt() / deviation(12.0)).log10();
        assert!((below_tone - 12.0).abs() < 1e-9);
    }
}
