//! What is sent: its samples, and the same as a signal in continuous time.

use bench::recording::SEED;
use reference::random::Random;
use reference::sine::Sines;
use reference::transmitter::{self, STEPS};
use std::f64::consts::TAU;

/// The characters that a sheet has room for.
pub const SHEET: usize = 37;
/// Silent samples before each sending, and behind the last: a tenth of a second.
pub const SILENCE: usize = 960;
/// The amplitude of the tones.
pub const LARGEST_TONE: f64 = 6_000.0;
pub const SAMPLES_PER_SECOND: f64 = 9_600.0;
pub const CYCLE: usize = 1_920;
const SAMPLES_PER_BIT: usize = 32;
const MARK: usize = 1;

/// Sendings one behind the other, with silence around each.
pub struct Signal {
    pub band: u8,
    /// All characters, in order.
    pub message: Vec<u8>,
    /// The exact samples.
    pub samples: Vec<i16>,
    /// Of each time of a bit the phase at its beginning and the step; nothing if
    /// it is silent.
    bits: Vec<Option<(usize, usize)>>,
}

impl Signal {
    /// Of random characters, so many in each sending.
    pub fn new(sines: &Sines, band: u8, sendings: usize, characters: usize) -> Signal {
        let message = Random::new(SEED).bytes(sendings * characters);
        let silent_bits = [None; SILENCE / SAMPLES_PER_BIT];
        let mut samples = vec![0; SILENCE];
        let mut bits = silent_bits.to_vec();
        for message in message.chunks(characters) {
            samples.extend(transmitter::sending(sines, band, message));
            samples.extend([0; SILENCE]);
            bits.extend(phases_and_steps(band, message).map(Some));
            bits.extend(silent_bits);
        }
        Signal {
            band,
            message,
            samples,
            bits,
        }
    }

    /// The value at a time that is counted in samples: the sine without rounding,
    /// whose phase goes on evenly between two samples.
    pub fn at(&self, time: f64) -> f64 {
        let place = (time / SAMPLES_PER_BIT as f64).floor();
        let bit = (place >= 0.0).then(|| self.bits.get(place as usize));
        let Some(Some(&Some((phase, step)))) = bit else {
            return 0.0;
        };
        let since = time - place * SAMPLES_PER_BIT as f64;
        let cycles = (phase as f64 + step as f64 * since) / CYCLE as f64;
        LARGEST_TONE * (TAU * cycles).sin()
    }
}

/// Of each bit of a sending, from phase 0.
fn phases_and_steps(band: u8, message: &[u8]) -> impl Iterator<Item = (usize, usize)> + '_ {
    let idle = [MARK; 3];
    let characters = message.iter().flat_map(|&byte| framed(byte));
    let bits = idle.into_iter().chain(characters).chain(idle);
    let mut phase = 0;
    bits.map(move |bit| {
        let begin = phase;
        let step = usize::from(STEPS[usize::from(band) - 1][bit]);
        phase = (begin + SAMPLES_PER_BIT * step) % CYCLE;
        (begin, step)
    })
}

/// Start bit 0, the data bits from the least significant, stop bit 1.
fn framed(byte: u8) -> impl Iterator<Item = usize> {
    let bits = usize::from(byte) << 1 | MARK << 9;
    (0..10).map(move |i| bits >> i & 1)
}

#[cfg(test)]
mod tests {
    use super::*;

    #[test]
    fn the_signal_has_the_exact_samples_at_whole_times() {
        let sines = Sines::new();
        for band in [1, 2] {
            let signal = Signal::new(&sines, band, 3, 50);
            for (k, &sample) in signal.samples.iter().enumerate() {
                let value = signal.at(k as f64).round() as i16;
                assert_eq!(value, sample, "sample {k} of band {band}");
            }
            assert_eq!(signal.at(-0.5), 0.0);
            assert_eq!(signal.at(signal.samples.len() as f64), 0.0);
        }
    }
}
