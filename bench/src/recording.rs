//! The recordings that are read.

use reference::random::Random;
use reference::receiver::{self, Answer, Lists, BREAK, LARGEST_SAMPLE, MOST_SAMPLES};
use reference::sine::Sines;
use reference::tap;
use reference::transmitter::{self, STEPS};

pub const SEED: u64 = 20;
pub const DISTURBANCE: i16 = 100;
/// Sent behind silence, idle mark and a break, which have no event of their own or
/// one: so a reader that loses its place in them is caught.
const END: &[u8] = b"END";
/// After so many samples of space the break has been told.
const TOLD: usize = 400;
const SAMPLES_PER_SECOND: u32 = 9_600;
const BYTES_PER_SAMPLE: u32 = 2;

pub struct Recording {
    pub band: u8,
    pub samples: Vec<i16>,
    /// What the specification's rule makes of it.
    pub events: Vec<u16>,
    /// The characters of a sending.
    pub message: Option<Vec<u8>>,
}

impl Recording {
    /// A sending of random characters, each sample altered at random.
    pub fn sending(sines: &Sines, band: u8, characters: usize) -> Recording {
        let mut random = Random::new(SEED);
        let message = random.bytes(characters);
        let sent = transmitter::sending(sines, band, &message);
        Recording {
            band,
            samples: disturbed(sent, random),
            events: as_events(&message),
            message: Some(message),
        }
    }

    /// Silence and the end, each sample altered likewise.
    pub fn silence(sines: &Sines, band: u8, length: usize) -> Recording {
        Recording::ended(sines, band, vec![0; length], &[])
    }

    /// The tone of mark and the end, each sample altered likewise.
    pub fn idle_mark(sines: &Sines, band: u8, length: usize) -> Recording {
        Recording::ended(sines, band, tone(sines, band, 1, length), &[])
    }

    /// The tone of space, which is a break, and the end, each sample altered
    /// likewise.
    pub fn held_space(sines: &Sines, band: u8, length: usize) -> Recording {
        Recording::ended(sines, band, tone(sines, band, 0, length), &[BREAK])
    }

    /// The same with silence as soon as the break is told. It is still held there.
    pub fn held_silence(sines: &Sines, band: u8, length: usize) -> Recording {
        let mut samples = tone(sines, band, 0, length);
        samples[TOLD..].fill(0);
        Recording::ended(sines, band, samples, &[BREAK])
    }

    /// Samples with these events, and the end behind them.
    fn ended(sines: &Sines, band: u8, mut samples: Vec<i16>, events: &[u16]) -> Recording {
        samples.extend(transmitter::sending(sines, band, END));
        let samples = disturbed(samples, Random::new(SEED));
        let recording = Recording::of(sines, band, samples);
        assert!(recording.events == [events, &as_events(END)].concat());
        recording
    }

    /// Samples of the whole range.
    pub fn noise(sines: &Sines, band: u8, length: usize) -> Recording {
        let mut random = Random::new(SEED);
        let samples = (0..length).map(|_| around_0(&mut random, LARGEST_SAMPLE));
        Recording::of(sines, band, samples.collect())
    }

    /// A sending of random characters in each of bands 1 and 2 on one line, each at
    /// two thirds of its amplitude, so that all samples are in range when they are
    /// altered likewise.
    pub fn both_bands(sines: &Sines, band: u8, characters: usize) -> Recording {
        let mut random = Random::new(SEED);
        let [first, second] =
            [1, 2].map(|band| transmitter::sending(sines, band, &random.bytes(characters)));
        let both = first.iter().zip(&second);
        let sum = both.map(|(&first, &second)| first / 3 * 2 + second / 3 * 2);
        let samples = disturbed(sum.collect(), random);
        Recording::of(sines, band, samples)
    }

    /// The same samples, with the events of a tap of bands 1 and 2.
    pub fn tapped(&self, sines: &Sines) -> Recording {
        let samples = self.samples.clone();
        let (_, fresh) = tap::open(1, 2);
        let block = |state, samples: &[i16], lists: Lists| tap::block(sines, state, samples, lists);
        Recording {
            band: self.band,
            events: step_by_step(fresh, &samples, block),
            samples,
            message: None,
        }
    }

    /// These samples, which hold no message to count.
    pub fn of(sines: &Sines, band: u8, samples: Vec<i16>) -> Recording {
        let (_, fresh) = receiver::open(band);
        let block =
            |state, samples: &[i16], lists: Lists| receiver::block(sines, state, samples, lists);
        Recording {
            band,
            events: step_by_step(fresh, &samples, block),
            samples,
            message: None,
        }
    }

    /// The bytes of a WAV file of the samples.
    pub fn wav(&self) -> Vec<u8> {
        let length = (BYTES_PER_SAMPLE as usize * self.samples.len()) as u32;
        let bytes_per_second = BYTES_PER_SAMPLE * SAMPLES_PER_SECOND;
        // 16 bytes of format: plain numbers in one channel, the two rates, and
        // samples of 2 bytes that use 16 bits.
        let format = [
            16,
            0x0001_0001,
            SAMPLES_PER_SECOND,
            bytes_per_second,
            0x0010_0002,
        ];
        let mut bytes = b"RIFF".to_vec();
        bytes.extend((36 + length).to_le_bytes());
        bytes.extend(b"WAVEfmt ");
        bytes.extend(format.map(u32::to_le_bytes).concat());
        bytes.extend(b"data");
        bytes.extend(length.to_le_bytes());
        bytes.extend(self.samples.iter().flat_map(|sample| sample.to_le_bytes()));
        bytes
    }
}

fn as_events(message: &[u8]) -> Vec<u16> {
    message.iter().map(|&byte| byte.into()).collect()
}

/// So many samples of the tone of a bit.
fn tone(sines: &Sines, band: u8, bit: usize, length: usize) -> Vec<i16> {
    let step = usize::from(STEPS[usize::from(band) - 1][bit]);
    (0..length).map(|i| sines.s(i * step)).collect()
}

/// The events of the receiver or the tap that weighs every window and is not
/// measured.
fn step_by_step<S>(
    mut state: S,
    samples: &[i16],
    block: impl Fn(S, &[i16], Lists) -> Answer<S>,
) -> Vec<u16> {
    let mut places = vec![0; tap::places_needed(MOST_SAMPLES)];
    let mut differences = vec![0; places.len()];
    let mut events = Vec::new();
    for samples in samples.chunks(MOST_SAMPLES) {
        let answer = block(state, samples, Lists::new(&mut places, &mut differences));
        assert_eq!(answer.number, 0);
        events.extend(&places[..answer.count]);
        state = answer.state;
    }
    events
}

/// From -`most` to `most`.
fn around_0(random: &mut Random, most: i16) -> i16 {
    random.below(2 * most as usize + 1) as i16 - most
}

fn disturbed(mut samples: Vec<i16>, mut random: Random) -> Vec<i16> {
    for sample in &mut samples {
        *sample += around_0(&mut random, DISTURBANCE);
    }
    samples
}
