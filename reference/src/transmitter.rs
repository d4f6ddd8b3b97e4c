//! The transmitter of the specification, sample by sample.

use crate::sine::Sines;

pub(crate) const CYCLE: u16 = 1_920;
const SAMPLES_PER_BIT: usize = 32;
pub(crate) const IDLE_SAMPLES: usize = 96;
pub(crate) const CHARACTER_SAMPLES: usize = 320;
pub(crate) const MOST_CHARACTERS: usize = 100;

/// Steps of bit 0 (space) and bit 1 (mark), from band 1 on. Either may be the larger.
pub const STEPS: [[u16; 2]; 4] = [[214, 254], [405, 445], [236, 196], [370, 330]];

#[derive(Clone, Copy, Debug, PartialEq, Eq)]
pub struct State {
    pub band: u8,
    pub phase: u16,
}

/// What a call returns besides the samples it leaves in the lent output.
#[derive(Clone, Copy, Debug, PartialEq, Eq)]
pub struct Answer {
    pub number: u8,
    pub count: usize,
    pub state: State,
}

pub(crate) fn is_band(band: u8) -> bool {
    (1..=STEPS.len()).contains(&usize::from(band))
}

impl State {
    fn is_in_range(self) -> bool {
        is_band(self.band) && self.phase < CYCLE
    }

    /// The sample at the present phase, after which the phase grows.
    fn sample(&mut self, sines: &Sines, bit: u8) -> i16 {
        let sample = sines.s(usize::from(self.phase));
        let step = STEPS[usize::from(self.band) - 1][usize::from(bit)];
        self.phase = (self.phase + step) % CYCLE;
        sample
    }
}

/// The number and the fresh state; band 1 stands in for a refused band.
pub fn open(band: u8) -> (u8, State) {
    if is_band(band) {
        (0, State { band, phase: 0 })
    } else {
        (1, State { band: 1, phase: 0 })
    }
}

/// Sends three mark bits.
pub fn idle(sines: &Sines, state: State, out: &mut [i16]) -> Answer {
    if !state.is_in_range() {
        refused(2, state)
    } else if out.len() < IDLE_SAMPLES {
        refused(4, state)
    } else {
        send(sines, state, &[1, 1, 1], out)
    }
}

/// Sends each byte as a start bit, eight data bits and a stop bit.
pub fn characters(sines: &Sines, state: State, bytes: &[u8], out: &mut [i16]) -> Answer {
    if !state.is_in_range() {
        refused(2, state)
    } else if bytes.len() > MOST_CHARACTERS {
        refused(3, state)
    } else if out.len() < CHARACTER_SAMPLES * bytes.len() {
        refused(4, state)
    } else {
        let bits: Vec<u8> = bytes.iter().flat_map(|&byte| framed(byte)).collect();
        send(sines, state, &bits, out)
    }
}

fn refused(number: u8, state: State) -> Answer {
    Answer {
        number,
        count: 0,
        state,
    }
}

/// Start bit 0, the data bits from the least significant, stop bit 1.
pub(crate) fn framed(byte: u8) -> [u8; 10] {
    let mut bits = [0; 10];
    for i in 0..8 {
        bits[1 + i] = (byte >> i) & 1;
    }
    bits[9] = 1;
    bits
}

/// Writes the samples of `bits` to the front of `out`.
fn send(sines: &Sines, mut state: State, bits: &[u8], out: &mut [i16]) -> Answer {
    let mut count = 0;
    for &bit in bits {
        for _ in 0..SAMPLES_PER_BIT {
            out[count] = state.sample(sines, bit);
            count += 1;
        }
    }
    Answer {
        number: 0,
        count,
        state,
    }
}

/// A whole sending from the fresh state of a known band: leader,
/// characters and trailer.
pub fn sending(sines: &Sines, band: u8, message: &[u8]) -> Vec<i16> {
    let mut samples = Vec::new();
    let mut buffer = [0; CHARACTER_SAMPLES * MOST_CHARACTERS];
    let mut append = |answer: Answer, buffer: &[i16]| {
        assert_eq!(answer.number, 0);
        samples.extend_from_slice(&buffer[..answer.count]);
        answer.state
    };
    let (number, mut state) = open(band);
    assert_eq!(number, 0);
    state = append(idle(sines, state, &mut buffer), &buffer);
    for bytes in message.chunks(MOST_CHARACTERS) {
        let answer = characters(sines, state, bytes, &mut buffer);
        state = append(answer, &buffer);
    }
    append(idle(sines, state, &mut buffer), &buffer);
    samples
}
