//! Sendings of the reference's transmitter, and recordings of them.

use super::receiver::BREAK;
use super::sines;
use super::states::steps;
use reference::disturbance::MOST;
use reference::random::Random;
use reference::transmitter;

/// Leader, characters and trailer.
pub fn sending(band: u8, message: &[u8]) -> Vec<i16> {
    transmitter::sending(sines(), band, message)
}

/// The start bit, the data bits and the stop bit.
fn framed(byte: u8) -> [usize; 10] {
    std::array::from_fn(|place| match place {
        0 => 0,
        9 => 1,
        _ => usize::from(byte >> (place - 1) & 1),
    })
}

/// The bits of a sending: leader, characters and trailer.
pub fn bits(message: &[u8]) -> Vec<usize> {
    let characters = message.iter().flat_map(|&byte| framed(byte));
    let idle = [1; 3];
    idle.into_iter().chain(characters).chain(idle).collect()
}

/// The same with space for the stop bit of the first character.
pub fn no_stop_bit(message: &[u8]) -> Vec<usize> {
    let mut bits = bits(message);
    // Behind the leader, the start bit and the data.
    bits[3 + 1 + 8] = 0;
    bits
}

/// The samples of any bits, from phase 0.
pub fn keyed(band: u8, bits: &[usize]) -> Vec<i16> {
    toned(band, bits.iter().flat_map(|&bit| [bit; 32]))
}

/// The same of bits that may change at any sample: there is one for each.
pub fn toned(band: u8, bits: impl IntoIterator<Item = usize>) -> Vec<i16> {
    let mut phase = 0;
    let sample = |bit: usize| {
        let sample = sines().s(phase);
        phase += steps(band)[bit];
        sample
    };
    bits.into_iter().map(sample).collect()
}

/// Two phases of the other tone that leave a bit in doubt. In bands 3 and 4 not every
/// phase does.
const IN_DOUBT: [[usize; 2]; 4] = [[0, 840], [0, 840], [240, 1_200], [0, 840]];

/// The samples of any bits, from phase 0, where in one bit the other tone is as strong,
/// from one of two phases on. The tone of the bit runs through it.
pub fn keyed_in_doubt(band: u8, bits: &[usize], place: usize, which: usize) -> Vec<i16> {
    let mut samples = keyed(band, bits);
    let phase = IN_DOUBT[usize::from(band) - 1][which];
    let step = steps(band)[1 - bits[place]];
    for (index, sample) in samples[32 * place..][..32].iter_mut().enumerate() {
        *sample = (*sample + sines().s(phase + index * step)) / 3 * 2;
    }
    samples
}

/// So many samples of space, from phase 0.
pub fn space(band: u8, count: usize) -> Vec<i16> {
    toned(band, vec![0; count])
}

/// What an operator sends between leader and trailer.
#[derive(Clone, Copy, Debug)]
pub enum Item {
    Character(u8),
    /// So many samples of space, and three mark bits behind them.
    Break(usize),
}

impl Item {
    /// A character, often 00 hexadecimal, or a break of 10 to 40 bits that ends at
    /// any sample.
    pub fn any(random: &mut Random) -> Item {
        match random.below(8) {
            0 => Item::Character(0),
            1..=4 => Item::Character(random.below(256) as u8),
            _ => Item::Break(320 + random.below(961)),
        }
    }

    /// The bit of each sample.
    fn bits(self) -> Vec<usize> {
        match self {
            Item::Character(byte) => framed(byte).map(|bit| [bit; 32]).concat(),
            Item::Break(samples) => [vec![0; samples], vec![1; 96]].concat(),
        }
    }

    /// What the receiver is to tell of it.
    pub fn event(self) -> u16 {
        match self {
            Item::Character(byte) => u16::from(byte),
            Item::Break(_) => BREAK,
        }
    }
}

/// Leader, items and trailer.
pub fn sending_of(band: u8, items: &[Item]) -> Vec<i16> {
    let idle = [1; 96];
    let items = items.iter().flat_map(|item| item.bits());
    toned(band, idle.into_iter().chain(items).chain(idle))
}

/// The sending with silence before and behind it.
pub fn surrounded(sending: &[i16], before: usize, behind: usize) -> Vec<i16> {
    [&vec![0; before], sending, &vec![0; behind]].concat()
}

/// Two lines as one, with silence behind the shorter. Each is two thirds as loud, so
/// that two tones stay in range; what still does not is clipped.
pub fn mixed(first: &[i16], second: &[i16]) -> Vec<i16> {
    let at = |line: &[i16], place| i32::from(line.get(place).copied().unwrap_or(0));
    let sum = |place| (at(first, place) + at(second, place)) * 2 / 3;
    let sample = |place| sum(place).clamp(-8_191, 8_191) as i16;
    (0..first.len().max(second.len())).map(sample).collect()
}

/// Adds to each sample a number of its own, from its place.
pub fn disturbed(recording: &[i16], mut number: impl FnMut(usize) -> i16) -> Vec<i16> {
    let added = |(place, &sample): (usize, &i16)| {
        let number = number(place);
        assert!(number.abs() <= MOST);
        sample + number
    };
    recording.iter().enumerate().map(added).collect()
}

/// A number from -`most` to `most`.
pub fn around_0(random: &mut Random, most: i16) -> i16 {
    let numbers = 2 * usize::from(most.unsigned_abs()) + 1;
    i16::try_from(random.below(numbers)).expect("most is below 2^14") - most
}

/// Numbers from -`most` to `most`.
pub fn noise(random: &mut Random, most: i16, count: usize) -> Vec<i16> {
    (0..count).map(|_| around_0(random, most)).collect()
}

/// All 256 characters, each once, in a random order.
pub fn every_character(random: &mut Random) -> Vec<u8> {
    let mut message: Vec<u8> = (0..=255).collect();
    for last in (1..message.len()).rev() {
        message.swap(last, random.below(last + 1));
    }
    message
}

/// What the receiver is to tell of a message.
pub fn as_events(message: &[u8]) -> Vec<u16> {
    message.iter().map(|&byte| u16::from(byte)).collect()
}

/// The samples in blocks of random sizes up to `longest`, empty ones among them.
pub fn random_blocks<'a>(
    random: &mut Random,
    samples: &'a [i16],
    longest: usize,
) -> Vec<&'a [i16]> {
    let mut blocks = Vec::new();
    let mut rest = samples;
    while !rest.is_empty() {
        let size = random.below(longest + 1).min(rest.len());
        let (block, behind) = rest.split_at(size);
        blocks.push(block);
        rest = behind;
    }
    blocks
}
