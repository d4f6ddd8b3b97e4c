//! Disturbances that are as large as is allowed at every sample, up or down.

use super::recording::bits;
use super::sines;
use super::states::steps;
use reference::disturbance::MOST;
use reference::random::Random;

/// What is added to the samples of a message, each with a name. The first three
/// help one tone: space in every bit, mark in every bit, and the wrong one.
pub fn largest(band: u8, message: &[u8]) -> [(&'static str, Vec<i16>); 5] {
    let [space, mark] = steps(band);
    let count = 32 * bits(message).len();
    [
        ("tone of space", tone(count, space)),
        ("tone of mark", tone(count, mark)),
        ("tone of the wrong bit", wrong_bits(message, [space, mark])),
        ("plus and minus in turn", in_turn(count)),
        ("random signs", random_signs(count)),
    ]
}

/// As large as is allowed, below 0 or not.
fn signed(negative: bool) -> i16 {
    if negative {
        -MOST
    } else {
        MOST
    }
}

fn sign_at(phase: usize) -> i16 {
    signed(sines().s(phase) < 0)
}

/// The signs of one tone, from phase 0 on.
fn tone(count: usize, step: usize) -> Vec<i16> {
    (0..count).map(|place| sign_at(place * step)).collect()
}

/// The signs of the sending with the tones of its bits exchanged.
fn wrong_bits(message: &[u8], steps: [usize; 2]) -> Vec<i16> {
    let mut phase = 0;
    let mut signs = Vec::new();
    for bit in bits(message) {
        for _ in 0..32 {
            signs.push(sign_at(phase));
            phase += steps[1 - bit];
        }
    }
    signs
}

fn in_turn(count: usize) -> Vec<i16> {
    (0..count).map(|place| signed(place % 2 == 1)).collect()
}

fn random_signs(count: usize) -> Vec<i16> {
    let mut random = Random::new(66);
    (0..count).map(|_| signed(random.below(2) == 0)).collect()
}
