//! Receiver states in range and out of it, and blocks to read from them.

use super::receiver::{FRESH, WINDOW};
use super::recording::noise;
use super::{sines, BANDS, NO_BAND};
use reference::library::Numbers;
use reference::random::Random;

/// The numbers of a held break.
pub const HELD: [u8; 4] = [2, 0, 0, 0];

/// A difference such as characters have.
pub const SOME_DIFFERENCE: i64 = 234_567_890_123_456_789;

/// Whether a receiver in this stage has a smallest difference: it waits for one of the
/// slots 2 to 9.
pub fn is_measured([stage, _, slot, _]: [u8; 4]) -> bool {
    stage == 1 && (2..=9).contains(&slot)
}

/// The ranges of the specification. Of a search and of a held break nothing else
/// is looked at, nor where there is no difference at the number of one.
pub fn is_good(state: &Numbers) -> bool {
    let difference = match state.measured {
        0 => !is_measured(state.stage_numbers()),
        1 => is_measured(state.stage_numbers()) && state.smallest >= 0,
        _ => false,
    };
    difference && is_good_without(state)
}

/// The ranges of all but the difference.
pub fn is_good_without(state: &Numbers) -> bool {
    let [stage, wait, slot, byte] = state.stage_numbers().map(u32::from);
    let stage = match slot {
        _ if stage == 0 || stage == 2 => true,
        _ if stage > 2 => false,
        0 => (1..=16).contains(&wait) && byte == 0,
        1 => (1..=32).contains(&wait) && byte == 0,
        2..=9 => (1..=32).contains(&wait) && byte < 2_u32.pow(slot - 1),
        _ => false,
    };
    let samples = state.window.map(i32::from);
    let window = samples.iter().all(|sample| sample.abs() <= 8_191);
    stage && window && BANDS.contains(&state.band) && state.run <= 32
}

/// The longest wait for a slot.
pub fn longest_wait(slot: u8) -> u8 {
    if slot == 0 {
        16
    } else {
        32
    }
}

/// The byte that is gathered before a slot is below this.
pub fn byte_limit(slot: u8) -> usize {
    if slot < 2 {
        1
    } else {
        1 << (slot - 1)
    }
}

/// The steps of space and mark, once more as the specification has them.
pub fn steps(band: u8) -> [usize; 2] {
    [[214, 254], [405, 445], [236, 196], [370, 330]][usize::from(band) - 1]
}

/// A window of the tone of a bit, at a part of its loudness.
pub fn window_of(band: u8, bit: usize, part: i16) -> [i16; WINDOW] {
    let step = steps(band)[bit];
    std::array::from_fn(|place| sines().s(place * step) / part)
}

/// A tone of space or mark, or one near them, at any phase and loudness.
pub fn tone(random: &mut Random, band: u8, count: usize) -> Vec<i16> {
    let step = match random.below(5) {
        0 => random.below(960),
        other => steps(band)[other % 2],
    };
    tone_of(random, step, count)
}

/// The tone of this step, at any phase and loudness.
pub fn tone_of(random: &mut Random, step: usize, count: usize) -> Vec<i16> {
    let phase = random.below(1_920);
    // In 6000ths; about 1875 of them make the least good level.
    let loudness = match random.below(4) {
        0 => 1_700 + random.below(400),
        1 => random.below(8_192),
        _ => 6_000,
    };
    let sample = |place| {
        let sample = i32::from(sines().s(phase + place * step));
        (sample * loudness as i32 / 6_000) as i16
    };
    (0..count).map(sample).collect()
}

/// Both tones at once, at any phases, about equally strong: the energy of one is up to
/// half as much again as that of the other.
pub fn any_doubt(random: &mut Random, band: u8, count: usize) -> Vec<i16> {
    let [space, mark] = steps(band);
    let phases = [(); 2].map(|()| random.below(1_920));
    // In 6000ths; two tones of 4045 stay in range, also when each sample is altered.
    let larger = 2_000 + random.below(2_046) as i32;
    let smaller = larger * (820 + random.below(181) as i32) / 1_000;
    let [first, second] = [[larger, smaller], [smaller, larger]][random.below(2)];
    let sample = |place| {
        let [space, mark] = [phases[0] + place * space, phases[1] + place * mark];
        let [space, mark] = [space, mark].map(|phase| i32::from(sines().s(phase)));
        ((first * space + second * mark) / 6_000) as i16
    };
    (0..count).map(sample).collect()
}

/// Silence, noise of any loudness, or a tone, each changing now and then.
pub fn any_samples(random: &mut Random, band: u8, count: usize) -> Vec<i16> {
    any_pieces(random, band, count, 300)
}

/// The same, each piece of `longest` samples at most.
pub fn any_pieces(random: &mut Random, band: u8, count: usize, longest: usize) -> Vec<i16> {
    let mut samples = Vec::new();
    while samples.len() < count {
        let piece = 1 + random.below(longest);
        match random.below(8) {
            0 => samples.extend(vec![0; piece]),
            1 | 2 => {
                let most = [100, 1_000, 4_000, 8_191][random.below(4)];
                samples.extend(noise(random, most, piece));
            }
            _ => samples.extend(tone(random, band, piece)),
        }
    }
    samples.truncate(count);
    samples
}

/// A block of any samples, and about the places that it needs. Now and then a place
/// is missing. A band out of range is taken for 1.
pub fn any_block(random: &mut Random, band: u8) -> (Vec<i16>, usize) {
    let band = if BANDS.contains(&band) { band } else { 1 };
    let samples = block_of(random, |random, size| any_samples(random, band, size));
    let places = (samples.len() / 48 + 2).saturating_sub(random.below(3));
    (samples, places)
}

/// A block of the samples that are made, mostly a short one. Now and then it is too
/// long, or a sample is out of range.
pub fn block_of(
    random: &mut Random,
    make: impl FnOnce(&mut Random, usize) -> Vec<i16>,
) -> Vec<i16> {
    let size = match random.below(200) {
        0 => 16_383 + random.below(3),
        _ => random.below(200),
    };
    let mut samples = make(random, size);
    if size > 0 && random.below(8) == 0 {
        let bad = [-32_768, -8_192, 8_192, 32_767];
        samples[random.below(size)] = bad[random.below(bad.len())];
    }
    samples
}

/// Any difference that a state can have: mostly such as characters have, and the ends of
/// its range.
pub fn any_difference(random: &mut Random) -> i64 {
    match random.below(8) {
        0 => [0, 1, i64::MAX - 1, i64::MAX][random.below(4)],
        1 => (random.number() >> 1) as i64,
        _ => (random.number() % 400_000_000_000_000_000) as i64,
    }
}

/// Any number that is no difference.
fn below_0(random: &mut Random) -> i64 {
    [-1, i64::MIN, -1 - any_difference(random)][random.below(3)]
}

/// The state with such a difference as its stage must have, or none.
fn measured(random: &mut Random, state: Numbers) -> Numbers {
    let due = is_measured(state.stage_numbers());
    state.with_smallest(due.then(|| any_difference(random)))
}

/// Any state in range of the band, mostly waiting; a search or a held break may have
/// any numbers behind it, and so may the number of no difference.
pub fn good_state_of(random: &mut Random, band: u8) -> Numbers {
    let window = any_samples(random, band, WINDOW);
    let run = match random.below(3) {
        0 => 32,
        _ => random.below(33) as u8,
    };
    let stage = match random.below(5) {
        half @ (0 | 1) => {
            let rest = if random.below(2) == 0 { 1 } else { 256 };
            let mut number = || random.below(rest) as u8;
            [[0, 2][half], number(), number(), number()]
        }
        _ => {
            let slot = random.below(10) as u8;
            let wait = 1 + random.below(usize::from(longest_wait(slot)));
            let byte = random.below(byte_limit(slot));
            [1, wait as u8, slot, byte as u8]
        }
    };
    let window = window.try_into().expect("a whole window");
    let fresh = Numbers { band, ..FRESH };
    let state = Numbers {
        window,
        run,
        ..fresh
    }
    .with_stage(stage);
    let mut state = measured(random, state);
    if state.measured == 0 && random.below(2) == 0 {
        state.smallest = [any_difference, below_0][random.below(2)](random);
    }
    assert!(is_good(&state), "{state:?}");
    state
}

/// The same of any band.
pub fn good_state(random: &mut Random) -> Numbers {
    let band = BANDS[random.below(BANDS.len())];
    good_state_of(random, band)
}

/// A state in range with one field put out of it.
pub fn hostile_state(random: &mut Random) -> Numbers {
    let good = good_state(random);
    hostile(random, good)
}

/// The state, which is in range, with one field put out of it.
pub fn hostile(random: &mut Random, mut state: Numbers) -> Numbers {
    match random.below(10) {
        0 => state.band = [0, NO_BAND, NO_BAND + 1, 128, 255][random.below(5)],
        1 => state.run = 33 + random.below(256 - 33) as u8,
        2 => {
            let bad = [-32_768, -8_193, -8_192, 8_192, 8_193, 32_767];
            state.window[random.below(WINDOW)] = bad[random.below(bad.len())];
        }
        3 => state.stage = 3 + random.below(256 - 3) as u8,
        4 => state.measured = [2, 255, 2 + random.below(254) as u8][random.below(3)],
        // A difference is missing, or there is one too many.
        5 => {
            state.measured = 1 - state.measured;
            state.smallest = any_difference(random);
        }
        6 => {
            let slot = 2 + random.below(8) as u8;
            let smallest = Some(below_0(random));
            state = state.with_stage([1, 1, slot, 0]).with_smallest(smallest);
        }
        _ => {
            state = state.with_stage(hostile_wait(random));
            state = measured(random, state);
        }
    }
    assert!(!is_good(&state), "{state:?}");
    state
}

/// A stage that waits with one of its numbers out of range.
fn hostile_wait(random: &mut Random) -> [u8; 4] {
    match random.below(3) {
        0 => {
            let slot = random.below(10) as u8;
            let waits = [0, longest_wait(slot) + 1, 255];
            [1, waits[random.below(waits.len())], slot, 0]
        }
        1 => [1, 1, 10 + random.below(246) as u8, 0],
        _ => {
            let slot = random.below(9) as u8;
            let least = byte_limit(slot);
            let byte = least + random.below(256 - least);
            [1, 1, slot, byte as u8]
        }
    }
}

/// A fresh state of band 1 with another stage, and some difference if it must have one.
pub fn with_stage(stage: [u8; 4]) -> Numbers {
    let smallest = is_measured(stage).then_some(SOME_DIFFERENCE);
    FRESH.with_stage(stage).with_smallest(smallest)
}
