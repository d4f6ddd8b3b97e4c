//! Rows of calls from block to block: of a receiver, with or without indices, and of
//! a tap.

use super::receiver::{
    accepted, assert_events, compare, compare_through, fresh, measured_by, measured_on, numbers,
    read_by, uneven, BlockState, ENTRIES,
};
use super::recording::random_blocks;
use super::refused::{refused, too_long};
use reference::library::Numbers;
use reference::random::Random;

/// The events, their differences and the last state are the same in blocks of each of
/// these sizes. Returns the numbers of the events.
pub fn cut_alike<S: BlockState>(
    state: S,
    samples: &[i16],
    sizes: impl IntoIterator<Item = usize>,
) -> Vec<u16> {
    let (expected, last) = measured_on(state, samples.chunks(16_384));
    for size in sizes {
        let (events, state) = measured_on(state, samples.chunks(size));
        let what = || format!("blocks of {size}");
        assert_events(&events, &expected, what);
        assert_eq!(state, last, "{}", what());
    }
    numbers(&expected)
}

/// The same when the samples are cut once, at every place.
pub fn cut_everywhere<S: BlockState>(state: S, samples: &[i16]) -> Vec<u16> {
    let (expected, last) = measured_on(state, [samples]);
    for cut in 0..=samples.len() {
        let (head, tail) = samples.split_at(cut);
        let (events, state) = measured_on(state, [head, tail]);
        assert_events(&events, &expected, || format!("cut at {cut}"));
        assert_eq!(state, last, "cut at {cut}");
    }
    numbers(&expected)
}

/// The same with refused calls before each block and behind the last.
pub fn refused_between<S: BlockState>(
    random: &mut Random,
    state: S,
    samples: &[i16],
    sizes: impl IntoIterator<Item = usize>,
) -> Vec<u16> {
    let too_long = too_long(random);
    let (expected, last) = measured_on(state, samples.chunks(16_384));
    for size in sizes {
        let (events, state) = measured_by(state, samples.chunks(size), |state, block| {
            refused(random, state, block, &too_long);
            let places = S::places_needed(block.len()) + random.below(3);
            compare(state, block, places)
        });
        refused(random, state, &samples[..size.min(50)], &too_long);
        let what = || format!("blocks of {size}, refused ones between");
        assert_events(&events, &expected, what);
        assert_eq!(state, last, "{}", what());
    }
    numbers(&expected)
}

/// Reads the samples in random blocks, each by the one entry or the other, with
/// refused calls before some of them.
pub fn read_in_turn(
    random: &mut Random,
    band: u8,
    samples: &[i16],
    longest: usize,
) -> (Vec<u16>, Numbers) {
    let too_long = too_long(random);
    let blocks = random_blocks(random, samples, longest);
    read_by(fresh(band), blocks, |state, samples| {
        if random.below(16) == 0 {
            refused(random, state, samples, &too_long);
        }
        let entry = ENTRIES[random.below(2)];
        let places = samples.len() / 48 + 1 + random.below(3);
        let lengths = uneven(samples, places);
        let [reading] = compare_through([entry], state, samples, lengths);
        accepted(reading)
    })
}

/// Each call gets the state that the call before it left. A hostile state is a turn
/// aside, after which the row goes on from the last good one. Each number that a
/// block is refused with must be met, and 0.
pub fn row_of_calls<S: BlockState>(
    random: &mut Random,
    mut state: S,
    calls: usize,
    block: impl Fn(&mut Random) -> Vec<i16>,
) {
    let mut seen = [0; 6];
    for _ in 0..calls {
        let samples = block(random);
        let places = (S::places_needed(samples.len()) + 1).saturating_sub(random.below(3));
        if random.below(8) == 0 {
            let answer = compare(state.spoiled(random), &samples, places).answer;
            assert_eq!(answer.number, 2);
            seen[2] += 1;
        } else {
            let answer = compare(state, &samples, places).answer;
            seen[usize::from(answer.number)] += 1;
            state = answer.state;
        }
    }
    for number in [0, 2, 3, 4, 5] {
        assert!(seen[number] >= 5, "{number} was too rare: {seen:?}");
    }
    assert_eq!(seen[1], 0);
}
