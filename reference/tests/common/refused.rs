//! Calls that are refused, by themselves and between others, which must change
//! nothing.

use super::receiver::{compare, BlockState, MOST_SAMPLES};
use super::recording::noise;
use super::states::{any_samples, with_stage};
use reference::library::Numbers;
use reference::random::Random;

/// Samples that are taken, but for those at `bad`.
pub fn samples(count: usize, bad: &[(usize, i16)]) -> Vec<i16> {
    let mut samples = any_samples(&mut Random::new(12), 1, count);
    for &(place, sample) in bad {
        samples[place] = sample;
    }
    samples
}

/// Two blocks, of 96 samples and of too many, without a sample out of range and with
/// one.
fn blocks() -> [[Vec<i16>; 2]; 2] {
    let both = |count, bad| [samples(count, &[]), samples(count, &[bad])];
    [both(96, (95, -8_192)), both(MOST_SAMPLES + 1, (7, 8_192))]
}

/// All sixteen combinations of the four conditions, from many states: the first in
/// the order 2, 3, 5, 4 counts.
pub fn first_condition_counts<S: BlockState>(seed: u64, good: impl Fn(&mut Random) -> S) {
    let mut random = Random::new(seed);
    let blocks = blocks();
    let mut seen = [0; 6];
    for _ in 0..200 {
        for conditions in 0..16 {
            let [hostile, over, bad, too_short] = [1, 2, 4, 8].map(|bit| conditions & bit != 0);
            let mut state = good(&mut random);
            if hostile {
                state = state.spoiled(&mut random);
            }
            let samples = &blocks[usize::from(over)][usize::from(bad)];
            let exact = S::places_needed(samples.len());
            let places = if too_short {
                random.below(exact)
            } else {
                exact + random.below(3)
            };
            let expected = match (hostile, over, bad, too_short) {
                (true, ..) => 2,
                (_, true, ..) => 3,
                (_, _, true, _) => 5,
                (.., true) => 4,
                _ => 0,
            };
            let found = number(state, samples, places);
            assert_eq!(found, expected, "{state:?}, conditions {conditions:04b}");
            seen[usize::from(found)] += 1;
        }
    }
    assert_eq!(seen, [200, 0, 1_600, 800, 200, 400]);
}

fn number<S: BlockState>(state: S, samples: &[i16], places: usize) -> u8 {
    compare(state, samples, places).answer.number
}

/// Lists of any length, from none to more than enough, for blocks of many lengths:
/// one that is too short is refused with 4. `more` names lengths to try besides.
pub fn short_lists<S: BlockState>(state: S, more: impl Fn(usize) -> [usize; 3]) {
    for count in (0..=300).chain([4_799, 4_800, 16_319, 16_320, 16_383, 16_384]) {
        let samples = samples(count, &[]);
        let exact = S::places_needed(count);
        let near = exact.saturating_sub(4)..=exact + 2;
        for places in near.chain(more(count)) {
            let expected = if places < exact { 4 } else { 0 };
            let found = number(state, &samples, places);
            assert_eq!(found, expected, "{count} samples into {places}");
        }
    }
}

/// A sample out of range is refused with 5 wherever it stands.
pub fn bad_samples<S: BlockState>(state: S) {
    let values = [-32_768, -20_000, -8_193, -8_192, 8_192, 8_193, 32_767];
    for place in 0..150 {
        let found = |value| {
            number(
                state,
                &samples(150, &[(place, value)]),
                S::places_needed(150),
            )
        };
        for value in values {
            assert_eq!(found(value), 5, "{value} at {place}");
        }
        for value in [-8_191, 8_191] {
            assert_eq!(found(value), 0, "{value} at {place}");
        }
    }
    for place in [0, 1, 8_191, 16_382, 16_383] {
        for value in values {
            let samples = samples(MOST_SAMPLES, &[(place, value)]);
            let found = number(state, &samples, S::places_needed(MOST_SAMPLES));
            assert_eq!(found, 5, "{value} at {place}");
        }
    }
}

/// The lists of calls that are refused with 3, 5 and 4, whatever the state.
pub fn refused_blocks<S: BlockState>() -> [(Vec<i16>, usize, u8); 3] {
    let places = S::places_needed;
    [
        (samples(MOST_SAMPLES + 1, &[]), places(MOST_SAMPLES + 1), 3),
        (samples(50, &[(20, 9_000)]), places(50), 5),
        (samples(50, &[]), places(50) - 1, 4),
    ]
}

/// A stage with other numbers than 0 behind it, which it does not have, and with another
/// number than 0 for no difference, is handed back by a refusal as it is, and brought
/// into its one form by an accepted call. `with` gives the state that has the stage.
pub fn other_forms<S: BlockState>(stage: u8, with: impl Fn(Numbers) -> S) {
    for (rest, smallest) in [
        ([1, 2, 3], 0),
        ([255, 255, 255], -1),
        ([0, 0, 1], i64::MAX),
        ([0, 9, 0], i64::MIN),
        ([16, 0, 0], 1),
        ([0, 0, 0], 1),
    ] {
        let [wait, slot, byte] = rest;
        let odd = Numbers {
            smallest,
            ..with_stage([stage, wait, slot, byte])
        };
        let (state, one_form) = (with(odd), with(with_stage([stage, 0, 0, 0])));
        let empty = compare(state, &[], S::places_needed(0)).answer;
        assert_eq!((empty.number, empty.state), (0, one_form), "{rest:?}");
        for (samples, places, number) in refused_blocks::<S>() {
            refused_with(number, state, &samples, places);
        }
        let hostile = with(Numbers { run: 33, ..odd });
        refused_with(2, hostile, &[], S::places_needed(0));
    }
}

/// A block of one sample more than the most.
pub fn too_long(random: &mut Random) -> Vec<i16> {
    noise(random, 8_191, MOST_SAMPLES + 1)
}

/// Makes calls that are refused with 2, 3, 5 and 4; `compare` checks that each
/// leaves state and list as they were. The blocks of the last two are the next
/// of the recording, or nearly; an empty one has no sample to be refused for.
pub fn refused<S: BlockState>(random: &mut Random, state: S, next: &[i16], too_long: &[i16]) {
    let places = S::places_needed(next.len());
    refused_with(2, state.spoiled(random), next, places);
    refused_with(3, state, too_long, too_long.len());
    if !next.is_empty() {
        let mut bad = next.to_vec();
        bad[random.below(next.len())] = [8_192, -8_192, -32_768][random.below(3)];
        refused_with(5, state, &bad, places);
    }
    refused_with(4, state, next, random.below(places));
}

/// Refused with this number, the state handed back as it is.
pub fn refused_with<S: BlockState>(number: u8, state: S, samples: &[i16], places: usize) {
    let answer = compare(state, samples, places).answer;
    let found = (answer.number, answer.count, answer.state);
    assert_eq!(found, (number, 0, state));
}
