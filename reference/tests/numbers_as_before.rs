//! Differences change nothing else: numbers, counts, windows, runs and stages are those
//! of the receiver that had none.

use crate::common::met::{assert_frequent, kinds};
use crate::common::plain::Plain;
use crate::common::receiver::{compare, fresh};
use crate::common::recording::{
    around_0, disturbed, keyed, no_stop_bit, random_blocks, sending, sending_of, surrounded, Item,
};
use crate::common::states::{
    any_block, any_doubt, any_samples, good_state, hostile, is_good, is_good_without,
};
use crate::common::BANDS;
use reference::disturbance::MOST;
use reference::library::Numbers;
use reference::random::Random;

/// Makes the call with a state in its ranges, and compares it with the plain reader's.
/// Returns the number and the events.
fn check(plain: &mut Plain, state: Numbers, samples: &[i16], places: usize) -> (u8, Vec<u16>) {
    let reading = compare(state, samples, places);
    let (number, events) = plain.block(samples, places);
    let what = || format!("{} samples from {state:?} into {places}", samples.len());
    assert_eq!(reading.answer.number, number, "{}", what());
    assert_eq!(reading.events(), events, "{}", what());
    if number == 0 {
        assert!(plain.agrees(reading.answer.state), "{}", what());
    }
    (number, events)
}

/// A row of calls, each from the state that the one before left, with refused ones among
/// them; also for a state out of its ranges, which is a turn aside.
#[test]
fn rows_of_calls() {
    let mut random = Random::new(120);
    let mut seen = [0; 6];
    for band in BANDS {
        let (mut state, mut plain) = (fresh(band), Plain::of(fresh(band)));
        for _ in 0..4_000 {
            let (samples, places) = any_block(&mut random, band);
            if random.below(8) == 0 {
                let hostile = hostile(&mut random, state);
                let number = compare(hostile, &samples, places).answer.number;
                assert_eq!(number, 2, "{hostile:?}");
                // Where the difference alone is out of its range, it was taken before.
                let before = Plain::of(hostile).block(&samples, places).0;
                assert_eq!(before == 2, !is_good_without(&hostile), "{hostile:?}");
            }
            let (number, _) = check(&mut plain, state, &samples, places);
            seen[usize::from(number)] += 1;
            state = compare(state, &samples, places).answer.state;
            assert!(is_good(&state), "{state:?}");
        }
    }
    for number in [0, 3, 4, 5] {
        assert!(seen[number] >= 20, "{number} was too rare: {seen:?}");
    }
}

/// From any state in its ranges.
#[test]
fn random_states() {
    let mut random = Random::new(121);
    let mut met = Vec::new();
    for _ in 0..6_000 {
        let state = good_state(&mut random);
        let count = random.below(300);
        let samples = any_samples(&mut random, state.band, count);
        let mut plain = Plain::of(state);
        met.extend(check(&mut plain, state, &samples, count / 48 + 1).1);
    }
    assert_frequent(kinds(&met), [200, 150, 500, 3, 150]);
}

/// A line of characters, breaks, missing stop bits, doubtful tones and silence.
fn line(random: &mut Random, band: u8) -> Vec<i16> {
    let mut line = Vec::new();
    for _ in 0..12 {
        let piece = match random.below(5) {
            0 => keyed(band, &no_stop_bit(&random.bytes(1))),
            1 => any_doubt(random, band, 200),
            2 => sending_of(band, &[Item::any(random), Item::any(random)]),
            3 => sending(band, &random.bytes(3))[..96 + random.below(960)].to_vec(),
            _ => sending(band, &random.bytes(2)),
        };
        let behind = random.below(100);
        line.extend(surrounded(&piece, 40, behind));
    }
    disturbed(&line, |_| around_0(random, MOST))
}

/// Every kind of event, in blocks of many sizes.
#[test]
fn lines_with_faults() {
    let mut random = Random::new(122);
    for band in BANDS {
        let mut met = Vec::new();
        for longest in [2, 40, 400, 4_000] {
            for _ in 0..4 {
                let samples = line(&mut random, band);
                let mut plain = Plain::of(fresh(band));
                let mut state = fresh(band);
                for block in random_blocks(&mut random, &samples, longest) {
                    let places = block.len() / 48 + 1;
                    met.extend(check(&mut plain, state, block, places).1);
                    state = compare(state, block, places).answer.state;
                }
            }
        }
        assert_frequent(kinds(&met), [80, 5, 5, 5, 5]);
    }
}
