//! The difference in a state: where there must be one and where there must be none, and
//! the numbers that it can have.

use crate::common::indexed::Indexed;
use crate::common::receiver::{compare, compare_accepted, fresh, BlockState, FRESH};
use crate::common::recording::space;
use crate::common::refused::{refused_blocks, refused_with};
use crate::common::states::{byte_limit, is_measured, longest_wait, window_of, HELD};
use crate::common::tap::{tapped, PAIRS};
use crate::common::weighed::Weighed;
use crate::common::BANDS;
use reference::library::Numbers;

/// A difference in its range, and none.
const GOOD: [i64; 5] = [0, 1, 200_000_000_000_000_000, i64::MAX - 1, i64::MAX];
const BAD: [i64; 4] = [-1, -2, i64::MIN + 1, i64::MIN];

/// The search, a held break, and each slot with its first and last wait.
fn stages() -> Vec<[u8; 4]> {
    let mut stages = vec![[0; 4], HELD];
    for slot in 0..=9 {
        for wait in [1, 2, longest_wait(slot)] {
            for byte in [0, byte_limit(slot) - 1] {
                stages.push([1, wait, slot, byte as u8]);
            }
        }
    }
    stages
}

/// All pairs of `measured` and `smallest`.
fn pairs() -> Vec<(u8, i64)> {
    let numbers = [&GOOD[..], &BAD].concat();
    let of = |measured| numbers.iter().map(move |&smallest| (measured, smallest));
    [0, 1, 2, 3, 127, 128, 254, 255]
        .into_iter()
        .flat_map(of)
        .collect()
}

/// Every stage with every pair: an accepted call gives the state in its one form, and a
/// refused one gives it as it was handed, before all other refusals.
fn every_stage_and_pair<S: BlockState>(with: impl Fn(Numbers) -> S) {
    let blocks = refused_blocks::<S>();
    let mut seen = [0; 2];
    for stage in stages() {
        for (measured, smallest) in pairs() {
            let handed = Numbers {
                measured,
                smallest,
                ..FRESH.with_stage(stage)
            };
            let due = is_measured(stage);
            let expected = match measured {
                0 if !due => Some(None),
                1 if due && smallest >= 0 => Some(Some(smallest)),
                _ => None,
            };
            seen[usize::from(expected.is_some())] += 1;
            let state = with(handed);
            let what = || format!("{stage:?}, {measured}, {smallest}");
            if let Some(smallest) = expected {
                let answer = compare(state, &[], S::places_needed(0)).answer;
                let one_form = with(handed.with_smallest(smallest));
                assert_eq!((answer.number, answer.state), (0, one_form), "{}", what());
                for (samples, places, number) in &blocks {
                    refused_with(*number, state, samples, *places);
                }
            } else {
                refused_with(2, state, &[], S::places_needed(0));
                for (samples, places, _) in &blocks {
                    refused_with(2, state, samples, *places);
                }
            }
        }
    }
    // Two stages and two slots have none, and take any number for it; eight slots have one.
    let [without, due] = [2 + 2 * 6, 8 * 6];
    assert_eq!(seen[1], 9 * without + 5 * due);
    assert_eq!(seen[0] + seen[1], stages().len() * pairs().len());
}

#[test]
fn of_a_receiver() {
    every_stage_and_pair(|state| state);
}

#[test]
fn of_a_receiver_with_indices() {
    every_stage_and_pair(Indexed);
}

#[test]
fn of_either_receiver_of_a_tap() {
    let of = |band, state| Numbers { band, ..state };
    for [first, second] in PAIRS {
        every_stage_and_pair(|state| tapped(of(first, state), fresh(second)));
        every_stage_and_pair(|state| tapped(fresh(first), of(second, state)));
    }
}

/// Every number that `measured` can be, where there is a difference and where there is
/// none.
#[test]
fn every_number_of_measured() {
    for measured in 0..=255 {
        for (stage, taken) in [([0; 4], 0), (HELD, 0), ([1, 9, 1, 0], 0), ([1, 9, 2, 1], 1)] {
            let state = Numbers {
                measured,
                smallest: 7,
                ..FRESH.with_stage(stage)
            };
            let expected = if measured == taken { 0 } else { 2 };
            let number = compare(state, &[], 1).answer.number;
            assert_eq!(number, expected, "{stage:?}, {measured}");
        }
    }
}

/// Each number is kept through the wait, and at the slot the smaller one is, of this and
/// of the slot's own.
#[test]
fn what_becomes_of_it() {
    for band in BANDS {
        for bit in [0, 1] {
            let window = window_of(band, bit, 1);
            let own = Weighed::new(band, window).difference();
            let near = [own - 1, own, own + 1];
            for smallest in [&GOOD[..], &near].concat() {
                for slot in 2..=9 {
                    let stage = [1, 33, slot, 0];
                    let waiting = |wait: u8| Numbers {
                        band,
                        window,
                        run: 32,
                        wait,
                        ..FRESH.with_stage(stage).with_smallest(Some(smallest))
                    };
                    // The window comes round with the last sample of the wait.
                    for count in 0..32 {
                        let found = compare_accepted(waiting(32), &window[..count]);
                        let next = found.answer.state;
                        assert_eq!((next.measured, next.smallest), (1, smallest));
                        assert_eq!(found.events(), []);
                    }
                    let found = compare_accepted(waiting(32), &window);
                    let next = found.answer.state;
                    let least = smallest.min(own);
                    if slot < 9 {
                        assert_eq!((next.measured, next.smallest), (1, least));
                    } else {
                        assert_eq!((next.measured, next.smallest), (0, 0));
                        assert_eq!(found.differences(), [least]);
                    }
                }
            }
        }
    }
}

/// At slots 0 and 1 there is none, and the first data bit begins with its own.
#[test]
fn where_it_begins() {
    for band in BANDS {
        let line = space(band, 64);
        let [window, behind] = [0, 1].map(|part| {
            let part = &line[32 * part..][..32];
            part.try_into().expect("a whole window")
        });
        let own = Weighed::new(band, behind).difference();
        for smallest in [0, 1, -1, i64::MIN, i64::MAX] {
            let state = |stage| Numbers {
                band,
                window,
                run: 32,
                smallest,
                ..FRESH.with_stage(stage)
            };
            for (stage, count, next, measured) in [
                ([1, 16, 0, 0], 15, [1, 1, 0, 0], None),
                ([1, 16, 0, 0], 16, [1, 32, 1, 0], None),
                ([1, 32, 1, 0], 31, [1, 1, 1, 0], None),
                ([1, 32, 1, 0], 32, [1, 32, 2, 0], Some(own)),
            ] {
                let found = compare_accepted(state(stage), &behind[..count]);
                let expected = found.answer.state.with_stage(next).with_smallest(measured);
                assert_eq!(found.answer.state, expected, "band {band}, {stage:?}");
            }
        }
    }
}
