//! Blocks that a tap reads on from any state in range.

use crate::common::met::assert_frequent;
use crate::common::receiver::{compare_accepted, measured_on, numbers, WINDOW};
use crate::common::tap::{any_line, good_tap_of, kinds_of, tapped, PAIRS};
use reference::random::Random;

/// A block cut in two gives the same as the whole, whatever the state.
#[test]
fn random_states() {
    let mut random = Random::new(98);
    for pair in PAIRS {
        let mut met = Vec::new();
        for _ in 0..10_000 {
            let tap = good_tap_of(&mut random, pair);
            let size = random.below(300);
            let line = any_line(&mut random, pair, size);
            let whole = compare_accepted(tap, &line);
            let (head, tail) = line.split_at(random.below(size + 1));
            let (events, last) = measured_on(tap, [head, tail]);
            assert_eq!(whole.measured(), events, "{tap:?}");
            assert_eq!(whole.answer.state, last, "{tap:?}");
            met.extend(numbers(&events));
        }
        for kinds in kinds_of(pair, &met) {
            assert_frequent(kinds, [100, 100, 100, 3, 100]);
        }
    }
}

/// The windows that are handed in need not agree. After 32 samples each holds the
/// last 32, and before that some of its own.
#[test]
fn the_windows_hold_the_last_samples() {
    let mut random = Random::new(99);
    for pair in PAIRS {
        let mut differ = 0;
        for size in 0..=100 {
            let tap = good_tap_of(&mut random, pair);
            let line = any_line(&mut random, pair, size);
            let next = compare_accepted(tap, &line).answer.state;
            for (handed, next) in [(tap.first, next.first), (tap.second, next.second)] {
                let all = [&handed.window[..], &line].concat();
                assert_eq!(next.window, all[size..], "{size} samples");
                assert_eq!(next.band, handed.band);
            }
            differ += usize::from(next.first.window != next.second.window);
        }
        assert!((25..=WINDOW).contains(&differ), "{pair:?}: {differ}");
    }
}

/// Nothing of one receiver reaches the other: each goes on the same beside any other
/// state.
#[test]
fn each_by_itself() {
    let mut random = Random::new(100);
    for pair in PAIRS.into_iter().cycle().take(4_000) {
        let [tap, other] = [(); 2].map(|()| good_tap_of(&mut random, pair));
        let size = random.below(200);
        let line = any_line(&mut random, pair, size);
        let next = compare_accepted(tap, &line).answer.state;
        let beside = compare_accepted(tapped(tap.first, other.second), &line);
        assert_eq!(beside.answer.state.first, next.first, "{tap:?}");
        let beside = compare_accepted(tapped(other.first, tap.second), &line);
        assert_eq!(beside.answer.state.second, next.second, "{tap:?}");
    }
}
