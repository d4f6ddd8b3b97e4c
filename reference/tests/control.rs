//! The rule of one sample, over every run, stage and decision: a block of one
//! sample, whose window is made for the decision.

use crate::common::doubtful::{edge, tie, BELOW, FIVE_TO_FOUR, ONE_LESS};
use crate::common::receiver::{guarded, BREAK, DOUBT, WINDOW};
use crate::common::states::{byte_limit, longest_wait, window_of, with_stage, HELD};
use crate::common::weighed::{assert_measured, lowered, Weighed};
use crate::common::BANDS;
use reference::library::{receiver_block, Numbers};
use reference::receiver::{moved_by, Decision, State};

/// Every stage in its ranges, with some of the bytes: the search, a held break, and
/// waits.
fn stages() -> Vec<[u8; 4]> {
    let mut stages = vec![[0; 4], HELD];
    for slot in 0..=9 {
        let limit = byte_limit(slot);
        for wait in 1..=longest_wait(slot) {
            for byte in [0, 1, 127, 128, limit / 2, limit - 1] {
                if byte < limit {
                    stages.push([1, wait, slot, byte as u8]);
                }
            }
        }
    }
    stages
}

/// 32 samples of a tone or of both, and what the energies of space and mark in them
/// decide: whether the level is good, whether space is above mark, and whether it is
/// doubtful.
fn windows(band: u8) -> [([i16; WINDOW], [bool; 3]); 12] {
    let [space, mark] = [0, 1].map(|bit| move |part| window_of(band, bit, part));
    let [more_space, more_mark] = [0, 1].map(|bit| move |row| edge(band, bit, row).window);
    [
        (space(1), [true, true, false]),
        (mark(1), [true, false, false]),
        (space(4), [false, true, false]),
        (mark(4), [false, false, false]),
        ([0; WINDOW], [false; 3]),
        (more_space(FIVE_TO_FOUR), [true, true, false]),
        (more_mark(FIVE_TO_FOUR), [true, false, false]),
        (more_space(ONE_LESS), [true, true, true]),
        (more_mark(ONE_LESS), [true, false, true]),
        (tie(band).window, [true, false, true]),
        (more_space(BELOW), [false, true, true]),
        (more_mark(BELOW), [false, false, true]),
    ]
}

/// Reads the last sample of a window from the state that has the others, and
/// returns the event.
fn check(
    weighed: &Weighed,
    run: u8,
    stage: [u8; 4],
    [good, space, doubtful]: [bool; 3],
) -> Option<u16> {
    let Weighed { band, window, .. } = *weighed;
    let mut before = [5; WINDOW];
    before[1..].copy_from_slice(&window[..WINDOW - 1]);
    let smallest = weighed.handed(stage, run);
    let handed = Numbers {
        band,
        window: before,
        run,
        ..with_stage(stage).with_smallest(smallest)
    };
    let smallest = lowered(stage, smallest, weighed.difference());
    let decision = Decision {
        good,
        space,
        doubtful,
    };
    let (run, stage, event) = moved_by(run, State::from(handed).stage, decision);
    let next = State {
        band,
        window,
        run,
        stage,
        smallest: smallest.filter(|_| event.is_none()),
    };
    let call = |samples: &[i16], events: &mut [u16], differences: &mut [i64]| {
        receiver_block(handed, samples, events, differences)
    };
    let what = || format!("{decision:?}");
    let found = guarded(call, handed, &window[WINDOW - 1..], [1, 1], what);
    assert_eq!(found.answer.number, 0, "{handed:?}, {decision:?}");
    assert_eq!(found.answer.state, next.into(), "{handed:?}, {decision:?}");
    let expected: Vec<u16> = event.into_iter().collect();
    assert_eq!(found.events(), expected, "{handed:?}, {decision:?}");
    assert_measured(&found, smallest);
    event
}

#[test]
fn every_run_stage_and_decision() {
    let (mut count, mut reported, mut breaks, mut doubts) = (0, 0, 0, 0);
    let stages = stages();
    for band in BANDS {
        for (window, decision) in windows(band) {
            let weighed = Weighed::new(band, window);
            for run in 0..=32 {
                for &stage in &stages {
                    count += 1;
                    let event = check(&weighed, run, stage, decision);
                    reported += usize::from(event.is_some());
                    breaks += usize::from(event == Some(BREAK));
                    doubts += usize::from(event == Some(DOUBT));
                }
            }
        }
    }
    assert!(
        count > 1_500_000 && reported > 30_000,
        "{count}, {reported}"
    );
    // Two windows in each band and one stage, with every run.
    assert_eq!(breaks, 2 * 33 * BANDS.len());
    // Three windows in each band and the stages whose wait is over, with every run.
    let over = stages
        .iter()
        .filter(|&&[_, wait, slot, _]| wait == 1 && slot > 0);
    assert_eq!(doubts, 3 * over.count() * 33 * BANDS.len());
}
