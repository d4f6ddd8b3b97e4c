//! The library's two entries in turn, one chosen at random for each call.

use crate::common::receiver::{assert_events, compare_through, fresh, read_on, uneven, ENTRIES};
use crate::common::recording::{
    around_0, as_events, disturbed, every_character, sending, surrounded,
};
use crate::common::rows::read_in_turn;
use crate::common::states::{any_block, any_samples, hostile_state};
use crate::common::BANDS;
use reference::disturbance::MOST;
use reference::random::Random;

/// Every character in each band, each sample altered by at most `most`.
fn read_recordings(seed: u64, most: i16) {
    let mut random = Random::new(seed);
    for band in BANDS {
        for longest in [40, 400, 16_384] {
            let message = every_character(&mut random);
            let recording = surrounded(&sending(band, &message), 100, 200);
            let recording = disturbed(&recording, |_| around_0(&mut random, most));
            let (events, _) = read_in_turn(&mut random, band, &recording, longest);
            let what = || format!("band {band}, blocks of up to {longest}");
            assert_events(&events, &as_events(&message), what);
        }
    }
}

#[test]
fn recordings() {
    read_recordings(43, 0);
}

#[test]
fn disturbed_recordings() {
    read_recordings(44, MOST);
}

/// The entry makes no difference to what goes on from block to block: events
/// and state are those of the same samples in other blocks.
#[test]
fn any_samples_in_turn() {
    let mut random = Random::new(45);
    for band in BANDS {
        for longest in [40, 400, 16_384] {
            let samples = any_samples(&mut random, band, 60_000);
            let (expected, last) = read_on(fresh(band), samples.chunks(1_000));
            let (events, state) = read_in_turn(&mut random, band, &samples, longest);
            let what = || format!("band {band}, blocks of up to {longest}");
            assert_events(&events, &expected, what);
            assert_eq!(state, last, "{}", what());
            assert!(events.len() >= 50, "{}: {}", what(), events.len());
        }
    }
}

/// Each call gets the state that the call before it left. A hostile state is a
/// turn aside, after which the row goes on from the last good one.
#[test]
fn a_row_of_calls() {
    let mut random = Random::new(46);
    let mut seen = [[0; 6]; 2];
    for band in BANDS {
        let mut state = fresh(band);
        for _ in 0..20_000 {
            let hostile = random.below(8) == 0;
            let handed = if hostile {
                hostile_state(&mut random)
            } else {
                state
            };
            let (samples, places) = any_block(&mut random, handed.band);
            let chosen = random.below(2);
            let lengths = uneven(&samples, places);
            let [reading] = compare_through([ENTRIES[chosen]], handed, &samples, lengths);
            seen[chosen][usize::from(reading.answer.number)] += 1;
            if !hostile {
                state = reading.answer.state;
            }
        }
    }
    for number in [0, 2, 3, 4, 5] {
        let enough = seen.iter().all(|seen| seen[number] >= 20);
        assert!(enough, "{number} was too rare: {seen:?}");
    }
    assert_eq!([seen[0][1], seen[1][1]], [0; 2]);
}
