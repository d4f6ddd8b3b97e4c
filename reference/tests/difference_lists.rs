//! The two lists that a block call is lent: the shorter is the length that is tested, and
//! each is filled in the places that the count covers and in no other.

use crate::common::indexed::Indexed;
use crate::common::receiver::{fresh, BlockState, CARRIER_LOST, MOST_SAMPLES};
use crate::common::recording::{mixed, sending};
use crate::common::states::with_stage;
use crate::common::tap::{open, tapped, PAIRS};
use crate::common::BANDS;
use reference::library::Numbers;

/// Either list is too short, or both are, or neither; from none to more than enough. What
/// is accepted brings so many events.
fn every_two_lengths<S: BlockState>(state: S, samples: &[i16], count: usize) {
    let exact = S::places_needed(samples.len());
    let lengths = [0, 1, exact - 1, exact, exact + 1, exact + 50];
    let mut seen = [0; 5];
    for events in lengths {
        for differences in lengths {
            let answer = state.compare_lists(samples, [events, differences]).answer;
            let is_short = events < exact || differences < exact;
            let expected = if is_short { (4, 0) } else { (0, count) };
            let found = (answer.number, answer.count);
            assert_eq!(found, expected, "{events} and {differences} for {exact}");
            seen[usize::from(answer.number)] += 1;
        }
    }
    assert!(seen[0] >= 9 && seen[4] >= 11, "{seen:?}");
}

#[test]
fn of_a_receiver() {
    for band in BANDS {
        for characters in [0, 1, 2, 7, 50] {
            let line = sending(band, &vec![0x4d; characters]);
            every_two_lengths(fresh(band), &line, characters);
            every_two_lengths(Indexed(fresh(band)), &line, characters);
        }
    }
}

#[test]
fn of_a_tap() {
    for pair in PAIRS {
        for characters in [0, 1, 7] {
            let [first, second] = pair.map(|band| sending(band, &vec![0x4d; characters]));
            let line = mixed(&first, &second);
            let count = open(pair).compare_lists(&line, [1_000; 2]).answer.count;
            assert!(count >= 2 * characters, "{pair:?}: {count}");
            every_two_lengths(open(pair), &line, count);
        }
    }
}

/// Lists that are filled to their last place, and with one place less are refused.
#[test]
fn lists_that_are_filled() {
    let of = |band, state| Numbers { band, ..state };
    for slot in 1..=9 {
        let state = with_stage([1, 1, slot, 0]);
        every_two_lengths(state, &[0], 1);
        let reading = state.compare_lists(&[0], [1, 1]);
        assert_eq!(reading.places, [CARRIER_LOST]);
        assert_eq!(reading.difference_places, [0]);
        for [first, second] in PAIRS {
            let tap = tapped(of(first, state), of(second, state));
            every_two_lengths(tap, &[0], 2);
            let reading = tap.compare_lists(&[0], [2, 2]);
            assert_eq!(reading.difference_places, [0, 0]);
        }
    }
}

/// Each number, with lists that have room enough and a block that would bring events.
fn refused<S: BlockState>(state: S, bad: S, line: &[i16]) {
    let exact = S::places_needed(line.len());
    let room = [[exact, exact + 9], [exact + 9, exact]];
    let told = state.compare_lists(line, room[0]).answer;
    assert!(told.number == 0 && told.count >= 2, "{told:?}");
    let too_long = line.iter().copied().cycle().take(MOST_SAMPLES + 1);
    let too_long: Vec<i16> = too_long.collect();
    let last_is_bad = [line, &[8_192]].concat();
    for lengths in room {
        assert_eq!(bad.compare_lists(line, lengths).answer.number, 2);
        let more = lengths.map(|length| length + S::places_needed(MOST_SAMPLES));
        assert_eq!(state.compare_lists(&too_long, more).answer.number, 3);
        assert_eq!(state.compare_lists(&last_is_bad, more).answer.number, 5);
    }
    for lengths in [[exact - 1, exact + 9], [exact + 9, exact - 1]] {
        assert_eq!(state.compare_lists(line, lengths).answer.number, 4);
    }
}

/// Neither list changes, which is checked of every call.
#[test]
fn both_lists_on_a_refusal() {
    let bad = |band| Numbers {
        measured: 1,
        ..fresh(band)
    };
    for band in BANDS {
        let line = sending(band, b"AB");
        refused(fresh(band), bad(band), &line);
        refused(Indexed(fresh(band)), Indexed(bad(band)), &line);
    }
    for [first, second] in PAIRS {
        let line = sending(second, b"AB");
        let bad = tapped(fresh(first), bad(second));
        refused(open([first, second]), bad, &line);
    }
}
