//! The receivers written for speed answer as the step-by-step one does.

use crate::common::met::kinds;
use crate::common::receiver::{assert_events, assert_same, fresh, guarded, in_numbers, uneven};
use crate::common::recording::{
    around_0, as_events, disturbed, every_character, sending, sending_of, surrounded, Item,
};
use crate::common::states::{any_block, good_state, hostile_state};
use crate::common::BANDS;
use reference::library::Numbers;
use reference::random::Random;
use reference::receiver::{places_needed, Answer, Lists, State};
use reference::sine::Sines;
use reference::{asked_windows, in_place, receiver, shifted_window};

type Block = fn(&Sines, State, &[i16], Lists) -> Answer;

const PEERS: [(&str, Block); 3] = [
    ("in-place", in_place::block),
    ("shifted-window", shifted_window::block),
    ("asked-windows", asked_windows::block),
];

/// Each peer's answer must be the step-by-step one's, in every place. Returns
/// the number, the events and the next state.
fn compare(state: Numbers, samples: &[i16], places: usize) -> (u8, Vec<u16>, Numbers) {
    let lengths = uneven(samples, places);
    let read = |block: Block, who: &str| {
        let call = |samples: &[i16], events: &mut [u16], differences: &mut [i64]| {
            in_numbers(block, state, samples, events, differences)
        };
        guarded(call, state, samples, lengths, || who.to_string())
    };
    let expected = read(receiver::block, "step by step");
    for (who, block) in PEERS {
        let found = read(block, who);
        assert_same(&found, &expected, || who.to_string());
    }
    let answer = expected.answer;
    (answer.number, expected.events().to_vec(), answer.state)
}

/// Reads recordings in blocks of many sizes. Each is made of a band, and comes with
/// the events that it is to give.
fn read_recordings(seed: u64, mut make: impl FnMut(&mut Random, u8) -> (Vec<i16>, Vec<u16>)) {
    let mut random = Random::new(seed);
    for band in BANDS {
        for size in (1..=70).step_by(5).chain([320, 1_000, 16_384]) {
            let (sending, expected) = make(&mut random, band);
            let recording = surrounded(&sending, 100, 200);
            let recording = disturbed(&recording, |_| around_0(&mut random, 100));
            let mut state = fresh(band);
            let mut events = Vec::new();
            for samples in recording.chunks(size) {
                let places = places_needed(samples.len());
                let (number, told, next) = compare(state, samples, places);
                assert_eq!(number, 0);
                events.extend(told);
                state = next;
            }
            let what = || format!("band {band}, blocks of {size}");
            assert_events(&events, &expected, what);
        }
    }
}

#[test]
fn recordings() {
    read_recordings(41, |random, band| {
        let message = every_character(random);
        let message = &message[..64];
        (sending(band, message), as_events(message))
    });
}

#[test]
fn breaks() {
    read_recordings(47, |random, band| {
        let items: Vec<Item> = (0..40).map(|_| Item::any(random)).collect();
        let events = items.iter().map(|item| item.event()).collect();
        (sending_of(band, &items), events)
    });
}

/// Any states, blocks and places, refused ones among them.
#[test]
fn random_calls() {
    let mut random = Random::new(42);
    let mut seen = [0; 6];
    let mut doubts = 0;
    for _ in 0..25_000 {
        let state = if random.below(8) == 0 {
            hostile_state(&mut random)
        } else {
            good_state(&mut random)
        };
        let (samples, places) = any_block(&mut random, state.band);
        let (number, events, _) = compare(state, &samples, places);
        seen[usize::from(number)] += 1;
        doubts += kinds(&events)[4];
    }
    for number in [0, 2, 3, 4, 5] {
        assert!(seen[number] >= 10, "{number} was too rare: {seen:?}");
    }
    assert_eq!(seen[1], 0);
    assert!(doubts >= 200, "{doubts}");
}
