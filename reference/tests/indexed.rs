//! The receiver's call that also tells with which sample of the block each event came.

use crate::common::indexed::{compare_accepted, Indexed};
use crate::common::met::{assert_frequent, kinds};
use crate::common::receiver::{assert_events, fresh, read_on, CARRIER_LOST, MOST_SAMPLES};
use crate::common::recording::{
    around_0, disturbed, noise, random_blocks, sending, sending_of, surrounded, Item,
};
use crate::common::rows::{cut_alike, cut_everywhere, refused_between, row_of_calls};
use crate::common::states::{
    any_samples, block_of, byte_limit, good_state, longest_wait, with_stage,
};
use crate::common::BANDS;
use reference::disturbance::MOST;
use reference::library::{receiver_block, Numbers};
use reference::random::Random;

/// Each event of the blocks with its sample, counted from the first of all, and the
/// state behind them.
fn located<'a>(
    mut state: Numbers,
    blocks: impl IntoIterator<Item = &'a [i16]>,
) -> (Vec<(usize, u16)>, Numbers) {
    let (mut all, mut before) = (vec![], 0);
    for samples in blocks {
        let found = compare_accepted(state, samples);
        let places = found
            .indices()
            .iter()
            .map(|&index| before + usize::from(index));
        all.extend(places.zip(found.reading.events().iter().copied()));
        before += samples.len();
        state = found.reading.answer.state;
    }
    (all, state)
}

/// A disturbed recording of characters and breaks, and their events.
fn recording(random: &mut Random, band: u8, count: usize) -> (Vec<i16>, Vec<u16>) {
    let items: Vec<Item> = (0..count).map(|_| Item::any(random)).collect();
    let recording = surrounded(&sending_of(band, &items), 50, 50);
    let recording = disturbed(&recording, |_| around_0(random, MOST));
    (recording, items.iter().map(|item| item.event()).collect())
}

/// Every wait that ends in silence: the event comes with the last sample of it.
#[test]
fn the_last_sample_of_a_wait() {
    for slot in 1..=9 {
        for wait in 1..=longest_wait(slot) {
            let byte = (byte_limit(slot) - 1) as u8;
            let state = with_stage([1, wait, slot, byte]);
            let end = usize::from(wait);
            for count in [end - 1, end, end + 1, 100] {
                let found = compare_accepted(state, &vec![0; count]);
                let expected = [wait - 1].map(u16::from);
                let told = usize::from(count >= end);
                assert_eq!(found.indices(), &expected[..told], "{count} samples");
                assert_eq!(found.reading.events(), &[CARRIER_LOST][..told]);
            }
        }
    }
}

/// The first and the last sample of the largest block.
#[test]
fn the_largest_block() {
    for band in BANDS {
        let sending = sending(band, &[0x41]);
        let (events, _) = located(fresh(band), [&sending[..]]);
        let &[(place, 0x41)] = &events[..] else {
            panic!("band {band}: {events:?}");
        };
        let before = MOST_SAMPLES - 1 - place;
        let line = surrounded(&sending, before, MOST_SAMPLES);
        let found = compare_accepted(fresh(band), &line[..MOST_SAMPLES]);
        assert_eq!(found.indices(), [16_383], "band {band}");
        let (_, state) = read_on(fresh(band), [&line[..MOST_SAMPLES - 1]]);
        let found = compare_accepted(state, &line[MOST_SAMPLES - 1..][..MOST_SAMPLES]);
        assert_eq!(found.indices(), [0], "band {band}");
    }
}

/// Without the sample of an event, and any behind it, the event is not told; with it
/// it is the last.
fn check_samples(state: Numbers, samples: &[i16]) -> Vec<u16> {
    let found = compare_accepted(state, samples);
    let places = samples.len() / 48 + 1;
    let (mut events, mut differences) = (vec![0; places], vec![0; places]);
    let mut told =
        |count| receiver_block(state, &samples[..count], &mut events, &mut differences).count;
    for (place, &index) in found.indices().iter().enumerate() {
        let index = usize::from(index);
        let counts = [told(index), told(index + 1)];
        assert_eq!(counts, [place, place + 1], "{state:?}");
    }
    found.reading.events().to_vec()
}

#[test]
fn random_states() {
    let mut random = Random::new(101);
    let mut events = Vec::new();
    for _ in 0..10_000 {
        let state = good_state(&mut random);
        let count = random.below(400);
        let samples = any_samples(&mut random, state.band, count);
        events.extend(check_samples(state, &samples));
    }
    assert_frequent(kinds(&events), [300, 300, 300, 10, 200]);
}

#[test]
fn sendings_and_breaks() {
    let mut random = Random::new(102);
    for band in BANDS {
        for _ in 0..10 {
            let (recording, expected) = recording(&mut random, band, 20);
            let whole = &recording[..recording.len().min(MOST_SAMPLES)];
            let events = check_samples(fresh(band), whole);
            assert!(expected.starts_with(&events), "band {band}: {events:?}");
            assert!(events.len() >= 10, "band {band}: {}", events.len());
        }
    }
}

#[test]
fn noise_of_full_range() {
    let mut random = Random::new(103);
    for band in BANDS {
        let samples = noise(&mut random, 8_191, 200_000);
        let blocks = random_blocks(&mut random, &samples, 1_000);
        let (events, _) = located(fresh(band), blocks);
        assert!(events.len() >= 100, "band {band}: {}", events.len());
    }
}

/// Each event comes with the same sample, wherever the recording is cut.
#[test]
fn blocks_of_every_size() {
    let mut random = Random::new(104);
    for band in BANDS {
        let (recording, expected) = recording(&mut random, band, 6);
        let whole = located(fresh(band), [&recording[..]]);
        let events: Vec<u16> = whole.0.iter().map(|&(_, event)| event).collect();
        assert_events(&events, &expected, || format!("band {band}"));
        for size in (1..=200).chain([320, 1_000]) {
            let cut = located(fresh(band), recording.chunks(size));
            assert_eq!(cut, whole, "band {band}, blocks of {size}");
        }
    }
}

#[test]
fn any_blocks() {
    let mut random = Random::new(105);
    for band in BANDS {
        let samples = any_samples(&mut random, band, 300_000);
        let whole = located(fresh(band), samples.chunks(MOST_SAMPLES));
        for longest in [40, 400, 4_000] {
            let blocks = random_blocks(&mut random, &samples, longest);
            let cut = located(fresh(band), blocks);
            assert!(cut == whole, "band {band}, blocks of up to {longest}");
        }
        let events: Vec<u16> = whole.0.iter().map(|&(_, event)| event).collect();
        assert_frequent(kinds(&events), [5, 5, 50, 5, 5]);
    }
}

/// Lists of which one is longer than it need be, and all that is asked of a receiver
/// without indices.
#[test]
fn as_without_indices() {
    let mut random = Random::new(106);
    for band in BANDS {
        let state = Indexed(fresh(band));
        let (recording, expected) = recording(&mut random, band, 2);
        let what = || format!("band {band}");
        assert_events(&cut_alike(state, &recording, 1..=100), &expected, what);
        assert_events(&cut_everywhere(state, &recording), &expected, what);
        let sizes = [1, 47, 48, 160, 16_384];
        let events = refused_between(&mut random, state, &recording, sizes);
        assert_events(&events, &expected, what);
        row_of_calls(&mut random, state, 10_000, |random| {
            block_of(random, |random, size| any_samples(random, band, size))
        });
    }
}
