//! The order of a tap's events: that of the samples, and of one sample the lower band
//! before the other.

use crate::common::doubtful::tie;
use crate::common::indexed::compare_accepted as located;
use crate::common::receiver::{
    compare_accepted, Event, BREAK, CARRIER_LOST, DOUBT, NO_STOP_BIT, WINDOW,
};
use crate::common::recording::{keyed, mixed, sending};
use crate::common::states::{byte_limit, window_of, with_stage};
use crate::common::tap::{any_line, good_tap_of, of_tap, open, tapped, PAIRS};
use reference::library::{Numbers, Tap};
use reference::random::Random;

/// A receiver that waits: for so many samples, for a slot, with a byte.
fn waiting(band: u8, window: [i16; WINDOW], [wait, slot, byte]: [u8; 3]) -> Numbers {
    let state = Numbers {
        window,
        ..with_stage([1, wait, slot, byte])
    };
    Numbers { band, ..state }
}

/// The events of either band, as the tap tells them.
fn told(pair: [u8; 2], events: [u16; 2]) -> [u16; 2] {
    [0, 1].map(|place| 1_000 * u16::from(pair[place]) + events[place])
}

/// The two events in their order, if the first band waits for `waits[0]` samples and
/// the second for `waits[1]`, and those alone that a block of `count` samples has.
fn in_order(waits: [u8; 2], [first, second]: [u16; 2], count: usize) -> Vec<u16> {
    let mut events = vec![(waits[0], first), (waits[1], second)];
    if waits[1] < waits[0] {
        events.reverse();
    }
    events.retain(|&(wait, _)| usize::from(wait) <= count);
    events.into_iter().map(|(_, event)| event).collect()
}

/// Blocks that end before, at and behind either event, from every two waits.
fn every_two_waits(samples: &[i16], mut make: impl FnMut([u8; 2]) -> (Tap, [u16; 2])) {
    for first in 1..=32 {
        for second in 1..=32 {
            let waits = [first, second];
            let (tap, events) = make(waits);
            let events = told([tap.first.band, tap.second.band], events);
            let ends = waits.map(usize::from);
            for count in [0, ends[0] - 1, ends[0], ends[1] - 1, ends[1], samples.len()] {
                let reading = compare_accepted(tap, &samples[..count]);
                let expected = in_order(waits, events, count);
                assert_eq!(reading.events(), expected, "{waits:?}, {count} samples");
            }
        }
    }
}

/// Both lose their carrier, at data bits or stop bits.
#[test]
fn two_lost_carriers() {
    let mut random = Random::new(87);
    for pair in PAIRS {
        every_two_waits(&[0; 40], |waits| {
            let [first, second] = [0, 1].map(|place| {
                let slot = 1 + random.below(9) as u8;
                let byte = random.below(byte_limit(slot)) as u8;
                waiting(pair[place], [0; WINDOW], [waits[place], slot, byte])
            });
            (tapped(first, second), [CARRIER_LOST; 2])
        });
    }
}

/// Mark is on the line in both bands, and either tells a character.
#[test]
fn two_characters() {
    let mut random = Random::new(88);
    for pair in PAIRS {
        let [first, second] = pair.map(|band| keyed(band, &[1; 4]));
        let line = mixed(&first, &second);
        let (window, samples) = line.split_at(WINDOW);
        let window = window.try_into().expect("a whole window");
        every_two_waits(&samples[..40], |waits| {
            let bytes = [(); 2].map(|()| random.below(256) as u8);
            let [first, second] =
                [0, 1].map(|place| waiting(pair[place], window, [waits[place], 9, bytes[place]]));
            (tapped(first, second), bytes.map(u16::from))
        });
    }
}

/// A receiver that tells an event with the next sample, which is 0: a character, no stop
/// bit, a lost carrier, a break or a doubt.
fn about_to_tell(band: u8, byte: u8, kind: usize) -> (Numbers, u16) {
    let [space, mark] = [0, 1].map(|bit| window_of(band, bit, 1));
    let both = tie(band).window;
    let (window, byte, event) = match kind {
        0 => (mark, byte, u16::from(byte)),
        1 => (space, byte.max(1), NO_STOP_BIT),
        2 => ([0; WINDOW], byte, CARRIER_LOST),
        3 => (space, 0, BREAK),
        _ => (both, byte, DOUBT),
    };
    (waiting(band, window, [1, 9, byte]), event)
}

/// Two events by one sample, of these kinds, with every byte. Each has the difference of
/// its own receiver: what it was before, or at a lost carrier that of silence.
fn two_events(pair: [u8; 2], kinds: [usize; 2]) {
    for byte in 0..=255 {
        let (one, first) = about_to_tell(pair[0], byte, kinds[0]);
        let (other, second) = about_to_tell(pair[1], 255 - byte, kinds[1]);
        let states = [one.with_smallest(Some(1)), other.with_smallest(Some(2))];
        let differences = [0, 1].map(|place| if kinds[place] == 2 { 0 } else { [1, 2][place] });
        for samples in [&[0][..], &[0; 40]] {
            let reading = compare_accepted(tapped(states[0], states[1]), samples);
            assert_eq!(reading.events(), told(pair, [first, second]), "{byte}");
            assert_eq!(reading.differences(), differences, "{byte}");
        }
    }
}

/// Every kind of event in either band.
#[test]
fn two_events_of_every_kind() {
    for pair in PAIRS {
        for first in 0..5 {
            for second in 0..5 {
                two_events(pair, [first, second]);
            }
        }
    }
}

/// The events of either receiver with their samples and differences, put in order: by the
/// sample, and of one sample by the band. They must be those of the tap. Returns how many
/// samples have two.
fn put_together(tap: Tap, samples: &[i16]) -> usize {
    let mut all = Vec::new();
    for state in [tap.first, tap.second] {
        let alone = located(state, samples);
        let events = of_tap(state.band, alone.reading.events());
        let events = events.into_iter().zip(alone.reading.differences().to_vec());
        let indices = alone.indices().iter().copied();
        all.extend(indices.zip(events));
    }
    // An event of the lower band is below one of the other.
    all.sort();
    let expected: Vec<Event> = all.iter().map(|&(_, event)| event).collect();
    let reading = compare_accepted(tap, samples);
    assert_eq!(reading.measured(), expected, "{tap:?}");
    all.windows(2).filter(|pair| pair[0].0 == pair[1].0).count()
}

/// Sendings that begin with the same sample have many events with the same one.
#[test]
fn sendings_in_step() {
    let mut random = Random::new(89);
    for pair in PAIRS {
        let mut ties = 0;
        for _ in 0..60 {
            let [first, second] = pair.map(|band| sending(band, &random.bytes(10)));
            ties += put_together(open(pair), &mixed(&first, &second));
        }
        assert!(ties >= 20, "{pair:?}: {ties}");
    }
}

/// From any state, over silence, noise and tones. Receivers that both wait often wait
/// for the same sample.
#[test]
fn random_states() {
    let mut random = Random::new(90);
    for pair in PAIRS {
        let mut ties = 0;
        for _ in 0..4_000 {
            let mut tap = good_tap_of(&mut random, pair);
            if [tap.first.stage, tap.second.stage] == [1, 1] && random.below(2) == 0 {
                let wait = tap.first.wait.min(tap.second.wait);
                (tap.first.wait, tap.second.wait) = (wait, wait);
            }
            let count = random.below(400);
            ties += put_together(tap, &any_line(&mut random, pair, count));
        }
        assert!(ties >= 100, "{pair:?}: {ties}");
    }
}
