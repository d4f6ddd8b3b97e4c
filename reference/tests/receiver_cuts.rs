//! Recordings cut anywhere, with silence or another recording behind.

use crate::common::receiver::{fresh, read, read_on, CARRIER_LOST, DOUBT, EVENTS, NO_STOP_BIT};
use crate::common::recording::{around_0, as_events, disturbed, sending, surrounded};
use crate::common::{BANDS, CHARACTER_SAMPLES, IDLE_SAMPLES};
use reference::random::Random;

/// A recording of three characters with a disturbance.
fn recording(random: &mut Random, band: u8) -> (Vec<u16>, Vec<i16>) {
    let message = random.bytes(3);
    let recording = surrounded(&sending(band, &message), random.below(40), 0);
    let recording = disturbed(&recording, |_| around_0(random, 100));
    (as_events(&message), recording)
}

/// The events of which one may be told of a character that was cut off behind so many
/// of its samples: that it is lost or a bit doubtful, or in its stop bit the character.
fn cut_off(character: u16, samples: usize) -> Vec<u16> {
    match samples {
        0 => vec![],
        1..=288 => vec![CARRIER_LOST, DOUBT],
        _ => vec![CARRIER_LOST, DOUBT, character],
    }
}

/// The characters that were whole come out, and of the next one an event or none.
/// Returns the event.
fn read_cut(band: u8, message: &[u16], recording: &[i16], cut: usize) -> Option<u16> {
    let before = recording.len() - 3 * CHARACTER_SAMPLES - IDLE_SAMPLES;
    let sent = cut.saturating_sub(before).min(3 * CHARACTER_SAMPLES);
    let (whole, rest) = (sent / CHARACTER_SAMPLES, sent % CHARACTER_SAMPLES);
    let events = read(band, &surrounded(&recording[..cut], 0, 400), 250);
    let what = || format!("band {band}, cut {cut}: {events:?}");
    assert_eq!(events[..whole], message[..whole], "{}", what());
    assert!(events.len() <= whole + 1, "{}", what());
    let behind = events.get(whole).copied();
    if let Some(event) = behind {
        let told = cut_off(message[whole], rest);
        assert!(told.contains(&event), "{}", what());
    }
    behind
}

#[test]
fn silence_behind_every_cut() {
    let mut random = Random::new(34);
    for band in BANDS {
        let (message, recording) = recording(&mut random, band);
        let told =
            (0..=recording.len()).filter_map(|cut| read_cut(band, &message, &recording, cut));
        let told: Vec<u16> = told.collect();
        let count = |event| told.iter().filter(|&&told| told == event).count();
        let [lost, doubts] = [CARRIER_LOST, DOUBT].map(count);
        assert!(lost >= 300 && doubts >= 30, "band {band}: {lost}, {doubts}");
    }
}

/// The second recording begins at every third sample of the first, or near it.
#[test]
fn another_recording_behind_every_cut() {
    let mut random = Random::new(35);
    let mut seen = [0; EVENTS];
    for band in BANDS {
        for other in BANDS {
            let (_, first) = recording(&mut random, band);
            for cut in (random.below(3)..=first.len()).step_by(3) {
                let (_, second) = recording(&mut random, other);
                let samples = [&first[..cut], &second[random.below(300)..]].concat();
                for event in read(band, &samples, 333) {
                    seen[usize::from(event)] += 1;
                }
            }
        }
    }
    let characters: usize = seen[..256].iter().sum();
    let faults = [NO_STOP_BIT, CARRIER_LOST, DOUBT].map(|event| seen[usize::from(event)]);
    assert!(characters >= 7_000, "{characters}");
    assert!(faults.iter().all(|&count| count >= 1_000), "{faults:?}");
}

/// A whole second recording behind silence comes out whole, whatever was
/// there before.
#[test]
fn a_whole_recording_behind_a_cut_and_silence() {
    let mut random = Random::new(36);
    for band in BANDS {
        let (_, first) = recording(&mut random, band);
        for cut in (0..=first.len()).step_by(3) {
            let (message, second) = recording(&mut random, band);
            // Silence fills the window in 32 samples, and a wait that began
            // before ends in 32 more.
            let head = surrounded(&first[..cut], 0, 64);
            let (_, state) = read_on(fresh(band), [&head[..]]);
            assert_eq!(state, fresh(band), "cut {cut}");
            let (events, _) = read_on(state, second.chunks(111));
            assert_eq!(events, message, "band {band}, cut {cut}");
        }
    }
}

/// The cut is also where the block ends, so the state carries all.
#[test]
fn every_cut_between_two_blocks() {
    let mut random = Random::new(37);
    for band in BANDS {
        let (message, recording) = recording(&mut random, band);
        for cut in 0..=recording.len() {
            let (head, tail) = recording.split_at(cut);
            let (events, _) = read_on(fresh(band), [head, tail]);
            assert_eq!(events, message, "band {band}, cut {cut}");
        }
    }
}
