//! The picture in `docs/`, and what it shows: which tone wins, and when a
//! character is reported.

use crate::common::made::assert_made;
use crate::common::recording::{around_0, disturbed, every_character, sending};
use crate::common::{sines, BANDS};
use reference::disturbance::{is_good, winner, Pair, LIMITS, MOST};
use reference::picture;
use reference::random::Random;
use reference::receiver::{self, Lists};
use reference::transmitter::{characters, State, STEPS};
use std::fs;
use std::ops::RangeInclusive;

#[test]
fn the_file_is_what_the_program_draws() {
    let path = concat!(env!("CARGO_MANIFEST_DIR"), "/../docs/windows.svg");
    let file = fs::read_to_string(path).expect("the picture is there");
    assert_made(&file, &picture::windows(sines()), "windows");
}

/// Start, data and stop bits of 06 hexadecimal: each pair of bits is there.
const BITS: [u8; 10] = [0, 0, 1, 1, 0, 0, 0, 0, 0, 1];

/// Tries every window of the character, begun at every phase, which brings each
/// pair of bits to every phase. Gives how often neither tone was certain to win
/// where that is allowed, by the number of samples of the later bit.
fn undecided(band: u8) -> [usize; 32] {
    let tones = Pair::new(sines(), STEPS[usize::from(band) - 1], MOST);
    let mut undecided = [0; 32];
    let mut samples = [0; 320];
    for phase in 0..1_920 {
        characters(sines(), State { band, phase }, &[0x06], &mut samples);
        for (start, window) in samples.windows(32).enumerate() {
            let energies = tones.energies(window.try_into().expect("a whole window"));
            let (bit, count) = (start / 32, start % 32);
            let later = BITS.get(bit + 1).copied().unwrap_or(1);
            let what = || format!("band {band}, phase {phase}, window {start}");
            let winner = winner(&energies);
            match LIMITS.certain(BITS[bit], later, count as i64) {
                None => undecided[count] += usize::from(winner.is_none()),
                expected => assert_eq!(winner, expected, "{}", what()),
            }
            assert!(is_good(&energies), "{}", what());
        }
    }
    undecided
}

/// Of each band, how many samples of the later bit leave some phase without a winner.
/// Band 4 is decided with one sample fewer than the others.
const UNDECIDED: [RangeInclusive<usize>; BANDS.len()] = [15..=18, 15..=18, 15..=18, 15..=17];

#[test]
fn the_certain_tone_wins_at_every_phase() {
    for (band, expected) in BANDS.into_iter().zip(UNDECIDED) {
        let undecided = undecided(band);
        let found = (0..32).filter(|&count| undecided[count] > 0);
        assert!(found.eq(expected), "band {band}: {undecided:?}");
    }
}

/// At each place that is drawn as undecided there is a phase with no winner, in the
/// band of the picture.
#[test]
fn what_is_drawn_as_undecided_is_so() {
    let drawn = (0..32).filter(|&count| LIMITS.certain(0, 1, count as i64).is_none());
    assert!(drawn.eq(UNDECIDED[usize::from(picture::BAND) - 1].clone()));
}

/// The samples with which the events come, the recording read one by one.
fn event_places(band: u8, recording: &[i16]) -> Vec<usize> {
    let (_, mut state) = receiver::open(band);
    let mut places = Vec::new();
    for (place, sample) in recording.iter().enumerate() {
        let answer = receiver::block(sines(), state, &[*sample], Lists::new(&mut [0], &mut [0]));
        assert_eq!(answer.number, 0);
        places.extend((answer.count > 0).then_some(place));
        state = answer.state;
    }
    places
}

#[test]
fn characters_are_reported_where_the_last_slot_is_drawn() {
    let mut random = Random::new(77);
    for band in BANDS {
        let message = every_character(&mut random);
        let recording = disturbed(&sending(band, &message), |_| around_0(&mut random, MOST));
        let places = event_places(band, &recording);
        assert_eq!(places.len(), message.len());
        for (number, place) in places.into_iter().enumerate() {
            let behind = place - 96 - 320 * number;
            assert!((318..=322).contains(&behind), "band {band}: {behind}");
        }
    }
}
