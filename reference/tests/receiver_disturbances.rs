//! Recordings with a disturbance of at most 100 in each sample. The events must
//! be the characters all the same, and no bit is doubtful.

use crate::common::met::assert_no_doubt;
use crate::common::receiver::{assert_events, read};
use crate::common::recording::{
    around_0, as_events, bits, disturbed, every_character, sending, surrounded,
};
use crate::common::states::steps;
use crate::common::{sines, BANDS};
use reference::disturbance::MOST;
use reference::random::Random;

/// Reads every character under the disturbance, which gets the random numbers
/// and the place. The silence is disturbed too.
fn read_under(what: &str, seed: u64, mut number: impl FnMut(&mut Random, u8, usize) -> i16) {
    let mut random = Random::new(seed);
    for band in BANDS {
        let message = every_character(&mut random);
        let (before, behind) = (random.below(300), 200 + random.below(300));
        let recording = surrounded(&sending(band, &message), before, behind);
        let recording = disturbed(&recording, |place| number(&mut random, band, place));
        let told = || format!("{what}, band {band}");
        let events = read(band, &recording, 1_000);
        assert_no_doubt(&events, told);
        assert_events(&events, &as_events(&message), told);
    }
}

#[test]
fn constant() {
    read_under("always 100", 24, |_, _, _| MOST);
    read_under("always -100", 25, |_, _, _| -MOST);
}

#[test]
fn alternating() {
    for period in [1, 2, 3, 4, 5, 7, 8, 16, 32] {
        let what = format!("turning after {period}");
        read_under(&what, 26, |_, _, place| MOST * [1, -1][place / period % 2]);
    }
}

#[test]
fn random() {
    for seed in 27..32 {
        read_under("random", seed, |random, _, _| around_0(random, MOST));
        read_under("random signs", seed, |random, _, _| {
            MOST * [1, -1][random.below(2)]
        });
    }
}

/// The tone at a phase, as a sine of 100 and as a square wave of 100.
fn tones(phase: usize) -> [i16; 2] {
    let sine = sines().s(phase);
    let sign = if sine < 0 { -1 } else { 1 };
    [sine / 60, MOST * sign]
}

/// One of the two tones all the time.
#[test]
fn shaped_like_a_tone() {
    for bit in 0..2 {
        for shape in 0..2 {
            for phase in (0..1_920).step_by(240) {
                let what = format!("tone of {bit}, shape {shape}, phase {phase}");
                read_under(&what, 32, |_, band, place| {
                    tones(phase + place * steps(band)[bit])[shape]
                });
            }
        }
    }
}

/// At each bit the tone of the other one, and the opposite of the tone sent.
#[test]
fn shaped_like_the_other_tone() {
    let mut random = Random::new(33);
    for band in BANDS {
        for shape in 0..2 {
            for phase in (0..1_920).step_by(120) {
                let message = every_character(&mut random);
                let message = &message[..100];
                let bits = bits(message);
                let recording = sending(band, message);
                assert_eq!(recording.len(), 32 * bits.len());
                let other = disturbed(&recording, |place| {
                    let step = steps(band)[1 - bits[place / 32]];
                    tones(phase + place * step)[shape]
                });
                let fainter = disturbed(&recording, |place| {
                    let [sine, sign] = [recording[place] / 60, recording[place].signum() * 100];
                    -[sine, sign][shape]
                });
                for recording in [other, fainter] {
                    let what = || format!("band {band}, shape {shape}, phase {phase}");
                    let events = read(band, &recording, 1_600);
                    assert_no_doubt(&events, what);
                    assert_events(&events, &as_events(message), what);
                }
            }
        }
    }
}
