//! The program `demodulate` against the reference, on sheets that are read.

use crate::common::process::printed;
use crate::common::receiver::{BREAK, CARRIER_LOST, DOUBT, NO_STOP_BIT};
use crate::common::recording::{
    around_0, as_events, bits, disturbed, every_character, keyed, keyed_in_doubt, no_stop_bit,
    sending, space, surrounded, toned,
};
use crate::common::sheets::sheet;
use crate::common::states::any_samples;
use crate::common::{other_bands, sines, BANDS, IDLE_SAMPLES};
use reference::programs::demodulate;
use reference::random::Random;

/// The program must print of the samples what the reference does, which is
/// returned.
fn check(band: u8, samples: &[i16]) -> String {
    let sheet = sheet(band, samples);
    let expected = demodulate(sines(), &sheet);
    let found = printed("demodulate", &sheet);
    let what = || format!("band {band}, {} samples", samples.len());
    assert_eq!(text(&found), text(&expected), "{}", what());
    text(&found)
}

fn text(printed: &[u8]) -> String {
    String::from_utf8(printed.to_vec()).expect("it is text")
}

/// The lines of these events.
fn listed(events: &[u16]) -> String {
    let line = |(place, &event): (usize, &u16)| match event {
        NO_STOP_BIT => format!("{place} nostop --\n"),
        CARRIER_LOST => format!("{place} lost --\n"),
        BREAK => format!("{place} break --\n"),
        DOUBT => format!("{place} doubt --\n"),
        _ => format!("{place} char {}{}\n", digit(event / 16), digit(event % 16)),
    };
    let lines: String = events.iter().enumerate().map(line).collect();
    format!("number kind value\n{lines}")
}

fn digit(value: u16) -> char {
    char::from(b"0123456789abcdef"[usize::from(value)])
}

#[test]
fn the_character_41() {
    let found = check(1, &sending(1, &[0x41]));
    assert_eq!(found, "number kind value\n0 char 41\n");
}

#[test]
fn no_events() {
    for band in BANDS {
        for count in [0, 1, 31, 32, 47, 48, 1_000, 16_384] {
            assert_eq!(check(band, &vec![0; count]), "number kind value\n");
        }
        assert_eq!(check(band, &sending(band, &[])), "number kind value\n");
        assert_eq!(check(band, &[8_191; 3_000]), "number kind value\n");
        assert_eq!(check(band, &[-8_191; 3_000]), "number kind value\n");
    }
}

#[test]
fn a_thousand_samples_of_space() {
    let expected = "number kind value\n0 break --\n";
    for band in BANDS {
        assert_eq!(check(band, &space(band, 1_000)), expected);
    }
}

#[test]
fn a_character_that_breaks_off() {
    for band in BANDS {
        let mut samples = sending(band, &[0xff]);
        samples.truncate(IDLE_SAMPLES + 64);
        samples.extend([0; 200]);
        assert_eq!(check(band, &samples), "number kind value\n0 lost --\n");
    }
}

#[test]
fn every_character_once() {
    let mut random = Random::new(81);
    for band in BANDS {
        for message in every_character(&mut random).chunks(37) {
            let found = check(band, &sending(band, message));
            assert_eq!(found, listed(&as_events(message)), "band {band}");
        }
    }
}

/// Space but for one data bit in each character: the first fault is within 350
/// samples, and every 305 there is one more.
#[test]
fn places_of_two_digits() {
    for band in BANDS {
        let bit = |place: usize| usize::from((186..218).contains(&(place % 305)));
        let samples = toned(band, (0..350 + 34 * 305).map(bit));
        let found = check(band, &samples);
        assert_eq!(found, listed(&[NO_STOP_BIT; 35]), "band {band}");
    }
}

/// Space as long as the longest sheet: one event.
#[test]
fn a_break_that_is_never_let_go() {
    for band in BANDS {
        let found = check(band, &space(band, 11_000));
        assert_eq!(found, listed(&[BREAK]), "band {band}");
    }
}

/// Every data bit in doubt, and the stop bit, of characters with mark behind it.
#[test]
fn a_doubtful_bit() {
    for band in BANDS {
        for slot in 1..=9 {
            let mut bits = bits(&[0x29]);
            bits[3 + slot..].fill(1);
            let samples = keyed_in_doubt(band, &bits, 3 + slot, slot % 2);
            let found = check(band, &samples);
            assert_eq!(found, "number kind value\n0 doubt --\n", "slot {slot}");
        }
    }
}

/// Space that is only just long enough for a start bit, again and again.
#[test]
fn places_of_three_digits() {
    for band in BANDS {
        let burst = [space(band, 40), vec![0; 60]].concat();
        let found = check(band, &burst.repeat(150));
        assert_eq!(found, listed(&[CARRIER_LOST; 150]), "band {band}");
    }
}

/// All kinds of events in one sheet.
#[test]
fn faults_between_characters() {
    let mut random = Random::new(82);
    for band in BANDS {
        let mut samples = Vec::new();
        let mut events = Vec::new();
        // As many as one sheet can hold.
        for _ in 0..5 {
            let message = random.bytes(1);
            samples.extend(sending(band, &message));
            samples.extend(surrounded(&space(band, 40), 100, 100));
            samples.extend(keyed(band, &no_stop_bit(&[0x20])));
            // A start bit and nine more bits of space. The next leader ends it.
            samples.extend(surrounded(&space(band, 360), 100, 100));
            let in_doubt = keyed_in_doubt(band, &bits(&[0xff]), 3 + 8, 0);
            samples.extend(surrounded(&in_doubt, 0, 100));
            events.extend(as_events(&message));
            events.extend([CARRIER_LOST, NO_STOP_BIT, BREAK, DOUBT]);
        }
        assert_eq!(check(band, &samples), listed(&events), "band {band}");
    }
}

#[test]
fn random_samples() {
    let mut random = Random::new(83);
    let (mut lines, mut doubts) = (0, 0);
    for band in BANDS.into_iter().cycle().take(800) {
        let count = random.below(4_000);
        let found = check(band, &any_samples(&mut random, band, count));
        lines += found.lines().count() - 1;
        doubts += found.matches(" doubt --\n").count();
    }
    assert!(lines > 800 && doubts > 50, "{lines}, {doubts}");
}

#[test]
fn long_sheets() {
    let mut random = Random::new(84);
    for band in BANDS {
        for _ in 0..20 {
            check(band, &any_samples(&mut random, band, 10_900));
            let quiet = any_samples(&mut random, band, 8_000);
            check(band, &surrounded(&quiet, 4_000, 4_384));
        }
    }
}

/// With numbers from -100 to 100 added, the message is read all the same. A
/// sheet can get too long by it, so the longest message is not tried.
#[test]
fn disturbed_sheets() {
    let mut random = Random::new(85);
    for band in BANDS {
        for count in (0..=36).chain([36; 20]) {
            let message = random.bytes(count);
            let [before, behind] = [(); 2].map(|()| random.below(60));
            let recording = surrounded(&sending(band, &message), before, behind);
            let largest = random.below(3) == 0;
            let recording = disturbed(&recording, |_| match largest {
                true => [-100, 100][random.below(2)],
                false => around_0(&mut random, 100),
            });
            let found = check(band, &recording);
            assert_eq!(found, listed(&as_events(&message)), "band {band}");
        }
    }
}

/// The band's digit decides with which tones a sheet is read.
#[test]
fn sheets_with_another_band() {
    let mut random = Random::new(86);
    for band in BANDS {
        for other in other_bands(band) {
            for _ in 0..10 {
                let message = random.bytes(10);
                let found = check(other, &sending(band, &message));
                let what = format!("band {band} read as {other}");
                assert_ne!(found, listed(&as_events(&message)), "{what}");
            }
        }
    }
}

/// The last sample can be what an event depends on: sheets cut off everywhere
/// near the end of a character.
#[test]
fn sheets_that_end_early() {
    for band in BANDS {
        let samples = sending(band, &[0x5a]);
        let events = |count: usize| check(band, &samples[..count]).lines().count() - 1;
        let counts: Vec<usize> = (350..=450).map(events).collect();
        let sorted = counts.windows(2).all(|two| two[0] <= two[1]);
        assert!(sorted, "band {band}: {counts:?}");
        assert_eq!((counts[0], counts[100]), (0, 1), "band {band}");
    }
}
