//! The program `modulate` against the reference.

use crate::common::lengths::{longest, shortest};
use crate::common::process::printed;
use crate::common::recording::{every_character, sending};
use crate::common::sheets::{refused, sheet};
use crate::common::{sines, BANDS, NO_BAND};
use reference::programs::modulate;
use reference::random::Random;

/// The program must print what the reference does, which is returned.
fn check(input: &[u8]) -> Vec<u8> {
    let expected = modulate(sines(), input);
    let found = printed("modulate", input);
    let (count, beginning) = (input.len(), &input[..input.len().min(40)]);
    assert!(found == expected, "{count} bytes: {beginning:x?}");
    found
}

fn input(band: u8, message: &[u8]) -> Vec<u8> {
    [&[b'0' + band], message].concat()
}

/// The message's sheet, or the refusal for a message of this length.
fn expected(band: u8, message: &[u8]) -> Vec<u8> {
    match message.len() {
        0..=37 => sheet(band, &sending(band, message)),
        38..=50 => refused(6),
        _ => refused(3),
    }
}

/// What both print is also what the message's length tells.
fn check_message(band: u8, message: &[u8]) {
    let found = check(&input(band, message));
    let count = message.len();
    assert!(found == expected(band, message), "{count} characters");
}

#[test]
fn no_input() {
    assert_eq!(check(b""), refused(1));
}

/// Only the digits of bands are accepted, and no length is refused before that.
#[test]
fn every_first_byte() {
    let mut random = Random::new(71);
    for first in 0..=255 {
        for count in [0, 1, 37, 38, 51, 101, 102] {
            let message = random.bytes(count);
            let found = check(&[&[first], &message[..]].concat());
            let band = first.wrapping_sub(b'0');
            let expected = if BANDS.contains(&band) {
                expected(band, &message)
            } else {
                refused(1)
            };
            assert!(found == expected, "{first}, then {count} bytes");
        }
    }
}

#[test]
fn messages_of_every_length() {
    let mut random = Random::new(72);
    for band in BANDS {
        for count in (0..=110).chain([255, 256, 257, 319, 320, 321, 1_000]) {
            check_message(band, &random.bytes(count));
        }
    }
}

#[test]
fn every_character_alone() {
    for band in BANDS {
        for character in 0..=255 {
            check_message(band, &[character]);
        }
    }
}

#[test]
fn every_character_in_messages() {
    let mut random = Random::new(73);
    for band in BANDS {
        for _ in 0..5 {
            for message in every_character(&mut random).chunks(37) {
                check_message(band, message);
            }
        }
    }
}

#[test]
fn random_messages() {
    let mut random = Random::new(74);
    for band in BANDS.into_iter().cycle().take(800) {
        let count = random.below(40);
        check_message(band, &random.bytes(count));
    }
}

#[test]
fn bytes_that_are_no_text() {
    for band in BANDS {
        for message in [
            &b"\n"[..],
            b"\n\n",
            b"A\n",
            b"\r\n",
            b"\0",
            b"A\0B",
            b"\x04\x1a",
            b"\x7f\x80\xff",
            b" ",
            b"1",
            b"12",
            b"band\n1\nsample\n",
        ] {
            check_message(band, message);
        }
        for byte in [0, 10, 255] {
            for count in [36, 37, 38, 50, 51, 99, 100, 101, 102] {
                check_message(band, &vec![byte; count]);
            }
        }
    }
}

/// The messages that come closest to the limit of a sheet from either side.
#[test]
fn the_shortest_and_the_longest_sheets() {
    for band in BANDS {
        for texts in [shortest(band, 50), longest(band, 50)] {
            for text in [0, 1, 2, 36, 37, 38, 39, 50].map(|count| &texts[count]) {
                check_message(band, &text.message);
            }
        }
    }
}

#[test]
fn large_inputs() {
    for count in [5_000, 65_536, 65_537, 2_000_000] {
        assert_eq!(check(&vec![b'1'; count]), refused(3), "{count}");
        assert_eq!(check(&vec![b'0' + NO_BAND; count]), refused(1), "{count}");
        assert_eq!(check(&vec![0; count]), refused(1), "{count}");
    }
}
