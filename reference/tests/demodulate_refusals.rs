//! The program `demodulate` against the reference, on texts that are no sheets
//! or almost none, and on their neighbours.

use crate::common::process::printed;
use crate::common::sheets::{any_text, refused, text};
use crate::common::{forms, sines};
use reference::programs::demodulate;
use reference::random::Random;

/// The program must print what the reference does, which is returned.
fn check(text: &[u8]) -> Vec<u8> {
    let expected = demodulate(sines(), text);
    let found = printed("demodulate", text);
    let beginning = String::from_utf8_lossy(&text[..text.len().min(60)]);
    assert!(found == expected, "{} bytes: {beginning:?}", text.len());
    found
}

/// A sheet with every part of the form, and no byte twice in a row.
fn short() -> Vec<u8> {
    text("1", "-20\n0\n")
}

#[test]
fn texts_made_by_hand() {
    for (text, number) in forms::all() {
        let found = check(&text);
        let expected = match number {
            0 => b"number kind value\n".to_vec(),
            _ => refused(number),
        };
        let beginning = String::from_utf8_lossy(&text[..text.len().min(60)]);
        assert_eq!(found, expected, "{} bytes: {beginning:?}", text.len());
    }
}

#[test]
fn cut_off_at_every_byte() {
    let sheet = text("2", "-8191\n0\n10\n");
    for length in 0..=sheet.len() {
        let found = check(&sheet[..length]);
        // Behind each whole line from the third on, it is a sheet.
        let expected = match length {
            14 | 20 | 22 | 25 => b"number kind value\n".to_vec(),
            _ => refused(7),
        };
        assert_eq!(found, expected, "{length} bytes");
    }
}

fn check_changes(places: impl Iterator<Item = usize>) {
    for place in places {
        for byte in 0..=255 {
            let mut text = short();
            text[place] = byte;
            check(&text);
        }
    }
}

#[test]
fn even_places_changed_to_every_byte() {
    check_changes((0..short().len()).step_by(2));
}

#[test]
fn odd_places_changed_to_every_byte() {
    check_changes((1..short().len()).step_by(2));
}

#[test]
fn bytes_inserted_and_removed() {
    for place in 0..=short().len() {
        for &byte in b"0129-+\n\r \tbx\0\x80\xff" {
            let mut text = short();
            text.insert(place, byte);
            check(&text);
        }
    }
    for place in 0..short().len() {
        let mut text = short();
        text.remove(place);
        check(&text);
    }
}

#[test]
fn random_texts() {
    let mut random = Random::new(91);
    let mut accepted = 0;
    for _ in 0..3_000 {
        let found = check(&any_text(&mut random));
        accepted += usize::from(found == b"number kind value\n");
    }
    assert!((300..2_700).contains(&accepted), "{accepted}");
}

#[test]
fn bytes_that_are_no_text() {
    let mut random = Random::new(92);
    for _ in 0..200 {
        let count = random.below(100);
        check(&random.bytes(count));
    }
    for byte in 0..=255 {
        assert_eq!(check(&[byte; 70]), refused(7), "{byte}");
    }
}

#[test]
fn large_inputs() {
    for count in [65_537, 100_000, 131_072, 2_000_000] {
        for unit in [&b"x"[..], b"\0", b"0\n", b"band\n1\nsample\n"] {
            let text: Vec<u8> = unit.iter().copied().cycle().take(count).collect();
            assert_eq!(check(&text), refused(6), "{count} bytes");
        }
        let zeros = text("1", &"0\n".repeat(count / 2));
        assert_eq!(check(&zeros), refused(6), "{count} bytes");
    }
}
