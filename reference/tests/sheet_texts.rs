//! Texts that are a sheet or almost one, against a judge by other means.

use crate::common::sheet_calls::{read_into, reading, told, write_into};
use crate::common::sheets::{any_text, text, HEAD, MOST_BYTES};
use crate::common::{forms, BANDS};
use reference::random::Random;
use std::collections::HashMap;

/// A sheet by other means: the lines of a text are the decimal numbers from
/// -9999 to 9999 as they are commonly printed.
struct Judge {
    printed: HashMap<String, i16>,
}

impl Judge {
    fn new() -> Judge {
        let numbers = -9_999..=9_999;
        Judge {
            printed: numbers.map(|number| (number.to_string(), number)).collect(),
        }
    }

    /// The band and the samples of a text that has the form.
    fn sheet(&self, text: &[u8]) -> Option<(u8, Vec<i16>)> {
        let text = String::from_utf8(text.to_vec()).ok()?;
        let mut lines: Vec<&str> = text.split('\n').collect();
        // What is behind the last line feed must be nothing.
        if lines.pop() != Some("") || lines.len() < 3 {
            return None;
        }
        let samples = lines.split_off(3);
        let digits = ["0", "1", "2", "3", "4", "5", "6", "7", "8", "9"];
        let band = digits.iter().position(|&digit| digit == lines[1])?;
        if lines[0] != "band" || lines[2] != "sample" {
            return None;
        }
        let samples = samples.iter().map(|&line| self.printed.get(line).copied());
        Some((band as u8, samples.collect::<Option<_>>()?))
    }

    /// The number, the band and the samples that a reading gives.
    fn reading(&self, text: &[u8]) -> (u8, u8, Vec<i16>) {
        let refused = |number| (number, 0, vec![]);
        if text.len() > MOST_BYTES {
            return refused(6);
        }
        match self.sheet(text) {
            None => refused(7),
            Some((band, _)) if !BANDS.contains(&band) => refused(1),
            Some((_, samples)) if samples.len() > 16_384 => refused(3),
            Some((_, samples)) if samples.iter().any(|x| x.abs() > 8_191) => refused(5),
            Some((band, samples)) => (0, band, samples),
        }
    }

    fn check(&self, text: &[u8]) -> u8 {
        let expected = self.reading(text);
        assert_eq!(reading(text), expected, "{}", told(text));
        expected.0
    }
}

#[test]
fn random_texts() {
    let judge = Judge::new();
    let mut random = Random::new(52);
    let mut seen = [0; 8];
    for _ in 0..20_000 {
        seen[usize::from(judge.check(&any_text(&mut random)))] += 1;
    }
    for number in [0, 1, 5, 7] {
        assert!(seen[number] >= 500, "{number} was too rare: {seen:?}");
    }
}

/// What is accepted and written again is the same text.
#[test]
fn writing_is_the_inverse_of_reading() {
    let mut random = Random::new(53);
    let mut accepted = 0;
    for _ in 0..20_000 {
        let text = any_text(&mut random);
        let (number, band, samples) = reading(&text);
        if number == 0 {
            assert_eq!(write_into(band, &samples, MOST_BYTES).1, text);
            accepted += 1;
        }
    }
    assert!(accepted >= 500, "{accepted}");
}

/// All lines of up to `longest` of these bytes, in a sheet of their own.
fn check_lines(judge: &Judge, bytes: &[u8], longest: usize) {
    let mut lines = vec![vec![]];
    for _ in 0..=longest {
        for line in &lines {
            judge.check(&[b"band\n1\nsample\n", &line[..], b"\n"].concat());
        }
        let longer = |line: &Vec<u8>| {
            let line = line.clone();
            bytes.iter().map(move |&byte| [&line[..], &[byte]].concat())
        };
        lines = lines.iter().flat_map(longer).collect();
    }
}

#[test]
fn all_lines_of_two_bytes() {
    let bytes: Vec<u8> = (0..=255).collect();
    check_lines(&Judge::new(), &bytes, 2);
}

#[test]
fn all_lines_of_few_characters() {
    check_lines(&Judge::new(), b"0189-\n", 6);
}

/// Each byte of a short sheet changed to every one, and one before it to some.
#[test]
fn changed_bytes() {
    let judge = Judge::new();
    let sheet = text("1", "-20\n0\n");
    for first in 0..sheet.len() {
        for byte in 0..=255 {
            let mut changed = sheet.clone();
            changed[first] = byte;
            judge.check(&changed);
            for second in 0..first {
                let mut changed = changed.clone();
                for byte in *b"0129-\nbs\r\xff" {
                    changed[second] = byte;
                    judge.check(&changed);
                }
            }
        }
    }
}

#[test]
fn texts_made_by_hand() {
    let judge = Judge::new();
    for (text, number) in forms::all() {
        assert_eq!(judge.check(&text), number, "{}", told(&text));
        // Being short of places is the last condition.
        let (answer, _) = read_into(&text, 0);
        let short = number == 0 && text.len() > HEAD;
        let expected = if short { 4 } else { number };
        assert_eq!(answer.number, expected, "{}", told(&text));
    }
}
