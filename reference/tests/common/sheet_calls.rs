//! A sheet read or written on both sides, and compared.

use super::lent::{no_sample, no_text, Lent};
use super::{assert_places, Side, SIDES};
use reference::library;
use reference::sheet::{self, ReadAnswer, WriteAnswer};

/// A text in words, without its many lines.
pub fn told(text: &[u8]) -> String {
    let beginning = String::from_utf8_lossy(&text[..text.len().min(40)]);
    format!("{beginning:?}, {} bytes", text.len())
}

fn read_by(side: Side, text: &[u8], length: usize) -> (ReadAnswer, Vec<i16>) {
    let mut lent = Lent::new(length, no_sample);
    let answer = match side {
        Side::Reference => sheet::read(text, lent.places()),
        Side::Library => library::sheet_read(text, lent.places()),
    };
    let what = || format!("{side:?}: {} into {length}", told(text));
    if answer.number != 0 {
        assert_eq!((answer.band, answer.count), (0, 0), "{}", what());
    }
    (answer, lent.returned(answer.count, what))
}

/// Reads into `length` places: the library must answer as the reference does, in
/// every place. Gives the samples that were read.
pub fn read_into(text: &[u8], length: usize) -> (ReadAnswer, Vec<i16>) {
    let [expected, mut found] = SIDES.map(|side| read_by(side, text, length));
    let what = || format!("{} into {length}", told(text));
    assert_eq!(found.0, expected.0, "{}", what());
    assert_places(&found.1, &expected.1, what);
    found.1.truncate(found.0.count);
    found
}

/// The number, the band and the samples, read into places enough: a line has
/// two bytes or more.
pub fn reading(text: &[u8]) -> (u8, u8, Vec<i16>) {
    let (answer, samples) = read_into(text, text.len() / 2);
    (answer.number, answer.band, samples)
}

fn write_by(side: Side, band: u8, samples: &[i16], length: usize) -> (WriteAnswer, Vec<u8>) {
    let mut lent = Lent::new(length, no_text);
    let answer = match side {
        Side::Reference => sheet::write(band, samples, lent.places()),
        Side::Library => library::sheet_write(band, samples, lent.places()),
    };
    let count = samples.len();
    let what = || format!("{side:?}: band {band}, {count} samples into {length}");
    if answer.number != 0 {
        assert_eq!(answer.count, 0, "{}", what());
    }
    (answer, lent.returned(answer.count, what))
}

/// The same for a writing. Gives the text.
pub fn write_into(band: u8, samples: &[i16], length: usize) -> (WriteAnswer, Vec<u8>) {
    let [expected, mut found] = SIDES.map(|side| write_by(side, band, samples, length));
    let what = format!("band {band}, {} samples into {length}", samples.len());
    assert_eq!(found.0, expected.0, "{what}");
    assert!(found.1 == expected.1, "{what}");
    found.1.truncate(found.0.count);
    found
}
