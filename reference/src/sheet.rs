//! The sheet of the specification: a band and samples as text.

use crate::receiver::{is_sample, MOST_SAMPLES};
use crate::transmitter::is_band;

pub const MOST_BYTES: usize = 65_536;

const BEFORE_BAND: &[u8] = b"band\n";
const BEHIND_BAND: &[u8] = b"\nsample\n";
const MOST_DIGITS: usize = 4;

/// What a reading returns besides the samples it leaves in the lent places.
#[derive(Clone, Copy, Debug, PartialEq, Eq)]
pub struct ReadAnswer {
    pub number: u8,
    pub band: u8,
    pub count: usize,
}

/// What a writing returns besides the text it leaves in the lent places.
#[derive(Clone, Copy, Debug, PartialEq, Eq)]
pub struct WriteAnswer {
    pub number: u8,
    pub count: usize,
}

/// Reads a sheet and writes its samples to the front of `places`.
pub fn read(text: &[u8], places: &mut [i16]) -> ReadAnswer {
    let refused = |number| ReadAnswer {
        number,
        band: 0,
        count: 0,
    };
    if text.len() > MOST_BYTES {
        return refused(6);
    }
    let Some((band, samples)) = parsed(text) else {
        return refused(7);
    };
    if let Some(number) = refusal(band, &samples) {
        return refused(number);
    }
    let count = samples.len();
    if places.len() < count {
        return refused(4);
    }
    places[..count].copy_from_slice(&samples);
    ReadAnswer {
        number: 0,
        band,
        count,
    }
}

/// Writes the sheet of a band and samples to the front of `places`.
pub fn write(band: u8, samples: &[i16], places: &mut [u8]) -> WriteAnswer {
    let refused = |number| WriteAnswer { number, count: 0 };
    if let Some(number) = refusal(band, samples) {
        return refused(number);
    }
    let text = text(band, samples);
    let count = text.len();
    if count > MOST_BYTES {
        return refused(6);
    }
    if places.len() < count {
        return refused(4);
    }
    places[..count].copy_from_slice(&text);
    WriteAnswer { number: 0, count }
}

/// The first refusal of what a sheet holds.
fn refusal(band: u8, samples: &[i16]) -> Option<u8> {
    if !is_band(band) {
        Some(1)
    } else if samples.len() > MOST_SAMPLES {
        Some(3)
    } else if !samples.iter().all(|&sample| is_sample(sample)) {
        Some(5)
    } else {
        None
    }
}

/// The band and all samples of a text that has the form of a sheet.
fn parsed(text: &[u8]) -> Option<(u8, Vec<i16>)> {
    let (&band, rest) = text.strip_prefix(BEFORE_BAND)?.split_first()?;
    let lines = rest.strip_prefix(BEHIND_BAND)?;
    let samples = lines.split_inclusive(|&byte| byte == b'\n').map(sample);
    Some((digit(band)?, samples.collect::<Option<_>>()?))
}

/// The sample on a line, which must have its line feed.
fn sample(line: &[u8]) -> Option<i16> {
    match line.strip_suffix(b"\n")? {
        b"0" => Some(0),
        [b'-', digits @ ..] => positive(digits).map(|number| -number),
        digits => positive(digits),
    }
}

/// The number of one to four digits that do not begin with 0.
fn positive(digits: &[u8]) -> Option<i16> {
    if matches!(digits, [] | [b'0', ..]) || digits.len() > MOST_DIGITS {
        return None;
    }
    let append = |number, &byte: &u8| Some(10 * number + i16::from(digit(byte)?));
    digits.iter().try_fold(0, append)
}

pub(crate) fn digit(byte: u8) -> Option<u8> {
    byte.is_ascii_digit().then(|| byte - b'0')
}

fn text(band: u8, samples: &[i16]) -> Vec<u8> {
    let mut text = [BEFORE_BAND, &[b'0' + band], BEHIND_BAND].concat();
    for sample in samples {
        text.extend(format!("{sample}\n").bytes());
    }
    text
}
