//! Sheets that are made by hand, whatever the reference reads and writes.

use super::recording::around_0;
use super::{BANDS, NO_BAND};
use reference::random::Random;

/// The bytes before the lines of the samples.
pub const HEAD: usize = "band\n1\nsample\n".len();

pub const MOST_BYTES: usize = 65_536;

/// The names lines with anything in between and behind them.
pub fn text(band: &str, lines: &str) -> Vec<u8> {
    format!("band\n{band}\nsample\n{lines}").into_bytes()
}

/// The sheet of samples, which may be out of range.
pub fn sheet(band: u8, samples: &[i16]) -> Vec<u8> {
    let lines: String = samples.iter().map(|sample| format!("{sample}\n")).collect();
    text(&band.to_string(), &lines)
}

/// Lines of samples that have so many bytes in all; 1 cannot be had.
pub fn lines(bytes: usize) -> String {
    let short = ["", "", "0\n", "10\n", "100\n", "1000\n", "-1000\n"];
    let rest = if bytes % 5 == 1 { 6 } else { bytes % 5 };
    short[rest].to_string() + &"1000\n".repeat((bytes - rest) / 5)
}

/// What a program prints when it refuses.
pub fn refused(number: u8) -> Vec<u8> {
    format!("refused\n{number}\n").into_bytes()
}

/// Lines that are no sample.
pub const BAD_LINES: [&[u8]; 40] = [
    b"",
    b"-",
    b"-0",
    b"00",
    b"05",
    b"-05",
    b"+1",
    b"+0",
    b"--1",
    b"1-",
    b"10000",
    b"-10000",
    b"99999",
    b"65536",
    b"65537",
    b"4294967297",
    b"00001",
    b"1.0",
    b"1e3",
    b"0x1",
    b"1a",
    b"a",
    b" 1",
    b"1 ",
    b"\t1",
    b"1\r",
    b"\r",
    b"0\r",
    b"\0",
    b"1\0",
    b"\x001",
    b"\x80",
    b"1\xff",
    b"\xff",
    b"1,2",
    b"1 2",
    b"sample",
    b"band",
    b"\xc2\xb2",
    b"\xe2\x88\x921",
];

/// A sample from the whole range, one that needs few digits, or one close to
/// where the digits or the range change.
pub fn any_sample(random: &mut Random) -> i16 {
    match random.below(3) {
        0 => around_0(random, 8_191),
        1 => {
            let most = [1, 9, 99, 999][random.below(4)];
            around_0(random, most)
        }
        _ => {
            let edges = [0, 9, 10, 99, 100, 999, 1_000, 8_190, 8_191];
            [1, -1][random.below(2)] * edges[random.below(edges.len())]
        }
    }
}

pub fn any_samples(random: &mut Random, count: usize) -> Vec<i16> {
    (0..count).map(|_| any_sample(random)).collect()
}

/// A sheet or almost one: the band, a line or a byte may be wrong.
pub fn any_text(random: &mut Random) -> Vec<u8> {
    let mut text = b"band\n".to_vec();
    text.extend(any_band(random));
    text.extend(b"\nsample\n");
    for _ in 0..random.below(8) {
        text.extend(any_line(random));
    }
    if random.below(3) == 0 {
        spoil(random, &mut text);
    }
    text
}

fn any_band(random: &mut Random) -> Vec<u8> {
    let none = [b'0' + NO_BAND];
    let others: [&[u8]; 12] = [
        b"0", &none, b"9", b"", b"-1", b"01", b"12", b"1\r", b" 1", b"a", b"\0", b"\xff",
    ];
    match random.below(4) {
        0 => others[random.below(others.len())].to_vec(),
        _ => vec![b'0' + BANDS[random.below(BANDS.len())]],
    }
}

fn any_line(random: &mut Random) -> Vec<u8> {
    match random.below(16) {
        0 => [BAD_LINES[random.below(BAD_LINES.len())], b"\n"].concat(),
        1 => {
            let sign = ["", "-"][random.below(2)];
            format!("{sign}{}\n", 8_192 + random.below(1_808)).into_bytes()
        }
        _ => format!("{}\n", any_sample(random)).into_bytes(),
    }
}

/// Changes, inserts or removes a byte, or cuts the text off.
fn spoil(random: &mut Random, text: &mut Vec<u8>) {
    let place = random.below(text.len());
    let bytes = b"0123456789--\n\n\r b\0\xff";
    let byte = bytes[random.below(bytes.len())];
    match random.below(4) {
        0 => text[place] = byte,
        1 => text.insert(place, byte),
        2 => drop(text.remove(place)),
        _ => text.truncate(place),
    }
}
