//! Short sheets read into four places and written into 32, and long ones at the
//! limits, with the answers written out.

use crate::common::sheet_calls::{read_into, told, write_into};

/// The lines behind `sample`, and the number that reading them gives.
const LINES: [(&[u8], u8); 20] = [
    (b"", 0),
    (b"0\n1\n-1\n8191\n", 0),
    (b"-8191\n9\n10\n999\n", 0),
    (b"8192\n", 5),
    (b"-8192\n", 5),
    (b"9999\n", 5),
    (b"1\n2\n3\n4\n5\n", 4),
    (b"9999\n1\n2\n3\n4\n", 5),
    (b"-0\n", 7),
    (b"00\n", 7),
    (b"05\n", 7),
    (b"+1\n", 7),
    (b"-\n", 7),
    (b"10000\n", 7),
    (b"1 \n", 7),
    (b"1\n\n2\n", 7),
    (b"1\r\n", 7),
    (b"\0\n", 7),
    (b"1\n2", 7),
    (b"9999\nx\n", 7),
];

const TEXTS: [(&[u8], u8); 11] = [
    (b"", 7),
    (b"band\n1\nsample", 7),
    (b"band\n2\nsample\n-7\n", 0),
    (b"band\n3\nsample\n-7\n", 0),
    (b"band\n4\nsample\n-7\n", 0),
    (b"band\n5\nsample\n-7\n", 1),
    (b"band\n12\nsample\n", 7),
    (b"Band\n1\nsample\n", 7),
    (b"band\n\nsample\n1\n", 7),
    (b"band\n9\nsample\n9999\n", 1),
    (b"band\n0\nsample\nx\n", 7),
];

fn behind_the_head(lines: &[u8]) -> Vec<u8> {
    [b"band\n1\nsample\n", lines].concat()
}

#[test]
fn short_texts() {
    let sheets = LINES.map(|(lines, number)| (behind_the_head(lines), number));
    let texts = TEXTS.map(|(text, number)| (text.to_vec(), number));
    for (text, number) in sheets.into_iter().chain(texts) {
        assert_eq!(read_into(&text, 4).0.number, number, "{}", told(&text));
    }
}

#[test]
fn what_is_read() {
    for (text, band, samples) in [
        (
            &b"band\n1\nsample\n0\n1\n-1\n8191\n"[..],
            1,
            &[0, 1, -1, 8191][..],
        ),
        (
            b"band\n1\nsample\n-8191\n9\n10\n999\n",
            1,
            &[-8191, 9, 10, 999],
        ),
        (b"band\n2\nsample\n-7\n", 2, &[-7]),
        (b"band\n2\nsample\n", 2, &[]),
        (b"band\n3\nsample\n-1180\n980\n", 3, &[-1180, 980]),
        (b"band\n4\nsample\n1850\n", 4, &[1850]),
    ] {
        let (answer, found) = read_into(text, 4);
        assert_eq!((answer.band, answer.count), (band, samples.len()));
        assert_eq!(found, samples, "{}", told(text));
    }
}

/// A sheet of so many bytes, with lines `0`.
#[test]
fn long_texts() {
    let text = behind_the_head(&b"0\n".repeat(40_000));
    for (bytes, places, number, count) in [
        (65_537, 16_384, 6, 0),
        (65_536, 16_384, 3, 0),
        (32_784, 16_384, 3, 0),
        (32_782, 16_384, 0, 16_384),
        (32_782, 16_383, 4, 0),
    ] {
        let (answer, _) = read_into(&text[..bytes], places);
        let found = (answer.number, answer.count);
        assert_eq!(found, (number, count), "{bytes} bytes into {places}");
    }
}

#[test]
fn what_is_written() {
    for (band, samples, expected) in [
        (1, &[][..], &b"band\n1\nsample\n"[..]),
        (1, &[0, 1, -1], b"band\n1\nsample\n0\n1\n-1\n"),
        (2, &[9, 10, 99, 100], b"band\n2\nsample\n9\n10\n99\n100\n"),
        (
            2,
            &[-9, -10, 999, 1000],
            b"band\n2\nsample\n-9\n-10\n999\n1000\n",
        ),
        (1, &[8191, -8191], b"band\n1\nsample\n8191\n-8191\n"),
        (
            1,
            &[-1000, -2000, -3000],
            b"band\n1\nsample\n-1000\n-2000\n-3000\n",
        ),
        (3, &[-7, 0], b"band\n3\nsample\n-7\n0\n"),
        (4, &[], b"band\n4\nsample\n"),
    ] {
        let (answer, text) = write_into(band, samples, 32);
        assert_eq!((answer.number, answer.count), (0, expected.len()));
        assert_eq!(text, expected);
    }
}

#[test]
fn what_is_not_written() {
    let long = |last| [&[-1000; 10_920][..], &[last]].concat();
    for (band, samples, places, number) in [
        (0, vec![1], 32, 1),
        (5, vec![1], 32, 1),
        (9, vec![1], 32, 1),
        (9, vec![8192], 32, 1),
        (1, vec![8192], 32, 5),
        (2, vec![-32768], 32, 5),
        (1, vec![1000; 16_384], 32, 6),
        (1, vec![8192; 16_385], 32, 3),
        (1, vec![-1000, -2000, 3000, 4], 32, 4),
        (1, long(10), 65_537, 6),
        (1, long(7), 65_537, 0),
        (2, vec![7; 16_384], 65_537, 0),
    ] {
        let answer = write_into(band, &samples, places).0;
        let count = samples.len();
        assert_eq!(answer.number, number, "band {band}, {count} samples");
    }
}
