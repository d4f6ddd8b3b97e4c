//! Texts made by hand, and the number that reading each of them gives when
//! there are places enough.

use super::sheets::{lines, text, BAD_LINES, HEAD, MOST_BYTES};
use super::NO_BAND;

type Numbered = (Vec<u8>, u8);

pub fn all() -> Vec<Numbered> {
    let bad = bad_lines().into_iter();
    bad.chain(names_and_band())
        .chain(largest_samples())
        .chain(most_samples())
        .chain(most_bytes())
        .chain(several_conditions())
        .collect()
}

fn names_and_band() -> Vec<Numbered> {
    let texts: [(&[u8], u8); 34] = [
        (b"", 7),
        (b"\n", 7),
        (b"\0", 7),
        (b"band", 7),
        (b"band\n", 7),
        (b"band\n1", 7),
        (b"band\n1\n", 7),
        (b"band\n1\nsample", 7),
        (b"band\n1\nsample\n", 0),
        (b"band\n2\nsample\n", 0),
        (b"band\n3\nsample\n", 0),
        (b"band\n4\nsample\n", 0),
        (b"band\n0\nsample\n", 1),
        (b"band\n5\nsample\n", 1),
        (b"band\n9\nsample\n", 1),
        (b"band\n12\nsample\n", 7),
        (b"band\n01\nsample\n", 7),
        (b"band\n-1\nsample\n", 7),
        (b"band\n1 \nsample\n", 7),
        (b"band\n\nsample\n", 7),
        (b"band\na\nsample\n", 7),
        (b"band\n/\nsample\n", 7),
        (b"band\n:\nsample\n", 7),
        (b"Band\n1\nsample\n", 7),
        (b"band \n1\nsample\n", 7),
        (b"band\r\n1\r\nsample\r\n", 7),
        (b"band\n1\nsamples\n", 7),
        (b"band\n1\nsample\n\n", 7),
        (b"band\n1\nsample\n5", 7),
        (b"band\n1\nsample\n5\n", 0),
        (b"band\n1\nsample\n5\n\n", 7),
        (b"\nband\n1\nsample\n", 7),
        (b"sample\nband\n1\n", 7),
        (b"\xef\xbb\xbfband\n1\nsample\n", 7),
    ];
    texts.map(|(text, number)| (text.to_vec(), number)).into()
}

fn bad_lines() -> Vec<Numbered> {
    let places = |bad: &[u8]| {
        let alone = [b"band\n1\nsample\n", bad, b"\n"].concat();
        let first = [&alone[..], b"1\n2\n"].concat();
        let last = [b"band\n2\nsample\n1\n2\n", bad, b"\n"].concat();
        [alone, first, last].map(|text| (text, 7))
    };
    BAD_LINES.iter().flat_map(|bad| places(bad)).collect()
}

fn largest_samples() -> Vec<Numbered> {
    let places = |(line, number)| {
        let alone = text("1", &format!("{line}\n"));
        let between = text("2", &format!("1\n{line}\n-2\n"));
        [(alone, number), (between, number)]
    };
    let lines = [
        ("8191", 0),
        ("-8191", 0),
        ("8192", 5),
        ("-8192", 5),
        ("9999", 5),
        ("-9999", 5),
        ("10000", 7),
        ("-10000", 7),
        ("32768", 7),
        ("-32769", 7),
    ];
    lines.into_iter().flat_map(places).collect()
}

/// 32,761 samples are the most that 65,536 bytes hold.
fn most_samples() -> Vec<Numbered> {
    let counts = [
        (16_383, 0),
        (16_384, 0),
        (16_385, 3),
        (32_761, 3),
        (32_762, 6),
    ];
    let zeros = |(count, number)| (text("1", &"0\n".repeat(count)), number);
    counts.map(zeros).into()
}

fn most_bytes() -> Vec<Numbered> {
    let longest = text("2", &lines(MOST_BYTES - HEAD));
    let longer = text("2", &lines(MOST_BYTES + 1 - HEAD));
    assert_eq!(longest.len(), MOST_BYTES);
    assert_eq!(longer.len(), MOST_BYTES + 1);
    let ends = |text: &[u8], end: &[u8]| [&text[..text.len() - end.len()], end].concat();
    vec![
        (ends(&longest, b"x"), 7),
        (ends(&longest, b"\n\n"), 7),
        (ends(&longer, b"x"), 6),
        ([&longest[..], b"\n"].concat(), 6),
        ([&longest[..], b"\0"].concat(), 6),
        (longer[..MOST_BYTES].to_vec(), 7),
        (longest, 0),
        (longer, 6),
        (vec![b'x'; MOST_BYTES], 7),
        (vec![b'x'; MOST_BYTES + 1], 6),
        (vec![0; 100_000], 6),
    ]
}

/// The order is 6, 7, 1, 3, 5.
fn several_conditions() -> Vec<Numbered> {
    let none = NO_BAND.to_string();
    let many = "0\n".repeat(16_385);
    let much = "-9999\n".repeat(11_000);
    vec![
        (text("x", &format!("{much}x")), 6),
        (text(&none, &much), 6),
        (text("1", &much), 6),
        (text(&none, &format!("{many}8192\nx\n")), 7),
        (text(&none, &format!("00\n{many}")), 7),
        (text(&none, "8192\n05\n"), 7),
        (text(&none, "1"), 7),
        (text("1", "8192\n00\n"), 7),
        (text("1", &format!("{many}-0\n")), 7),
        (text(&none, &format!("{many}8192\n")), 1),
        (text(&none, &many), 1),
        (text("0", "8192\n"), 1),
        (text("9", "1\n"), 1),
        (text("1", &format!("{many}8192\n")), 3),
        (text("1", &format!("-8192\n{many}")), 3),
        (text("2", &many.replacen('0', "9999", 1)), 3),
    ]
}
