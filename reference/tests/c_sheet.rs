//! `c/sheet.c`: what it prints of a sheet, and how it ends.

use crate::common::c::{compiled, file, Linked};
use crate::common::forms;
use crate::common::process::printed;
use crate::common::recording::{bits, keyed, keyed_in_doubt, no_stop_bit, sending};
use crate::common::sheets::sheet;
use crate::common::{BANDS, IDLE_SAMPLES};
use std::fs::File;
use std::io::Write;
use std::path::{Path, PathBuf};
use std::process::{Command, Stdio};
use std::sync::OnceLock;

fn program() -> &'static Path {
    static PROGRAM: OnceLock<PathBuf> = OnceLock::new();
    PROGRAM.get_or_init(|| compiled("sheet", &file("c/sheet.c"), &[], Linked::Static))
}

/// What it prints, what it reports and its status, with these two ends.
fn run(input: impl Into<Stdio>, output: impl Into<Stdio>, text: &[u8]) -> (Vec<u8>, String, i32) {
    let mut command = Command::new(program());
    let command = command.stdin(input).stdout(output).stderr(Stdio::piped());
    let mut child = command.spawn().expect("the program runs");
    if let Some(mut input) = child.stdin.take() {
        // It reads one byte more than a sheet may have, and then no more.
        let _ = input.write_all(text);
    }
    let output = child.wait_with_output().expect("it ends");
    let reported = String::from_utf8(output.stderr).expect("it reports text");
    let status = output.status.code().expect("no signal ends it");
    (output.stdout, reported, status)
}

fn run_on(text: &[u8]) -> (Vec<u8>, String, i32) {
    run(Stdio::piped(), Stdio::piped(), text)
}

#[test]
fn characters_of_a_sheet() {
    for band in BANDS {
        for message in [&b""[..], b"HELLO", b"\0\n\xff\x80", &[b'U'; 37]] {
            let expected = (message.to_vec(), String::new(), 0);
            assert_eq!(run_on(&sheet(band, &sending(band, message))), expected);
            let input = [&[b'0' + band], message].concat();
            assert_eq!(run_on(&printed("modulate", &input)), expected);
        }
    }
}

/// A fault, a break or a doubt is told apart from the characters before and behind it.
#[test]
fn faults_of_a_sheet() {
    for band in BANDS {
        let broken = &sending(band, &[0xff])[..IDLE_SAMPLES + 64];
        let whole = sending(band, b"A");
        let lost = [&whole, broken, &[0; 200], &whole].concat();
        let expected = (b"AA".to_vec(), "carrier lost\n".to_string(), 0);
        assert_eq!(run_on(&sheet(band, &lost)), expected, "band {band}");
        for (first, told) in [(b'A', "no stop bit\n"), (0, "break\n")] {
            let bits = [no_stop_bit(&[first]), bits(b"B")].concat();
            let expected = (b"B".to_vec(), told.to_string(), 0);
            let found = run_on(&sheet(band, &keyed(band, &bits)));
            assert_eq!(found, expected, "band {band}");
        }
        // The last data bit of FF, behind the leader and the start bit.
        let bits = bits(b"\xffB");
        let expected = (b"B".to_vec(), "doubtful bit\n".to_string(), 0);
        let found = run_on(&sheet(band, &keyed_in_doubt(band, &bits, 3 + 8, 0)));
        assert_eq!(found, expected, "band {band}");
    }
}

#[test]
fn refused_texts() {
    let mut seen = [0; 8];
    for (text, number) in forms::all() {
        let (out, reported, status) = run_on(&text);
        if number == 0 {
            assert_eq!((reported.as_str(), status), ("", 0));
        } else {
            assert_eq!((out, status), (vec![], 1));
            assert_eq!(reported, format!("refused {number}\n"));
        }
        seen[usize::from(number)] += 1;
    }
    for number in [0, 1, 3, 5, 6, 7] {
        assert!(seen[number] > 0, "{number}: {seen:?}");
    }
}

/// Reading a folder fails.
#[test]
fn input_that_cannot_be_read() {
    let folder = File::open(file("c")).expect("a folder");
    let (out, reported, status) = run(folder, Stdio::piped(), b"");
    assert_eq!((out, status), (vec![], 2));
    assert!(reported.starts_with("standard input: "), "{reported}");
}

/// Writing to a full device fails.
#[test]
fn output_that_cannot_be_written() {
    let full = File::create("/dev/full").expect("it is there");
    let text = sheet(1, &sending(1, b"A"));
    let (_, reported, status) = run(Stdio::piped(), full, &text);
    assert_eq!(status, 2);
    assert!(reported.starts_with("standard output: "), "{reported}");
}
