//! How `modulate` and `demodulate` take their input and give their output: one
//! behind the other, slowly, without end, or to nobody.

use crate::common::process::{ended, in_shell, input_of, printed_slowly, printed_through, started};
use crate::common::recording::sending;
use crate::common::sheets::{lines, refused, sheet, text, HEAD, MOST_BYTES};
use crate::common::{sines, BANDS};
use reference::programs::{demodulate, modulate};
use reference::random::Random;
use std::fs::File;
use std::io::{Read, Write};
use std::os::unix::process::ExitStatusExt;
use std::process::{Child, ExitStatus, Stdio};
use std::thread;
use std::time::Duration;

/// An input for each program to which it prints much.
fn inputs() -> [(&'static str, Vec<u8>); 2] {
    let message = [0x41; 37];
    [
        ("modulate", [b"1", &message[..]].concat()),
        ("demodulate", sheet(1, &sending(1, &message))),
    ]
}

/// The lines of exactly the message.
fn listed(message: &[u8]) -> Vec<u8> {
    let mut lines = "number kind value\n".to_string();
    for (place, byte) in message.iter().enumerate() {
        lines += &format!("{place} char {byte:02x}\n");
    }
    lines.into_bytes()
}

/// What is sent is what is read, up to 37 characters. The lines of a refusal
/// are no sheet.
fn check_messages(band: u8, seed: u64) {
    let mut random = Random::new(seed);
    for count in (0..=40).cycle().take(3 * 41) {
        let message = random.bytes(count);
        let input = [&[b'0' + band], &message[..]].concat();
        let found = printed_through("modulate", "demodulate", &input);
        let expected = match count {
            0..=37 => listed(&message),
            _ => refused(7),
        };
        assert!(found == expected, "band {band}: {message:x?}");
    }
}

#[test]
fn messages_in_band_1() {
    check_messages(1, 101);
}

#[test]
fn messages_in_band_2() {
    check_messages(2, 102);
}

/// Whatever the size of the pieces, the same is printed.
fn check_slowly(program: &str, input: &[u8], size: usize, expected: &[u8]) {
    let pause = Duration::from_millis(1);
    let found = printed_slowly(program, input.chunks(size), pause);
    let count = input.len();
    assert!(found == expected, "{program}, {count} bytes by {size}");
}

#[test]
fn messages_that_come_slowly() {
    let mut random = Random::new(103);
    for band in BANDS {
        for count in [0, 1, 37, 38, 50, 51, 100, 101, 150] {
            let message = random.bytes(count);
            let input = [&[b'0' + band], &message[..]].concat();
            for size in [1, 2, 7, 64] {
                let expected = modulate(sines(), &input);
                check_slowly("modulate", &input, size, &expected);
            }
        }
    }
}

#[test]
fn sheets_that_come_slowly() {
    let short = text("1", "-20\n0\n8191\n-8191\n7\n");
    let character = sheet(2, &sending(2, b"A"));
    let longest = text("2", &lines(MOST_BYTES - HEAD));
    let longer = text("2", &lines(MOST_BYTES + 1 - HEAD));
    for (sheet, size) in [
        (&short, 1),
        (&short, 3),
        (&character, 11),
        (&character, 256),
        (&longest, 1_000),
        (&longest, 4_096),
        (&longest, 65_535),
        (&longer, 997),
        (&longer, 65_536),
    ] {
        check_slowly("demodulate", sheet, size, &demodulate(sines(), sheet));
    }
}

/// A long pause is not the end of the input.
#[test]
fn long_pauses() {
    let pause = Duration::from_millis(300);
    let pieces = [&b"1"[..], b"A", b"B"];
    let found = printed_slowly("modulate", pieces, pause);
    assert!(found == modulate(sines(), b"1AB"));
    let pieces = [&b"band\n1\nsample"[..], b"\n", b"8", b"192\n"];
    let found = printed_slowly("demodulate", pieces, pause);
    assert_eq!(found, refused(5));
}

/// What the program prints while its input is still open, behind more bytes
/// than it needs.
fn printed_of_endless(program: &str, byte: u8) -> Vec<u8> {
    let mut program = started(program, Stdio::piped(), Stdio::piped());
    let mut input = input_of(&mut program);
    let mut output = program.stdout.take().expect("standard output is a pipe");
    // The pipe is closed when the program ends, so this ends then too.
    let feeding = thread::spawn(move || {
        let _ = input.write_all(&vec![byte; 2_000_000]);
        input
    });
    let status = ended(program);
    assert!(status.success(), "{status:?}");
    drop(feeding.join());
    let mut found = Vec::new();
    output.read_to_end(&mut found).expect("the program printed");
    found
}

#[test]
fn input_that_does_not_end() {
    assert_eq!(printed_of_endless("modulate", b'1'), refused(3));
    assert_eq!(printed_of_endless("modulate", b'x'), refused(1));
    assert_eq!(printed_of_endless("demodulate", b'0'), refused(6));
}

/// Gives the input. Returns how the program ends, and its error report.
fn fed(mut program: Child, input: &[u8]) -> (ExitStatus, String) {
    let _ = input_of(&mut program).write_all(input);
    let mut errors = program.stderr.take().expect("standard error is a pipe");
    let status = ended(program);
    let mut report = String::new();
    errors.read_to_string(&mut report).expect("it is a text");
    (status, report)
}

/// It ends by itself with status 0, or by the signal for a pipe that nobody
/// reads, which has the number 13.
fn assert_ended_or_stopped(status: ExitStatus, what: &str) {
    let soundly = status.success() || status.signal() == Some(13);
    assert!(soundly, "{what}: {status:?}");
}

/// It cannot print, reports the error, and ends with status 0.
fn assert_reported(program: &str, started: Child, input: &[u8], error: &str) {
    let (status, report) = fed(started, input);
    assert!(status.success(), "{program}: {status:?}");
    assert_eq!(report, format!("{program}: standard output: {error}\n"));
}

#[test]
fn output_that_nobody_reads() {
    for (program, input) in inputs() {
        let mut started = started(program, Stdio::piped(), Stdio::piped());
        drop(started.stdout.take());
        assert_ended_or_stopped(fed(started, &input).0, program);
    }
}

/// The same when the signal is ignored, so that printing fails.
#[test]
fn output_that_nobody_reads_and_no_signal() {
    for (program, input) in inputs() {
        let mut started = in_shell(program, "trap '' PIPE; exec \"$0\"");
        drop(started.stdout.take());
        assert_reported(program, started, &input, "Broken pipe");
    }
}

#[test]
fn output_that_is_closed_or_full() {
    for (program, input) in inputs() {
        let closed = in_shell(program, "exec \"$0\" >&-");
        assert_reported(program, closed, &input, "Bad file descriptor");
        let full = File::options().write(true).open("/dev/full");
        let full = started(program, Stdio::piped(), full.expect("the device is there"));
        assert_reported(program, full, &input, "No space left on device");
    }
}

/// Printing that stops in the middle: the reader takes a few bytes and goes.
#[test]
fn output_of_which_little_is_read() {
    for (program, input) in inputs() {
        let mut started = started(program, Stdio::piped(), Stdio::piped());
        let _ = input_of(&mut started).write_all(&input);
        let mut output = started.stdout.take().expect("it is a pipe");
        let mut few = [0; 10];
        output.read_exact(&mut few).expect("the program prints");
        drop(output);
        assert_ended_or_stopped(ended(started), program);
    }
}
