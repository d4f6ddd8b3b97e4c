//! Input that cannot be read to its end: nothing is made of the front that was
//! read. And input that only comes in fits and starts: nothing of it is lost.

use crate::common::faults::{after, given, not_waiting, with_faults, EAGAIN, EINTR, FAILURES};
use crate::common::process::{in_shell, input_of, started};
use crate::common::recording::sending;
use crate::common::sheets::{lines, refused, sheet, text, HEAD, MOST_BYTES};
use crate::common::sines;
use reference::programs::{demodulate, modulate};
use std::fs::File;
use std::io::Write;
use std::process::Stdio;
use std::thread;
use std::time::Duration;

/// The bytes that `modulate` reads at most.
const MOST_MESSAGE: usize = 102;

/// A short input for each program.
fn short_inputs() -> [(&'static str, Vec<u8>); 2] {
    [
        ("modulate", b"1HELLO".to_vec()),
        ("demodulate", text("1", "-20\n0\n8191\n-8191\n7\n")),
    ]
}

fn expected(program: &str, input: &[u8]) -> Vec<u8> {
    match program {
        "modulate" => modulate(sines(), input),
        _ => demodulate(sines(), input),
    }
}

/// Nothing is printed, and one line reports the error.
fn assert_failed(program: &str, input: &[u8], reads: &str, error: &str) {
    let report = format!("{program}: standard input: {error}");
    let what = || format!("{program}, reads {reads}");
    with_faults(program, input, reads, "").assert_failed(b"", &report, what);
}

/// What is printed is what is printed without faults.
fn assert_undisturbed(program: &str, input: &[u8], reads: &str) {
    let what = || format!("{program}, reads {reads}");
    with_faults(program, input, reads, "").assert_printed(&expected(program, input), what);
}

/// Before the first byte, inside and behind each line and each number, and
/// where only the end of the input was to come.
#[test]
fn a_failure_at_every_place() {
    for (program, input) in short_inputs() {
        for place in 0..=input.len() {
            for (number, error) in FAILURES {
                let reads = after(place, MOST_BYTES, &format!("-{number}"));
                assert_failed(program, &input, &reads, error);
            }
            for piece in [1, 3, MOST_BYTES] {
                let reads = after(place, piece, "-5*");
                assert_failed(program, &input, &reads, "Input/output error");
            }
        }
    }
}

/// Up to the end of any line a recording's front is a sheet, and reads like
/// one.
#[test]
fn a_failure_behind_each_line_of_a_recording() {
    let recording = sheet(1, &sending(1, b"A"));
    let mut places = 0;
    for place in HEAD + 1..=recording.len() {
        if recording[place - 1] == b'\n' {
            let front = demodulate(sines(), &recording[..place]);
            assert!(front.starts_with(b"number kind value\n"), "{place}");
            let reads = after(place, 1_000, "-5");
            assert_failed("demodulate", &recording, &reads, "Input/output error");
            places += 1;
        }
    }
    assert_eq!(places, 96 + 320 + 96);
}

/// A failure is met in the last read that is made, and not behind it.
#[test]
fn a_failure_at_the_end_of_what_is_read() {
    let message = [b"1", &[b'A'; MOST_MESSAGE][..]].concat();
    let longer = text("2", &lines(MOST_BYTES + 2 - HEAD));
    for (program, input, most, number) in [
        ("modulate", message, MOST_MESSAGE, 3),
        ("demodulate", longer, MOST_BYTES + 1, 6),
    ] {
        let before = after(most - 1, most, "-5*");
        assert_failed(program, &input, &before, "Input/output error");
        let behind = after(most, most, "-5*");
        let what = || format!("{program}, a failure behind byte {most}");
        with_faults(program, &input, &behind, "").assert_printed(&refused(number), what);
    }
}

#[test]
fn interrupted_at_every_place() {
    for (program, input) in short_inputs() {
        for place in 0..=input.len() {
            for times in [1, 2, 5] {
                let interrupted = format!("-{EINTR} ").repeat(times);
                let reads = after(place, 4, &interrupted);
                assert_undisturbed(program, &input, &reads);
            }
        }
        let each = format!("-{EINTR} 1 ").repeat(input.len());
        assert_undisturbed(program, &input, &format!("{each} -{EINTR}"));
    }
}

#[test]
fn not_ready_at_every_place() {
    for (program, input) in short_inputs() {
        for place in 0..=input.len() {
            for times in [1, 4] {
                let waits = format!("-{EAGAIN} ").repeat(times);
                assert_undisturbed(program, &input, &after(place, 4, &waits));
            }
        }
        let each = format!("-{EAGAIN} 1 -{EINTR} ").repeat(input.len());
        assert_undisturbed(program, &input, &format!("{each} -{EAGAIN}"));
    }
}

/// What passes does not hide what does not.
#[test]
fn a_failure_behind_interruptions_and_waits() {
    for (program, input) in short_inputs() {
        for place in 0..=input.len() {
            let then = format!("-{EINTR} -{EAGAIN} -{EINTR} -5");
            let reads = after(place, 2, &then);
            assert_failed(program, &input, &reads, "Input/output error");
        }
    }
}

#[test]
fn a_long_recording_in_fits_and_starts() {
    let recording = sheet(2, &sending(2, &[b'U'; 37]));
    let each = format!("-{EINTR} 997 -{EAGAIN} 1 ").repeat(recording.len() / 998 + 1);
    assert_undisturbed("demodulate", &recording, &each);
}

/// Without any input, and with a folder for it.
#[test]
fn input_that_is_closed_or_a_folder() {
    for (program, _) in short_inputs() {
        let closed = in_shell(program, "exec \"$0\" <&-");
        let report = format!("{program}: standard input: Bad file descriptor");
        given(closed, b"").assert_failed(b"", &report, || format!("{program}, closed"));
        let folder = File::open("/").expect("the folder is there");
        let folder = started(program, folder, Stdio::piped()).wait_with_output();
        let folder = folder.expect("the program ends");
        assert!(folder.status.success(), "{program}: {:?}", folder.status);
        assert_eq!(folder.stdout, b"", "{program}");
        let report = format!("{program}: standard input: Is a directory\n");
        assert_eq!(String::from_utf8_lossy(&folder.stderr), report);
    }
}

/// A pipe on which no read waits, and a writer that is late and slow.
#[test]
fn input_that_is_not_there_yet() {
    let pause = Duration::from_millis(30);
    for (program, input) in short_inputs() {
        let mut reading = not_waiting("in", program);
        let mut end = input_of(&mut reading);
        for piece in input.chunks(3) {
            thread::sleep(pause);
            end.write_all(piece).expect("the program still reads");
        }
        thread::sleep(pause);
        drop(end);
        let output = reading.wait_with_output().expect("the program ends");
        assert_eq!(String::from_utf8_lossy(&output.stderr), "", "{program}");
        assert!(output.stdout == expected(program, &input), "{program}");
    }
}
