//! Output that is taken slowly, in parts or not at all.

use crate::common::faults::{after, not_waiting, with_faults, EAGAIN, EINTR, FAILURES};
use crate::common::process::input_of;
use crate::common::recording::sending;
use crate::common::sheets::sheet;
use crate::common::sines;
use reference::programs::{demodulate, modulate};
use std::io::{Read, Write};
use std::thread;
use std::time::Duration;

/// An input for each program, and what it prints.
fn cases() -> [(&'static str, Vec<u8>, Vec<u8>); 2] {
    let message = b"1HELLO".to_vec();
    let recording = sheet(2, &sending(2, b"HELLO"));
    let printed = modulate(sines(), &message);
    let listed = demodulate(sines(), &recording);
    [
        ("modulate", message, printed),
        ("demodulate", recording, listed),
    ]
}

/// Places in so many bytes: all in the front, and some behind.
fn places(count: usize) -> impl Iterator<Item = usize> {
    (0..count.min(60)).chain((60..count).step_by(401))
}

fn assert_undisturbed(program: &str, input: &[u8], writes: &str, expected: &[u8]) {
    let what = || format!("{program}, writes {writes}");
    with_faults(program, input, "", writes).assert_printed(expected, what);
}

#[test]
fn short_writes() {
    for (program, input, expected) in cases() {
        for size in [1, 2, 7, 1_000] {
            assert_undisturbed(program, &input, &format!("{size}*"), &expected);
        }
    }
}

#[test]
fn interrupted_or_not_ready() {
    for (program, input, expected) in cases() {
        for place in places(expected.len()) {
            for then in [
                format!("-{EINTR} -{EINTR}"),
                format!("-{EAGAIN} 1 -{EINTR} -{EAGAIN}"),
            ] {
                let writes = after(place, 1_000, &then);
                assert_undisturbed(program, &input, &writes, &expected);
            }
        }
    }
}

/// What was taken before is all that is printed, and one line reports the
/// error.
#[test]
fn a_failure_at_many_places() {
    for (program, input, expected) in cases() {
        for (turn, place) in places(expected.len()).enumerate() {
            let (number, error) = FAILURES[turn % FAILURES.len()];
            let report = format!("{program}: standard output: {error}");
            for then in [
                format!("-{number}"),
                format!("-{number}*"),
                format!("-{EINTR} -{EAGAIN} -{number}"),
            ] {
                let writes = after(place, 1_000, &then);
                let what = || format!("{program}, writes {writes}");
                with_faults(program, &input, "", &writes).assert_failed(
                    &expected[..place],
                    &report,
                    what,
                );
            }
        }
    }
}

/// A write that takes nothing and has no error: it is not made for ever.
#[test]
fn a_write_that_takes_nothing() {
    for (program, input, expected) in cases() {
        for place in [0, 10] {
            let found = with_faults(program, &input, "", &after(place, 10, "0*"));
            assert!(found.printed == expected[..place], "{program}");
            assert_eq!(found.report.lines().count(), 1, "{}", found.report);
            let start = format!("{program}: standard output: ");
            assert!(found.report.starts_with(&start), "{}", found.report);
        }
    }
}

/// A pipe on which no write waits, and which has no room until its reader
/// comes.
#[test]
fn output_that_has_no_room_yet() {
    for (program, input, expected) in cases() {
        let mut printing = not_waiting("full", program);
        let mut errors = printing.stderr.take().expect("it is a pipe");
        let mut line = [0; 5];
        errors.read_exact(&mut line).expect("the pipe is filled");
        assert_eq!(&line, b"full\n");
        let mut end = input_of(&mut printing);
        end.write_all(&input).expect("the program reads");
        drop(end);
        thread::sleep(Duration::from_millis(50));
        let output = printing.wait_with_output().expect("the program ends");
        assert!(output.status.success(), "{program}: {:?}", output.status);
        let filled = output.stdout.iter().take_while(|&&byte| byte == b'x');
        let filled = filled.count();
        assert!(filled > 0, "{program}");
        assert!(output.stdout[filled..] == expected, "{program}");
        let mut report = String::new();
        errors.read_to_string(&mut report).expect("it is a text");
        assert_eq!(report, "", "{program}");
    }
}
