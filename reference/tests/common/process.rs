//! The built programs, run on bytes.

use std::fs;
use std::io::Write;
use std::process::{Child, ChildStdin, Command, ExitStatus, Stdio};
use std::thread;
use std::time::{Duration, Instant};

/// A program that has not ended by then hangs.
const MOST_TIME: Duration = Duration::from_secs(10);

/// Where a program is built.
pub fn path(program: &str) -> String {
    let built = concat!(env!("CARGO_MANIFEST_DIR"), "/../target/bin/");
    format!("{built}{program}")
}

/// Starts a program with these two ends; standard error is a pipe.
pub fn started(program: &str, input: impl Into<Stdio>, output: impl Into<Stdio>) -> Child {
    Command::new(path(program))
        .stdin(input)
        .stdout(output)
        .stderr(Stdio::piped())
        .spawn()
        .expect("the program is built before these tests")
}

/// Starts a program, whose path is `$0`, by a line of a shell.
pub fn in_shell(program: &str, line: &str) -> Child {
    Command::new("sh")
        .args(["-c", line, &path(program)])
        .stdin(Stdio::piped())
        .stdout(Stdio::piped())
        .stderr(Stdio::piped())
        .spawn()
        .expect("there is a shell")
}

pub fn input_of(program: &mut Child) -> ChildStdin {
    program.stdin.take().expect("standard input is a pipe")
}

/// What a program prints. It must end with status 0 and report no error.
pub fn output_of(program: Child) -> Vec<u8> {
    let output = program.wait_with_output().expect("the program ends");
    assert!(output.status.success(), "{:?}", output.status);
    assert_eq!(output.stderr, b"");
    output.stdout
}

/// What a program prints of its input.
pub fn printed(program: &str, input: &[u8]) -> Vec<u8> {
    printed_slowly(program, [input], Duration::ZERO)
}

/// What a program prints of input that comes in pieces, with a pause behind
/// each.
pub fn printed_slowly<'a>(
    program: &str,
    pieces: impl IntoIterator<Item = &'a [u8]>,
    pause: Duration,
) -> Vec<u8> {
    let mut program = started(program, Stdio::piped(), Stdio::piped());
    let mut input = input_of(&mut program);
    for piece in pieces {
        // The program reads no more than it needs, so long input may find the pipe closed.
        let _ = input.write_all(piece);
        if pause > Duration::ZERO {
            thread::sleep(pause);
        }
    }
    drop(input);
    output_of(program)
}

/// What the second program prints of what the first prints of its input.
pub fn printed_through(first: &str, second: &str, input: &[u8]) -> Vec<u8> {
    let mut first = started(first, Stdio::piped(), Stdio::piped());
    let between = first.stdout.take().expect("standard output is a pipe");
    let second = started(second, between, Stdio::piped());
    let _ = input_of(&mut first).write_all(input);
    output_of(first);
    output_of(second)
}

/// How a program ended, which it must within a time.
pub fn ended(mut program: Child) -> ExitStatus {
    let begun = Instant::now();
    loop {
        if let Some(status) = program.try_wait().expect("the program was started") {
            return status;
        }
        if begun.elapsed() > MOST_TIME {
            program.kill().expect("the program has not ended");
            panic!("the program hangs");
        }
        thread::sleep(Duration::from_millis(5));
    }
}

fn file(program: &str, name: &str) -> Vec<u8> {
    let folder = concat!(env!("CARGO_MANIFEST_DIR"), "/../crates/");
    fs::read(format!("{folder}{program}/{name}")).expect("the file is there")
}

/// The input with which a program is run where it is proved, and the output that
/// it is held to there.
pub fn files(program: &str) -> [Vec<u8>; 2] {
    ["stdin", "stdout"].map(|name| file(program, name))
}
