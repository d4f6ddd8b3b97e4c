//! The stack that the programs and the calls need.

use crate::common::c::{compiled, file, printed, Linked};
use crate::common::faults::given;
use crate::common::process::in_shell;
use crate::common::recording::sending;
use crate::common::sheets::sheet;
use crate::common::sines;
use reference::programs::{demodulate, modulate};

/// The longest message, through both programs.
#[test]
fn both_programs_run_in_256_kilobytes() {
    let message = [b"2", &[b'A'; 37][..]].concat();
    let recording = sheet(2, &sending(2, &message[1..]));
    for (program, input, expected) in [
        ("modulate", &message, modulate(sines(), &message)),
        ("demodulate", &recording, demodulate(sines(), &recording)),
    ] {
        let limited = in_shell(program, "ulimit -S -s 256 && exec \"$0\"");
        given(limited, input).assert_printed(&expected, || program.to_string());
    }
}

/// `c/stack.c` prints a line for each call, and one for none.
#[test]
fn each_call_runs_in_16_kilobytes() {
    let source = file("c/stack.c");
    let program = compiled("stack", &source, &["-O2", "-pthread"], Linked::Static);
    let lines = printed(program, &[]);
    let bytes = lines.lines().map(|line| {
        let last = line.split_whitespace().last().expect("a number");
        last.parse::<usize>().expect("a number")
    });
    let bytes: Vec<usize> = bytes.collect();
    assert_eq!(bytes.len(), 13, "{lines}");
    assert!(bytes.iter().all(|&bytes| bytes <= 16_384), "{lines}");
    // A block has the weights and its ends there, so something was measured.
    assert!(bytes.iter().any(|&bytes| bytes > 2_048), "{lines}");
}
