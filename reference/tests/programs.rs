//! The files with which the programs are run where they are proved.

use crate::common::process::{files, printed};
use crate::common::sines;
use reference::programs::{demodulate, modulate};

/// The output that a program is held to is the reference's, and is printed.
fn check_files(program: &str, reference: impl Fn(&[u8]) -> Vec<u8>) {
    let [input, output] = files(program);
    assert!(output == reference(&input), "the file of {program}");
    assert!(printed(program, &input) == output, "{program}");
}

#[test]
fn the_files_of_modulate() {
    check_files("modulate", |input| modulate(sines(), input));
}

#[test]
fn the_files_of_demodulate() {
    check_files("demodulate", |input| demodulate(sines(), input));
}
