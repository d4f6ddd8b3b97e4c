//! `c/loopback.c`, compiled in several ways.

use crate::common::c::{
    compiled, file, has_sanitizers, has_valgrind, library, made, printed, Linked, SANITIZERS,
    WARNINGS,
};
use std::ffi::OsStr;
use std::os::unix::ffi::OsStrExt;
use std::process::Command;
use std::sync::OnceLock;

fn built(name: &str, more: &[&str], linked: Linked) -> String {
    let program = compiled(name, &file("c/loopback.c"), more, linked);
    program.to_str().expect("UTF-8").to_string()
}

/// The same file as C++, which finds the calls only if the header says that they
/// are C.
fn built_as_cpp() -> String {
    let program = made("loopback-cpp").to_str().expect("UTF-8").to_string();
    let source = file("c/loopback.c");
    let archive = format!("{}/libmodem.a", library());
    let files = ["-x", "c++", &source, "-x", "none", &archive];
    let arguments = [&["-std=c++17", "-o", &program], &WARNINGS[..], &files].concat();
    printed("c++", &arguments);
    program
}

/// A command for each program, and one for each tool that is here to watch one.
fn commands() -> &'static [Vec<String>] {
    static COMMANDS: OnceLock<Vec<Vec<String>>> = OnceLock::new();
    COMMANDS.get_or_init(|| {
        let mut commands = vec![
            vec![built("loopback", &[], Linked::Static)],
            vec![built("loopback-shared", &[], Linked::Shared)],
            vec![built_as_cpp()],
        ];
        if has_sanitizers() {
            let more = ["-g", SANITIZERS, "-fno-sanitize-recover=all"];
            commands.push(vec![built("loopback-sanitized", &more, Linked::Static)]);
            commands.push(vec![built(
                "loopback-shared-sanitized",
                &more,
                Linked::Shared,
            )]);
        }
        if has_valgrind() {
            let watched = ["valgrind", "--quiet", "--error-exitcode=9"].map(String::from);
            commands.push(
                [
                    &watched[..],
                    &[built("loopback-watched", &["-g"], Linked::Shared)],
                ]
                .concat(),
            );
        }
        commands
    })
}

/// Each command must print this for the messages, end with this status, and report
/// nothing but how it is used.
fn check(messages: &[&[u8]], expected: &str, status: i32) {
    for command in commands() {
        let arguments = messages.iter().map(|message| OsStr::from_bytes(message));
        let mut program = Command::new(&command[0]);
        let output = program.args(&command[1..]).args(arguments).output();
        let output = output.expect("the program runs");
        let errors = String::from_utf8_lossy(&output.stderr);
        assert_eq!(output.status.code(), Some(status), "{command:?}: {errors}");
        let found = String::from_utf8(output.stdout).expect("it prints numbers");
        assert_eq!(found, expected, "{command:?}");
        let usage = format!("usage: {} MESSAGE\n", command[command.len() - 1]);
        assert_eq!(errors, if status == 2 { &usage } else { "" }, "{command:?}");
    }
}

fn assert_read_back(message: &[u8]) {
    let lines: String = message.iter().map(|byte| format!("{byte}\n")).collect();
    check(&[message], &lines, 0);
}

#[test]
fn every_byte_but_0_is_read_back() {
    // An argument of a program cannot hold a byte 0.
    let bytes: Vec<u8> = (1..=255).collect();
    for message in bytes.chunks(100) {
        assert_read_back(message);
    }
}

#[test]
fn no_characters_give_no_event() {
    assert_read_back(b"");
}

#[test]
fn the_longest_message_takes_more_than_one_block() {
    assert_read_back(&[b'U'; 100]);
}

#[test]
fn it_takes_one_message() {
    check(&[], "", 2);
    check(&[b"A", b"B"], "", 2);
}

#[test]
fn one_character_more_is_refused() {
    check(&[&[b'U'; 101]], "refused 3\n", 1);
}
