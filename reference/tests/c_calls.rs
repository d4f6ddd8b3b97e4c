//! Every call made by a C program, `every_call.c`, gives what it gives when made
//! from Rust, and keeps to the lists that it is lent.

use crate::common::c::{compiled, file, has_sanitizers, has_valgrind, printed, Linked, SANITIZERS};
use crate::common::recording::{mixed, sending};
use crate::common::tap::PAIRS;
use reference::library::{self, Numbers, Tap};
use reference::receiver::places_needed;
use reference::transmitter::Answer;
use std::path::PathBuf;

const BYTES: [u8; 5] = [0x00, 0x41, 0xff, 0x55, 0x0a];

fn sum<T: Copy + Into<i64>>(list: &[T]) -> i64 {
    let plus = |sum, &number: &T| (sum * 31 + number.into() + 40_000) % 1_000_003;
    list.iter().fold(0, plus)
}

fn samples(list: &[i16]) -> String {
    format!("  samples {}\n", sum(list))
}

fn events(list: &[u16]) -> String {
    format!("  events {}\n", sum(list))
}

fn differences(list: &[i64]) -> String {
    format!("  differences {}\n", sum(list))
}

/// A list of differences with the fill that the C program has.
fn filled(places: usize) -> Vec<i64> {
    vec![0x7777_7777_7777_7777; places]
}

fn answer(call: &str, number: u8, count: usize) -> String {
    format!("{call}: {number} {count}\n")
}

fn receiver(state: &Numbers) -> String {
    let [stage, wait, slot, byte] = state.stage_numbers();
    let Numbers { band, run, .. } = state;
    let line = format!("  receiver {band} {run} {stage} {wait} {slot} {byte}");
    let line = line + &format!(" {} {}\n", state.measured, state.smallest);
    line + &samples(&state.window)
}

fn sent(call: &str, found: Answer, out: &[i16]) -> String {
    let line = answer(call, found.number, found.count);
    let (band, phase) = (found.state.band, found.state.phase);
    line + &format!("  transmitter {band} {phase}\n") + &samples(out)
}

fn transmitter_calls(band: u8, fewer: usize) -> String {
    let (number, state) = library::open(band);
    let mut out = vec![0x7777; 96 - fewer];
    let idle = library::idle(state, &mut out);
    let lines = answer("open", number, 0) + &sent("idle", idle, &out);
    let mut out = vec![0x7777; 320 * BYTES.len() - fewer];
    let characters = library::characters(idle.state, &BYTES, &mut out);
    lines + &sent("characters", characters, &out)
}

/// One list is so much shorter, or the other.
fn either(fewer: usize) -> [[usize; 2]; 2] {
    [[fewer, 0], [0, fewer]]
}

fn receiver_calls(band: u8, block: &[i16], fewer: usize) -> String {
    let (number, mut state) = library::receiver_open(band);
    let mut lines = answer("receiver", number, 0) + &receiver(&state);
    let exact = places_needed(block.len());
    for shorter in either(fewer) {
        let mut list = vec![0x7777; exact - shorter[0]];
        let mut beside = filled(exact - shorter[1]);
        let found = library::receiver_block(state, block, &mut list, &mut beside);
        lines += &answer("block", found.number, found.count);
        lines += &(receiver(&found.state) + &events(&list) + &differences(&beside));
        state = found.state;
    }
    lines
}

fn indexed_calls(band: u8, block: &[i16]) -> String {
    let (_, state) = library::receiver_open(band);
    let exact = places_needed(block.len());
    let mut lines = String::new();
    for [fewer, fewer_differences, fewer_indices] in [[0, 0, 0], [1, 0, 0], [0, 1, 0], [0, 0, 1]] {
        let [mut list, mut indices] =
            [fewer, fewer_indices].map(|fewer| vec![0x7777; exact - fewer]);
        let mut beside = filled(exact - fewer_differences);
        let found =
            library::receiver_block_indexed(state, block, &mut list, &mut beside, &mut indices);
        lines += &answer("indexed", found.number, found.count);
        lines += &(receiver(&found.state) + &events(&list));
        lines += &(differences(&beside) + &events(&indices));
    }
    lines
}

fn both(tap: &Tap) -> String {
    receiver(&tap.first) + &receiver(&tap.second)
}

fn open_tap([first, second]: [u8; 2]) -> (String, Tap) {
    let (number, tap) = library::tap_open(first, second);
    (answer("tap opened", number, 0) + &both(&tap), tap)
}

fn tap_calls(pair: [u8; 2], fewer: usize) -> String {
    let [first, second] = pair.map(|band| sending(band, &BYTES));
    let line = mixed(&first, &second);
    let (mut lines, mut tap) = open_tap(pair);
    let exact = 2 * places_needed(line.len());
    for shorter in either(fewer) {
        let mut list = vec![0x7777; exact - shorter[0]];
        let mut beside = filled(exact - shorter[1]);
        let found = library::tap_block(tap, &line, &mut list, &mut beside);
        tap = found.state;
        lines += &answer("tap", found.number, found.count);
        lines += &(both(&tap) + &events(&list) + &differences(&beside));
        if let Some(event) = list[..found.count].first() {
            lines += &format!("  band {} event {}\n", event / 1_000, event % 1_000);
        }
    }
    lines
}

fn sheet_calls(band: u8, block: &[i16], fewer: usize) -> String {
    let mut text = vec![0; 65_536];
    let written = library::sheet_write(band, block, &mut text);
    let mut out = vec![0x7777; block.len() - fewer];
    let read = library::sheet_read(&text[..written.count], &mut out);
    let lines = answer("write", written.number, written.count);
    let lines = lines + &answer("read", read.number, read.count);
    lines + &format!("  band {}\n", read.band) + &samples(&out)
}

fn whole_calls(band: u8, fewer: usize) -> String {
    let count = 192 + 320 * BYTES.len();
    let mut out = vec![0x7777; count - fewer];
    let message = library::message_send(band, &BYTES, &mut out);
    let mut lines = answer("message", message.number, message.count) + &samples(&out);
    lines += &receiver_calls(band, &out, fewer);
    lines += &indexed_calls(band, &out);
    lines += &sheet_calls(band, &out, fewer);
    let sign = |place| if place % 3 == 0 { 100 } else { -100 };
    let added: Vec<i16> = (0..count).map(sign).collect();
    let mut list = vec![0x7777; BYTES.len()];
    let mut beside = filled(BYTES.len());
    let found = library::loopback(band, &BYTES, &added, 100, &mut out, &mut list, &mut beside);
    lines += &answer("loopback", found.number, found.count);
    lines + &samples(&out) + &events(&list) + &differences(&beside)
}

fn expected() -> String {
    let calls = |band, fewer| transmitter_calls(band, fewer) + &whole_calls(band, fewer);
    let numbers = 0..=5;
    let bands = numbers.clone();
    let mut lines: String = bands.map(|band| calls(band, 0) + &calls(band, 1)).collect();
    for first in numbers.clone() {
        for second in numbers.clone() {
            lines += &open_tap([first, second]).0;
        }
    }
    for fewer in [0, 1] {
        lines += &PAIRS.map(|pair| tap_calls(pair, fewer)).concat();
    }
    lines
}

fn program(name: &str, more: &[&str], linked: Linked) -> PathBuf {
    compiled(name, &file("reference/tests/every_call.c"), more, linked)
}

#[test]
fn with_both_libraries() {
    for (name, linked) in [("calls", Linked::Static), ("calls-shared", Linked::Shared)] {
        for (level, name) in [("-O0", name.to_string()), ("-O2", format!("{name}-2"))] {
            let found = printed(program(&name, &[level], linked), &[]);
            assert_eq!(found, expected(), "{name}");
        }
    }
}

#[test]
fn with_sanitizers() {
    if has_sanitizers() {
        let more = ["-g", SANITIZERS, "-fno-sanitize-recover=all"];
        let program = program("calls-sanitized", &more, Linked::Static);
        assert_eq!(printed(program, &[]), expected());
    }
}

/// No place outside the lists is read or written, and nothing is decided by a
/// place that nobody wrote.
#[test]
fn under_valgrind() {
    if has_valgrind() {
        let program = program("calls-watched", &["-g"], Linked::Static);
        let program = program.to_str().expect("UTF-8");
        let found = printed("valgrind", &["--quiet", "--error-exitcode=9", program]);
        assert_eq!(found, expected());
    }
}
