//! `c/modem.h`: that it compiles by itself, and that it declares what the library
//! has and the numbers that a caller needs.

use crate::common::c::{
    compiled, file, header_code, library, printed, run, written, Linked, WARNINGS,
};
use std::collections::BTreeSet;

/// The functions that the header declares.
fn declared_functions() -> BTreeSet<String> {
    let code = header_code();
    let statements = code.split(';').filter_map(|part| part.split_once('('));
    let names = statements.filter_map(|(before, _)| before.split_whitespace().last());
    let functions = names.filter(|name| name.starts_with("modem_"));
    functions.map(String::from).collect()
}

/// The names of a list of `nm`, without those that are there for tests alone.
fn symbols(arguments: &[&str]) -> BTreeSet<String> {
    let listed = printed("nm", arguments);
    let names = listed.lines().filter_map(|line| line.split_once(" T "));
    let names = names.map(|(_, name)| name.to_string());
    names
        .filter(|name| !name.starts_with("modem_test_"))
        .collect()
}

#[test]
fn it_compiles_by_itself() {
    let header = file("c/modem.h");
    for [compiler, language, standard] in [["cc", "c", "-std=c99"], ["c++", "c++", "-std=c++17"]] {
        let arguments = [standard, "-fsyntax-only", "-x", language, &header];
        printed(compiler, &[&arguments[..], &WARNINGS].concat());
    }
}

/// The compilers are asked for every warning, and one stops them.
#[test]
fn a_warning_stops_the_compilers() {
    let text = "static inline unsigned char cut(int x) { return x; }\n";
    let source = &written("warned.h", text);
    for [compiler, language] in [["cc", "c"], ["c++", "c++"]] {
        let arguments = ["-fsyntax-only", "-x", language, source];
        assert!(run(compiler, &arguments).status.success());
        let warned = run(compiler, &[&arguments[..], &WARNINGS].concat());
        assert!(!warned.status.success(), "{compiler}");
    }
}

#[test]
fn it_declares_what_the_libraries_have() {
    let declared = declared_functions();
    assert_eq!(declared.len(), 12, "{declared:?}");
    let folder = library();
    let archive = symbols(&["-g", "--defined-only", &format!("{folder}/libmodem.a")]);
    assert_eq!(archive, declared);
    let shared = symbols(&["-D", "--defined-only", &format!("{folder}/libmodem.so")]);
    assert_eq!(shared, declared);
}

/// A number written as a C program would use it, and what it is.
const NUMBERS: [(&str, u32); 38] = [
    ("MODEM_ACCEPTED", 0),
    ("MODEM_NO_BAND", 1),
    ("MODEM_BAD_STATE", 2),
    ("MODEM_TOO_MANY", 3),
    ("MODEM_TOO_SHORT", 4),
    ("MODEM_OUT_OF_RANGE", 5),
    ("MODEM_SHEET_TOO_LONG", 6),
    ("MODEM_NO_SHEET", 7),
    ("MODEM_NO_PAIR", 8),
    ("MODEM_BIT_SAMPLES", 32),
    ("MODEM_IDLE_SAMPLES", 96),
    ("MODEM_CHARACTER_SAMPLES", 320),
    ("MODEM_MOST_CHARACTERS", 100),
    ("MODEM_MOST_SAMPLES", 16_384),
    ("MODEM_MOST_SHEET_BYTES", 65_536),
    ("MODEM_LARGEST_SAMPLE", 8_191),
    ("MODEM_DISTURBANCE", 100),
    ("MODEM_MESSAGE_SAMPLES(0)", 192),
    ("2 * MODEM_MESSAGE_SAMPLES(1 + 1)", 2 * 832),
    ("MODEM_EVENT_PLACES(47)", 1),
    ("2 * MODEM_EVENT_PLACES(40 + 8)", 2 * 2),
    ("MODEM_EVENT_PLACES(MODEM_MOST_SAMPLES)", 342),
    ("MODEM_TAP_PLACES(47)", 2),
    ("2 * MODEM_TAP_PLACES(40 + 8)", 2 * 4),
    ("MODEM_TAP_PLACES(MODEM_MOST_SAMPLES)", 684),
    ("8 / MODEM_TAP_PLACES(48)", 2),
    ("MODEM_NO_STOP", 256),
    ("MODEM_CARRIER_LOST", 257),
    ("MODEM_BREAK", 258),
    ("MODEM_DOUBT", 259),
    ("MODEM_TAP_BAND(1258)", 1),
    ("MODEM_TAP_EVENT(1258)", 258),
    ("4 / MODEM_TAP_BAND(1000 + 1065)", 2),
    ("2 * MODEM_TAP_EVENT(1000 + 1065)", 2 * 65),
    ("MODEM_SEARCHING", 0),
    ("MODEM_WAITING", 1),
    ("MODEM_HELD", 2),
    ("96 / MODEM_IDLE_SAMPLES", 1),
];

#[test]
fn its_numbers() {
    let line = |&(c, _): &(&str, u32)| format!("    printf(\"%d\\n\", (int)({c}));\n");
    let lines: String = NUMBERS.iter().map(line).collect();
    let text = format!("#include <stdio.h>\n#include \"modem.h\"\nint main(void)\n{{\n{lines}}}\n");
    let program = compiled("numbers", &written("numbers.c", &text), &[], Linked::Static);
    let expected: String = NUMBERS
        .iter()
        .map(|(_, number)| format!("{number}\n"))
        .collect();
    assert_eq!(printed(program, &[]), expected);
    for line in header_code().lines() {
        if let Some(name) = line.strip_prefix("#define MODEM_") {
            let name = name.split([' ', '(']).next().expect("a name");
            let name = format!("MODEM_{name}");
            let named = NUMBERS.iter().any(|(c, _)| c.contains(&name));
            assert!(named || name == "MODEM_H", "{name}");
        }
    }
}
