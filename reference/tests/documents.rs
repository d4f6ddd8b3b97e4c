//! `docs/MUST-FAIL.md`: its tables of edits are those that the command makes, each
//! edit has one row, and each public function has two edits of its crate or more.

use crate::common::made::assert_made;
use reference::must_fail::{self, quoted, row, said, MARKER};
use std::fs;
use std::path::{Path, PathBuf};

const ROOT: &str = concat!(env!("CARGO_MANIFEST_DIR"), "/..");

/// The heading of the table whose rows are functions and not edits.
const FUNCTIONS: &str = "The public functions";

struct Row {
    heading: String,
    first: String,
    second: Vec<String>,
}

fn document() -> String {
    fs::read_to_string(format!("{ROOT}/docs/MUST-FAIL.md")).expect("the document")
}

/// Every row of every table, with what its first and second cell quote.
fn rows() -> Vec<Row> {
    let mut heading = String::new();
    let mut rows = Vec::new();
    for line in document().lines() {
        if let Some(words) = line.strip_prefix("## ") {
            heading = words.replace('`', "");
        } else if line.starts_with("| `") {
            let cells: Vec<&str> = line.split('|').collect();
            rows.push(Row {
                heading: heading.clone(),
                first: quoted(cells[1]).swap_remove(0),
                second: quoted(cells[2]),
            });
        }
    }
    rows
}

/// What a folder holds; nothing if it is not there.
fn entries(folder: &Path) -> Vec<PathBuf> {
    let listed = fs::read_dir(folder).into_iter().flatten();
    listed
        .map(|entry| entry.expect("readable").path())
        .collect()
}

fn stem(path: &Path) -> String {
    path.file_stem().expect("a name").to_string_lossy().into()
}

/// The files of one folder of each crate, with the crate's name.
fn files(folder: &str) -> Vec<(String, PathBuf)> {
    let crates = entries(&Path::new(ROOT).join("crates"));
    let of = |path: &PathBuf| {
        let name = stem(path);
        let found = entries(&path.join(folder)).into_iter();
        found.map(|file| (name.clone(), file)).collect::<Vec<_>>()
    };
    crates.iter().flat_map(of).collect()
}

fn edits() -> Vec<String> {
    let edits = files("must-fail").into_iter();
    edits
        .map(|(name, file)| format!("{name}/{}", stem(&file)))
        .collect()
}

/// Each name that was found has one row, and no row has another name.
fn same(rows: &[String], found: &[String]) {
    for name in found {
        let count = rows.iter().filter(|row| *row == name).count();
        assert_eq!(count, 1, "rows of {name}");
    }
    for row in rows {
        assert!(found.contains(row), "nothing is named {row}");
    }
}

#[test]
fn each_edit_has_one_row() {
    let rows = rows().into_iter().filter(|row| row.heading != FUNCTIONS);
    let named = rows.map(|row| format!("{}/{}", row.heading, row.first));
    same(&named.collect::<Vec<_>>(), &edits());
}

/// The gate tries all edits before it runs the tests, so each has its line in the log.
#[test]
fn the_tables_are_what_the_command_makes() {
    let made = must_fail::document(Path::new(ROOT));
    let made = made.unwrap_or_else(|faults| panic!("{faults}"));
    assert_made(&document(), &made, "must_fail");
}

/// What is written by hand is kept, so the functions have to stand above the line.
#[test]
fn the_functions_stand_above_the_tables() {
    let text = document();
    let (above, below) = text.split_once(MARKER).expect("the line");
    let heading = format!("\n## {FUNCTIONS}\n");
    assert!(above.contains(&heading) && !below.contains(&heading));
}

const EDIT: &str = "Nothing is\nput.\nWhy: a | b, not c\nfile: src/lib.rt\nold: put\nnew: b\n";
const ERROR: &str = "refused, as it must be: ./proofs/+table/put/Answers.antt:22:30: error: \
    `loop-i-preserved`: the types `a` and `b";
const NOTE: &str = "refused, as it must be: note: src/table.rt:9:7: it is not proved that the \
    sum fits (of `u8`) (`overflow_add-n`); `search` gave up";
const CODE: &str = "
// fn none() {
impl Table {
    #[inline]
    pub fn put(self) {
    }
}

fn add(n: u8) -> u8 {
    n + 1
}

#[unsafe(no_mangle)]
pub extern \"C\" fn exported() -> u8
    ensures { result ≡ 1 }

pub(crate) fn inside(n: u8) -> u8 {
    n + 1
}

pub fn of_any<T: Add>(n: T) -> T {
    n.add()
}
";

fn made_up(file: &str) -> Option<String> {
    let text = CODE.trim_start().into();
    ["src/table.rt", "src/lib.rt"]
        .contains(&file)
        .then_some(text)
}

fn row_of(edit: &str, said: &str) -> Result<String, String> {
    row("none", edit, said, &made_up)
}

#[test]
fn a_row_has_the_words_of_the_edit_and_the_goal_of_the_log() {
    let expected =
        "| `none` | Nothing is put. | `table/put`, `loop-i-preserved`: a \\| b, not c |\n";
    assert_eq!(row_of(EDIT, ERROR), Ok(expected.into()));
    let read = EDIT.replace("Why:", "Why (read in the proof):");
    let expected = expected.replace("`none`", "`none` †");
    assert_eq!(row_of(&read, ERROR), Ok(expected));
}

#[test]
fn the_goal_stands_in_a_proof_or_in_code() {
    let named = |said: &str| quoted(&row_of(EDIT, said).expect("a row"))[1..].to_vec();
    assert_eq!(named(ERROR), ["table/put", "loop-i-preserved"]);
    let invariants = ERROR.replace("Answers", "Invariants");
    assert_eq!(named(&invariants), ["table/put", "loop-i-preserved"]);
    // A file of lemmas that has this name.
    let lemmas = ERROR.replace("+table/put/", "");
    assert_eq!(named(&lemmas), ["Answers", "loop-i-preserved"]);
    for (place, function) in [
        ("src/table.rt:3:5", "table/Table/put"),
        ("src/table.rt:4:5", "table/Table/put"),
        ("src/table.rt:8:1", "table/add"),
        ("src/table.rt:9:7", "table/add"),
        ("src/table.rt:12:1", "table/exported"),
        ("src/lib.rt:13:1", "exported"),
        ("src/lib.rt:17:5", "inside"),
        ("src/table.rt:21:5", "table/of_any"),
        ("src/lib.rt:4:1", "Table/put"),
    ] {
        let line = NOTE.replace("src/table.rt:9:7", place);
        assert_eq!(named(&line), [function, "overflow_add-n"], "{place}");
    }
}

#[test]
fn an_edit_without_its_words_is_refused() {
    for (edit, fault) in [
        ("file: src/lib.rt\n", "no sentence"),
        ("Why: a, not b\nfile: src/lib.rt\n", "no sentence"),
        (&EDIT.replace("Nothing", "nothing"), "no sentence"),
        (&EDIT.replace("put.\n", "put\n"), "no sentence"),
        ("Nothing is put.\nfile: src/lib.rt\n", "`Why: `"),
        (&EDIT.replace("Why: a | b, not c", "Why: "), "`Why: `"),
        (&EDIT.replace(", not", ",\nnot"), "`Why: `"),
    ] {
        for line in [ERROR, NOTE] {
            let found = row_of(edit, line).expect_err(edit);
            assert!(found.contains(fault), "{edit}{found}");
        }
    }
}

#[test]
fn an_edit_that_has_not_one_line_in_the_log_is_refused() {
    let line = |path: &str| format!("rt: must-fail {path}.edit: {ERROR}\n");
    let others = ["one/no", "one/none_2", "two/none", "one/all"].map(line);
    let others = format!("== one\nrt: one proved\n{}", others.concat());
    let log = format!("{others}{}{ERROR}\n", line("one/none"));
    assert_eq!(said(&log, "one", "none"), Ok(ERROR));
    for (log, fault) in [
        (String::new(), "says nothing"),
        (others, "says nothing"),
        (
            log.replace("rt: must-fail one/none.", "one/none."),
            "says nothing",
        ),
        (log + &line("one/none"), "twice"),
    ] {
        let found = said(&log, "one", "none").expect_err(fault);
        assert!(found.contains(fault), "{found}");
    }
}

#[test]
fn a_line_without_a_goal_is_refused() {
    let gone = "`put` has no `Else-2` that can be named from here";
    let behind = |line: &str, mark: &str, words: &str| {
        let (place, _) = line.split_once(mark).expect("a mark");
        format!("{place}{mark}{words}")
    };
    let named = |words: &str| behind(ERROR, ": error: ", words);
    let noted = |words: &str| behind(NOTE, ": it is not proved that ", words);
    for (line, fault) in [
        ("".into(), "not refused"),
        (
            "NOT REFUSED: the crate is still proved".into(),
            "not refused",
        ),
        ("NOT TRIED: its check was killed".into(), "not refused"),
        ("BAD EDIT: there is no file src/l.rt".into(), "not refused"),
        ("refused, as it must be".into(), "no error"),
        (ERROR.replace(": error:", ": note:"), "no error"),
        (NOTE.replace("is not proved", "is proved"), "no error"),
        (ERROR.replace(": ./", " (only by a limit): ./"), "no error"),
        (named("too long"), "no goal"),
        (named("too long for `put`: a"), "no goal"),
        (named("`loop-i-preser"), "no goal"),
        (named(&format!("`loop`: {gone}")), gone),
        (named("`loop`: a record has no field `b`"), "a name is gone"),
        (named("`loop`: `b` is not in scope"), "a name is gone"),
        (named("`loop`: `b` was not admitted"), "a name is gone"),
        (noted("the sum fits"), "no goal"),
        (noted("the sum fits (`overf"), "no goal"),
        (ERROR.replace("/proofs/", "/specs/"), "no proof"),
        (NOTE.replace("src/", "specs/"), "no function"),
        (NOTE.replace("table", "gone"), "no function"),
        (NOTE.replace(":9:", ":1:"), "no function"),
        (NOTE.replace(":9:", ":0:"), "no function"),
        (NOTE.replace(":9:", ":99:"), "no function"),
    ] {
        let found = row_of(EDIT, &line).expect_err(&line);
        assert!(found.contains(fault), "{line}: {found}");
    }
}

/// The name of the public function that a line of code begins.
fn public(line: &str) -> Option<&str> {
    let line = line.trim_start();
    let rest = line.strip_prefix("pub fn ");
    let rest = rest.or_else(|| line.strip_prefix("pub extern \"C\" fn "));
    rest?.split(['(', '<']).next()
}

#[test]
fn each_public_function_has_two_edits() {
    let edits = edits();
    let mut named = Vec::new();
    for row in rows().into_iter().filter(|row| row.heading == FUNCTIONS) {
        let (name, function) = row.first.split_once("::").expect("a path");
        let known = |label| edits.contains(&format!("{name}/{label}"));
        assert!(row.second.iter().all(known), "{}", row.first);
        let others = row.second.iter().filter(|label| **label != row.second[0]);
        assert!(others.count() > 0, "{}", row.first);
        let last = function.rsplit("::").next().expect("a name");
        named.push(format!("{name}::{last}"));
    }
    let mut written = Vec::new();
    for (name, file) in files("src") {
        let text = fs::read_to_string(file).expect("code");
        let functions = text.lines().filter_map(public);
        written.extend(functions.map(|function| format!("{name}::{function}")));
    }
    same(&named, &written);
}
