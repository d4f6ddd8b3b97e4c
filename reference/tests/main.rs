//! All tests, as one program: so what they share is compiled once.

mod common;

mod breaks;
mod c_calls;
mod c_header;
mod c_layout;
mod c_program;
mod c_sheet;
mod citations;
mod control;
mod demodulate;
mod demodulate_refusals;
mod difference_lists;
mod difference_margins;
mod difference_states;
mod differences;
mod documents;
mod doubt;
mod examples;
mod indexed;
mod indexed_refusals;
mod input_failures;
mod loopback_refusals;
mod loopbacks;
mod margins;
mod messages;
mod modulate;
mod numbers_as_before;
mod output_failures;
mod peers;
mod picture;
mod pipes;
mod programs;
mod promise;
mod random_calls;
mod read_only;
mod receiver_bursts;
mod receiver_cuts;
mod receiver_disturbances;
mod receiver_edges;
mod receiver_entries;
mod receiver_examples;
mod receiver_hostile_states;
mod receiver_noise;
mod receiver_open;
mod receiver_places;
mod receiver_refusals;
mod receiver_refused_between;
mod receiver_sendings;
mod receiver_states;
mod refusals;
mod sendings;
mod sheet_examples;
mod sheet_lengths;
mod sheet_refusals;
mod sheet_texts;
mod sheets;
mod sine;
mod stack;
mod statements;
mod statements_refusals;
mod tap_cuts;
mod tap_open;
mod tap_order;
mod tap_recordings;
mod tap_refusals;
mod tap_states;
mod tones;
mod transmitter;

use std::fs;
use std::path::Path;

/// Of these names, those that no `mod` line of the text has.
fn forgotten(names: Vec<String>, text: &str) -> Vec<String> {
    let named = |name: &String| {
        let line = format!("mod {name};");
        let mut lines = text.lines();
        lines.any(|found| found.strip_prefix("pub ").unwrap_or(found) == line)
    };
    names.into_iter().filter(|name| !named(name)).collect()
}

/// The modules that stand in a folder, without the file that is to name them.
fn modules(folder: &str, root: &str) -> Vec<String> {
    let folder = Path::new(env!("CARGO_MANIFEST_DIR")).join(folder);
    let entries = fs::read_dir(folder).expect("a folder");
    let paths = entries.map(|entry| entry.expect("readable").path());
    let code =
        paths.filter(|path| path.is_dir() || path.extension().is_some_and(|end| end == "rs"));
    let names = code.map(|path| path.file_stem().expect("a name").to_string_lossy().into());
    names.filter(|name| name != root).collect()
}

/// A file that is not named is not compiled, and its tests are not run. So this
/// stands in the one file that need not be named.
#[test]
fn each_file_is_named() {
    for (folder, root, text) in [
        ("tests", "main", include_str!("main.rs")),
        ("tests/common", "mod", include_str!("common/mod.rs")),
    ] {
        let found = modules(folder, root);
        assert!(!found.is_empty(), "{folder}");
        assert_eq!(forgotten(found, text), [""; 0], "{folder}");
    }
}

#[test]
fn a_forgotten_file_is_found() {
    let names = ["sine", "sines", "common", "peers"].map(String::from);
    let text = "pub mod common;\n// mod sine;\nmod sines;\n";
    assert_eq!(forgotten(names.to_vec(), text), ["sine", "peers"]);
}
