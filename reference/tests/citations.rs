//! What the documents and the comments say of other files: sections that they
//! cite, lines that they quote, files that they name or link.

use std::fs;
use std::path::{Path, PathBuf};

const ROOT: &str = concat!(env!("CARGO_MANIFEST_DIR"), "/..");

fn text(path: impl AsRef<Path>) -> String {
    let path = Path::new(ROOT).join(path);
    fs::read_to_string(&path).unwrap_or_else(|error| panic!("{}: {error}", path.display()))
}

/// The files below a folder of the repository that have one of these endings.
fn below(folder: &str, endings: &[&str]) -> Vec<PathBuf> {
    let mut files = Vec::new();
    let mut folders = vec![Path::new(ROOT).join(folder)];
    while let Some(folder) = folders.pop() {
        for entry in fs::read_dir(folder).expect("a folder") {
            let path = entry.expect("readable").path();
            let ending = path.extension().unwrap_or_default().to_string_lossy();
            if path.is_dir() {
                // What is built there is no text of ours.
                let is_built = path.ends_with("target") || path.ends_with("out");
                folders.extend((!is_built).then_some(path));
            } else if endings.contains(&&*ending) {
                files.push(path);
            }
        }
    }
    files
}

/// Every text that may cite the specification.
fn sources() -> Vec<PathBuf> {
    let endings = ["antt", "rt", "rs", "c", "h", "md"];
    let folders = ["crates", "reference", "bench", "c", "docs"];
    let mut files: Vec<_> = folders.iter().flat_map(|f| below(f, &endings)).collect();
    files.push(Path::new(ROOT).join("README.md"));
    files
}

/// The words of a text as one line, without the marks of its comments.
fn joined(text: &str) -> String {
    let marks = ["--", "///", "//!", "//", "*", "#"];
    let words = |line: &str| {
        let line = line.trim_start();
        let found = marks.iter().find_map(|mark| line.strip_prefix(mark));
        found.unwrap_or(line).trim().to_string()
    };
    text.lines().map(words).collect::<Vec<_>>().join(" ")
}

/// The sections that a text cites: `specification, "One", "Two" and "Three"`.
fn cited(text: &str) -> Vec<String> {
    let mut found = Vec::new();
    let line = joined(text);
    for part in line.split("specification").skip(1) {
        let mut rest = part;
        while let Some(behind) = [", \"", " and \"", "'s \""]
            .iter()
            .find_map(|mark| rest.strip_prefix(mark))
        {
            let (name, later) = behind.split_once('"').expect("a closing quote");
            found.push(name.to_string());
            rest = later;
        }
    }
    found
}

#[test]
fn cited_sections() {
    let wrapped = "-- x: the specification, \"Reader, step by\n-- step\" and \"Refused calls\". More \"words\".";
    assert_eq!(cited(wrapped), ["Reader, step by step", "Refused calls"]);
    assert_eq!(
        cited("the specification's \"Transmitter\" has"),
        ["Transmitter"]
    );
    assert_eq!(cited("the specification, and \"this\""), [""; 0]);
}

#[test]
fn each_cited_section_is_there() {
    let specification = text("docs/SPECIFICATION.md");
    let headings: Vec<_> = specification
        .lines()
        .filter_map(|line| line.strip_prefix("## "))
        .collect();
    let mut count = 0;
    for file in sources() {
        for section in cited(&text(&file)) {
            let is_there = headings.contains(&&*section);
            // This file cites for its own sake.
            assert!(
                is_there || file.ends_with("citations.rs"),
                "{file:?}: {section}"
            );
            count += 1;
        }
    }
    assert!(count >= 40, "only {count} citations");
}

/// The texts between backquotes.
fn quoted(line: &str) -> impl Iterator<Item = &str> {
    line.split('`').skip(1).step_by(2)
}

#[test]
fn each_definition_of_the_specification_has_its_file() {
    let specification = text("docs/SPECIFICATION.md");
    let (mut sections, mut count) = (0, 0);
    for paragraph in specification.split("\n\n") {
        if paragraph.starts_with("## ") {
            sections += 1;
        } else if paragraph.starts_with("Stated in ") {
            for name in quoted(paragraph).filter(|name| name.contains("/specs")) {
                let path = Path::new(ROOT).join("crates").join(name);
                let is_there = path.is_dir() || path.with_extension("antt").is_file();
                assert!(is_there, "{name}");
                count += 1;
            }
        }
    }
    assert!(
        sections >= 8 && count >= 2 * sections,
        "{count} in {sections}"
    );
}

/// Each block that begins with "antt" and a path, as the path and its lines.
fn quotations(document: &str) -> Vec<(&str, &str)> {
    let blocks = document.split("```").skip(1).step_by(2);
    blocks
        .filter_map(|block| block.strip_prefix("antt ")?.split_once('\n'))
        .collect()
}

#[test]
fn quoted_lines_are_in_their_files() {
    let readme = text("README.md");
    let found = quotations(&readme);
    assert!(found.len() >= 2, "{} quotations", found.len());
    for (path, lines) in found {
        assert!(text(path).contains(lines), "{path}:\n{lines}");
    }
}

/// The targets of a document's links to files of the repository.
fn links(document: &str) -> Vec<&str> {
    let targets = document.split("](").skip(1);
    let targets = targets.filter_map(|rest| rest.split_once(')'));
    let files = targets.map(|(target, _)| target.split('#').next().expect("a part"));
    let here = |target: &&str| !target.is_empty() && !target.contains("://");
    files.filter(here).collect()
}

#[test]
fn linked_files_are_there() {
    let mut count = 0;
    for file in sources() {
        if file.extension().is_some_and(|ending| ending == "md") {
            let folder = file.parent().expect("a folder");
            for target in links(&text(&file)) {
                assert!(folder.join(target).exists(), "{file:?}: {target}");
                count += 1;
            }
        }
    }
    assert!(count >= 10, "{count} links");
}
