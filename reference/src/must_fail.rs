//! Makes the tables of `docs/MUST-FAIL.md`, one for each crate: what a must-fail
//! edit says of itself, beside the proof and the goal at which it was refused.

use std::fs;
use std::path::Path;

/// The line above the tables. What stands above it is written by hand.
pub const MARKER: &str = "<!-- From here on made by reference/examples/must_fail.rs. -->";

/// What `rt` says of an edit that the prover refuses.
const REFUSED: &str = "refused, as it must be";

/// Words of an error that tells of a name and not of a fact.
const GONE: [&str; 4] = [
    "that can be named from here",
    "has no field",
    "is not in scope",
    "was not admitted",
];

/// The document with its tables made anew, or all that stands in the way.
pub fn document(root: &Path) -> Result<String, String> {
    let file = read(&root.join("docs/MUST-FAIL.md"))?;
    let (above, _) = file
        .split_once(&format!("\n{MARKER}\n"))
        .ok_or_else(|| format!("docs/MUST-FAIL.md has no line {MARKER}"))?;
    let log = read(&root.join("target/must-fail.log"))?;
    let crates = read(&root.join("crates.txt"))?;
    let named = crates.lines().filter(|line| !line.starts_with('#'));
    let heads = named.filter_map(|line| line.split_once(':'));
    // Behind the name may stand of which kind the crate is.
    let names = heads.filter_map(|(head, _)| head.split_whitespace().next());
    let tables = all(names.map(|name| table(root, name, &log)))?;
    Ok(format!("{above}\n{MARKER}\n{tables}"))
}

/// All parts as one text, or all faults, a line each.
fn all(parts: impl Iterator<Item = Result<String, String>>) -> Result<String, String> {
    let (mut text, mut faults) = (String::new(), Vec::new());
    for part in parts {
        match part {
            Ok(part) => text.push_str(&part),
            Err(fault) => faults.push(fault),
        }
    }
    if faults.is_empty() {
        Ok(text)
    } else {
        Err(faults.join("\n"))
    }
}

/// The heading and the rows of a crate; nothing if it has no edits.
fn table(root: &Path, name: &str, log: &str) -> Result<String, String> {
    let of = root.join("crates").join(name);
    let folder = of.join("must-fail");
    let labels = labels(&folder)?;
    if labels.is_empty() {
        return Ok(String::new());
    }
    let rows = all(labels.iter().map(|label| {
        let edit = read(&folder.join(format!("{label}.edit")))?;
        let code = |file: &str| fs::read_to_string(of.join(file)).ok();
        let row = said(log, name, label).and_then(|said| row(label, &edit, said, &code));
        row.map_err(|fault| format!("{name}/{label}: {fault}"))
    }))?;
    let head = "| edit | the wrong program or statement | what fails first |\n|---|---|---|\n";
    Ok(format!("\n## `{name}`\n\n{head}{rows}"))
}

/// The edits of a folder in the order of the alphabet; none if it is not there.
fn labels(folder: &Path) -> Result<Vec<String>, String> {
    let mut labels = Vec::new();
    for entry in fs::read_dir(folder).into_iter().flatten() {
        let entry = entry.map_err(|fault| format!("{}: {fault}", folder.display()))?;
        let name = entry.file_name().to_string_lossy().into_owned();
        labels.extend(name.strip_suffix(".edit").map(String::from));
    }
    labels.sort();
    Ok(labels)
}

fn read(path: &Path) -> Result<String, String> {
    fs::read_to_string(path).map_err(|fault| format!("{}: {fault}", path.display()))
}

/// What a log says of an edit, in one line.
pub fn said<'a>(log: &'a str, name: &str, label: &str) -> Result<&'a str, String> {
    let head = format!("rt: must-fail {name}/{label}.edit: ");
    let mut lines = log.lines().filter_map(|line| line.strip_prefix(&*head));
    match (lines.next(), lines.next()) {
        (Some(said), None) => Ok(said),
        (None, _) => Err("the log says nothing of it: run `./run edits`".into()),
        _ => Err("the log tells of it twice".into()),
    }
}

/// The text of a file of a crate, if it is there.
pub type Files<'a> = &'a dyn Fn(&str) -> Option<String>;

/// The row of an edit, from its file and from what is said of it.
pub fn row(label: &str, edit: &str, said: &str, files: Files) -> Result<String, String> {
    let (sentence, fact, mark) = words(edit)?;
    let [proof, goal] = failed(said, files)?;
    let cells = [
        format!("`{label}`{mark}"),
        sentence,
        format!("`{proof}`, `{goal}`: {fact}"),
    ];
    Ok(format!("| {} |\n", cells.map(escaped).join(" | ")))
}

/// A bar would end the cell.
fn escaped(cell: String) -> String {
    cell.replace('|', "\\|")
}

/// The sentence of an edit, the fact that fails, and a mark if that fact was read
/// in the proof because the message does not state it.
fn words(edit: &str) -> Result<(String, String, &'static str), String> {
    let lines = edit.lines().take_while(|line| !line.starts_with("file: "));
    let lines: Vec<&str> = lines.map(str::trim_end).collect();
    let (why, sentence) = lines.split_last().ok_or("it has no sentence")?;
    let found = why.strip_prefix("Why: ").map(|fact| (fact, ""));
    let read = why.strip_prefix("Why (read in the proof): ");
    let found = found.or(read.map(|fact| (fact, " †")));
    let (fact, mark) = found.ok_or("the line above `file:` does not begin with `Why: `")?;
    let sentence = sentence.join(" ");
    let begins = sentence.chars().next().is_some_and(char::is_uppercase);
    if !begins || !sentence.ends_with('.') {
        return Err("it has no sentence with a capital and a full stop".into());
    }
    Ok((sentence, fact.into(), mark))
}

/// The proof and the goal of what failed first. There is no such goal if the edit only
/// took away a name, or if the prover stopped without a verdict.
fn failed(said: &str, files: Files) -> Result<[String; 2], String> {
    let reason = said.strip_prefix(REFUSED);
    let reason = reason.ok_or_else(|| format!("it is not refused: {said}"))?;
    if let Some(words) = GONE.iter().find(|words| reason.contains(**words)) {
        return Err(format!(
            "a name is gone, and no fact fails ({words}): {reason}"
        ));
    }
    // Else rt says in parentheses that this tells little of a contract.
    let reason = reason.strip_prefix(": ");
    let reason = reason.ok_or_else(|| format!("no error is told: {said}"))?;
    match reason.strip_prefix("note: ") {
        Some(note) => unproved(note, files),
        None => refuted(reason),
    }
}

/// As in `./proofs/put/Answers.antt:9:2: error: `GOAL`: ..`: what is written as a proof
/// does not prove the goal.
fn refuted(error: &str) -> Result<[String; 2], String> {
    let told = error.split_once(": error: ");
    let (place, message) = told.ok_or_else(|| format!("no error is told: {error}"))?;
    let path = place.strip_prefix("./").unwrap_or(place);
    let path = path.strip_prefix("proofs/");
    let path = path.ok_or_else(|| format!("its first error stands in no proof: {place}"))?;
    let proof = path.split(".antt").next().unwrap_or(path);
    let files = ["/Answers", "/Invariants", "/Proof"];
    let folder = files.iter().find_map(|file| proof.strip_suffix(file));
    let goal = message
        .strip_prefix('`')
        .and_then(|rest| rest.split_once("`: "));
    let (goal, _) = goal.ok_or_else(|| format!("its first error names no goal: {message}"))?;
    let proof = folder.unwrap_or(proof).trim_start_matches('+');
    Ok([proof.into(), goal.into()])
}

/// As in `src/lib.rt:38:1: it is not proved that .. (`GOAL`)..`: nothing is written for
/// the goal, and the check finds no proof by itself.
fn unproved(note: &str, files: Files) -> Result<[String; 2], String> {
    let told = note.split_once(": it is not proved that ");
    let (place, fact) = told.ok_or_else(|| format!("no error is told: {note}"))?;
    let function = function(place, files);
    let function = function.ok_or_else(|| format!("it stands in no function: {place}"))?;
    let goal = fact
        .split_once("(`")
        .and_then(|(_, rest)| rest.split_once("`)"));
    let (goal, _) = goal.ok_or_else(|| format!("its first error names no goal: {fact}"))?;
    Ok([function, goal.into()])
}

/// The function at a place of the code, named as the folder of its proof is, whether
/// there is one or not: behind its module and its struct. An edit replaces lines by as
/// many, so the function stands where it stood before.
fn function(place: &str, files: Files) -> Option<String> {
    let (file, rest) = place.split_once(':')?;
    let module = file.strip_prefix("src/")?.strip_suffix(".rt")?;
    let line: usize = rest.split(':').next()?.parse().ok()?;
    let text = files(file)?;
    let lines: Vec<&str> = text.lines().collect();
    let behind = lines.get(line.checked_sub(1)?..)?;
    let attributes = behind
        .iter()
        .take_while(|line| line.trim().starts_with("#["));
    let before = lines.get(..line + attributes.count())?;
    let at = before.iter().rposition(|line| declared(line).is_some())?;
    let is_method = before[at].starts_with(' ');
    let heads = before[..at].iter().rev();
    let mut structs = heads.filter_map(|line| line.strip_prefix("impl ")?.strip_suffix(" {"));
    let parts = [
        (module != "lib" && module != "main").then_some(module),
        structs.next().filter(|_| is_method),
        declared(before[at]),
    ];
    Some(parts.into_iter().flatten().collect::<Vec<_>>().join("/"))
}

/// The name of the function that a line of code begins, whose parameters, of types or
/// of values, stand behind it.
fn declared(line: &str) -> Option<&str> {
    let (head, rest) = line.trim_start().split_once("fn ")?;
    let words = ["pub", "pub(crate)", "extern", "\"C\""];
    let is_head = head.split_whitespace().all(|word| words.contains(&word));
    rest.split(['(', '<']).next().filter(|_| is_head)
}

/// The texts between backquotes.
pub fn quoted(text: &str) -> Vec<String> {
    let parts = text.split('`').skip(1).step_by(2);
    parts.map(String::from).collect()
}
