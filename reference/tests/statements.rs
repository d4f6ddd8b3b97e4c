//! The table under "The statements" in `docs/PROOF.md`: each definition that it
//! names is declared where it says, and each theorem and contract is there, says
//! what is written and mentions these definitions.

use crate::common::declared::{contract, declarations, mentions, names_module, spellings};
use std::fs;

/// A statement of up to this many characters is written out.
const SHORT: usize = 140;

type Checked<T> = Result<T, String>;

/// The text of a file by its path below `crates/`, if it is there.
pub type Files<'a> = &'a dyn Fn(&str) -> Option<String>;

/// A file of statements, proofs or code, and what is named of it.
struct Place {
    path: String,
    names: Vec<String>,
}

/// What a row says is stated and proved.
struct Row {
    stated: Vec<Place>,
    proved: Vec<Place>,
}

/// A theorem or a function. `result` is what it says without what a function asks
/// for, and `text` the file, which stands at `place`.
struct Found {
    name: String,
    statement: String,
    result: String,
    place: String,
    text: String,
}

fn hold(fact: bool, fault: String) -> Checked<()> {
    fact.then_some(()).ok_or(fault)
}

/// The places of a cell and nothing else, as in ``place`: `name`, `name`; `place``.
fn places(cell: &str) -> Checked<Vec<Place>> {
    let mut found: Vec<Place> = Vec::new();
    let parts: Vec<&str> = cell.trim().split('`').collect();
    for part in parts.chunks(2) {
        match (part, found.last_mut()) {
            ([""], _) => {}
            (["", path], None) | (["; ", path], Some(_)) => found.push(Place {
                path: path.to_string(),
                names: Vec::new(),
            }),
            ([": " | ", ", name], Some(place)) => place.names.push(name.to_string()),
            _ => return Err("more than places and names".into()),
        }
    }
    Ok(found)
}

/// The text of a module. A file that no `mod` line names is not checked.
fn module(path: &str, files: Files) -> Checked<String> {
    let text = files(&format!("{path}.antt")).ok_or(format!("no file {path}"))?;
    let (folder, name) = path.rsplit_once('/').ok_or("no folder")?;
    let root = files(&format!("{folder}/Lib.antt")).unwrap_or_default();
    hold(
        names_module(&root, name, ""),
        format!("{path} is not checked"),
    )?;
    Ok(text)
}

/// The text of a file of code, which is proved if it is the root or if the root
/// names it.
fn code(path: &str, files: Files) -> Checked<String> {
    let text = files(&format!("{path}.rt")).ok_or(format!("no file {path}"))?;
    let (folder, name) = path.rsplit_once('/').ok_or("no folder")?;
    let root = files(&format!("{folder}/lib.rt")).unwrap_or_default();
    let fact = name == "lib" || names_module(&root, name, ";");
    hold(fact, format!("{path} is not checked"))?;
    Ok(text)
}

/// Each name of the place is declared there.
fn declared(place: &Place, files: Files) -> Checked<()> {
    let path = &place.path;
    let declared = declarations(&module(path, files)?);
    hold(!place.names.is_empty(), format!("no name of {path}"))?;
    place.names.iter().try_for_each(|name| {
        let found = declared.iter().any(|found| found.name == *name);
        hold(found, format!("{path} has no {name}"))
    })
}

fn theorem(path: &str, text: &str, name: &str) -> Checked<Found> {
    let mut plain = declarations(text)
        .into_iter()
        .filter(|found| found.is_plain);
    let found = plain.find(|found| found.name == name);
    let found = found.ok_or(format!("{path} has no theorem {name}"))?;
    Ok(Found {
        name: name.into(),
        result: found.statement.clone(),
        statement: found.statement,
        place: path.into(),
        text: text.into(),
    })
}

/// A function, in front of which stands the struct that it belongs to, if it does.
fn function(path: &str, text: &str, name: &str) -> Checked<Found> {
    let (of, last) = match name.split_once("::") {
        Some((of, last)) => (Some(of), last),
        None => (None, name),
    };
    // Its lifetimes are left out of a name.
    let bare = |line: &str| line.replace("<'a>", "").replace("<'_>", "");
    let has = |of| text.lines().any(|line| bare(line) == format!("impl {of} {{"));
    hold(
        of.into_iter().all(has),
        format!("{path} has no impl of {name}"),
    )?;
    let contract = contract(text, last);
    let contract = contract.ok_or(format!("{path} has no one contract of {name}"))?;
    // What is asked for stands in front.
    let result = contract[contract.find("ensures ").unwrap_or(0)..].into();
    let alone = contract.strip_prefix("ensures { ");
    let alone = alone.and_then(|rest| rest.strip_suffix(" }"));
    let alone = alone.filter(|rest| !rest.contains(" ensures "));
    Ok(Found {
        name: name.into(),
        statement: alone.unwrap_or(&contract).into(),
        result,
        place: path.into(),
        text: text.into(),
    })
}

/// What is written is the statement, and it mentions each definition, by a name
/// that its file takes from where the definition is declared. A long statement may
/// be left out if there are definitions.
fn said(found: &Found, written: Option<&str>, row: &Row) -> Checked<()> {
    let (name, statement) = (&found.name, &found.statement);
    let may_lack = statement.chars().count() > SHORT && !row.stated.is_empty();
    let fact = written.map_or(may_lack, |text| text == statement);
    hold(fact, format!("{name} is `{statement}`"))?;
    for place in &row.stated {
        for definition in &place.names {
            let mut words = spellings(&found.text, &place.path, definition);
            if found.place == place.path {
                words.push(definition.clone());
            }
            let fact = words.iter().any(|word| mentions(&found.result, word));
            hold(fact, format!("{name} does not mention {definition}"))?;
        }
    }
    Ok(())
}

fn proved(place: &Place, row: &Row, files: Files) -> Checked<()> {
    let Place { path, names } = place;
    let is_code = path.contains("/src/");
    let fact = is_code || path.contains("/proofs/");
    hold(fact, format!("{path} is no proof"))?;
    hold(!names.is_empty(), format!("no name of {path}"))?;
    let text = if is_code {
        code(path, files)?
    } else {
        module(path, files)?
    };
    for item in names {
        let (name, written) = match item.split_once(" : ") {
            Some((name, written)) => (name, Some(written)),
            None => (item.as_str(), None),
        };
        let found = if is_code {
            function(path, &text, name)?
        } else {
            theorem(path, &text, name)?
        };
        said(&found, written, row)?;
    }
    Ok(())
}

fn check(line: &str, files: Files) -> Checked<()> {
    let cells: Vec<&str> = line.split('|').collect();
    let [_, _, stated, proof, _] = cells[..] else {
        return Err("not three cells".into());
    };
    let row = Row {
        stated: places(stated)?,
        proved: places(proof)?,
    };
    hold(!row.proved.is_empty(), "no proof".into())?;
    row.stated
        .iter()
        .try_for_each(|place| declared(place, files))?;
    row.proved
        .iter()
        .try_for_each(|place| proved(place, &row, files))
}

/// What is wrong with the rows, of which there must be some.
pub fn faults(document: &str, files: Files) -> Vec<String> {
    let head = "| in words | stated in | proved in |\n|---|---|---|\n";
    let section = document
        .split("\n## ")
        .find(|part| part.starts_with("The statements\n"));
    let table = section.and_then(|section| section.split_once(head));
    let Some((_, table)) = table else {
        return vec!["no table".into()];
    };
    let rows = table.lines().filter(|line| line.starts_with('|'));
    let rows: Vec<&str> = rows.collect();
    if rows.is_empty() {
        return vec!["no rows".into()];
    }
    let fault = |row: &&str| {
        let fault = check(row, files).err()?;
        Some(format!("{fault}\n  {row}"))
    };
    rows.iter().filter_map(fault).collect()
}

#[test]
fn each_statement_is_as_the_table_says() {
    let root = concat!(env!("CARGO_MANIFEST_DIR"), "/..");
    let document = fs::read_to_string(format!("{root}/docs/PROOF.md")).expect("the document");
    let files = |path: &str| fs::read_to_string(format!("{root}/crates/{path}")).ok();
    let faults = faults(&document, &files);
    assert!(faults.is_empty(), "{}", faults.join("\n"));
}
