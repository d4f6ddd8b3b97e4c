//! What the files of a crate say: the declarations of an `.antt` file, how it
//! writes those of another, and the contracts of an `.rt` file. All are read as
//! `rt fmt` leaves them, which the gate asks for.

pub struct Declared {
    pub name: String,
    /// Declared with a type alone, as theorems are.
    pub is_plain: bool,
    /// The type, behind the parameters of the modules that it stands in.
    pub statement: String,
}

/// The lines without comments and empty ones.
fn code<'a>(text: &'a str, comment: &str) -> Vec<&'a str> {
    let lines = text.lines().filter(|line| !line.trim().is_empty());
    let lines = lines.filter(|line| !line.trim_start().starts_with(comment));
    lines.collect()
}

/// One space wherever there is white space.
fn collapsed(lines: &[&str]) -> String {
    let words = lines.iter().flat_map(|line| line.split_whitespace());
    words.collect::<Vec<_>>().join(" ")
}

fn indent(line: &str) -> usize {
    line.len() - line.trim_start().len()
}

/// The public ones; not those inside a record, a kind of data or a proof.
pub fn declarations(text: &str) -> Vec<Declared> {
    inside(&code(text, "--"), "")
}

/// A line at the left begins an item, and lines that are indented more belong to
/// it.
fn inside(lines: &[&str], parameters: &str) -> Vec<Declared> {
    let left = lines.first().map_or(0, |line| indent(line));
    let mut found = Vec::new();
    for item in lines.chunk_by(|_, next| indent(next) > left) {
        if item[0].trim_start().starts_with("module _ ") {
            let end = item.iter().position(|line| line.ends_with("where"));
            let (head, body) = item.split_at(end.expect("the end of the parameters") + 1);
            let head = collapsed(head);
            let own = head["module _ ".len()..].trim_end_matches("where").trim();
            let all = format!("{parameters} {own}");
            found.extend(inside(body, all.trim()));
        } else {
            found.extend(declared(&collapsed(item), parameters));
        }
    }
    found
}

fn declared(item: &str, parameters: &str) -> Option<Declared> {
    let plain = item.strip_prefix("pub ");
    let rest = plain.or_else(|| item.strip_prefix("abbrev pub "));
    let rest = rest.or_else(|| item.strip_prefix("unfoldable pub "))?;
    let fields = rest.strip_prefix("record ");
    let fields = fields.or_else(|| rest.strip_prefix("data "));
    let (name, statement) = match fields {
        Some(fields) => fields.split_once(' ')?,
        None => rest.split_once(" : ")?,
    };
    let arrow = if parameters.is_empty() { "" } else { " → " };
    Some(Declared {
        name: name.into(),
        is_plain: plain.is_some() && fields.is_none(),
        statement: format!("{parameters}{arrow}{statement}"),
    })
}

/// One of the lines of a root makes a module of the file: `end` is `;` in code.
pub fn names_module(root: &str, name: &str, end: &str) -> bool {
    let mut lines = root.lines().map(|line| line.trim_start_matches("pub "));
    lines.any(|line| line.strip_prefix("mod ") == Some(&format!("{name}{end}")))
}

/// How a file may write what `place` declares under the name.
pub fn spellings(text: &str, place: &str, name: &str) -> Vec<String> {
    let is_place = |path: &str| path.replace('.', "/") == place;
    let spelling = |line: &str| {
        // An import may stand in the block of a struct.
        let line = line.trim_start();
        let line = line.strip_prefix("ghost ").unwrap_or(line);
        let used = line.strip_prefix("use Rattle.")?;
        if let Some((path, names)) = used.split_once(".{") {
            let mut names = names.trim_end_matches(['}', ';']).split(", ");
            return (is_place(path) && names.any(|found| found == name)).then(|| name.into());
        }
        let (path, other) = used.trim_end_matches(';').split_once(" as ")?;
        is_place(path).then(|| format!("{other}.{name}"))
    };
    text.lines().filter_map(spelling).collect()
}

/// The word stands in the statement, and not only as a part of others.
pub fn mentions(statement: &str, word: &str) -> bool {
    let ends = |found: char| found.is_whitespace() || "(){},;".contains(found);
    statement.split(ends).any(|found| found == word)
}

/// What a function asks for, if it does, and what it ensures. There must be one
/// function of the name in the file.
pub fn contract(text: &str, function: &str) -> Option<String> {
    let code = code(text, "//").join("\n");
    let head = format!("fn {function}(");
    let mut found = code.split(&head).skip(1);
    let (Some(rest), None) = (found.next(), found.next()) else {
        return None;
    };
    let begins = |line: &&str| {
        let line = line.trim_start();
        line.starts_with("requires ") || line.starts_with("ensures ")
    };
    let lines = rest.lines();
    let lines = lines.skip_while(|line| !begins(line) && !line.ends_with('{'));
    let lines: Vec<&str> = lines.take_while(|line| line.trim() != "{").collect();
    // Without a contract the body begins where the head ends.
    lines.first().filter(|line| begins(line))?;
    let contract = collapsed(&lines);
    contract.contains("ensures ").then_some(contract)
}
