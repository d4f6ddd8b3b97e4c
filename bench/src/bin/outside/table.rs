//! The tables, in Markdown.

use crate::measure::{Measured, READERS};
use bench::score::Score;

fn line(cells: &[String]) {
    println!("| {} |", cells.join(" | "));
}

fn heading(names: &[&str]) {
    line(
        &names
            .iter()
            .map(|name| name.to_string())
            .collect::<Vec<_>>(),
    );
    println!("|{}", "---|".repeat(names.len()));
}

/// Of the characters sent, in percent.
fn percent(count: usize, score: &Score) -> String {
    let sent = score.right + score.wrong + score.missing;
    if count == sent {
        return "100".to_string();
    }
    format!("{:.2}", 100.0 * count as f64 / sent as f64)
}

/// Only how many were right.
fn right(score: &Option<Score>) -> String {
    let right = |score: &Score| percent(score.right, score);
    score.as_ref().map_or("-".to_string(), right)
}

fn in_full(score: &Option<Score>) -> String {
    let Some(score) = score else {
        return "-".to_string();
    };
    if score.is_perfect() {
        return "100".to_string();
    }
    let counts = [score.right, score.wrong, score.missing, score.extra];
    counts.map(|count| percent(count, score)).join(", ")
}

/// A line for each impairment: the right ones in band 1 and in band 2.
pub fn print_short<'a>(rows: impl Iterator<Item = &'a (String, [Measured; 2])>) {
    heading(&[&["impairment"], &READERS[..]].concat());
    for (name, bands) in rows {
        let both = |reader: usize| bands.each_ref().map(|band| right(&band.scores[reader]));
        let cells = (0..READERS.len()).map(|reader| both(reader).join(", "));
        line(&[name.clone()].into_iter().chain(cells).collect::<Vec<_>>());
    }
}

/// A line for each impairment and band.
pub fn print_full(rows: &[(String, [Measured; 2])]) {
    let first = ["impairment", "band", "change", "clipped %", "faults"];
    heading(&[&first, &READERS[..]].concat());
    for (name, bands) in rows {
        for (measured, band) in bands.iter().zip(1..) {
            let mut cells = vec![
                name.clone(),
                format!("{band}"),
                measured.change.to_string(),
                format!("{:.2}", 100.0 * measured.clipped),
                measured.faults.to_string(),
            ];
            cells.extend(measured.scores.iter().map(in_full));
            line(&cells);
        }
    }
}
