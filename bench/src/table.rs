//! A table: speeds, their ratios, and whether each ratio keeps its bar.

use bench::score::Score;
use std::fmt;

/// From where to where a ratio may be.
#[derive(Clone, Copy)]
pub struct Bar {
    pub least: f64,
    pub most: f64,
}

impl Bar {
    pub const fn at_least(least: f64) -> Bar {
        let most = f64::INFINITY;
        Bar { least, most }
    }

    pub const fn at_most(most: f64) -> Bar {
        Bar { least: 0.0, most }
    }
}

impl fmt::Display for Bar {
    fn fmt(&self, out: &mut fmt::Formatter) -> fmt::Result {
        let Bar { least, most } = self;
        out.pad(&if most.is_infinite() {
            format!("at least {least}")
        } else if *least == 0.0 {
            format!("at most {most}")
        } else {
            format!("{least:.2} to {most:.2}")
        })
    }
}

/// What the time of a row is told in.
#[derive(Clone, Copy)]
pub enum Unit {
    Speed,
    /// For calls of one sample or none.
    Call,
}

impl Unit {
    fn name(self) -> &'static str {
        match self {
            Unit::Speed => "million samples/s",
            Unit::Call => "ns a call",
        }
    }

    fn figure(self, seconds: f64) -> f64 {
        match self {
            Unit::Speed => 1e-6 / seconds,
            Unit::Call => 1e9 * seconds,
        }
    }
}

pub struct Row {
    pub name: String,
    /// The CPU time of a sample, or of a call without one.
    pub seconds: f64,
    pub bar: Option<Bar>,
    pub score: Option<Score>,
}

impl Row {
    /// The ratio, its bar and the verdict as text, and whether the bar is kept.
    fn judged(&self, ratio: f64) -> (String, bool) {
        let Some(bar) = self.bar else {
            return (format!("{ratio:>6.2}"), true);
        };
        let kept = (bar.least..=bar.most).contains(&ratio);
        let verdict = if kept { "ok" } else { "missed" };
        (format!("{ratio:>6.2}   {bar:<15}{verdict}"), kept)
    }

    fn print(&self, unit: Unit, judgement: &str) {
        let Row { name, score, .. } = self;
        let figure = unit.figure(self.seconds);
        let score = score.as_ref().map_or(String::new(), Score::to_string);
        print_line(name, &format!("{figure:.1}"), judgement, &score);
    }
}

fn print_line(name: &str, figure: &str, judgement: &str, score: &str) {
    let line = format!("{name:<30}{figure:>17}   {judgement:<32}{score}");
    println!("{}", line.trim_end());
}

/// Prints a table, and returns whether each row keeps its bar.
pub fn print(title: &str, unit: Unit, rows: &[Row]) -> bool {
    let [first, others @ ..] = rows else {
        return true;
    };
    let scored = first.score.is_some();
    let score = if scored { Score::HEADING } else { "" };
    print_line(title, unit.name(), "first to it", score);
    first.print(unit, "");
    let mut all_kept = true;
    for row in others {
        let (judgement, kept) = row.judged(row.seconds / first.seconds);
        row.print(unit, &judgement);
        all_kept &= kept;
    }
    println!();
    all_kept
}
