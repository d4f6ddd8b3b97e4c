//! What a line of a table measures.

use crate::table::{self, Bar, Row, Unit};
use bench::readers::{Reader, Reading};
use bench::recording::Recording;
use bench::score::Score;
use std::time::Instant;

/// How many rounds a table takes at least, and how many seconds: so something
/// else that the machine does for a second or two does not meet all rounds.
pub const ROUNDS: usize = 12;
pub const SECONDS: u64 = 6;

/// A reader with its recording. The bar is for the first entry's speed in terms
/// of this one's.
pub struct Entry<'a> {
    name: String,
    reader: Box<dyn Reader + 'a>,
    recording: &'a Recording,
    bar: Option<Bar>,
}

impl<'a> Entry<'a> {
    pub fn new(
        name: impl Into<String>,
        reader: impl Reader + 'a,
        recording: &'a Recording,
    ) -> Entry<'a> {
        Entry {
            name: name.into(),
            reader: Box::new(reader),
            recording,
            bar: None,
        }
    }

    pub fn with(self, bar: Bar) -> Entry<'a> {
        let bar = Some(bar);
        Entry { bar, ..self }
    }

    fn length(&self) -> usize {
        self.recording.samples.len()
    }

    /// The time of so many readings, and the characters of the last.
    fn read(&self, times: usize) -> Reading {
        let readings = (0..times).map(|_| self.reader.read(self.recording));
        let both = |a: Reading, b: Reading| Reading {
            time: a.time + b.time,
            ..b
        };
        readings.reduce(both).expect("there is a reading")
    }

    fn row(&self, best: &Reading, times: usize) -> Row {
        let message = self.recording.message.as_ref();
        Row {
            name: self.name.clone(),
            seconds: best.time.as_secs_f64() / (times * self.length()) as f64,
            bar: self.bar,
            score: message.map(|message| Score::new(message, &best.characters)),
        }
    }
}

/// Measures the entries, prints their table, and returns whether each keeps its
/// bar. The best time of each counts. They take turns, so that whatever else the
/// machine does meets all of them, and one with a shorter recording reads it so
/// often that all read about as many samples.
pub fn measure(title: &str, unit: Unit, entries: &[Entry]) -> bool {
    let longest = entries.iter().map(Entry::length).max().unwrap_or(0);
    let times = |entry: &Entry| longest.div_ceil(entry.length());
    let start = Instant::now();
    let mut best: Vec<Reading> = entries.iter().map(|e| e.read(times(e))).collect();
    let mut rounds = 1;
    while rounds < ROUNDS || start.elapsed().as_secs() < SECONDS {
        for (entry, best) in entries.iter().zip(&mut best) {
            best.time = entry.read(times(entry)).time.min(best.time);
        }
        rounds += 1;
    }
    let both = entries.iter().zip(&best);
    let rows: Vec<Row> = both.map(|(e, best)| e.row(best, times(e))).collect();
    table::print(title, unit, &rows)
}
