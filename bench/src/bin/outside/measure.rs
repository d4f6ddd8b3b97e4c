//! What the readers make of a signal that a line has impaired.

use crate::impairment::{Impairment, Received};
use crate::signal::Signal;
use bench::minimodem::{self, Minimodem};
use bench::readers::{self, Reader};
use bench::recording::Recording;
use bench::score::Score;
use bench::spandsp;
use reference::disturbance;
use reference::sine::Sines;
use std::path::Path;

/// The samples of one call.
pub const BLOCK: usize = 4_096;
pub const READERS: [&str; 3] = ["library", "spandsp", "minimodem"];

pub struct Measured {
    /// The most that a sample was changed by.
    pub change: u16,
    /// The share of the samples that were clipped.
    pub clipped: f64,
    /// What the library told besides characters: no stop bit, carrier lost, break,
    /// doubtful bit.
    pub faults: usize,
    /// None of a reader that is not installed.
    pub scores: [Option<Score>; READERS.len()],
}

/// The library's events are also held to those of the reference, and if no sample
/// was changed by more than the promise allows, to the message. A sound file goes
/// into the folder.
pub fn measure(sines: &Sines, signal: &Signal, impairment: Impairment, folder: &Path) -> Measured {
    let received = impairment.received(signal);
    let change = received.change(signal);
    let Received { samples, clipped } = received;
    let clipped = clipped as f64 / samples.len() as f64;
    let recording = Recording::of(sines, signal.band, samples);
    let faults = recording
        .events
        .iter()
        .filter(|&&event| event > 255)
        .count();
    let score =
        |reader: &dyn Reader| Score::new(&signal.message, &reader.read(&recording).characters);
    let library = score(&readers::library(BLOCK));
    if change <= disturbance::MOST.unsigned_abs() {
        assert!(
            library.is_perfect() && faults == 0,
            "{impairment}: {library:?}"
        );
    }
    let minimodem = minimodem::is_installed().then(|| Minimodem::new(&recording, folder));
    Measured {
        change,
        clipped,
        faults,
        scores: [
            Some(library),
            spandsp::reader(BLOCK).map(|reader| score(&reader)),
            minimodem.map(|reader| score(&reader)),
        ],
    }
}
