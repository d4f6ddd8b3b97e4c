//! Measures what is read of sendings that a line has altered by more than the
//! promise allows: by the library, and by spandsp and minimodem where they are
//! installed. `outside`, in this package's folder, builds and starts it.
//!
//! It prints tables in Markdown, the same in every run. Nothing in them is proved.
//! It fails if the library misses anything where no sample was changed by more than
//! the promise allows, or ever reads otherwise than the reference.

#![deny(unsafe_code)]

mod impairment;
mod margin;
mod measure;
mod rows;
mod signal;
mod table;

use bench::recording::SEED;
use bench::score::Score;
use measure::{measure, Measured, BLOCK};
use reference::disturbance;
use reference::random::Random;
use reference::receiver::LARGEST_SAMPLE;
use reference::sine::Sines;
use signal::{Signal, SHEET, SILENCE};
use std::env;
use std::path::Path;
use std::process::ExitCode;

/// In all sendings together. If nothing else is said, each is as long as a sheet.
const CHARACTERS: usize = 140 * SHEET;

/// In percent of the message, if so many random characters were read.
fn right_by_chance(message: &[u8], count: usize) -> f64 {
    let score = Score::new(message, &Random::new(SEED + 2).bytes(count));
    100.0 * score.right as f64 / message.len() as f64
}

fn say_what_is_measured(signal: &Signal, in_a_sending: usize) {
    let message = &signal.message;
    let [all, half] = [1, 2].map(|part| right_by_chance(message, message.len() / part));
    println!(
        "{} random characters (seed {SEED}) in sendings of {in_a_sending}, {SILENCE} silent samples before and behind each; \
         all in one recording, read in blocks of {BLOCK}.",
        message.len()
    );
    println!(
        "Every sample is rounded, and clipped to -{LARGEST_SAMPLE} to {LARGEST_SAMPLE}; `change` is the most that one was changed by, \
         and up to {} it is within the promise.",
        disturbance::MOST
    );
    println!(
        "Shares of the characters sent, in percent: right, wrong, missing, extra; or 100 if all were right and none extra. \
         Of as many characters drawn at random {all:.1} are right, of half as many {half:.1}.",
    );
    println!("`faults` are the library's events 256 to 259. `-`: the reader is not installed.");
    println!();
}

/// The number of characters in a sending, which divides that of all.
fn in_a_sending(argument: Option<String>) -> Option<usize> {
    let Some(argument) = argument else {
        return Some(SHEET);
    };
    let number = argument.parse().ok()?;
    (CHARACTERS.checked_rem(number) == Some(0)).then_some(number)
}

fn main() -> ExitCode {
    let mut arguments = env::args().skip(1);
    let Some(folder) = arguments.next() else {
        eprintln!("a folder for a sound file is needed; `outside` makes one");
        return ExitCode::from(2);
    };
    let Some(in_a_sending) = in_a_sending(arguments.next()) else {
        eprintln!("the number of characters in a sending has to divide {CHARACTERS}");
        return ExitCode::from(2);
    };
    let folder = Path::new(&folder);
    let sines = &Sines::new();
    let sendings = CHARACTERS / in_a_sending;
    let signals = [1, 2].map(|band| Signal::new(sines, band, sendings, in_a_sending));
    margin::print(sines);
    println!();
    say_what_is_measured(&signals[0], in_a_sending);
    let rows = rows::all();
    let measured: Vec<(String, [Measured; 2])> = rows
        .iter()
        .map(|row| {
            let of = |signal| measure(sines, signal, row.impairment, folder);
            (row.impairment.to_string(), signals.each_ref().map(of))
        })
        .collect();
    let short = measured.iter().zip(&rows).filter(|(_, row)| row.in_short);
    table::print_short(short.map(|(measured, _)| measured));
    println!();
    table::print_full(&measured);
    ExitCode::SUCCESS
}
