//! Measures the library's receiver beside other readers of the same recordings:
//! three Rust loops that do the same, the library's tap, and spandsp and minimodem
//! where they are installed. `run`, in this package's folder, builds and starts it.
//!
//! It prints speeds, ratios and whether each ratio keeps its bar, and ends with
//! status 1 if one does not. The gate does not run it, since a busy machine can
//! mislead it.

#![deny(unsafe_code)]

mod band;
mod entry;
mod table;

use band::{Band, SAMPLES};
use bench::minimodem;
use bench::readers::BLOCK;
use bench::recording::{DISTURBANCE, SEED};
use entry::{ROUNDS, SECONDS};
use reference::receiver::LARGEST_SAMPLE;
use reference::sine::Sines;
use std::env;
use std::path::Path;
use std::process::ExitCode;

const BANDS: [u8; 2] = [1, 2];

fn say_what_is_measured() {
    println!(
        "sendings of random characters; silence, noise, idle mark and breaks of {SAMPLES} samples (seed {SEED})"
    );
    println!(
        "for the tap, a sending in each band on one line, both at two thirds of the amplitude"
    );
    println!(
        "each sample altered by -{DISTURBANCE} to {DISTURBANCE} at random; \
         noise from -{LARGEST_SAMPLE} to {LARGEST_SAMPLE}"
    );
    println!(
        "in CPU time, the best of {ROUNDS} rounds or more, for {SECONDS} seconds or more, in which all of a table take turns; \
         blocks of {BLOCK} samples, if not told"
    );
    println!("first to it: the speed of the table's first line, as a multiple of this one's");
    println!();
}

/// What the time of a peer is that of, or how to have the peer.
fn say_what_peers_do() {
    if cfg!(feature = "spandsp") {
        println!("spandsp: fsk_rx with async_rx, and the preset of the band times 8000/9600");
    } else {
        println!("spandsp: not installed; apt-get install libspandsp-dev");
    }
    if minimodem::is_installed() {
        println!("minimodem: its whole process, which reads a WAV file and writes each character");
    } else {
        println!("minimodem: not installed; apt-get install minimodem");
    }
}

fn main() -> ExitCode {
    let Some(folder) = env::args_os().nth(1) else {
        eprintln!("a folder for a sound file is needed; `run` makes one");
        return ExitCode::from(2);
    };
    let folder = Path::new(&folder);
    let sines = &Sines::new();
    say_what_is_measured();
    let kept = BANDS.map(|band| {
        let tables = Band {
            sines,
            band,
            folder,
        };
        tables.measure()
    });
    say_what_peers_do();
    if kept == [true; BANDS.len()] {
        ExitCode::SUCCESS
    } else {
        ExitCode::FAILURE
    }
}
