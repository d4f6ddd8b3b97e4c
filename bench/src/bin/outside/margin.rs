//! What the promise's bound on a sample's change is in other terms, from the exact
//! samples.

use crate::impairment::Impairment;
use crate::signal::{Signal, CYCLE, LARGEST_TONE, SAMPLES_PER_SECOND, SHEET};
use reference::disturbance::{self, Pair};
use reference::receiver::WINDOW;
use reference::sine::Sines;
use reference::transmitter::STEPS;
use std::array;

const BANDS: [u8; STEPS.len()] = [1, 2, 3, 4];

/// Prints a table with a column for each band.
pub fn print(sines: &Sines) {
    let names = BANDS.map(|band| format!("band {band}"));
    println!("| | {} |", names.join(" | "));
    println!("|{}", "---|".repeat(1 + BANDS.len()));
    let signals = BANDS.map(|band| Signal::new(sines, band, 1, SHEET));
    let largest = |of, limit| signals.each_ref().map(|signal| largest(signal, of, limit));

    let share = f64::from(disturbance::MOST) / LARGEST_TONE;
    let share = format!("{:.2} %, {:.1} dB", 100.0 * share, 20.0 * share.log10());
    line("as a share of the amplitude", BANDS.map(|_| share.clone()));
    let gain = largest(|percent| Impairment::Amplitude(100.0 + percent), 10.0);
    line("a gain too large by", gain.map(|g| format!("{g:.2} %")));
    let late = largest(Impairment::Late, 0.1).map(|part| {
        let microseconds = 1e6 * part / SAMPLES_PER_SECOND;
        format!("{part:.4} of a sample, {microseconds:.2} µs")
    });
    line("all samples taken late by", late);
    let clock = largest(Impairment::Clock, 100.0).map(|ppm| format!("{ppm:.2} ppm"));
    line("a clock that is off over a sheet's 37 characters by", clock);

    let levels = STEPS.map(|steps| least_amplitudes(sines, steps));
    let tone = |at| format!("least amplitude of a steady tone with a good level at {at}");
    line(&tone("some phase"), levels.map(|[some, _]| of_tones(some)));
    line(
        &tone("every phase"),
        levels.map(|[_, every]| of_tones(every)),
    );
}

fn line(name: &str, bands: [String; BANDS.len()]) {
    println!("| {name} | {} |", bands.join(" | "));
}

fn of_tones(amplitude: u16) -> String {
    let percent = 100.0 * f64::from(amplitude) / LARGEST_TONE;
    format!("{amplitude}, {percent:.1} %")
}

/// The largest size, from 0 to the limit, at which no sample of the signal is
/// changed by more than the promise allows.
fn largest(signal: &Signal, of: fn(f64) -> Impairment, limit: f64) -> f64 {
    let is_inside =
        |size| of(size).received(signal).change(signal) <= disturbance::MOST.unsigned_abs();
    let (mut inside, mut outside) = (0.0, limit);
    assert!(is_inside(inside) && !is_inside(outside));
    for _ in 0..30 {
        let middle = (inside + outside) / 2.0;
        if is_inside(middle) {
            inside = middle;
        } else {
            outside = middle;
        }
    }
    inside
}

/// The least amplitude at which some window of a steady tone has a good level, and
/// the least at which all have. A window can begin at any phase; those half a
/// cycle on are the same with the signs changed.
fn least_amplitudes(sines: &Sines, steps: [u16; 2]) -> [u16; 2] {
    let pair = Pair::new(sines, steps, 0);
    let is_good = |amplitude: u16, step: u16, phase: usize| {
        let window: [i16; WINDOW] = array::from_fn(|j| {
            let sample = f64::from(sines.s(phase + j * usize::from(step)));
            (sample * f64::from(amplitude) / LARGEST_TONE).round() as i16
        });
        disturbance::is_good(&pair.energies(&window))
    };
    let good = |amplitude: u16| {
        let phases = (0..CYCLE / 2).flat_map(|phase| steps.map(|step| (step, phase)));
        phases
            .filter(|&(step, phase)| is_good(amplitude, step, phase))
            .count()
    };
    [1, CYCLE].map(|enough| {
        let mut amplitudes = 1..=LARGEST_TONE as u16;
        let least = amplitudes.find(|&amplitude| good(amplitude) >= enough);
        least.expect("a tone as it is sent has a good level")
    })
}
