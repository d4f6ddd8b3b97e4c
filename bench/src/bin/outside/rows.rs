//! The rows of the table.

use crate::impairment::Impairment;

pub struct Row {
    pub impairment: Impairment,
    /// The short table has it too.
    pub in_short: bool,
}

/// In percent, from the largest that is within the range of a sample.
const AMPLITUDES: [f64; 16] = [
    136.0, 120.0, 100.0, 70.0, 50.0, 40.0, 38.0, 36.0, 35.0, 31.25, 30.0, 25.0, 20.0, 15.0, 10.0,
    5.0,
];
const UNIFORM: [f64; 9] = [100.0, 500.0, 1e3, 2e3, 3e3, 4e3, 5e3, 6e3, 8e3];
const DECIBELS: [f64; 9] = [30.0, 20.0, 15.0, 12.0, 10.0, 6.0, 3.0, 0.0, -3.0];
/// For a constant and for the hum.
const ADDED: [f64; 5] = [100.0, 500.0, 1e3, 2e3, 4e3];
const LATE: [f64; 5] = [0.01, 0.02, 0.1, 0.25, 0.5];
/// In millionths.
const CLOCK: [f64; 10] = [10.0, 100.0, 300.0, 1e3, 3e3, 1e4, 2e4, 2.5e4, 3e4, 4e4];
/// In percent.
const ECHO: [f64; 4] = [10.0, 30.0, 50.0, 70.0];

/// Each impairment with its sizes, and with those that the short table shows.
pub fn all() -> Vec<Row> {
    let nearer = |ppm: f64| Impairment::Clock(-ppm);
    let echo = |milliseconds| {
        move |percent| Impairment::Echo {
            percent,
            milliseconds,
        }
    };
    let short = [136.0, 50.0, 40.0, 35.0, 30.0, 10.0];
    let groups = [
        rows(Impairment::Amplitude, &AMPLITUDES, &short),
        rows(Impairment::Uniform, &UNIFORM, &[1e3, 4e3, 8e3]),
        rows(Impairment::Gaussian, &DECIBELS, &[20.0, 10.0, 3.0, 0.0]),
        rows(Impairment::Offset, &ADDED, &[4e3]),
        rows(Impairment::Hum, &ADDED, &[4e3]),
        rows(Impairment::Late, &LATE, &[0.5]),
        rows(Impairment::Clock, &CLOCK, &[1e4, 2e4, 3e4]),
        rows(nearer, &CLOCK, &[2e4]),
        rows(echo(1.0), &ECHO, &[]),
        rows(echo(5.0), &ECHO, &[50.0]),
        rows(echo(20.0), &ECHO, &[50.0, 70.0]),
    ];
    groups.into_iter().flatten().collect()
}

fn rows(of: impl Fn(f64) -> Impairment, sizes: &[f64], in_short: &[f64]) -> Vec<Row> {
    let row = |size: &f64| Row {
        impairment: of(*size),
        in_short: in_short.contains(size),
    };
    sizes.iter().map(row).collect()
}
