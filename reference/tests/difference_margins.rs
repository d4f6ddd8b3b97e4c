//! How large differences are: inside the margin never below a number, and on some lines
//! outside it, as `docs/CALLS.md` tells.

use crate::common::c::file;
use crate::common::disturbances::largest;
use crate::common::receiver::{assert_events, fresh, measured_on, numbers};
use crate::common::recording::{
    around_0, as_events, disturbed, every_character, sending, surrounded,
};
use crate::common::BANDS;
use reference::disturbance::MOST;
use reference::random::Random;

/// What no character's difference is below under the promise.
const LEAST: i64 = 200_000_000_000_000_000;

/// The differences of a message that must be read right.
fn differences(band: u8, message: &[u8], recording: &[i16], what: &str) -> Vec<i64> {
    let (events, _) = measured_on(fresh(band), recording.chunks(16_384));
    let told = || format!("{what}, band {band}");
    assert_events(&numbers(&events), &as_events(message), told);
    events
        .into_iter()
        .map(|(_, difference)| difference)
        .collect()
}

/// Of each band the smallest that is met, with the largest disturbances and random ones. What
/// is proved is less: `margins` has that.
#[test]
fn inside_the_margin() {
    let mut random = Random::new(130);
    let met = BANDS.map(|band| {
        let mut met = Vec::new();
        for _ in 0..3 {
            let message = every_character(&mut random);
            let sent = sending(band, &message);
            for (name, added) in largest(band, &message) {
                let line = disturbed(&sent, |place| added[place]);
                met.extend(differences(band, &message, &line, name));
            }
            let line = surrounded(&sent, 70, 90);
            for most in [0, 1, 30, MOST] {
                let line = disturbed(&line, |_| around_0(&mut random, most));
                met.extend(differences(band, &message, &line, "random"));
            }
        }
        let least = *met.iter().min().expect("many");
        assert!(least >= LEAST, "band {band}: {least}");
        least
    });
    let expected = [
        231_552_306_956_063_628,
        242_548_961_443_822_504,
        228_627_017_083_485_583,
        240_900_382_794_672_495,
    ];
    assert_eq!(met, expected);
}

/// A recording of every character whose samples are altered, each by a rule of its own.
/// They are clipped to the range of a sample.
fn altered(random: &mut Random, sent: &[i16], percent: i32, most: i16) -> Vec<i16> {
    let alter = |&sample: &i16| {
        let added = i32::from(around_0(random, most));
        let sample = i32::from(sample) * percent / 100 + added;
        sample.clamp(-8_191, 8_191) as i16
    };
    sent.iter().map(alter).collect()
}

/// A line's amplitude in per cent, and the most that is added to a sample.
const LINES: [(&str, i32, i16); 7] = [
    ("as it was sent", 100, 0),
    ("random numbers up to ±100", 100, 100),
    ("random numbers up to ±1,000", 100, 1_000),
    ("random numbers up to ±4,000", 100, 4_000),
    ("amplitude 90 %", 90, 0),
    ("amplitude 50 %", 50, 0),
    ("amplitude 40 %", 40, 0),
];

/// The smallest, the middle one and the largest of all 256 characters, in 10^15.
fn row(random: &mut Random, (name, percent, most): (&str, i32, i16)) -> String {
    let columns = BANDS.map(|band| {
        let message = every_character(random);
        let sent = surrounded(&sending(band, &message), 100, 100);
        let line = altered(random, &sent, percent, most);
        let mut found = differences(band, &message, &line, name);
        found.sort();
        let [least, middle, most] = [0, 128, 255].map(|place| found[place] / 1_000_000_000_000_000);
        format!(" {least}, {middle}, {most} |")
    });
    format!("| {name} |{}", columns.concat())
}

#[test]
fn the_table_of_lines() {
    let text = std::fs::read_to_string(file("docs/CALLS.md")).expect("the document");
    let mut random = Random::new(131);
    let rows = LINES.map(|line| row(&mut random, line));
    for row in &rows {
        let found = text.lines().any(|line| line == row);
        assert!(
            found,
            "docs/CALLS.md has not these lines:\n{}",
            rows.join("\n")
        );
    }
}
