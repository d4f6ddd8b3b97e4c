//! The energies over t.

use super::ranges::{boundaries, certain_ranges, slot_range, slots, FIRST, FOUND, LAST};
use super::svg::{Drawing, Point};
use super::{
    draw_name, draw_range, middle, x, BAND, CHARACTER, DARK, DASHES, GOOD_LEVEL, OUTLINE, PLOT,
    SENT, SLOT, TONES, UNDECIDED,
};
use crate::disturbance::{Energy, Pair, MOST};
use crate::receiver::{GOOD_ENERGY, WINDOW};
use crate::sine::Sines;
use crate::transmitter::{sending, IDLE_SAMPLES, STEPS};

/// The root of an energy at the lower edge, and the tenths of a pixel that
/// stand for ten millions.
const LOWEST_ROOT: i64 = 150_000_000;
const TEN_MILLIONS: i64 = 55;

/// Where the curves have their names: among the five spaces in a row.
const NAMES: i64 = 176;

pub(super) fn draw_plot(drawing: &mut Drawing, sines: &Sines) {
    let energies = energies(sines);
    draw_ranges(drawing);
    draw_grid(drawing);
    draw_good_level(drawing);
    for bit in [1, 0] {
        draw_energy(drawing, bit, &energies);
    }
    draw_names(drawing, &energies);
    draw_axes(drawing);
}

/// The energies of space and mark for each t.
fn energies(sines: &Sines) -> Vec<[Energy; 2]> {
    let samples = sending(sines, BAND, &[CHARACTER]);
    let tones = Pair::new(sines, STEPS[usize::from(BAND) - 1], MOST);
    let energies = |t: i64| {
        let end = usize::try_from(IDLE_SAMPLES as i64 + t).expect("the leader is longer");
        let window: &[i16; WINDOW] = samples[..end].last_chunk().expect("a whole window");
        tones.energies(window)
    };
    (FIRST..=LAST).map(energies).collect()
}

/// The largest whole number with a square of at most `square`, below 2^62.
fn root(square: i64) -> i64 {
    let next = |root: i64, bit: u32| {
        let larger = root + (1 << bit);
        if larger * larger <= square {
            larger
        } else {
            root
        }
    };
    (0..31).rev().fold(0, next)
}

fn y_of_root(root: i64) -> i64 {
    PLOT.1 - (root - LOWEST_ROOT) * TEN_MILLIONS / 10_000_000
}

fn y(energy: i64) -> i64 {
    y_of_root(root(energy))
}

fn draw_ranges(drawing: &mut Drawing) {
    drawing.group(SLOT, |drawing| {
        for slot in slots() {
            draw_range(drawing, slot_range(slot), PLOT);
        }
    });
    drawing.group(UNDECIDED, |drawing| {
        for (winner, range) in certain_ranges() {
            if winner.is_none() {
                draw_range(drawing, range, PLOT);
            }
        }
    });
    drawing.group(OUTLINE, |drawing| draw_range(drawing, FOUND, PLOT));
}

/// The roots, in millions, that have a line and a number.
fn levels() -> impl Iterator<Item = i64> {
    (200..=600).step_by(100)
}

fn draw_grid(drawing: &mut Drawing) {
    drawing.group("stroke=\"#ccc\" stroke-width=\"7\"", |drawing| {
        for level in levels() {
            let y = y_of_root(level * 1_000_000);
            drawing.line((x(FIRST), y), (x(LAST), y));
        }
    });
    drawing.group("stroke=\"#777\" stroke-width=\"7\"", |drawing| {
        for t in boundaries() {
            drawing.line((x(t), SENT.1), (x(t), PLOT.1 + 30));
        }
    });
}

fn draw_good_level(drawing: &mut Drawing) {
    let y = y(GOOD_ENERGY);
    drawing.group(GOOD_LEVEL, |drawing| {
        drawing.line((x(FIRST), y), (x(LAST), y));
    });
    draw_name(drawing, y + 40, "good level");
}

/// One tone's energy, within the bounds that it keeps when disturbed.
fn draw_energy(drawing: &mut Drawing, bit: usize, energies: &[[Energy; 2]]) {
    let points = |of: fn(&Energy) -> i64| -> Vec<Point> {
        let point = |(t, pair): (i64, &[Energy; 2])| (x(t), y(of(&pair[bit])));
        (FIRST..).zip(energies).map(point).collect()
    };
    let mut outline = points(|energy| energy.most);
    outline.extend(points(|energy| energy.least).iter().rev());
    drawing.group(&bounds_style(bit), |drawing| drawing.polygon(&outline));
    drawing.group(&line_style(bit), |drawing| {
        drawing.polyline(&points(|energy| energy.undisturbed));
    });
}

pub(super) fn bounds_style(bit: usize) -> String {
    format!("fill=\"{}\" fill-opacity=\"0.3\"", DARK[bit])
}

pub(super) fn line_style(bit: usize) -> String {
    let (colour, dashes) = (DARK[bit], DASHES[bit]);
    format!("stroke=\"{colour}\" stroke-width=\"18\" stroke-dasharray=\"{dashes}\"")
}

fn draw_names(drawing: &mut Drawing, energies: &[[Energy; 2]]) {
    let [space, mark] = energies[(NAMES - FIRST) as usize];
    let baselines = [y(space.least) + 190, y(mark.most) - 120];
    for (bit, baseline) in baselines.into_iter().enumerate() {
        let style = format!("fill=\"{}\" font-weight=\"bold\"", DARK[bit]);
        drawing.group(&format!("{style} text-anchor=\"middle\""), |drawing| {
            drawing.text((x(NAMES), baseline), TONES[bit]);
        });
    }
}

fn draw_axes(drawing: &mut Drawing) {
    let frame = "fill=\"none\" stroke=\"#222\" stroke-width=\"10\"";
    drawing.group(frame, |drawing| {
        drawing.rect((x(FIRST), PLOT.0), (x(LAST), PLOT.1));
    });
    for level in levels() {
        let baseline = y_of_root(level * 1_000_000) + 40;
        draw_name(drawing, baseline, &level.to_string());
    }
    drawing.group("text-anchor=\"middle\"", |drawing| {
        for t in boundaries() {
            drawing.text((x(t), PLOT.1 + 140), &t.to_string());
        }
        let words =
            "t, the number of samples that have entered the window since the character began";
        drawing.text((middle((x(FIRST), x(LAST))), PLOT.1 + 300), words);
        let turned = format!("transform=\"translate(480 {}) rotate(-90)\"", middle(PLOT));
        drawing.group(&turned, |drawing| {
            drawing.text((0, 0), "square root of the energy, in millions");
        });
    });
}
