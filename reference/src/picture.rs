//! The picture `docs/windows.svg`: both energies of every window while one
//! character passes, and where the receiver looks. Only whole numbers are
//! computed with, so that it is the same on every machine.

mod plot;
mod ranges;
mod rows;
mod svg;

use crate::receiver::LAST_SLOT;
use crate::sine::Sines;
use plot::{bounds_style, draw_plot, line_style};
use ranges::{slot_range, Range, FIRST, FOUND, LAST};
use svg::{Drawing, Point};

/// The band that is drawn. The limits are those of every band.
pub const BAND: u8 = 1;
const CHARACTER: u8 = 0x41;
const TITLE: &str = "Where the receiver looks at a character (41 hexadecimal, band 1)";

// The layout, in tenths of a pixel: the x of the first t, the width of one
// sample, and from top to bottom what is drawn.
const SIZE: Point = (11_100, 5_290);
const LEFT: i64 = 1_100;
const SAMPLE: i64 = 28;
const SENT: (i64, i64) = (410, 650);
const PLOT: (i64, i64) = (730, 3_315);
const CERTAIN: (i64, i64) = (3_720, 3_910);
const LOOKS: (i64, i64) = (3_910, 4_150);
const LEGEND: i64 = 4_660;

/// The colours of space and mark, for lines and words and for areas. Blue and
/// orange of unlike darkness stay apart in grey, and the lines differ besides.
const DARK: [&str; 2] = ["#0b5fa5", "#c96a00"];
const PALE: [&str; 2] = ["#bcd8ef", "#fde6c8"];
const DASHES: [&str; 2] = ["70 35", "none"];
const TONES: [&str; 2] = ["space", "mark"];

const SLOT: &str = "fill=\"#999\" fill-opacity=\"0.5\"";
const UNDECIDED: &str = "fill=\"url(#hatching)\"";
const OUTLINE: &str = "fill=\"none\" stroke=\"#000\" stroke-width=\"14\"";
const GOOD_LEVEL: &str = "stroke=\"#000\" stroke-width=\"14\" stroke-dasharray=\"14 28\"";

/// The picture as the text of an SVG file.
pub fn windows(sines: &Sines) -> String {
    let mut drawing = Drawing::new(SIZE, TITLE);
    define_hatching(&mut drawing);
    let font = "font-family=\"Arial, Helvetica, sans-serif\" font-size=\"110\" fill=\"#222\"";
    drawing.group(font, |drawing| {
        drawing.group("font-size=\"160\" font-weight=\"bold\"", |drawing| {
            drawing.text((LEFT, 260), TITLE);
        });
        rows::draw_sent(drawing);
        draw_plot(drawing, sines);
        rows::draw_certain(drawing);
        rows::draw_looks(drawing);
        draw_legend(drawing);
    });
    drawing.finished()
}

fn define_hatching(drawing: &mut Drawing) {
    let size = "width=\"40\" height=\"40\" patternUnits=\"userSpaceOnUse\"";
    let line = "<path d=\"M20 0V40\" stroke=\"#999\" stroke-width=\"12\"/>";
    drawing.add(&format!(
        "<pattern id=\"hatching\" {size} patternTransform=\"rotate(45)\">{line}</pattern>"
    ));
}

fn x(t: i64) -> i64 {
    LEFT + SAMPLE * (t - FIRST)
}

/// From half a sample before the range to half a sample behind it, within the
/// picture.
fn edges((first, last): Range) -> (i64, i64) {
    let left = x(first) - SAMPLE / 2;
    let right = x(last) + SAMPLE / 2;
    (left.max(x(FIRST)), right.min(x(LAST)))
}

fn middle((from, to): (i64, i64)) -> i64 {
    (from + to) / 2
}

fn draw_range(drawing: &mut Drawing, range: Range, (top, bottom): (i64, i64)) {
    let (left, right) = edges(range);
    drawing.rect((left, top), (right, bottom));
}

/// Words on the left of the picture.
fn draw_name(drawing: &mut Drawing, baseline: i64, name: &str) {
    drawing.group("text-anchor=\"end\"", |drawing| {
        drawing.text((LEFT - 60, baseline), name);
    });
}

const LEGEND_ROW: i64 = 175;
const LEGEND_LEFT: i64 = 250;
const LEGEND_RIGHT: i64 = 6_300;
const LEGEND_SAMPLE: i64 = 400;

/// The lines on the left, the areas on the right.
fn draw_legend(drawing: &mut Drawing) {
    let bounds = "and its bounds when each sample is altered by up to 100";
    let lines = [
        (Some(1), format!("mark energy, undisturbed, {bounds}")),
        (Some(0), "space energy, with its bounds".to_string()),
        (
            None,
            "good level: an energy of 32,400,000,000,000,000".to_string(),
        ),
    ];
    for (row, (bit, words)) in (0..).zip(lines) {
        let baseline = LEGEND + row * LEGEND_ROW;
        draw_line_sample(drawing, baseline, bit);
        drawing.text((LEGEND_LEFT + LEGEND_SAMPLE + 80, baseline), &words);
    }
    drawing.text((LEGEND_LEFT, LEGEND + 3 * LEGEND_ROW), &reported());
    for (row, (style, words)) in (0..).zip(area_legend()) {
        let (left, baseline) = (LEGEND_RIGHT, LEGEND + row * LEGEND_ROW);
        drawing.group(style, |drawing| {
            drawing.rect((left, baseline - 100), (left + 140, baseline + 20));
        });
        drawing.text((left + 220, baseline), &words);
    }
}

/// When t samples have entered, the newest comes t - 1 behind the first.
fn reported() -> String {
    let (first, last) = slot_range(LAST_SLOT);
    let samples = format!("{} to {} samples", first - 1, last - 1);
    format!("Slot {LAST_SLOT} reports the character, {samples} behind its first.")
}

/// The styles of the areas and what they mean.
fn area_legend() -> [(&'static str, String); 3] {
    let (found, latest) = FOUND;
    let undecided = format!("{found} to {} samples", latest - 1);
    let (first, last) = slot_range(0);
    let slots = format!("t from {first} + 32 m to {last} + 32 m");
    [
        (
            UNDECIDED,
            format!("undecided at some phase: {undecided} of a bit unlike the one before"),
        ),
        (SLOT, format!("slot m is taken here: {slots}")),
        (
            OUTLINE,
            format!("the start bit is found here: t from {found} to {latest}"),
        ),
    ]
}

/// The line of a tone with its bounds, or that of the good level.
fn draw_line_sample(drawing: &mut Drawing, baseline: i64, bit: Option<usize>) {
    let (left, right) = (LEGEND_LEFT, LEGEND_LEFT + LEGEND_SAMPLE);
    let y = baseline - 40;
    if let Some(bit) = bit {
        drawing.group(&bounds_style(bit), |drawing| {
            drawing.rect((left, y - 65), (right, y + 65));
        });
    }
    let style = bit.map_or(GOOD_LEVEL.to_string(), line_style);
    drawing.group(&style, |drawing| drawing.line((left, y), (right, y)));
}
