//! The rows over and under the plot: the bits that are sent, the tone that wins
//! for certain, and where the receiver looks.

use super::ranges::{bit, certain_ranges, slot_range, slots, Range, CELL, FIRST, FOUND, LAST};
use super::svg::Drawing;
use super::{
    draw_name, draw_range, edges, middle, x, CERTAIN, LOOKS, OUTLINE, PALE, SENT, SLOT, TONES,
    UNDECIDED,
};
use crate::receiver::{BIT, HALF_BIT, LAST_SLOT};

const CENTRED: &str = "text-anchor=\"middle\"";

/// The bits with their names and values.
pub(super) fn draw_sent(drawing: &mut Drawing) {
    let (top, bottom) = SENT;
    let baseline = bottom - 80;
    for cell in -1..=i64::from(LAST_SLOT) + 1 {
        let left = x((cell * CELL).max(FIRST));
        let right = x(((cell + 1) * CELL).min(LAST));
        let colour = PALE[usize::from(bit(cell))];
        let style = format!("fill=\"{colour}\" stroke=\"#777\" stroke-width=\"7\"");
        drawing.group(&style, |drawing| {
            drawing.rect((left, top), (right, bottom));
        });
        drawing.group(CENTRED, |drawing| {
            drawing.text((middle((left, right)), baseline), &sent_name(cell));
        });
    }
    draw_name(drawing, baseline, "bits sent");
}

fn sent_name(cell: i64) -> String {
    match cell {
        ..=-1 => "leader".to_string(),
        0..=9 => format!("{}: {}", bit_name(cell), bit(cell)),
        10.. => "trailer".to_string(),
    }
}

/// The name of one of the character's ten bits.
fn bit_name(cell: i64) -> String {
    match cell {
        0 => "start".to_string(),
        9 => "stop".to_string(),
        _ => format!("bit {}", cell - 1),
    }
}

/// The tone that wins for certain, and the slots across it.
pub(super) fn draw_certain(drawing: &mut Drawing) {
    for (winner, range) in certain_ranges() {
        let style = match winner {
            Some(bit) => format!("fill=\"{}\"", PALE[usize::from(bit)]),
            None => UNDECIDED.to_string(),
        };
        drawing.group(&style, |drawing| draw_range(drawing, range, CERTAIN));
    }
    let across = (CERTAIN.0, LOOKS.1);
    drawing.group(SLOT, |drawing| {
        for slot in slots() {
            draw_range(drawing, slot_range(slot), across);
        }
    });
    drawing.group(OUTLINE, |drawing| draw_range(drawing, FOUND, across));
    draw_winners(drawing);
    draw_name(drawing, CERTAIN.1 - 60, "wins for certain");
}

fn draw_winners(drawing: &mut Drawing) {
    drawing.group(CENTRED, |drawing| {
        for (winner, range) in certain_ranges() {
            if let Some(bit) = winner {
                let place = (middle(edges(range)), CERTAIN.1 - 60);
                drawing.text(place, TONES[usize::from(bit)]);
            }
        }
    });
}

/// How the slots follow from where the start bit is found.
pub(super) fn draw_looks(drawing: &mut Drawing) {
    draw_wait(drawing, FOUND, slot_range(0), HALF_BIT);
    for slot in slots() {
        if slot > 0 {
            draw_wait(drawing, slot_range(slot - 1), slot_range(slot), BIT);
        }
        let name = format!("slot {slot}: {}", bit_name(i64::from(slot)));
        let place = middle(edges(slot_range(slot)));
        drawing.group(CENTRED, |drawing| {
            drawing.text((place, LOOKS.1 + 130), &name);
            drawing.text((place, LOOKS.1 + 260), &told(slot_range(slot)));
        });
    }
    let (left, right) = edges(FOUND);
    drawing.group("text-anchor=\"end\"", |drawing| {
        drawing.text((left - 40, LOOKS.1 - 40), "start found");
        drawing.text((right, LOOKS.1 + 260), &told(FOUND));
    });
    draw_name(drawing, LOOKS.1 - 40, "receiver looks");
    draw_name(drawing, LOOKS.1 + 260, "at t =");
}

fn told((first, last): Range) -> String {
    format!("{first} to {last}")
}

/// An arrow from one range to the next, with the samples in between.
fn draw_wait(drawing: &mut Drawing, from: Range, to: Range, wait: u8) {
    let (left, right) = (edges(from).1 + 15, edges(to).0 - 15);
    let y = LOOKS.1 - 50;
    drawing.group("stroke=\"#222\" stroke-width=\"8\"", |drawing| {
        drawing.arrow(left, right, y);
    });
    drawing.group(&format!("{CENTRED} font-size=\"100\""), |drawing| {
        drawing.text((middle((left, right)), y - 40), &format!("+{wait}"));
    });
}
