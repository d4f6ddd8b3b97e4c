//! The shortest and the longest sheets of all messages of a length. How many
//! bytes a character's lines take depends on the phase at its beginning alone,
//! and bits begin at few phases. So for each phase the best message that ends
//! there is kept, and made longer by every character.

use super::sheets::{HEAD, MOST_BYTES};
use super::sines;
use reference::disturbance::beginnings;
use reference::sheet;
use reference::transmitter::{characters, idle, Answer, State, STEPS};
use std::collections::BTreeMap;

/// For each count of characters up to `most`, a message with the shortest sheet.
pub fn shortest(band: u8, most: usize) -> Vec<Text> {
    Lengths::new(band).best(most, |bytes, known| bytes < known)
}

/// The same with the longest.
pub fn longest(band: u8, most: usize) -> Vec<Text> {
    Lengths::new(band).best(most, |bytes, known| bytes > known)
}

/// A message, the bytes of its sheet up to its end, and the phase there.
#[derive(Clone, Debug)]
pub struct Text {
    pub message: Vec<u8>,
    pub bytes: usize,
    phase: u16,
}

impl Text {
    /// With the lines of a call behind it, which sends these bytes.
    fn with(&self, bytes: &[u8], lines: Lines) -> Text {
        Text {
            message: [&self.message[..], bytes].concat(),
            bytes: self.bytes + lines.bytes,
            phase: lines.end,
        }
    }
}

/// The bytes that a call's lines take, and the phase after it.
#[derive(Clone, Copy)]
struct Lines {
    bytes: usize,
    end: u16,
}

impl Lines {
    fn of_idle(state: State) -> Lines {
        let mut samples = [0; 96];
        let answer = idle(sines(), state, &mut samples);
        Lines::of(answer, &samples)
    }

    fn of_character(state: State, byte: u8) -> Lines {
        let mut samples = [0; 320];
        let answer = characters(sines(), state, &[byte], &mut samples);
        Lines::of(answer, &samples)
    }

    /// The bytes are counted by the writer.
    fn of(sent: Answer, samples: &[i16]) -> Lines {
        let mut text = [0; MOST_BYTES];
        let written = sheet::write(sent.state.band, samples, &mut text);
        assert_eq!((sent.number, sent.count), (0, samples.len()));
        assert_eq!(written.number, 0);
        Lines {
            bytes: written.count - HEAD,
            end: sent.state.phase,
        }
    }
}

/// The lines of every call from one phase.
struct Calls {
    idle: Lines,
    characters: Vec<Lines>,
}

impl Calls {
    fn new(state: State) -> Calls {
        let character = |byte| Lines::of_character(state, byte);
        Calls {
            idle: Lines::of_idle(state),
            characters: (0..=255).map(character).collect(),
        }
    }
}

type Better = fn(usize, usize) -> bool;

/// The calls from each phase at which a bit can begin.
struct Lengths(BTreeMap<u16, Calls>);

impl Lengths {
    fn new(band: u8) -> Lengths {
        let phases = beginnings(STEPS[usize::from(band) - 1]).into_iter();
        let calls = phases.map(|phase| (phase, Calls::new(State { band, phase })));
        Lengths(calls.collect())
    }

    /// For each count of characters from 0 to `most`, the message with the best
    /// sheet. Of two numbers of bytes, `better` says if the first is.
    fn best(&self, most: usize, better: Better) -> Vec<Text> {
        let leader = self.0[&0].idle;
        let mut texts = vec![Text {
            message: vec![],
            bytes: HEAD + leader.bytes,
            phase: leader.end,
        }];
        let mut found = Vec::new();
        for _ in 0..=most {
            found.push(self.best_whole(&texts, better));
            texts = self.longer(&texts, better);
        }
        found
    }

    fn best_whole(&self, texts: &[Text], better: Better) -> Text {
        let whole = texts
            .iter()
            .map(|text| text.with(&[], self.0[&text.phase].idle));
        let best = whole.reduce(|best, text| {
            if better(text.bytes, best.bytes) {
                text
            } else {
                best
            }
        });
        best.expect("there is a message of each length")
    }

    /// One character more: for each phase the best that ends there.
    fn longer(&self, texts: &[Text], better: Better) -> Vec<Text> {
        let mut best: BTreeMap<u16, Text> = BTreeMap::new();
        for text in texts {
            for (byte, &lines) in (0..=255).zip(&self.0[&text.phase].characters) {
                let bytes = text.bytes + lines.bytes;
                let mut known = best.get(&lines.end).into_iter();
                if known.all(|known| better(bytes, known.bytes)) {
                    best.insert(lines.end, text.with(&[byte], lines));
                }
            }
        }
        best.into_values().collect()
    }
}
