//! How well a message was read.

use std::fmt;

/// The read characters are set against those sent, in order, with as few errors
/// as can be, and if there is a choice with as many right as can be. A character
/// sent is right, wrong (another was read in its place) or missing; one that was
/// read and stands against none is extra. So one that is lost does not make those
/// behind it wrong.
#[derive(Debug, PartialEq, Eq)]
pub struct Score {
    pub right: usize,
    pub wrong: usize,
    pub missing: usize,
    pub extra: usize,
}

impl Score {
    pub const HEADING: &'static str = " right  wrong  missing  extra";

    pub fn new(sent: &[u8], read: &[u8]) -> Score {
        let mut most_errors = 64;
        loop {
            if let Some((errors, right)) = aligned(sent, read, most_errors) {
                return Score::counted(sent.len(), read.len(), errors, right);
            }
            most_errors *= 2;
        }
    }

    /// Of a message of this length there are right, wrong and missing ones; of
    /// the reading right, wrong and extra ones; and all but the right are errors.
    fn counted(sent: usize, read: usize, errors: usize, right: usize) -> Score {
        let extra = right + errors - sent;
        let missing = right + errors - read;
        Score {
            right,
            wrong: errors - extra - missing,
            missing,
            extra,
        }
    }

    pub fn is_perfect(&self) -> bool {
        self.wrong + self.missing + self.extra == 0
    }
}

/// The columns under the heading.
impl fmt::Display for Score {
    fn fmt(&self, out: &mut fmt::Formatter) -> fmt::Result {
        let Score {
            right,
            wrong,
            missing,
            extra,
        } = self;
        write!(out, "{right:>6}{wrong:>7}{missing:>9}{extra:>7}")
    }
}

/// What an alignment costs: its errors, each `ERROR`, and then the characters
/// sent that are not right, each 1.
const ERROR: u64 = 1 << 32;
const IMPOSSIBLE: u64 = u64::MAX / 2;

/// The errors and the right ones of the best alignment, if it has at most so many
/// errors. Then it is nowhere more characters ahead or behind than that, and only
/// such places are looked at.
fn aligned(sent: &[u8], read: &[u8], most_errors: usize) -> Option<(usize, usize)> {
    if sent.len().abs_diff(read.len()) > most_errors {
        return None;
    }
    let near = |i: usize| i.saturating_sub(most_errors)..=read.len().min(i + most_errors);
    // Place j + 1 has the least cost of the characters sent so far and the first j
    // of those read. Before place 1 there is nothing.
    let mut costs = vec![IMPOSSIBLE; read.len() + 2];
    for j in near(0) {
        costs[j + 1] = j as u64 * ERROR;
    }
    for (i, character) in sent.iter().enumerate() {
        let mut before_both = costs[*near(i + 1).start()];
        let mut before_read = IMPOSSIBLE;
        for j in near(i + 1) {
            let before_sent = costs[j + 1];
            let cost = if j > 0 && read[j - 1] == *character {
                before_both
            } else {
                let wrong_or_missing = before_both.min(before_sent) + ERROR + 1;
                let extra = before_read + ERROR;
                wrong_or_missing.min(extra)
            };
            costs[j + 1] = cost;
            (before_both, before_read) = (before_sent, cost);
        }
    }
    let cost = costs[read.len() + 1];
    let errors = (cost / ERROR) as usize;
    let others = (cost % ERROR) as usize;
    (errors <= most_errors).then(|| (errors, sent.len() - others))
}

#[cfg(test)]
mod tests {
    use super::*;
    use reference::random::Random;

    fn check(sent: &[u8], read: &[u8], [right, wrong, missing, extra]: [usize; 4]) {
        let score = Score {
            right,
            wrong,
            missing,
            extra,
        };
        assert_eq!(Score::new(sent, read), score, "{sent:?} read as {read:?}");
    }

    #[test]
    fn an_alignment_is_what_it_is_by_hand() {
        check(b"", b"", [0, 0, 0, 0]);
        check(b"MARK", b"MARK", [4, 0, 0, 0]);
        check(b"MARK", b"", [0, 0, 4, 0]);
        check(b"", b"MARK", [0, 0, 0, 4]);
        check(b"MARK", b"MaRK", [3, 1, 0, 0]);
        check(b"MARK SPACE", b"MRK SPAxCE", [9, 0, 1, 1]);
        check(b"MARK SPACE", b"ARK-SPACE!", [8, 1, 1, 1]);
        // Two errors either way, and this way one is right.
        check(b"AB", b"BA", [1, 0, 1, 1]);
    }

    /// More errors than the first look allows, at both ends and in the middle.
    #[test]
    fn many_errors_are_counted() {
        let message: Vec<u8> = Random::new(1).bytes(1_000);
        let [front, back] = [&message[..300], &message[400..]];
        check(&message, &[front, back].concat(), [900, 0, 100, 0]);
        check(&[front, back].concat(), &message, [900, 0, 0, 100]);
        check(&message, &message[200..], [800, 0, 200, 0]);
        check(&message, &message[..800], [800, 0, 200, 0]);
        check(&message, &[], [0, 0, 1_000, 0]);
        // As many are read as were sent, and yet far from their places.
        let turned = [&message[200..], &message[..200]].concat();
        check(&message, &turned, [800, 0, 200, 200]);
    }
}
