//! The sine by the specification's rule, in whole numbers only.

use crate::natural::Natural;

const CYCLE: usize = 1_920;
const HALF: usize = 960;
const QUARTER: usize = 480;

/// The numbers over 10^14 that stand for pi in L and in U.
const PI_LOW: u128 = 314_159_265_358_979;
const PI_HIGH: u128 = 314_159_265_358_980;
const PI_UNIT: u128 = 100_000_000_000_000;

/// A number that is not negative, as one natural over another.
struct Fraction {
    above: Natural,
    below: Natural,
}

/// 12000 times the sine series through power `last`, of the angle pi p / 960.
///
/// With the angle a / b, all terms are brought over b^last times last!.
fn series(pi: u128, p: u128, last: u32) -> Fraction {
    let a = Natural::from(pi * p);
    let b = Natural::from(PI_UNIT * 960);
    let mut positive = Natural::from(0);
    let mut negative = Natural::from(0);
    for n in (1..=last).step_by(2) {
        let powers = &a.power(n) * &b.power(last - n);
        let term = &powers * &factors(n + 1, last);
        if n % 4 == 1 {
            positive = &positive + &term;
        } else {
            negative = &negative + &term;
        }
    }
    Fraction {
        above: &Natural::from(12_000) * &(&positive - &negative),
        below: &b.power(last) * &factors(1, last),
    }
}

/// The product of the whole numbers from `first` to `last`.
fn factors(first: u32, last: u32) -> Natural {
    Natural::from((first..=last).map(u128::from).product::<u128>())
}

/// What the rule compares with for one p from 0 to 480.
struct Bounds {
    low: Fraction,
    high: Fraction,
}

impl Bounds {
    fn new(p: usize) -> Bounds {
        Bounds {
            low: series(PI_LOW, p as u128, 19),
            high: series(PI_HIGH, p as u128, 21),
        }
    }

    /// Whether 2E - 1 < 12000 L and 12000 U < 2E + 1, multiplied out.
    fn admits(&self, e: i32) -> bool {
        // U is not negative, so a negative E fails the second inequality.
        let Ok(e) = u128::try_from(e) else {
            return false;
        };
        // The 1 is added on the other side, as 2E - 1 may be negative.
        let low = &Natural::from(2 * e) * &self.low.below < &self.low.above + &self.low.below;
        let high = self.high.above < &Natural::from(2 * e + 1) * &self.high.below;
        low && high
    }

    /// The E admitted near the E of the phase before; S rises by at most 20.
    fn number_near(&self, before: i32) -> i32 {
        let near = before - 40..=before + 40;
        let admitted: Vec<i32> = near.filter(|&e| self.admits(e)).collect();
        assert_eq!(admitted.len(), 1, "near {before}: {admitted:?}");
        admitted[0]
    }
}

/// S(0) to S(480).
fn first_quarter() -> Vec<i16> {
    let mut number = 0;
    let next = |p| {
        number = Bounds::new(p).number_near(number);
        i16::try_from(number).expect("S is at most 6000")
    };
    (0..=QUARTER).map(next).collect()
}

/// S(phase) for a phase below 1,920, from the first quarter.
fn unfolded(quarter: &[i16], phase: usize) -> i16 {
    if phase <= QUARTER {
        quarter[phase]
    } else if phase <= HALF {
        quarter[HALF - phase]
    } else {
        -unfolded(quarter, phase - HALF)
    }
}

/// S of one whole cycle.
pub struct Sines {
    numbers: Vec<i16>,
}

impl Sines {
    pub fn new() -> Sines {
        let quarter = first_quarter();
        let numbers = (0..CYCLE).map(|phase| unfolded(&quarter, phase));
        Sines {
            numbers: numbers.collect(),
        }
    }

    /// S(phase), the phase taken modulo 1,920.
    pub fn s(&self, phase: usize) -> i16 {
        self.numbers[phase % CYCLE]
    }

    /// C(phase), which is S(phase + 480); reduced first, so that no phase
    /// overflows.
    pub fn c(&self, phase: usize) -> i16 {
        self.s(phase % CYCLE + QUARTER)
    }
}

impl Default for Sines {
    fn default() -> Sines {
        Sines::new()
    }
}

#[cfg(test)]
mod tests {
    use super::*;

    /// Both neighbours of each number are among those tried and refused.
    #[test]
    fn the_rule_admits_exactly_one_number_for_each_phase() {
        let quarter = first_quarter();
        for (p, &number) in quarter.iter().enumerate() {
            let bounds = Bounds::new(p);
            let admitted: Vec<i32> = (-1..=6_001).filter(|&e| bounds.admits(e)).collect();
            assert_eq!(admitted, [i32::from(number)], "phase {p}");
        }
    }

    #[test]
    fn low_is_at_most_high() {
        for p in 0..=QUARTER {
            let Bounds { low, high } = Bounds::new(p);
            let ordered = &low.above * &high.below <= &high.above * &low.below;
            assert!(ordered, "phase {p}");
        }
    }

    #[test]
    fn the_cycle_is_mirrored_and_turned() {
        let sines = Sines::new();
        for p in 0..=HALF {
            assert_eq!(sines.s(HALF - p), sines.s(p), "mirror at {p}");
            assert_eq!(sines.s(p + HALF), -sines.s(p), "opposite half at {p}");
            assert_eq!(sines.c(p), sines.s(p + QUARTER), "cosine at {p}");
        }
    }
}
