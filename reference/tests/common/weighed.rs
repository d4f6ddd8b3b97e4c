//! A window with its energies, and its last sample read from any run and stage.

use super::receiver::{compare_accepted, Reading, WINDOW};
use super::sines;
use super::states::{is_measured, steps, with_stage};
use reference::library::Numbers;

pub const LEAST_GOOD: i128 = 32_400_000_000_000_000;

#[derive(Clone, Copy, Debug)]
pub struct Weighed {
    pub band: u8,
    pub window: [i16; WINDOW],
    pub space: i128,
    pub mark: i128,
}

impl Weighed {
    pub fn new(band: u8, window: [i16; WINDOW]) -> Weighed {
        let sum = |weight: &dyn Fn(usize) -> i16| -> i128 {
            let pairs = window.iter().enumerate();
            let products = pairs.map(|(j, &x)| i128::from(x) * i128::from(weight(j)));
            products.sum()
        };
        let energy = |step: usize| {
            let i = sum(&|j| sines().c(j * step));
            let q = sum(&|j| sines().s(j * step));
            i * i + q * q
        };
        let [space, mark] = steps(band).map(energy);
        Weighed {
            band,
            window,
            space,
            mark,
        }
    }

    pub fn is_good(&self) -> bool {
        self.space.max(self.mark) >= LEAST_GOOD
    }

    /// Four times the larger energy is less than five times the smaller.
    pub fn is_doubtful(&self) -> bool {
        4 * self.space.max(self.mark) < 5 * self.space.min(self.mark)
    }

    /// Larger minus smaller.
    pub fn difference(&self) -> i64 {
        let difference = self.space.max(self.mark) - self.space.min(self.mark);
        difference.try_into().expect("it fits 64 bits")
    }

    /// A difference for a state in this stage, if it must have one: larger than this
    /// window's, the same, or smaller unless that is 0.
    pub fn handed(&self, stage: [u8; 4], which: u8) -> Option<i64> {
        let own = self.difference();
        let handed = [own + 1, i64::MAX, own, own - 1, own / 2][usize::from(which % 5)];
        is_measured(stage).then_some(handed.max(0))
    }

    /// The stage and the event after the window's last sample, which is read
    /// behind the others from the given run and stage. The difference that the event
    /// carries, or the next state has, must be that of the rule.
    pub fn read(&self, run: u8, stage: [u8; 4]) -> ([u8; 4], Vec<u16>) {
        // The oldest sample leaves; it would change every sum if it stayed.
        let mut window = [1_234; WINDOW];
        window[1..].copy_from_slice(&self.window[..WINDOW - 1]);
        let state = Numbers {
            band: self.band,
            window,
            run,
            ..with_stage(stage)
        };
        let handed = self.handed(stage, run + stage[2]);
        let state = state.with_smallest(handed);
        let reading = compare_accepted(state, &self.window[WINDOW - 1..]);
        let next = reading.answer.state;
        assert_eq!(next.window, self.window);
        let grown = if self.is_good() { (run + 1).min(32) } else { 0 };
        assert_eq!(next.run, grown);
        assert_measured(&reading, lowered(stage, handed, self.difference()));
        (next.stage_numbers(), reading.events().to_vec())
    }
}

/// The smallest difference behind a sample with this one, which is read in this stage from
/// a state that has the one that was handed.
pub fn lowered(stage: [u8; 4], handed: Option<i64>, difference: i64) -> Option<i64> {
    match stage {
        [1, 1, 1..=9, _] => Some(handed.map_or(difference, |handed| handed.min(difference))),
        _ => handed,
    }
}

/// After a block of one sample, its event has the difference, or the next state if there
/// is no event.
pub fn assert_measured(reading: &Reading, smallest: Option<i64>) {
    let told = !reading.events().is_empty();
    let (carried, kept) = if told {
        (smallest, None)
    } else {
        (None, smallest)
    };
    let carried: Vec<i64> = carried.into_iter().collect();
    assert_eq!(reading.differences(), carried, "{:?}", reading.answer);
    let next = reading.answer.state;
    assert_eq!(next, next.with_smallest(kept), "{smallest:?}");
}
