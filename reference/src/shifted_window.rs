//! The receiver's block call with i16 weights, i32 sums and a window that is
//! shifted at each sample. One of the three loops that `bench/` measures beside
//! the library.

use crate::in_place::{refusal, sum, Progress, Weights};
use crate::receiver::{refused, Answer, Lists, State, WINDOW};
use crate::sine::Sines;

/// One sum to a call, which is quicker here than all four in one.
#[inline(never)]
fn one_sum(window: &[i16; WINDOW], weights: &[i16; WINDOW]) -> i32 {
    sum(window, weights)
}

/// The same as [`crate::receiver::block`].
pub fn block(sines: &Sines, state: State, samples: &[i16], lists: Lists) -> Answer {
    if let Some(number) = refusal(&state, samples, lists.places()) {
        return refused(number, state);
    }
    let weights = Weights::new(sines, state.band);
    let mut progress = Progress::new(&state, lists);
    let mut window = state.window;
    for &sample in samples {
        window.copy_within(1.., 0);
        window[WINDOW - 1] = sample;
        let sums = weights
            .0
            .each_ref()
            .map(|weights| one_sum(&window, weights));
        progress.advance(sums);
    }
    progress.answer(state.band, window)
}
