//! The receiver's block call written for speed: each window is looked at where
//! it lies in the block. One of the three loops that `bench/` measures beside the
//! library.

use crate::receiver::{
    is_sample, moved, places_needed, refused, Answer, Lists, Stage, State, MOST_SAMPLES, WINDOW,
};
use crate::sine::Sines;
use crate::transmitter::STEPS;
use std::array;

/// C and S of space, then of mark, at the phases of a window. Aligned, so that
/// vector instructions take them from memory directly.
#[repr(align(16))]
pub(crate) struct Weights(pub(crate) [[i16; WINDOW]; 4]);

impl Weights {
    pub(crate) fn new(sines: &Sines, band: u8) -> Weights {
        let [space, mark] = STEPS[usize::from(band) - 1].map(usize::from);
        Weights([
            array::from_fn(|j| sines.c(j * space)),
            array::from_fn(|j| sines.s(j * space)),
            array::from_fn(|j| sines.c(j * mark)),
            array::from_fn(|j| sines.s(j * mark)),
        ])
    }

    /// I and Q of space, then of mark. A function of its own, because the
    /// compiler then makes vector instructions of all four sums, and inlined
    /// only of some.
    #[inline(never)]
    fn sums(&self, window: &[i16; WINDOW]) -> [i32; 4] {
        self.0.each_ref().map(|weights| sum(window, weights))
    }
}

/// At most 32 * 8191 * 6000, which is below 2^31.
#[inline(always)]
pub(crate) fn sum(window: &[i16; WINDOW], weights: &[i16; WINDOW]) -> i32 {
    let pairs = window.iter().zip(weights);
    pairs.map(|(&x, &w)| i32::from(x) * i32::from(w)).sum()
}

/// The first refusal whose condition holds. The samples are tested without a
/// way out in between, which lets the compiler test several at once.
pub(crate) fn refusal(state: &State, samples: &[i16], places: usize) -> Option<u8> {
    if !state.is_in_range() {
        Some(2)
    } else if samples.len() > MOST_SAMPLES {
        Some(3)
    } else if !samples.iter().fold(true, |all, &x| all & is_sample(x)) {
        Some(5)
    } else if places < places_needed(samples.len()) {
        Some(4)
    } else {
        None
    }
}

/// Run, stage, smallest difference and events so far.
pub(crate) struct Progress<'a> {
    run: u8,
    stage: Stage,
    smallest: Option<i64>,
    lists: Lists<'a>,
}

impl<'a> Progress<'a> {
    pub(crate) fn new(state: &State, lists: Lists<'a>) -> Progress<'a> {
        Progress {
            run: state.run,
            stage: state.stage,
            smallest: state.smallest,
            lists,
        }
    }

    /// Steps 3 to 5 for the sums of a window.
    #[inline(always)]
    pub(crate) fn advance(&mut self, sums: [i32; 4]) {
        let [space_i, space_q, mark_i, mark_q] = sums.map(|x| i64::from(x) * i64::from(x));
        let (space, mark) = (space_i + space_q, mark_i + mark_q);
        let event;
        (self.run, self.stage, self.smallest, event) =
            moved(self.run, self.stage, self.smallest, space, mark);
        self.lists.put(event);
    }

    /// Behind the last sample, of a receiver of the band.
    pub(crate) fn answer(self, band: u8, window: [i16; WINDOW]) -> Answer {
        let Progress {
            run,
            stage,
            smallest,
            lists,
        } = self;
        Answer {
            number: 0,
            count: lists.count,
            state: State {
                band,
                window,
                run,
                stage,
                smallest,
            },
        }
    }
}

/// The samples of the windows that reach back into the old one.
pub(crate) const HEAD: usize = 2 * WINDOW - 1;

/// The old window and the samples behind it, with zeros where the block has no
/// more.
pub(crate) fn head(window: &[i16; WINDOW], samples: &[i16]) -> [i16; HEAD] {
    let mut head = [0; HEAD];
    let (old, new) = head.split_at_mut(WINDOW);
    old.copy_from_slice(window);
    for (place, &sample) in new.iter_mut().zip(samples) {
        *place = sample;
    }
    head
}

/// The same as [`crate::receiver::block`].
pub fn block(sines: &Sines, state: State, samples: &[i16], lists: Lists) -> Answer {
    if let Some(number) = refusal(&state, samples, lists.places()) {
        return refused(number, state);
    }
    let weights = Weights::new(sines, state.band);
    let mut progress = Progress::new(&state, lists);
    let head = head(&state.window, samples);
    let head = &head[..HEAD.min(WINDOW + samples.len())];

    // The head's first window is the old one, which was weighed before.
    for window in head[1..].windows(WINDOW) {
        progress.advance(weights.sums(window.try_into().expect("a whole window")));
    }
    for window in samples.windows(WINDOW) {
        progress.advance(weights.sums(window.try_into().expect("a whole window")));
    }

    let last = samples.last_chunk().or(head.last_chunk());
    progress.answer(state.band, *last.expect("the head holds a window"))
}
