//! The receiver's block call written for speed: only those windows are weighed
//! that something asks for. A wait asks for the window of its slot, and a search
//! or a held break for none at which the run cannot be full. The run is counted
//! backwards, when a window of space in a search, one of mark in a break or the
//! block's end asks for it. One of the three loops that `bench/` measures beside
//! the library.

use crate::in_place::{head, refusal, sum, Weights, HEAD};
use crate::receiver::{
    carried, is_good, lowered, refused, taken, waiting, Answer, Event, Lists, Stage, State,
    FULL_RUN, HALF_BIT, WINDOW,
};
use crate::sine::Sines;

const FULL: usize = FULL_RUN as usize;
/// A window has the number of samples up to its end, in the old window and the
/// block behind it. This is the first that the block brings.
const FIRST: usize = WINDOW + 1;

/// One tone to a call, which is quicker here than both in one.
#[inline(never)]
fn energy(window: &[i16; WINDOW], cosines: &[i16; WINDOW], sines: &[i16; WINDOW]) -> i64 {
    let i = i64::from(sum(window, cosines));
    let q = i64::from(sum(window, sines));
    i * i + q * q
}

/// The windows of a block, each where it lies.
struct Windows<'a> {
    weights: Weights,
    head: [i16; HEAD],
    samples: &'a [i16],
}

impl<'a> Windows<'a> {
    fn new(sines: &Sines, state: &State, samples: &'a [i16]) -> Windows<'a> {
        Windows {
            weights: Weights::new(sines, state.band),
            head: head(&state.window, samples),
            samples,
        }
    }

    fn at(&self, window: usize) -> &[i16; WINDOW] {
        let samples = if window <= HEAD {
            &self.head[window - WINDOW..window]
        } else {
            &self.samples[window - 2 * WINDOW..window - WINDOW]
        };
        samples.try_into().expect("a whole window")
    }

    /// Of space and mark.
    fn energies(&self, window: usize) -> [i64; 2] {
        let window = self.at(window);
        let [space_c, space_s, mark_c, mark_s] = &self.weights.0;
        [
            energy(window, space_c, space_s),
            energy(window, mark_c, mark_s),
        ]
    }

    fn is_good(&self, window: usize) -> bool {
        let [space, mark] = self.energies(window);
        is_good(space, mark)
    }
}

/// How far the windows are read, and what is known of their levels.
struct Reading<'a> {
    windows: Windows<'a>,
    /// Behind the last window.
    end: usize,
    next: usize,
    /// No window before this one counts into a run.
    since: usize,
    /// From this one to the next all have a good level.
    good_from: usize,
    /// The smallest difference of the present character so far.
    smallest: Option<i64>,
}

impl<'a> Reading<'a> {
    fn new(windows: Windows<'a>, state: &State) -> Reading<'a> {
        let since = FIRST - usize::from(state.run);
        Reading {
            end: FIRST + windows.samples.len(),
            windows,
            next: FIRST,
            since,
            good_from: since,
            smallest: state.smallest,
        }
    }

    /// Goes on behind a window with a good level.
    fn pass_good(&mut self, window: usize) {
        if window > self.next {
            self.good_from = window;
        }
        self.next = window + 1;
    }

    /// Goes on behind a window without one.
    fn pass_bad(&mut self, window: usize) {
        self.next = window + 1;
        self.since = self.next;
        self.good_from = self.next;
    }

    /// Goes to the end, and asks for no window on the way.
    fn pass_all(&mut self) {
        self.next = self.end;
        self.good_from = self.end;
    }

    /// The run before the next window. Of the windows whose level is not known,
    /// the last is weighed first, and none before one without a good level.
    fn run(&mut self) -> u8 {
        let oldest = self.since.max(self.next - FULL);
        let unknown = oldest.max(FIRST)..self.good_from;
        let bad = unknown.rev().find(|&window| !self.windows.is_good(window));
        self.since = bad.map_or(oldest, |bad| bad + 1);
        self.good_from = self.since;
        (self.next - self.since) as u8
    }

    /// Until a window with a full run is one that is sought, until the next window
    /// with which the run can be full is farther on, or to the end. Returns whether
    /// one was found.
    #[inline]
    fn find(&mut self, is_sought: impl Fn(i64, i64) -> bool) -> bool {
        let first = self.next.max(self.since + FULL - 1);
        if first >= self.end {
            self.pass_all();
        }
        for window in first..self.end {
            let [space, mark] = self.windows.energies(window);
            if !is_good(space, mark) {
                self.pass_bad(window);
                break;
            }
            self.pass_good(window);
            if is_sought(space, mark) {
                if self.run() == FULL_RUN {
                    return true;
                }
                break;
            }
        }
        false
    }

    fn search(&mut self) -> Stage {
        if self.find(|space, mark| space > mark) {
            waiting(HALF_BIT, 0, 0)
        } else {
            Stage::Searching
        }
    }

    fn hold(&mut self) -> Stage {
        if self.find(|space, mark| mark >= space) {
            Stage::Searching
        } else {
            Stage::Held
        }
    }

    /// Until the slot is taken, or to the end.
    fn wait(&mut self, wait: u8, slot: u8, byte: u8) -> (Stage, Option<Event>) {
        let left = self.end - self.next;
        if usize::from(wait) > left {
            self.pass_all();
            return (waiting(wait - left as u8, slot, byte), None);
        }
        let window = self.next + usize::from(wait) - 1;
        let [space, mark] = self.windows.energies(window);
        let good = is_good(space, mark);
        if good {
            self.pass_good(window);
        } else {
            self.pass_bad(window);
        }
        let smallest = lowered(slot, self.smallest, space, mark);
        let (stage, number) = taken(slot, byte, good, space, mark);
        let event;
        (self.smallest, event) = carried(smallest, number);
        (stage, event)
    }

    /// Reads all windows, and returns the last stage.
    fn read(&mut self, mut stage: Stage, lists: &mut Lists) -> Stage {
        while self.next < self.end {
            let event;
            (stage, event) = match stage {
                Stage::Searching => (self.search(), None),
                Stage::Waiting { wait, slot, byte } => self.wait(wait, slot, byte),
                Stage::Held => (self.hold(), None),
            };
            lists.put(event);
        }
        stage
    }
}

/// The same as [`crate::receiver::block`].
pub fn block(sines: &Sines, state: State, samples: &[i16], mut lists: Lists) -> Answer {
    if let Some(number) = refusal(&state, samples, lists.places()) {
        return refused(number, state);
    }
    let mut reading = Reading::new(Windows::new(sines, &state, samples), &state);
    let stage = reading.read(state.stage, &mut lists);
    Answer {
        number: 0,
        count: lists.count,
        state: State {
            window: *reading.windows.at(reading.end - 1),
            run: reading.run(),
            stage,
            smallest: reading.smallest,
            ..state
        },
    }
}
