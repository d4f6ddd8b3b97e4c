//! What reads a recording, and the readers that take it block by block and
//! answer as the specification says: the library's receiver and its tap, and the
//! loops of the reference.

use crate::clock::{self, Of};
use crate::recording::Recording;
use reference::library;
use reference::receiver::{self, Answer, Lists, State, MOST_SAMPLES};
use reference::sine::Sines;
use reference::tap;
use std::time::Duration;

/// The samples of one call, where nothing else is said: as many as there may be.
pub const BLOCK: usize = MOST_SAMPLES;

pub struct Reading {
    pub time: Duration,
    pub characters: Vec<u8>,
}

/// Reads a whole recording once. A reader in this process starts the clock with
/// samples and buffers in memory.
pub trait Reader {
    fn read(&self, recording: &Recording) -> Reading;
}

/// How to open a band, how to read a block, which gives the number and the count
/// and leaves the next state where the state was, and how many samples a block has.
struct Blocks<S, B> {
    open: fn(u8) -> (u8, S),
    block: B,
    size: usize,
}

impl<S, B: Fn(&mut S, &[i16], &mut [u16], &mut [i64]) -> (u8, usize)> Blocks<S, B> {
    /// Leaves the events and their differences in the two lists, one call's behind the
    /// other's, and returns how many there are.
    fn read_all(
        &self,
        band: u8,
        samples: &[i16],
        events: &mut [u16],
        differences: &mut [i64],
    ) -> usize {
        let (number, mut state) = (self.open)(band);
        assert_eq!(number, 0);
        let mut count = 0;
        for samples in cut(samples, self.size) {
            let (events, differences) = (&mut events[count..], &mut differences[count..]);
            let (number, more) = (self.block)(&mut state, samples, events, differences);
            assert_eq!(number, 0);
            count += more;
        }
        count
    }
}

/// The samples in blocks of one size. If it is 0, as many blocks as samples.
fn cut(samples: &[i16], size: usize) -> impl Iterator<Item = &[i16]> {
    let blocks = samples.len().div_ceil(size.max(1));
    (0..blocks).map(move |i| &samples[i * size..samples.len().min((i + 1) * size)])
}

impl<S, B: Fn(&mut S, &[i16], &mut [u16], &mut [i64]) -> (u8, usize)> Reader for Blocks<S, B> {
    /// The events must be those of the recording, so that no work is left out.
    fn read(&self, recording: &Recording) -> Reading {
        // The last call still gets as many places as a whole block needs, also from
        // a tap.
        let places = recording.events.len() + tap::places_needed(self.size);
        let mut events = vec![u16::MAX; places];
        let mut differences = vec![-1; places];
        let (time, count) = clock::timed(Of::ThisProcess, || {
            let Recording { band, samples, .. } = recording;
            self.read_all(*band, samples, &mut events, &mut differences)
        });
        let events = &events[..count];
        assert!(events == recording.events, "the events are wrong");
        let is_there = |&difference: &i64| difference >= 0;
        let (told, rest) = differences.split_at(count);
        let as_many = told.iter().all(is_there) && !rest.iter().any(is_there);
        assert!(as_many, "the differences are not those of the events");
        let character = |&event: &u16| u8::try_from(event).ok();
        Reading {
            time,
            characters: events.iter().filter_map(character).collect(),
        }
    }
}

pub fn library(size: usize) -> impl Reader {
    Blocks {
        open: library::receiver_open,
        block: |state: &mut library::Numbers,
                samples: &[i16],
                events: &mut [u16],
                differences: &mut [i64]| {
            let answer = library::receiver_block(*state, samples, events, differences);
            *state = answer.state;
            (answer.number, answer.count)
        },
        size,
    }
}

/// Reads bands 1 and 2, whichever the recording's is.
pub fn tap(size: usize) -> impl Reader {
    Blocks {
        open: |_| library::tap_open(1, 2),
        block: |tap: &mut library::Tap,
                samples: &[i16],
                events: &mut [u16],
                differences: &mut [i64]| {
            let answer = library::tap_block(*tap, samples, events, differences);
            *tap = answer.state;
            (answer.number, answer.count)
        },
        size,
    }
}

/// A block call of the reference.
pub type Block = fn(&Sines, State, &[i16], Lists) -> Answer;

pub fn reference(sines: &Sines, block: Block, size: usize) -> impl Reader + '_ {
    Blocks {
        open: receiver::open,
        block: move |state: &mut State,
                     samples: &[i16],
                     events: &mut [u16],
                     differences: &mut [i64]| {
            let answer = block(sines, *state, samples, Lists::new(events, differences));
            *state = answer.state;
            (answer.number, answer.count)
        },
        size,
    }
}
