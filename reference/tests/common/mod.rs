//! What the test files share: one call made on either side, and compared. This
//! file has the transmitter, `receiver` the receiver, `indexed` its call with indices
//! and `tap` the tap; `recording` what they read, `states` what they go on from,
//! `rows` one call behind the other, `refused` what they refuse and `met` what a
//! receiver gave; `sheet_calls` and `loopback` have other calls, and `lent` the lists
//! that any call is lent. `process` runs the programs, and `faults` lets their reads
//! and writes go wrong. `sheets` and `forms` have sheets and almost sheets, `lengths`
//! how long they are, and `disturbances` what a line may add. `weighed` has windows with
//! their energies, and `doubtful` those at the edge of doubt. `plain` reads without
//! differences, and works them out from what it has read. `c` compiles C.
//! `declared` reads what the files of a crate say, and `made` compares a file with
//! what a program makes.

pub mod c;
pub mod declared;
pub mod disturbances;
pub mod doubtful;
pub mod faults;
pub mod forms;
pub mod indexed;
pub mod lengths;
pub mod lent;
pub mod loopback;
pub mod made;
pub mod met;
pub mod plain;
pub mod process;
pub mod receiver;
pub mod recording;
pub mod refused;
pub mod rows;
pub mod sheet_calls;
pub mod sheets;
pub mod states;
pub mod tap;
pub mod weighed;

use lent::{no_sample, Lent};
use reference::library;
use reference::sine::Sines;
use reference::transmitter::{self, Answer, State};
use std::sync::OnceLock;

pub const BANDS: [u8; 4] = [1, 2, 3, 4];
/// The first number behind them.
pub const NO_BAND: u8 = BANDS.len() as u8 + 1;
pub const IDLE_SAMPLES: usize = 96;
pub const CHARACTER_SAMPLES: usize = 320;

/// All bands but this one.
pub fn other_bands(band: u8) -> impl Iterator<Item = u8> {
    BANDS.into_iter().filter(move |&other| other != band)
}

pub fn sines() -> &'static Sines {
    static SINES: OnceLock<Sines> = OnceLock::new();
    SINES.get_or_init(Sines::new)
}

#[derive(Clone, Copy, Debug)]
pub enum Call<'a> {
    Idle,
    Characters(&'a [u8]),
}

impl Call<'_> {
    /// The places that an accepted call needs and fills.
    pub fn samples(self) -> usize {
        match self {
            Call::Idle => IDLE_SAMPLES,
            Call::Characters(bytes) => CHARACTER_SAMPLES * bytes.len(),
        }
    }
}

/// An answer with the lent places as they stood on return.
pub struct Outcome {
    pub answer: Answer,
    pub places: Vec<i16>,
}

impl Outcome {
    pub fn samples(&self) -> &[i16] {
        &self.places[..self.answer.count]
    }
}

#[derive(Clone, Copy, Debug)]
pub enum Side {
    Reference,
    Library,
}

pub const SIDES: [Side; 2] = [Side::Reference, Side::Library];

impl Side {
    pub fn sine(self, phase: usize) -> i16 {
        match self {
            Side::Reference => sines().s(phase),
            Side::Library => library::sine(phase),
        }
    }

    pub fn open(self, band: u8) -> (u8, State) {
        match self {
            Side::Reference => transmitter::open(band),
            Side::Library => library::open(band),
        }
    }

    /// The fresh state of a known band.
    pub fn fresh(self, band: u8) -> State {
        let (number, state) = self.open(band);
        assert_eq!((number, state), (0, State { band, phase: 0 }), "{self:?}");
        state
    }

    fn answer(self, call: Call, state: State, out: &mut [i16]) -> Answer {
        match (self, call) {
            (Side::Reference, Call::Idle) => transmitter::idle(sines(), state, out),
            (Side::Reference, Call::Characters(bytes)) => {
                transmitter::characters(sines(), state, bytes, out)
            }
            (Side::Library, Call::Idle) => library::idle(state, out),
            (Side::Library, Call::Characters(bytes)) => library::characters(state, bytes, out),
        }
    }

    /// Makes the call with `length` lent places, and checks what holds of
    /// every call: the places not covered by the count keep their fill, and
    /// a refusal hands the state back with count 0.
    pub fn call(self, call: Call, state: State, length: usize) -> Outcome {
        let mut lent = Lent::new(length, no_sample);
        let answer = self.answer(call, state, lent.places());
        let what = || format!("{self:?}: {call:?} from {state:?} into {length}");
        if answer.number != 0 {
            assert_eq!((answer.count, answer.state), (0, state), "{}", what());
        }
        let places = lent.returned(answer.count, what);
        Outcome { answer, places }
    }
}

/// The library must answer the call as the reference does, in every place.
pub fn compare(call: Call, state: State, length: usize) -> Outcome {
    let expected = Side::Reference.call(call, state, length);
    let found = Side::Library.call(call, state, length);
    let what = || format!("{call:?} from {state:?} into {length}");
    assert_eq!(found.answer, expected.answer, "{}", what());
    assert_places(&found.places, &expected.places, what);
    found
}

/// Equal, or the first place that differs is told instead of all of them.
pub fn assert_places(found: &[i16], expected: &[i16], what: impl Fn() -> String) {
    assert_eq!(found.len(), expected.len(), "{}", what());
    if found != expected {
        let differs = |&place: &usize| found[place] != expected[place];
        let place = (0..found.len()).find(differs).expect("they differ");
        let (found, expected) = (found[place], expected[place]);
        panic!("{}: place {place} is {found}, not {expected}", what());
    }
}
