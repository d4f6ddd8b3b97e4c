//! The structs of `c/modem.h`, and what each is to the reference.

use crate::receiver::{self, Stage, WINDOW};
use crate::tap;
use crate::transmitter::{Answer, State};

/// `modem_answer`.
#[repr(C)]
#[derive(Clone, Copy, Debug, PartialEq, Eq)]
pub struct CallAnswer {
    pub number: u8,
    pub count: usize,
}

/// `modem_transmitter`.
#[repr(C)]
#[derive(Clone, Copy)]
pub struct Transmitter {
    pub band: u8,
    pub phase: u16,
}

/// `modem_transmitter_opened`.
#[repr(C)]
pub struct TransmitterOpened {
    pub number: u8,
    pub transmitter: Transmitter,
}

/// `modem_sent`.
#[repr(C)]
pub struct Sent {
    pub transmitter: Transmitter,
    pub number: u8,
    pub count: usize,
}

/// `modem_receiver`, the state of a receiver. Handed in, stage 0 is searching and
/// 2 a held break, whatever the three numbers behind it are, and 1 is waiting.
/// Measured is 1 if there is a smallest difference, and at 0 there is none, whatever
/// the number behind it is.
#[repr(C)]
#[derive(Clone, Copy, Debug, PartialEq, Eq)]
pub struct Numbers {
    pub band: u8,
    pub window: [i16; WINDOW],
    pub run: u8,
    pub stage: u8,
    pub wait: u8,
    pub slot: u8,
    pub byte: u8,
    pub measured: u8,
    pub smallest: i64,
}

/// `modem_receiver_opened`.
#[repr(C)]
pub struct ReceiverOpened {
    pub number: u8,
    pub receiver: Numbers,
}

/// `modem_tap`, the state of a tap.
#[repr(C)]
#[derive(Clone, Copy, Debug, PartialEq, Eq)]
pub struct Tap {
    pub first: Numbers,
    pub second: Numbers,
}

/// `modem_tap_opened`.
#[repr(C)]
pub struct TapOpened {
    pub number: u8,
    pub tap: Tap,
}

/// `modem_block`, and with the state of a tap `modem_tap_reading`.
#[repr(C)]
#[derive(Clone, Copy, Debug, PartialEq, Eq)]
pub struct BlockAnswer<S = Numbers> {
    pub state: S,
    pub number: u8,
    pub count: usize,
}

/// `modem_sheet`.
#[repr(C)]
pub struct Sheet {
    pub number: u8,
    pub band: u8,
    pub count: usize,
}

impl From<Transmitter> for State {
    fn from(Transmitter { band, phase }: Transmitter) -> State {
        State { band, phase }
    }
}

impl From<State> for Transmitter {
    fn from(State { band, phase }: State) -> Transmitter {
        Transmitter { band, phase }
    }
}

impl From<Sent> for Answer {
    fn from(sent: Sent) -> Answer {
        Answer {
            number: sent.number,
            count: sent.count,
            state: sent.transmitter.into(),
        }
    }
}

/// Stage, wait, slot and byte.
fn stage_numbers(stage: Stage) -> [u8; 4] {
    match stage {
        Stage::Searching => [0; 4],
        Stage::Waiting { wait, slot, byte } => [1, wait, slot, byte],
        Stage::Held => [2, 0, 0, 0],
    }
}

/// The stage that these are taken for: one that no call gives if the first is
/// out of its range.
fn stage_of(numbers: [u8; 4]) -> Stage {
    match numbers {
        [0, ..] => Stage::Searching,
        [1, wait, slot, byte] => Stage::Waiting { wait, slot, byte },
        [2, ..] => Stage::Held,
        _ => receiver::waiting(0, 0, 0),
    }
}

/// Measured and smallest.
fn smallest_numbers(smallest: Option<i64>) -> (u8, i64) {
    smallest.map_or((0, 0), |difference| (1, difference))
}

/// The difference that these are taken for: one that no state may have if the first is
/// out of its range.
fn smallest_of(measured: u8, smallest: i64) -> Option<i64> {
    match measured {
        0 => None,
        1 => Some(smallest),
        _ => Some(-1),
    }
}

impl Numbers {
    /// Stage, wait, slot and byte.
    pub fn stage_numbers(&self) -> [u8; 4] {
        [self.stage, self.wait, self.slot, self.byte]
    }

    /// The same with other such four.
    pub fn with_stage(self, [stage, wait, slot, byte]: [u8; 4]) -> Numbers {
        Numbers {
            stage,
            wait,
            slot,
            byte,
            ..self
        }
    }

    /// The same with this smallest difference, or with none.
    pub fn with_smallest(self, smallest: Option<i64>) -> Numbers {
        let (measured, smallest) = smallest_numbers(smallest);
        Numbers {
            measured,
            smallest,
            ..self
        }
    }
}

impl From<receiver::State> for Numbers {
    fn from(state: receiver::State) -> Numbers {
        let [stage, wait, slot, byte] = stage_numbers(state.stage);
        let (measured, smallest) = smallest_numbers(state.smallest);
        Numbers {
            band: state.band,
            window: state.window,
            run: state.run,
            stage,
            wait,
            slot,
            byte,
            measured,
            smallest,
        }
    }
}

impl From<Numbers> for receiver::State {
    fn from(numbers: Numbers) -> receiver::State {
        receiver::State {
            band: numbers.band,
            window: numbers.window,
            run: numbers.run,
            stage: stage_of(numbers.stage_numbers()),
            smallest: smallest_of(numbers.measured, numbers.smallest),
        }
    }
}

impl From<tap::State> for Tap {
    fn from(state: tap::State) -> Tap {
        Tap {
            first: state.first.into(),
            second: state.second.into(),
        }
    }
}

impl From<Tap> for tap::State {
    fn from(tap: Tap) -> tap::State {
        tap::State {
            first: tap.first.into(),
            second: tap.second.into(),
        }
    }
}
