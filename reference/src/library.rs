//! The calls of `c/modem.h`, and those that are there for the tests alone, wrapped
//! to look like the reference's. This is the only unsafe code.

#![allow(unsafe_code)]

mod structs;

use crate::sheet::{ReadAnswer, WriteAnswer};
use crate::transmitter::{Answer, State, CYCLE, IDLE_SAMPLES};
pub use structs::*;

extern "C" {
    fn modem_transmitter_open(band: u8) -> TransmitterOpened;
    fn modem_transmitter_idle(transmitter: Transmitter, out: *mut i16, places: usize) -> Sent;
    fn modem_transmitter_characters(
        transmitter: Transmitter,
        bytes: *const u8,
        n: usize,
        out: *mut i16,
        places: usize,
    ) -> Sent;
    fn modem_receiver_open(band: u8) -> ReceiverOpened;
    fn modem_receiver_block(
        receiver: Numbers,
        samples: *const i16,
        n: usize,
        events: *mut u16,
        places: usize,
        differences: *mut i64,
        difference_places: usize,
    ) -> BlockAnswer;
    fn modem_receiver_block_indexed(
        receiver: Numbers,
        samples: *const i16,
        n: usize,
        events: *mut u16,
        places: usize,
        differences: *mut i64,
        difference_places: usize,
        indices: *mut u16,
        index_places: usize,
    ) -> BlockAnswer;
    fn modem_tap_open(first: u8, second: u8) -> TapOpened;
    fn modem_tap_block(
        tap: Tap,
        samples: *const i16,
        n: usize,
        events: *mut u16,
        places: usize,
        differences: *mut i64,
        difference_places: usize,
    ) -> BlockAnswer<Tap>;
    fn modem_message_send(
        band: u8,
        bytes: *const u8,
        n: usize,
        out: *mut i16,
        places: usize,
    ) -> CallAnswer;
    fn modem_loopback(
        band: u8,
        bytes: *const u8,
        n: usize,
        disturbance: *const i16,
        numbers: usize,
        block: usize,
        samples: *mut i16,
        sample_places: usize,
        events: *mut u16,
        event_places: usize,
        differences: *mut i64,
        difference_places: usize,
    ) -> CallAnswer;
    fn modem_sheet_read(text: *const u8, bytes: usize, samples: *mut i16, places: usize) -> Sheet;
    fn modem_sheet_write(
        band: u8,
        samples: *const i16,
        n: usize,
        text: *mut u8,
        places: usize,
    ) -> CallAnswer;

    fn modem_test_block_lent(
        receiver: Numbers,
        samples: *const i16,
        n: usize,
        events: *mut u16,
        places: usize,
        differences: *mut i64,
        difference_places: usize,
    ) -> BlockAnswer;
}

pub fn open(band: u8) -> (u8, State) {
    // SAFETY: takes and returns plain numbers.
    let opened = unsafe { modem_transmitter_open(band) };
    (opened.number, opened.transmitter.into())
}

pub fn idle(state: State, out: &mut [i16]) -> Answer {
    // SAFETY: the places are borrowed for the call, and the length is theirs.
    let sent = unsafe { modem_transmitter_idle(state.into(), out.as_mut_ptr(), out.len()) };
    sent.into()
}

/// S(phase) for a phase from 0 to 1,919: the first sample of an idle in band 1.
pub fn sine(phase: usize) -> i16 {
    assert!(phase < usize::from(CYCLE), "no state has phase {phase}");
    let state = State {
        band: 1,
        phase: phase as u16,
    };
    let mut samples = [0; IDLE_SAMPLES];
    let answer = idle(state, &mut samples);
    assert_eq!(answer.number, 0, "idle from phase {phase}");
    samples[0]
}

pub fn characters(state: State, bytes: &[u8], out: &mut [i16]) -> Answer {
    // SAFETY: the slices are borrowed for the call and apart, and each length is
    // that of the slice before it.
    let sent = unsafe {
        modem_transmitter_characters(
            state.into(),
            bytes.as_ptr(),
            bytes.len(),
            out.as_mut_ptr(),
            out.len(),
        )
    };
    sent.into()
}

pub fn receiver_open(band: u8) -> (u8, Numbers) {
    // SAFETY: takes and returns plain numbers.
    let opened = unsafe { modem_receiver_open(band) };
    (opened.number, opened.receiver)
}

pub fn receiver_block(
    state: Numbers,
    samples: &[i16],
    events: &mut [u16],
    differences: &mut [i64],
) -> BlockAnswer {
    // SAFETY: the slices are borrowed for the call and apart, and each length is
    // that of the slice before it.
    unsafe {
        modem_receiver_block(
            state,
            samples.as_ptr(),
            samples.len(),
            events.as_mut_ptr(),
            events.len(),
            differences.as_mut_ptr(),
            differences.len(),
        )
    }
}

/// The same through the receiver's second entry.
pub fn receiver_block_lent(
    state: Numbers,
    samples: &[i16],
    events: &mut [u16],
    differences: &mut [i64],
) -> BlockAnswer {
    // SAFETY: as above.
    unsafe {
        modem_test_block_lent(
            state,
            samples.as_ptr(),
            samples.len(),
            events.as_mut_ptr(),
            events.len(),
            differences.as_mut_ptr(),
            differences.len(),
        )
    }
}

/// The same as `receiver_block`, and with which sample of the block each event came.
pub fn receiver_block_indexed(
    state: Numbers,
    samples: &[i16],
    events: &mut [u16],
    differences: &mut [i64],
    indices: &mut [u16],
) -> BlockAnswer {
    // SAFETY: the slices are borrowed for the call and apart, and each length is
    // that of the slice before it.
    unsafe {
        modem_receiver_block_indexed(
            state,
            samples.as_ptr(),
            samples.len(),
            events.as_mut_ptr(),
            events.len(),
            differences.as_mut_ptr(),
            differences.len(),
            indices.as_mut_ptr(),
            indices.len(),
        )
    }
}

pub fn tap_open(first: u8, second: u8) -> (u8, Tap) {
    // SAFETY: takes and returns plain numbers.
    let opened = unsafe { modem_tap_open(first, second) };
    (opened.number, opened.tap)
}

pub fn tap_block(
    tap: Tap,
    samples: &[i16],
    events: &mut [u16],
    differences: &mut [i64],
) -> BlockAnswer<Tap> {
    // SAFETY: the slices are borrowed for the call and apart, and each length is
    // that of the slice before it.
    unsafe {
        modem_tap_block(
            tap,
            samples.as_ptr(),
            samples.len(),
            events.as_mut_ptr(),
            events.len(),
            differences.as_mut_ptr(),
            differences.len(),
        )
    }
}

pub fn message_send(band: u8, bytes: &[u8], out: &mut [i16]) -> CallAnswer {
    // SAFETY: the slices are borrowed for the call and apart, and each length is
    // that of the slice before it.
    unsafe {
        modem_message_send(
            band,
            bytes.as_ptr(),
            bytes.len(),
            out.as_mut_ptr(),
            out.len(),
        )
    }
}

pub fn loopback(
    band: u8,
    bytes: &[u8],
    disturbance: &[i16],
    block: usize,
    samples: &mut [i16],
    events: &mut [u16],
    differences: &mut [i64],
) -> CallAnswer {
    // SAFETY: the slices are borrowed for the call and apart, and each length is
    // that of the slice before it.
    unsafe {
        modem_loopback(
            band,
            bytes.as_ptr(),
            bytes.len(),
            disturbance.as_ptr(),
            disturbance.len(),
            block,
            samples.as_mut_ptr(),
            samples.len(),
            events.as_mut_ptr(),
            events.len(),
            differences.as_mut_ptr(),
            differences.len(),
        )
    }
}

pub fn sheet_read(text: &[u8], samples: &mut [i16]) -> ReadAnswer {
    // SAFETY: the slices are borrowed for the call and apart, and each length is
    // that of the slice before it.
    let sheet = unsafe {
        modem_sheet_read(
            text.as_ptr(),
            text.len(),
            samples.as_mut_ptr(),
            samples.len(),
        )
    };
    ReadAnswer {
        number: sheet.number,
        band: sheet.band,
        count: sheet.count,
    }
}

pub fn sheet_write(band: u8, samples: &[i16], text: &mut [u8]) -> WriteAnswer {
    // SAFETY: the slices are borrowed for the call and apart, and each length is
    // that of the slice before it.
    let answer = unsafe {
        modem_sheet_write(
            band,
            samples.as_ptr(),
            samples.len(),
            text.as_mut_ptr(),
            text.len(),
        )
    };
    WriteAnswer {
        number: answer.number,
        count: answer.count,
    }
}
