//! The bench examples of blocks and events in the specification, with its numbers,
//! and some at the limits of the table of refusals.

use crate::common::receiver::{compare, fresh, read, read_on, BREAK, CARRIER_LOST, FRESH};
use crate::common::recording::{sending, space};
use crate::common::{BANDS, IDLE_SAMPLES};
use reference::library::{message_send, Numbers};

/// The example in one block, and cut in several ways.
const SIZES: [usize; 6] = [1, 31, 47, 48, 320, 16_384];

#[test]
fn a_thousand_zeros_have_no_event() {
    for band in BANDS {
        for size in SIZES {
            assert_eq!(read(band, &[0; 1_000], size), [], "band {band}, {size}");
        }
    }
}

#[test]
fn a_thousand_samples_of_space_are_one_break() {
    for band in BANDS {
        let samples = space(band, 1_000);
        for size in SIZES {
            let events = read(band, &samples, size);
            assert_eq!(events, [BREAK], "band {band}, {size}");
        }
    }
}

#[test]
fn a_character_that_breaks_off_is_one_fault() {
    for band in BANDS {
        let mut samples = sending(band, &[0xff]);
        samples.truncate(IDLE_SAMPLES + 64);
        samples.extend([0; 200]);
        for size in SIZES {
            let events = read(band, &samples, size);
            assert_eq!(events, [CARRIER_LOST], "band {band}, {size}");
        }
    }
}

#[test]
fn places_for_blocks_of_47_and_48_and_0() {
    for band in BANDS {
        let state = fresh(band);
        for (count, places) in [(47, 1), (48, 2), (0, 1)] {
            let samples = vec![0; count];
            let exact = compare(state, &samples, places).answer;
            assert_eq!((exact.number, exact.count), (0, 0), "{count} into {places}");
            let short = compare(state, &samples, places - 1).answer;
            assert_eq!((short.number, short.count), (4, 0), "{count}, one fewer");
        }
    }
}

#[test]
fn the_largest_samples() {
    for band in BANDS {
        for (sample, number) in [
            (8_191, 0),
            (-8_191, 0),
            (8_192, 5),
            (-8_192, 5),
            (-32_768, 5),
            (32_767, 5),
        ] {
            let answer = compare(fresh(band), &[sample], 1).answer;
            assert_eq!(answer.number, number, "band {band}, sample {sample}");
        }
    }
}

#[test]
fn the_most_samples() {
    for band in BANDS {
        for (count, number) in [(16_383, 0), (16_384, 0), (16_385, 3), (100_000, 3)] {
            let answer = compare(fresh(band), &vec![0; count], count / 48 + 1).answer;
            assert_eq!(answer.number, number, "band {band}, {count} samples");
        }
    }
}

/// The end of the trailer must not begin a character: 41 hexadecimal alone,
/// then nothing but silence, after which the state is fresh again.
#[test]
fn the_single_character_41() {
    for band in BANDS {
        let samples = sending(band, &[0x41]);
        let (events, state) = read_on(fresh(band), samples.chunks(100));
        assert_eq!(events, [0x41], "band {band}");
        let (events, state) = read_on(state, [0; 1_000].chunks(100));
        assert_eq!(events, [], "band {band}");
        assert_eq!(state, fresh(band), "band {band}");
    }
}

/// A message of the library's in two blocks, with calls between them that are
/// refused with 3, 5 and 4. Each call gets the state that the one before it gave.
#[test]
fn refused_calls_between_two_blocks() {
    let mut samples = [0; 512];
    let sent = message_send(2, b"A", &mut samples);
    assert_eq!((sent.number, sent.count), (0, 512));
    let (leader, rest) = samples.split_at(IDLE_SAMPLES);
    let mut state = fresh(2);
    let mut events = Vec::new();
    for (samples, places, number) in [
        (leader, 9, 0),
        (&[0; 16_385], 9, 3),
        (&[8_192], 9, 5),
        (&[0], 0, 4),
        (rest, 9, 0),
    ] {
        let reading = compare(state, samples, places);
        assert_eq!(reading.answer.number, number);
        events.extend_from_slice(reading.events());
        state = reading.answer.state;
    }
    assert_eq!(events, [0x41]);
}

/// A state that no call gives is refused, and so is what the refused call gives.
#[test]
fn a_state_with_run_33() {
    let state = Numbers { run: 33, ..FRESH };
    let first = compare(state, &[0], 1).answer;
    assert_eq!((first.number, first.state), (2, state));
    let again = compare(first.state, &[0], 1).answer;
    assert_eq!((again.number, again.state), (2, state));
}
