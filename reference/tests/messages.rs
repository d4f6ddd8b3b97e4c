//! A message in one call, against leader, characters and trailer as calls of the
//! reference's transmitter.

use crate::common::lent::{no_sample, Lent};
use crate::common::receiver::read;
use crate::common::recording::as_events;
use crate::common::{assert_places, Call, Side, BANDS, NO_BAND};
use reference::library::{self, CallAnswer};
use reference::random::Random;

/// The library's answer, and the samples that it wrote into `length` places.
fn send(band: u8, message: &[u8], length: usize) -> (CallAnswer, Vec<i16>) {
    let mut lent = Lent::new(length, no_sample);
    let answer = library::message_send(band, message, lent.places());
    let count = message.len();
    let what = || format!("band {band}, {count} bytes into {length}");
    let mut places = lent.returned(answer.count, what);
    places.truncate(answer.count);
    (answer, places)
}

/// Each call from the state that the one before it gave.
fn three_calls(side: Side, band: u8, message: &[u8]) -> Vec<i16> {
    let mut state = side.fresh(band);
    let mut samples = Vec::new();
    for call in [Call::Idle, Call::Characters(message), Call::Idle] {
        let outcome = side.call(call, state, call.samples());
        assert_eq!(outcome.answer.number, 0, "{call:?}");
        samples.extend(outcome.samples());
        state = outcome.answer.state;
    }
    samples
}

fn needed(message: &[u8]) -> usize {
    192 + 320 * message.len()
}

/// Into exactly the places needed or into more, and not into one fewer.
fn check(band: u8, message: &[u8], more: usize) {
    let expected = three_calls(Side::Reference, band, message);
    assert_eq!(expected.len(), needed(message));
    for length in [expected.len(), expected.len() + more] {
        let (answer, found) = send(band, message, length);
        assert_eq!((answer.number, answer.count), (0, expected.len()));
        assert_places(&found, &expected, || format!("band {band}, {message:?}"));
    }
    let (answer, _) = send(band, message, expected.len() - 1);
    assert_eq!((answer.number, answer.count), (4, 0));
}

#[test]
fn leader_characters_and_trailer() {
    let mut random = Random::new(67);
    for band in BANDS {
        for count in 0..=100 {
            check(band, &random.bytes(count), 1 + random.below(50));
        }
    }
}

#[test]
fn every_character() {
    for band in BANDS {
        for byte in 0..=255 {
            check(band, &[byte], 1);
        }
    }
}

/// The library's own three calls give the same, and its receiver the message.
#[test]
fn the_library_alone() {
    let message: Vec<u8> = (0..=255).rev().step_by(3).collect();
    for band in BANDS {
        let (_, samples) = send(band, &message, needed(&message));
        assert_eq!(samples, three_calls(Side::Library, band, &message));
        assert_eq!(read(band, &samples, 1_000), as_events(&message));
    }
}

/// The order is 1, 3, 4.
#[test]
fn refusals() {
    let message = [0x55; 1_000];
    for band in 0..=255 {
        for count in [0, 1, 100, 101, 1_000] {
            let exact = needed(&message[..count]);
            for places in [0, 1, 191, 192, exact - 1, exact, exact + 1] {
                let number = match band {
                    0 | NO_BAND.. => 1,
                    _ if count > 100 => 3,
                    _ if places < exact => 4,
                    _ => 0,
                };
                let (answer, _) = send(band, &message[..count], places);
                let used = if number == 0 { exact } else { 0 };
                let what = format!("band {band}, {count} bytes into {places}");
                assert_eq!((answer.number, answer.count), (number, used), "{what}");
            }
        }
    }
}
