//! The promise, sent and read by the library: two recordings, each in any band, are
//! each read as the characters sent, without a doubt, and so alike exactly if the
//! messages are.

use crate::common::disturbances::largest;
use crate::common::met::assert_no_doubt;
use crate::common::receiver::assert_events;
use crate::common::recording::{around_0, as_events, disturbed};
use crate::common::rows::read_in_turn;
use crate::common::{Call, Side, BANDS};
use reference::disturbance::MOST;
use reference::random::Random;

/// The pieces of a message, empty ones among them, between leader and trailer.
fn calls<'a>(random: &mut Random, mut message: &'a [u8]) -> Vec<Call<'a>> {
    let mut calls = vec![Call::Idle];
    while !message.is_empty() {
        let (piece, rest) = message.split_at(random.below(message.len() + 1));
        calls.push(Call::Characters(piece));
        message = rest;
    }
    calls.push(Call::Idle);
    calls
}

/// The samples of a message, with a refused call before each accepted one.
fn sent(random: &mut Random, band: u8, message: &[u8]) -> Vec<i16> {
    let mut state = Side::Library.fresh(band);
    let mut samples = Vec::new();
    let refused = [
        (Call::Idle, 95, 4),
        (Call::Characters(&[0x55; 101]), 40_000, 3),
        (Call::Characters(&[0x55; 2]), 639, 4),
    ];
    for call in calls(random, message) {
        for (call, places, number) in [refused[random.below(3)], (call, call.samples(), 0)] {
            let outcome = Side::Library.call(call, state, places);
            assert_eq!(outcome.answer.number, number, "{call:?}");
            samples.extend_from_slice(outcome.samples());
            state = outcome.answer.state;
        }
    }
    samples
}

/// What is added to each sample: one of the five worst, or any numbers.
fn added(random: &mut Random, band: u8, message: &[u8]) -> Vec<i16> {
    let mut worst = largest(band, message).into_iter();
    match worst.nth(random.below(6)) {
        Some((_, added)) => added,
        None => (0..192 + 320 * message.len())
            .map(|_| around_0(random, MOST))
            .collect(),
    }
}

/// Sends a message, disturbs it and the silence around it, and reads it.
fn check(random: &mut Random, band: u8, message: &[u8]) {
    let added = added(random, band, message);
    let sending = disturbed(&sent(random, band, message), |place| added[place]);
    let [before, behind] = [(); 2].map(|()| random.below(400));
    let silence =
        |random: &mut Random, count| disturbed(&vec![0; count], |_| around_0(random, MOST));
    let recording = [silence(random, before), sending, silence(random, behind)].concat();
    let longest = [40, 400, 16_384][random.below(3)];
    let (events, _) = read_in_turn(random, band, &recording, longest);
    let what = || format!("band {band}, blocks of up to {longest}, {message:?}");
    assert_no_doubt(&events, what);
    assert_events(&events, &as_events(message), what);
}

/// In every two bands: the same message twice, and two that differ by a bit, by a
/// character more and by all.
#[test]
fn every_two_bands() {
    let mut random = Random::new(114);
    for first in BANDS {
        for second in BANDS {
            let count = 1 + random.below(30);
            let message = random.bytes(count);
            let mut changed = message.clone();
            changed[random.below(count)] ^= 1 << random.below(8);
            let longer = [&message[..], &random.bytes(1)].concat();
            for other in [&message, &changed, &longer, &vec![]] {
                check(&mut random, first, &message);
                check(&mut random, second, other);
            }
        }
    }
}
