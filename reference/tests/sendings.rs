//! Whole sendings: leader, characters and trailer, in calls cut anyhow.

use crate::common::states::steps;
use crate::common::{assert_places, sines, Call, Side, BANDS, SIDES};
use reference::random::Random;
use reference::transmitter::State;

/// A call and how many places are lent to it.
type Lent<'a> = (Call<'a>, usize);

/// The accepted samples joined, and the state after the last call. Each call
/// gets the state that the call before it, refused or not, returned.
fn sending(side: Side, band: u8, calls: &[Lent]) -> (Vec<i16>, State) {
    let mut state = side.fresh(band);
    let mut samples = Vec::new();
    for &(call, length) in calls {
        let outcome = side.call(call, state, length);
        samples.extend_from_slice(outcome.samples());
        state = outcome.answer.state;
    }
    (samples, state)
}

/// Leader, the pieces of a message and trailer, each into exact places.
fn calls<'a>(pieces: impl Iterator<Item = &'a [u8]>) -> Vec<Lent<'a>> {
    let mut calls = vec![Call::Idle];
    calls.extend(pieces.map(Call::Characters));
    calls.push(Call::Idle);
    let exact = |call: Call<'a>| (call, call.samples());
    calls.into_iter().map(exact).collect()
}

/// Pieces of random lengths, empty ones among them.
fn random_pieces<'a>(mut message: &'a [u8], random: &mut Random) -> Vec<&'a [u8]> {
    let mut pieces = Vec::new();
    while !message.is_empty() {
        let (piece, rest) = message.split_at(random.below(message.len().min(100) + 1));
        pieces.push(piece);
        message = rest;
    }
    pieces
}

/// Three calls before each one and at the end that must be refused.
fn with_refused<'a>(calls: &[Lent<'a>], long: &'a [u8]) -> Vec<Lent<'a>> {
    assert!(long.len() > 100);
    let refused = [
        (Call::Idle, 95),
        (Call::Characters(long), 320 * long.len()),
        (Call::Characters(&long[..3]), 959),
    ];
    let before = |&call| refused.into_iter().chain([call]);
    calls.iter().flat_map(before).chain(refused).collect()
}

/// The same message cut in several ways; the first is one byte to a call.
fn cuts<'a>(message: &'a [u8], random: &mut Random) -> Vec<Vec<Lent<'a>>> {
    let mut cuts: Vec<_> = [1, 2, 7, 50, 99, 100]
        .map(|size| calls(message.chunks(size)))
        .into();
    for _ in 0..10 {
        cuts.push(calls(random_pieces(message, random).into_iter()));
    }
    let long = &message[message.len() - 150..];
    let disturbed: Vec<_> = cuts.iter().map(|cut| with_refused(cut, long)).collect();
    cuts.extend(disturbed);
    cuts
}

#[test]
fn samples_do_not_depend_on_how_the_characters_are_cut() {
    let mut random = Random::new(5);
    let message = random.bytes(350);
    for band in BANDS {
        let cuts = cuts(&message, &mut random);
        let (expected, last) = sending(Side::Reference, band, &cuts[0]);
        assert_eq!(expected.len(), 96 + 350 * 320 + 96);
        for (i, cut) in cuts.iter().enumerate() {
            for side in SIDES {
                let what = || format!("{side:?}, band {band}, cut {i}");
                let (samples, state) = sending(side, band, cut);
                assert_places(&samples, &expected, what);
                assert_eq!(state, last, "{}", what());
            }
        }
    }
}

/// The rule in words: each sample is S at the sum of all steps before it. The
/// sum is kept whole here and reduced only to look up S.
fn by_running_sum(band: u8, message: &[u8]) -> Vec<i16> {
    let [space, mark] = steps(band);
    let mut bits = vec![1; 3];
    for byte in message {
        let data = (0..8).map(|place| byte / 2_u8.pow(place) % 2);
        bits.extend([0].into_iter().chain(data).chain([1]));
    }
    bits.extend([1; 3]);
    let mut sum = 0;
    let mut samples = Vec::new();
    for sample in 0..32 * bits.len() {
        samples.push(sines().s(sum % 1_920));
        sum += if bits[sample / 32] == 0 { space } else { mark };
    }
    samples
}

#[test]
fn the_phase_is_the_sum_of_all_steps() {
    let mut random = Random::new(6);
    for count in [0, 1, 5, 100, 1_000] {
        let message = random.bytes(count);
        for band in BANDS {
            let expected = by_running_sum(band, &message);
            for side in SIDES {
                let (samples, _) = sending(side, band, &calls(message.chunks(100)));
                let what = || format!("{side:?}, band {band}, {count} characters");
                assert_places(&samples, &expected, what);
            }
        }
    }
}
