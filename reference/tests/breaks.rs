//! A held break key: the line stays in space beyond a stop bit. It is told once, and
//! nothing more until the line is back in mark.

use crate::common::met::{assert_frequent, kinds};
use crate::common::receiver::{
    accepted, assert_events, compare, compare_accepted, fresh, read_by, read_on, BREAK,
    NO_STOP_BIT, WINDOW,
};
use crate::common::recording::{
    around_0, bits, disturbed, keyed, no_stop_bit, noise, random_blocks, sending, sending_of,
    space, surrounded, toned, Item,
};
use crate::common::refused::{refused, too_long};
use crate::common::states::{steps, tone_of, window_of, with_stage, HELD};
use crate::common::BANDS;
use reference::disturbance::MOST;
use reference::library::Numbers;
use reference::random::Random;

const SIZES: [usize; 5] = [1, 31, 48, 160, 16_384];

/// The events of the samples must be these, however they are cut into blocks, and a
/// break is held at the end or not.
fn check(what: &str, make: impl Fn(u8) -> Vec<i16>, expected: &[u16], held: bool) {
    for band in BANDS {
        let samples = make(band);
        for size in SIZES {
            let (events, state) = read_on(fresh(band), samples.chunks(size));
            let what = || format!("{what}, band {band}, blocks of {size}");
            assert_events(&events, expected, what);
            assert_eq!(state.stage_numbers() == HELD, held, "{}", what());
        }
    }
}

/// Space, mark, space and so on, each for so many samples.
fn keyed_for(band: u8, lengths: &[usize]) -> Vec<i16> {
    let lengths = lengths.iter().enumerate();
    let bits = lengths.flat_map(|(place, &length)| vec![place % 2; length]);
    toned(band, bits)
}

#[test]
fn a_thousand_samples_of_space() {
    check("1,000", |band| space(band, 1_000), &[BREAK], true);
}

#[test]
fn ten_seconds_of_space() {
    check("10 s", |band| space(band, 96_000), &[BREAK], true);
}

/// A key that is held for just a character's length is a break, and one that is let
/// go before the stop bit is the character 00. A stop bit that is shared goes to
/// the tone that has more of it.
#[test]
fn the_shortest_break() {
    for (length, event) in [(320, BREAK), (310, BREAK), (288, 0), (300, 0)] {
        let line = |band| keyed_for(band, &[0, 96, length, 96]);
        check(&format!("{length} samples"), line, &[event], false);
    }
}

#[test]
fn a_character_behind_a_break() {
    let line = |band| {
        let character = bits(&[0x41]).into_iter().flat_map(|bit| [bit; 32]);
        toned(band, [0; 400].into_iter().chain(character))
    };
    check("400 and 41", line, &[BREAK, 0x41], false);
}

/// One mark bit, as behind any character, is enough.
#[test]
fn a_stop_bit_behind_a_break() {
    let line = |band| {
        let mut bits = bits(&[0, 0x41]);
        // The stop bit of the first, and 20 bits more.
        bits.splice(12..13, [0; 21].into_iter().chain([1]));
        keyed(band, &bits)
    };
    check("one mark bit", line, &[BREAK, 0x41], false);
}

/// A break is told again only if mark was there in between.
#[test]
fn a_break_behind_a_break() {
    let line = |band| keyed_for(band, &[400, 96, 500, 32, 3_000, 96, 320, 96]);
    check("four breaks", line, &[BREAK; 4], false);
}

#[test]
fn the_character_00_around_a_break() {
    let items = [Item::Character(0), Item::Break(700), Item::Character(0)];
    let line = |band| sending_of(band, &items);
    check("00, break, 00", line, &[0, BREAK, 0], false);
}

/// Only the byte 0 makes a break of a missing stop bit.
#[test]
fn other_bytes_without_a_stop_bit() {
    for place in 0..8 {
        let byte = 1 << place;
        let line = |band| keyed(band, &no_stop_bit(&[byte]));
        check(&format!("{byte:02x}"), line, &[NO_STOP_BIT], false);
    }
    let line = |band| keyed(band, &no_stop_bit(&[0]));
    check("00", line, &[BREAK], false);
}

/// The level is lost in the middle and comes back as space: it is the same break.
#[test]
fn a_break_that_is_lost_and_comes_back() {
    for silent in [1, 10, 31, 32, 33, 200, 5_000] {
        let what = format!("{silent} silent");
        let in_phase = |band| {
            let mut samples = space(band, 1_500 + silent);
            samples[500..500 + silent].fill(0);
            samples
        };
        check(&what, in_phase, &[BREAK], true);
        // A jump of phase within a window can make it one of mark, so that the
        // tone may begin anew only behind a whole window.
        if silent >= WINDOW {
            let anew = |band| {
                let head = surrounded(&space(band, 500), 0, silent);
                [head, space(band, 1_000)].concat()
            };
            check(&what, anew, &[BREAK], true);
        }
    }
}

/// Lost, and then mark ends the break: the next character is read.
#[test]
fn a_break_that_is_lost_and_ends() {
    for silent in [1, 31, 32, 33, 200, 5_000] {
        let line = |band| {
            let head = surrounded(&space(band, 500), 0, silent);
            [head, sending(band, &[0x41])].concat()
        };
        check(&format!("{silent} silent"), line, &[BREAK, 0x41], false);
    }
}

/// The state after the last sample of a window, which is read from the state that
/// has the others. There must be no event.
fn next(band: u8, window: &[i16; WINDOW], run: u8) -> Numbers {
    let mut before = [0; WINDOW];
    before[1..].copy_from_slice(&window[..WINDOW - 1]);
    let state = Numbers {
        band,
        window: before,
        run,
        ..with_stage(HELD)
    };
    let reading = compare_accepted(state, &window[WINDOW - 1..]);
    assert_eq!(reading.events(), [], "band {band}, run {run}");
    assert_eq!(reading.answer.state.window, *window);
    reading.answer.state
}

/// Mark with run 32 ends the stage, and the sample that ends it begins nothing:
/// neither a wait nor an event. Everything else keeps it.
#[test]
fn the_sample_that_ends_a_break() {
    for band in BANDS {
        let told = |window, run| {
            let next = next(band, &window, run);
            (next.run, next.stage_numbers())
        };
        let [space, mark] = [0, 1].map(|bit| window_of(band, bit, 1));
        let weak = [window_of(band, 0, 4), window_of(band, 1, 4), [0; WINDOW]];
        for run in 0..=32 {
            let grown = (run + 1).min(32);
            let ended = if run >= 31 { [0; 4] } else { HELD };
            assert_eq!(told(mark, run), (grown, ended), "run {run}");
            assert_eq!(told(space, run), (grown, HELD), "run {run}");
            for weak in weak {
                assert_eq!(told(weak, run), (0, HELD), "run {run}");
            }
        }
    }
}

/// The sample behind the one that ends a break can begin a wait.
#[test]
fn the_sample_behind_the_end_of_a_break() {
    for band in BANDS {
        let ended = next(band, &window_of(band, 1, 1), 31);
        // Another window, since no single sample makes one of space of one of mark.
        let mut window = window_of(band, 0, 1);
        let last = window[WINDOW - 1];
        window.copy_within(..WINDOW - 1, 1);
        let reading = compare_accepted(Numbers { window, ..ended }, &[last]);
        assert_eq!(reading.events(), []);
        let next = reading.answer.state;
        assert_eq!((next.run, next.stage_numbers()), (32, [1, 16, 0, 0]));
    }
}

/// The stage is the same whatever numbers are handed in behind it.
#[test]
fn the_numbers_behind_a_held_break() {
    for band in BANDS {
        let samples = keyed(band, &bits(&[0x41]));
        let state = |rest: [u8; 3]| {
            let [wait, slot, byte] = rest;
            Numbers {
                band,
                window: window_of(band, 0, 1),
                run: 32,
                ..with_stage([2, wait, slot, byte])
            }
        };
        let expected = read_on(state([0; 3]), samples.chunks(100));
        assert_eq!(expected.0, [0x41], "band {band}");
        for rest in [[1, 9, 0], [16, 0, 0], [0, 0, 1], [33, 10, 7], [255; 3]] {
            let found = read_on(state(rest), samples.chunks(100));
            assert_eq!(found, expected, "band {band}, {rest:?}");
        }
    }
}

/// Neither silence nor noise that never reaches the level tells anything or ends
/// the stage. No window of 32 numbers up to 937 has a good level, since 32 times
/// 937 times 6,000 is below the root of the least good energy.
#[test]
fn a_break_over_silence_and_noise() {
    let mut random = Random::new(48);
    for band in BANDS {
        let (events, mut state) = read_on(fresh(band), [&space(band, 500)[..]]);
        assert_eq!(events, [BREAK], "band {band}");
        for most in [0, MOST, 937] {
            for size in SIZES {
                let samples = noise(&mut random, most, 32_768.min(3_000 * size));
                let (events, next) = read_on(state, samples.chunks(size));
                let what = format!("band {band}, noise of {most}, blocks of {size}");
                assert_eq!(events, [], "{what}");
                assert_eq!((next.run, next.stage_numbers()), (0, HELD), "{what}");
                state = next;
            }
        }
        let (events, _) = read_on(state, [&sending(band, &[0x41])[..]]);
        assert_eq!(events, [0x41], "band {band}");
    }
}

/// Calls that are refused between any two blocks.
#[test]
fn refused_calls_in_a_break() {
    let mut random = Random::new(49);
    let too_long = too_long(&mut random);
    for band in BANDS {
        for size in SIZES {
            let items = [Item::Break(1_000), Item::Character(0x41)];
            let samples = sending_of(band, &items);
            let mut held = 0;
            let (events, _) = read_by(fresh(band), samples.chunks(size), |state, block| {
                let numbers = [(&[8_192][..], 1, 5), (block, block.len() / 48, 4)];
                for (samples, places, number) in numbers {
                    let answer = compare(state, samples, places).answer;
                    let found = (answer.number, answer.count, answer.state);
                    assert_eq!(found, (number, 0, state));
                }
                refused(&mut random, state, block, &too_long);
                held += usize::from(state.stage_numbers() == HELD);
                compare_accepted(state, block)
            });
            assert_eq!(events, [BREAK, 0x41], "band {band}, blocks of {size}");
            // One block holds all of it, or the break is held for 600 samples or more.
            assert!(size == 16_384 || held >= 600 / size, "{held}");
        }
    }
}

/// Characters and breaks at random, with silence around them, every sample altered,
/// and refused calls in between: each comes out, in its place, and nothing else.
#[test]
fn characters_and_breaks_at_random() {
    let mut random = Random::new(50);
    let too_long = too_long(&mut random);
    for band in BANDS {
        let mut breaks = 0;
        for _ in 0..20 {
            let items: Vec<Item> = (0..100).map(|_| Item::any(&mut random)).collect();
            let [before, behind] = [(); 2].map(|()| random.below(400));
            let recording = surrounded(&sending_of(band, &items), before, behind);
            let recording = disturbed(&recording, |_| around_0(&mut random, MOST));
            let longest = [40, 400, 4_000, 16_384][random.below(4)];
            let blocks = random_blocks(&mut random, &recording, longest);
            let (events, state) = read_by(fresh(band), blocks, |state, block| {
                if random.below(16) == 0 {
                    refused(&mut random, state, block, &too_long);
                }
                let places = block.len() / 48 + 1 + random.below(3);
                accepted(compare(state, block, places))
            });
            let expected: Vec<u16> = items.iter().map(|item| item.event()).collect();
            let what = || format!("band {band}, blocks of up to {longest}");
            assert_events(&events, &expected, what);
            assert_ne!(state.stage_numbers(), HELD, "{}", what());
            breaks += kinds(&events)[3];
        }
        assert!(breaks >= 650, "band {band}: {breaks}");
    }
}

/// The line alternates between the tones, silence and noise, at any loudness and
/// for any time, with jumps of phase. Both sides must agree, whatever comes out.
#[test]
fn breaks_of_any_shape() {
    let mut random = Random::new(70);
    for band in BANDS {
        let mut met = [0; 5];
        let mut held = 0;
        for _ in 0..40 {
            let samples = any_line(&mut random, band, 30_000);
            let blocks = random_blocks(&mut random, &samples, 700);
            let (events, _) = read_by(fresh(band), blocks, |state, block| {
                held += usize::from(state.stage_numbers() == HELD);
                compare_accepted(state, block)
            });
            for (all, kind) in met.iter_mut().zip(kinds(&events)) {
                *all += kind;
            }
        }
        assert_frequent(met, [50, 20, 100, 300, 15]);
        assert!(held >= 500, "band {band}: {held}");
    }
}

/// Pieces of silence, noise, mark and, most of the time, space.
fn any_line(random: &mut Random, band: u8, count: usize) -> Vec<i16> {
    let [space, mark] = steps(band);
    let mut samples = Vec::new();
    while samples.len() < count {
        let length = 1 + random.below(700);
        let most = [937, 4_000, 8_191][random.below(3)];
        samples.extend(match random.below(8) {
            0 => vec![0; length],
            1 => noise(random, most, length),
            2 | 3 => tone_of(random, mark, length),
            _ => tone_of(random, space, length),
        });
    }
    samples.truncate(count);
    samples
}
