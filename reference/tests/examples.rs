//! The bench examples of sine and transmitter in the specification, with its
//! numbers.

use crate::common::{Call, Side, BANDS, SIDES};

#[test]
fn sines_of_the_bench() {
    let examples = [
        (0, 0),
        (1, 20),
        (80, 1_553),
        (160, 3_000),
        (240, 4_243),
        (320, 5_196),
        (480, 6_000),
        (1_440, -6_000),
    ];
    for side in SIDES {
        for (phase, number) in examples {
            assert_eq!(side.sine(phase), number, "{side:?}: S({phase})");
        }
    }
}

/// Every character begins with a space bit.
#[test]
fn four_samples_of_space() {
    for side in SIDES {
        let outcome = side.call(Call::Characters(&[0]), side.fresh(1), 320);
        assert_eq!(outcome.samples()[..4], [0, 3_867, 5_913, 5_176], "{side:?}");
    }
}

#[test]
fn character_41_ends_at_phase_1280() {
    for side in SIDES {
        let outcome = side.call(Call::Characters(&[0x41]), side.fresh(1), 320);
        assert_eq!(outcome.answer.state.phase, 1_280, "{side:?}");
    }
}

/// Character 00 holds nine spaces and then a mark, an idle three marks. Bit i
/// of either begins at i advances, and the last one tells the next state.
#[test]
fn one_bit_advances_the_phase() {
    // Those of bands 3 and 4 are no example there, and follow from their steps.
    let bands = [
        (1, (1_088, 214), (448, 254)),
        (2, (1_440, 405), (800, 445)),
        (3, (1_792, 236), (512, 196)),
        (4, (320, 370), (960, 330)),
    ];
    for side in SIDES {
        for (band, space, mark) in bands {
            let character = side.call(Call::Characters(&[0]), side.fresh(band), 320);
            assert_bits(side, &character.samples()[..288], space);
            let phase = usize::from(character.answer.state.phase);
            assert_eq!(phase, (9 * space.0 + mark.0) % 1_920, "{side:?}");

            let idle = side.call(Call::Idle, side.fresh(band), 96);
            assert_bits(side, idle.samples(), mark);
            let phase = usize::from(idle.answer.state.phase);
            assert_eq!(phase, 3 * mark.0 % 1_920, "{side:?}");
        }
    }
}

/// Equal bits in a row from phase 0, each growing by `step` within.
fn assert_bits(side: Side, samples: &[i16], (advance, step): (usize, usize)) {
    for (i, &sample) in samples.iter().enumerate() {
        let phase = (i / 32 * advance + i % 32 * step) % 1_920;
        assert_eq!(sample, side.sine(phase), "{side:?}: sample {i}");
    }
}

#[test]
fn most_characters_and_places() {
    for side in SIDES {
        for band in BANDS {
            for (count, length, number, used) in [
                (100, 32_000, 0, 32_000),
                (100, 31_999, 4, 0),
                (101, 32_000, 3, 0),
                (101, 32_320, 3, 0),
            ] {
                let bytes = vec![0x41; count];
                let call = Call::Characters(&bytes);
                let answer = side.call(call, side.fresh(band), length).answer;
                let found = (answer.number, answer.count);
                assert_eq!(found, (number, used), "{side:?}: {count} into {length}");
            }
        }
    }
}

#[test]
fn places_of_an_idle() {
    for side in SIDES {
        for band in BANDS {
            for (length, number, used) in [(96, 0, 96), (95, 4, 0), (0, 4, 0)] {
                let answer = side.call(Call::Idle, side.fresh(band), length).answer;
                let found = (answer.number, answer.count);
                assert_eq!(found, (number, used), "{side:?}: into {length}");
            }
        }
    }
}
