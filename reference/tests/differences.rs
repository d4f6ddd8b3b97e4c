//! The difference beside each event, worked out again from the recording: the windows of
//! its character's slots are weighed once more, and the smallest difference is taken.

use crate::common::indexed::Indexed;
use crate::common::met::{assert_frequent, kinds};
use crate::common::plain::Worked;
use crate::common::receiver::{
    assert_events, compare_accepted, fresh, measured_on, numbers, Event, BREAK, CARRIER_LOST,
    DOUBT, NO_STOP_BIT,
};
use crate::common::recording::{
    around_0, bits, disturbed, keyed, keyed_in_doubt, no_stop_bit, sending, sending_of, space,
    surrounded, Item,
};
use crate::common::rows::{cut_alike, cut_everywhere, refused_between};
use crate::common::states::any_samples;
use crate::common::tap::{measured_of_band, open, PAIRS};
use crate::common::BANDS;
use reference::disturbance::MOST;
use reference::random::Random;

const SIZES: [usize; 4] = [1, 33, 160, 16_384];

/// The events and their differences must be those that are worked out, in blocks of each
/// size, by either entry, with indices and over a tap. Returns what was worked out.
fn check(band: u8, samples: &[i16], what: &str) -> Worked {
    let worked = Worked::new(fresh(band), samples);
    let expected = worked.measured();
    let pair = PAIRS.into_iter().find(|pair| pair.contains(&band));
    let tap = open(pair.expect("each band is in a pair"));
    for size in SIZES {
        let what = || format!("{what}, band {band}, blocks of {size}");
        let (events, _) = measured_on(fresh(band), samples.chunks(size));
        assert_events(&events, &expected, what);
        let (events, _) = measured_on(Indexed(fresh(band)), samples.chunks(size));
        assert_events(&events, &expected, what);
        let (events, _) = measured_on(tap, samples.chunks(size));
        assert_events(&measured_of_band(band, &events), &expected, what);
    }
    worked
}

#[test]
fn every_character() {
    let mut random = Random::new(123);
    for band in BANDS {
        for most in [0, MOST] {
            let message: Vec<u8> = (0..=255).collect();
            for part in message.chunks(64) {
                let line = surrounded(&sending(band, part), 30, 40);
                let line = disturbed(&line, |_| around_0(&mut random, most));
                let worked = check(band, &line, "characters");
                let expected: Vec<_> = part.iter().map(|&byte| (u16::from(byte), 9)).collect();
                assert_eq!(worked.slots(), expected, "band {band}");
            }
        }
    }
}

/// Lines that bring each fault, with the slot that it comes at.
fn faults(band: u8, byte: u8) -> Vec<(Vec<i16>, u16, usize)> {
    let mut lines = Vec::new();
    for slot in 1..=9 {
        // The carrier ends with the bit before.
        let sent = sending(band, &[byte]);
        let lost = surrounded(&sent[..96 + 32 * slot], 0, 64);
        lines.push((lost, CARRIER_LOST, slot));
        for which in 0..2 {
            let mut bits = bits(&[byte]);
            bits[3 + slot..].fill(1);
            let doubt = keyed_in_doubt(band, &bits, 3 + slot, which);
            lines.push((surrounded(&doubt, 0, 64), DOUBT, slot));
        }
    }
    let without = keyed(band, &no_stop_bit(&[byte.max(1)]));
    lines.push((surrounded(&without, 0, 64), NO_STOP_BIT, 9));
    let held = [keyed(band, &[1; 3]), space(band, 330)].concat();
    lines.push((surrounded(&held, 0, 64), BREAK, 9));
    lines
}

/// A fault at each slot has the differences up to that slot and with it, and the character
/// behind it has its own nine.
#[test]
fn every_fault_at_each_slot() {
    for band in BANDS {
        for byte in [0x00, 0x4d, 0xff] {
            for (line, fault, slot) in faults(band, byte) {
                let line = [line, sending(band, &[0x42])].concat();
                // A break is let go by the leader.
                let what = format!("{fault} at slot {slot} of {byte:02x}");
                let worked = check(band, &line, &what);
                let found = worked.slots();
                assert_eq!(found, [(fault, slot), (0x42, 9)], "{what}, band {band}");
            }
        }
    }
}

/// A fault for the level or for doubt has its smallest difference at its own slot, so that
/// this must have been taken in.
#[test]
fn the_slot_of_a_fault_decides() {
    for band in BANDS {
        for (line, fault, slot) in faults(band, 0x4d) {
            let (event, differences) = &Worked::new(fresh(band), &line).events[0];
            assert_eq!(*event, fault);
            if [CARRIER_LOST, DOUBT].contains(&fault) {
                let least = differences.iter().min();
                assert_eq!(least, differences.last(), "{fault} at slot {slot}");
            }
        }
    }
}

/// Characters with one bit that is weaker than the others: whichever it is, it decides. The
/// start bit does not.
#[test]
fn each_slot_decides() {
    for band in BANDS {
        for byte in [0x00, 0x4d, 0xff] {
            let clean = check(band, &sending(band, &[byte]), "clean").measured();
            for bit in 0..=9 {
                let mut line = sending(band, &[byte]);
                for sample in &mut line[96 + 32 * bit + 4..][..24] {
                    *sample = *sample / 10 * 6;
                }
                let worked = check(band, &line, &format!("bit {bit} of {byte:02x}"));
                let [(event, differences)] = &worked.events[..] else {
                    panic!("band {band}, bit {bit}: {:?}", worked.slots());
                };
                assert_eq!(*event, u16::from(byte), "band {band}, bit {bit}");
                let places = differences.iter().zip(1..);
                let (&least, slot) = places.min().expect("nine of them");
                if bit == 0 {
                    assert!(4 * least > 3 * clean[0].1, "band {band}: {least}");
                } else {
                    assert_eq!(slot, bit, "band {band}");
                    assert!(4 * least < 3 * clean[0].1, "band {band}, bit {bit}");
                }
            }
        }
    }
}

/// The first character is half as strong as the one behind it, or brings a fault. Its
/// difference is not kept over to the next one.
#[test]
fn not_kept_to_the_next_character() {
    for band in BANDS {
        let clean = sending(band, &[0x42]);
        let half: Vec<i16> = sending(band, &[0x4d]).iter().map(|x| x / 2).collect();
        let [(_, alone)] = check(band, &surrounded(&clean, 64, 0), "alone").measured()[..] else {
            panic!("band {band}: one event");
        };
        let mut lines = vec![(half, 0x4d)];
        lines.extend(
            faults(band, 0x4d)
                .into_iter()
                .map(|(line, fault, _)| (line, fault)),
        );
        for (line, first) in lines {
            let line = [surrounded(&line, 0, 64), clean.clone()].concat();
            let measured = check(band, &line, "two").measured();
            assert_eq!(numbers(&measured), [first, 0x42]);
            let [(_, before), (_, behind)] = measured[..] else {
                panic!("band {band}: two events");
            };
            assert_eq!(behind, alone, "band {band}, behind {first}");
            // Of 256 and 258 all nine bits may be as clean.
            let is_clean = [NO_STOP_BIT, BREAK].contains(&first);
            assert!(is_clean || 2 * before < behind, "band {band}: {before}");
        }
    }
}

/// Behind each sample the state has the smallest difference of the present character so
/// far, or none; from there the next block goes on, wherever the recording is cut.
#[test]
fn kept_over_every_cut() {
    let mut random = Random::new(125);
    for band in BANDS {
        let half: Vec<i16> = sending(band, &[0xb2]).iter().map(|x| x / 2).collect();
        let line = [surrounded(&half, 0, 64), sending(band, &[0x4d])].concat();
        let line = disturbed(&line, |_| around_0(&mut random, MOST));
        let worked = Worked::new(fresh(band), &line);
        let mut kept = [0; 2];
        for cut in 0..=line.len() {
            let state = compare_accepted(fresh(band), &line[..cut]).answer.state;
            let expected = cut.checked_sub(1).and_then(|last| worked.smallest[last]);
            assert_eq!(
                state,
                state.with_smallest(expected),
                "band {band}, cut {cut}"
            );
            kept[usize::from(expected.is_some())] += 1;
        }
        assert!(kept[0] > 100 && kept[1] == 2 * 8 * 32, "{kept:?}");
        assert_events(
            &cut_everywhere(fresh(band), &line),
            &numbers(&worked.measured()),
            || format!("band {band}"),
        );
    }
}

/// The same of characters, breaks and faults in blocks of every size, and with refused
/// calls between them.
#[test]
fn blocks_of_every_size() {
    let mut random = Random::new(126);
    for band in BANDS {
        let items: Vec<Item> = (0..3).map(|_| Item::any(&mut random)).collect();
        let line = surrounded(&sending_of(band, &items), 20, 30);
        let line = disturbed(&line, |_| around_0(&mut random, MOST));
        let expected = Worked::new(fresh(band), &line).measured();
        let (found, _) = measured_on(fresh(band), [&line[..]]);
        assert_events(&found, &expected, || format!("band {band}"));
        cut_alike(fresh(band), &line, 1..=200);
        refused_between(&mut random, fresh(band), &line, [1, 47, 160, 16_384]);
    }
}

/// Silence, noise and tones of any loudness.
#[test]
fn any_recordings() {
    let mut random = Random::new(127);
    for band in BANDS {
        let mut met: Vec<Event> = Vec::new();
        for _ in 0..10 {
            let samples = any_samples(&mut random, band, 16_000);
            met.extend(check(band, &samples, "any").measured());
        }
        assert_frequent(kinds(&numbers(&met)), [5, 5, 50, 2, 5]);
    }
}
