//! Blocks that begin and end at every place: of characters and faults, and from
//! every run and stage. A block's end is where the run has to be told, and the
//! windows that tell it may lie before the block, in it, or across its beginning.

use crate::common::met::{assert_frequent, Met};
use crate::common::receiver::{
    compare_accepted, fresh, read_on, BREAK, CARRIER_LOST, NO_STOP_BIT, WINDOW,
};
use crate::common::recording::{
    around_0, bits, disturbed, keyed, no_stop_bit, sending, space, surrounded,
};
use crate::common::states::{any_pieces, byte_limit, longest_wait, with_stage, HELD};
use crate::common::{BANDS, IDLE_SAMPLES};
use reference::disturbance::MOST;
use reference::library::Numbers;
use reference::random::Random;
use std::ops::RangeInclusive;

/// The longest block that is read from every run and stage: all windows that
/// begin before it, and more than 32 behind them.
const LONGEST: usize = 70;

const SEARCHING: [u8; 4] = [0; 4];
/// What a search becomes with the sample at which it finds a start.
const FOUND: [u8; 4] = [1, 16, 0, 0];

/// Two characters, and each of the faults with a character behind it, with the
/// events to be told.
fn recordings(band: u8) -> [(Vec<i16>, [u16; 2]); 6] {
    let second = sending(band, &[0x4d]);
    let without = |first| keyed(band, &[no_stop_bit(&[first]), bits(&[0x4d])].concat());
    let lost = |bits: usize, samples: usize| {
        let first = &sending(band, &[0xb2])[..IDLE_SAMPLES + 32 * bits + samples];
        [&surrounded(first, 0, 64), &second[..]].concat()
    };
    let held = surrounded(&space(band, 400), 0, 64);
    let lost_and_held = [&held, &space(band, 100), &second[..]].concat();
    [
        (sending(band, &[0xb2, 0x4d]), [0xb2, 0x4d]),
        (without(0xb2), [NO_STOP_BIT, 0x4d]),
        (without(0), [BREAK, 0x4d]),
        // The level is lost while the break is held.
        (lost_and_held, [BREAK, 0x4d]),
        // At a data bit, and at the stop bit.
        (lost(5, 7), [CARRIER_LOST, 0x4d]),
        (lost(9, 4), [CARRIER_LOST, 0x4d]),
    ]
}

/// Reads the samples up to each cut in one block and the rest in another. What
/// is met are the states at the cuts.
fn cut_everywhere(met: &mut Met, band: u8, samples: &[i16], expected: [u16; 2]) {
    let (_, last) = read_on(fresh(band), [samples]);
    let mut told = 0;
    for cut in 0..=samples.len() {
        let (head, tail) = samples.split_at(cut);
        let first = met.compare(fresh(band), head);
        let second = compare_accepted(first.answer.state, tail);
        let events = [first.events(), second.events()].concat();
        assert_eq!(events, expected, "band {band}, cut {cut}");
        assert_eq!(second.answer.state, last, "band {band}, cut {cut}");
        // One sample tells one event at most.
        let now = first.answer.count;
        assert!(now == told || now == told + 1, "band {band}, cut {cut}");
        told = now;
    }
    assert_eq!(told, 2, "band {band}");
}

#[test]
fn every_cut_of_characters_and_faults() {
    let mut random = Random::new(54);
    for band in BANDS {
        let mut met = Met::new();
        for (samples, expected) in recordings(band) {
            let samples = surrounded(&samples, 40, 40);
            let samples = disturbed(&samples, |_| around_0(&mut random, MOST));
            cut_everywhere(&mut met, band, &samples, expected);
        }
        met.assert_searching_runs(4);
        met.assert_held_runs(1);
        met.assert_waits(4);
    }
}

/// Blocks of the given lengths from a run and a stage. The samples that went
/// before them and the blocks are pieces of silence, noise and tones.
fn read_from(
    met: &mut Met,
    random: &mut Random,
    run: u8,
    stage: [u8; 4],
    lengths: impl Iterator<Item = usize>,
) {
    let band = BANDS[random.below(BANDS.len())];
    let samples = any_pieces(random, band, WINDOW + LONGEST, 50);
    let (window, block) = samples.split_at(WINDOW);
    let state = Numbers {
        band,
        window: window.try_into().expect("a whole window"),
        run,
        ..with_stage(stage)
    };
    for length in lengths {
        met.compare(state, &block[..length]);
    }
}

/// What is met from every run of a stage that does not wait.
fn from_every_run(seed: u64, stage: [u8; 4]) -> Met {
    let mut random = Random::new(seed);
    let mut met = Met::new();
    for run in 0..=32 {
        for _ in 0..40 {
            read_from(&mut met, &mut random, run, stage, 0..=LONGEST);
        }
    }
    met
}

#[test]
fn every_run_of_a_search() {
    let met = from_every_run(55, SEARCHING);
    met.assert_searching_runs(200);
    met.assert_waiting_runs(1);
}

#[test]
fn every_run_of_a_held_break() {
    let met = from_every_run(59, HELD);
    met.assert_held_runs(200);
    met.assert_searching_runs(1);
}

/// Every third length for each slot, so that each run, wait and length are met
/// together in three slots or more.
#[test]
fn every_run_of_every_wait() {
    let mut random = Random::new(56);
    let mut met = Met::new();
    for run in 0..=32 {
        for slot in 0..=9 {
            for wait in 1..=longest_wait(slot) {
                let most = byte_limit(slot) - 1;
                let byte = [0, most, random.below(most + 1)][random.below(3)];
                let stage = [1, wait, slot, byte as u8];
                let lengths = (usize::from(slot % 3)..=LONGEST).step_by(3);
                read_from(&mut met, &mut random, run, stage, lengths);
            }
        }
    }
    assert_frequent(met.kinds, [1_000; 5]);
    met.assert_searching_runs(100);
    met.assert_waiting_runs(100);
    met.assert_waits(10);
}

/// Space and mark.
fn tones(band: u8) -> [Vec<i16>; 2] {
    [0, 1].map(|bit| keyed(band, &[bit; 4]))
}

/// A tone, a gap in which the level is lost, and a tone: the window that went
/// before, and the samples from `before` samples before the gap on.
fn gap(first: &[i16], before: usize, silent: usize, then: &[i16]) -> ([i16; WINDOW], Vec<i16>) {
    let (window, rest) = first.split_at(WINDOW);
    let samples = [&surrounded(&rest[..before], 0, silent), &then[..60]].concat();
    (window.try_into().expect("a whole window"), samples)
}

/// The end behind a gap at which a stage has a run of 31, from any run before, and
/// those at which it is the other stage with a run of 32.
fn ends_behind(
    met: &mut Met,
    random: &mut Random,
    from: Numbers,
    (samples, behind): (&[i16], usize),
    other: [u8; 4],
) -> (usize, Vec<usize>) {
    let (mut almost, mut ends) = (vec![], vec![]);
    for end in 0..=samples.len() {
        let run = random.below(33) as u8;
        let reading = met.compare(Numbers { run, ..from }, &samples[..end]);
        let next = reading.answer.state;
        if end > behind {
            match (next.stage_numbers(), next.run) {
                (stage, 31) if stage == from.stage_numbers() => almost.push(end),
                (stage, 32) if stage == other => ends.push(end),
                (stage, run) => assert!(stage != other && run != 31, "{next:?}"),
            }
        }
    }
    assert_eq!(almost.len(), 1, "{almost:?}");
    (almost[0], ends)
}

/// A tone so quiet that the level is lost before half of a window is silent: in half a
/// window either tone may be the stronger.
fn quiet(tone: &[i16]) -> Vec<i16> {
    tone.iter().map(|sample| sample / 5 * 2).collect()
}

/// Gaps at every place between the tones of two bits, from one stage to another, in
/// each band. The run is counted back to the gap, wherever it lies in the block. The
/// ends found behind it must be those expected of the one with run 31 and the last.
fn gaps(
    seed: u64,
    [first, then]: [usize; 2],
    [stage, other]: [[u8; 4]; 2],
    expected: fn(usize, usize) -> RangeInclusive<usize>,
) -> [Met; BANDS.len()] {
    let mut random = Random::new(seed);
    BANDS.map(|band| {
        let mut met = Met::new();
        let tones = tones(band);
        let (first, then) = (quiet(&tones[first]), &tones[then]);
        for before in 0..=LONGEST {
            // A short gap, which breaks the run for certain, and longer ones, so
            // that a search may meet any part of one first.
            for silent in [23, 24 + before % 40] {
                let (window, samples) = gap(&first, before, silent, then);
                let from = Numbers {
                    band,
                    window,
                    ..with_stage(stage)
                };
                let cut = (&samples[..], before + silent);
                let (almost, ends) = ends_behind(&mut met, &mut random, from, cut, other);
                let expected: Vec<usize> = expected(almost, samples.len()).collect();
                assert_eq!(ends, expected, "band {band}, {before} before {silent}");
            }
        }
        met
    })
}

/// A start is found in space with run 32 and not with run 31.
#[test]
fn a_gap_at_every_place_of_a_search() {
    let found = |almost, _| almost + 1..=almost + 1;
    for met in gaps(57, [1, 0], [SEARCHING, FOUND], found) {
        met.assert_searching_runs(100);
    }
}

/// A break ends in mark with run 32 and not with run 31, and the search that follows
/// finds nothing there.
#[test]
fn a_gap_at_every_place_of_a_held_break() {
    let ended = |almost, last| almost + 1..=last;
    for met in gaps(60, [0, 1], [HELD, SEARCHING], ended) {
        met.assert_held_runs(100);
    }
}

/// A wait ends before the gap, in it or behind it, and the search that follows
/// counts windows that nobody looked at while it waited.
#[test]
fn a_gap_at_every_place_of_a_wait() {
    let mut random = Random::new(58);
    for band in BANDS {
        let tones = tones(band);
        let mut met = Met::new();
        for before in 0..=LONGEST {
            for wait in 1..=32 {
                let [first, then] = [0; 2].map(|_| &tones[random.below(2)]);
                let (window, samples) = gap(first, before, 22 + random.below(20), then);
                let run = random.below(33) as u8;
                for (slot, byte) in [(0, 0), (9, 0), (9, 0x4d)] {
                    if wait <= longest_wait(slot) {
                        let stage = [1, wait, slot, byte];
                        let state = Numbers {
                            band,
                            window,
                            run,
                            ..with_stage(stage)
                        };
                        for end in (random.below(9)..=samples.len()).step_by(9) {
                            met.compare(state, &samples[..end]);
                        }
                    }
                }
            }
        }
        assert_frequent(met.kinds, [500; 5]);
        met.assert_searching_runs(50);
        met.assert_waiting_runs(50);
    }
}
