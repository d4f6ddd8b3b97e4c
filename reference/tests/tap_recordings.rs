//! Lines that carry both bands of a tap, or one, or neither, or others.

use crate::common::met::assert_frequent;
use crate::common::receiver::{
    accepted, assert_events, compare, read_by, read_on, BlockState, CARRIER_LOST,
};
use crate::common::recording::{
    around_0, as_events, disturbed, every_character, mixed, noise, random_blocks, sending,
    sending_of, surrounded, Item,
};
use crate::common::states::any_samples;
use crate::common::tap::{kinds_of, of_band, of_tap, open, PAIRS};
use crate::common::CHARACTER_SAMPLES;
use reference::disturbance::MOST;
use reference::library::Tap;
use reference::random::Random;

/// The events of a line in blocks of random sizes up to `longest`, each with some
/// places more than it needs or none.
fn read(random: &mut Random, pair: [u8; 2], line: &[i16], longest: usize) -> Vec<u16> {
    let blocks = random_blocks(random, line, longest);
    let (events, _) = read_by(open(pair), blocks, |tap, block| {
        let places = Tap::places_needed(block.len()) + random.below(3);
        accepted(compare(tap, block, places))
    });
    events
}

/// The line of a band, with silence before it, and the events to be read from it.
type Carried = (Vec<i16>, Vec<u16>);

fn carried(band: u8, items: &[Item], before: usize) -> Carried {
    let line = surrounded(&sending_of(band, items), before, 0);
    (line, items.iter().map(|item| item.event()).collect())
}

fn characters(random: &mut Random, count: usize) -> Vec<Item> {
    let bytes = random.bytes(count);
    bytes.into_iter().map(Item::Character).collect()
}

/// The events must be those of sendings, one behind the other. In bands 3 and 4, which
/// are close to each other, a trailer that ends under a tone of the other band can be
/// taken for a start bit; then the carrier is lost, and that is told behind the sending.
fn assert_told(
    pair: [u8; 2],
    mut events: &[u16],
    sendings: &[(u8, Vec<u16>)],
    what: impl Fn() -> String,
) {
    for (band, expected) in sendings {
        let (own, rest) = events.split_at(expected.len().min(events.len()));
        assert_events(own, &of_tap(*band, expected), &what);
        let lost = of_tap(*band, &[CARRIER_LOST]);
        events = match rest.strip_prefix(&lost[..]) {
            Some(behind) if pair == [3, 4] => behind,
            _ => rest,
        };
    }
    assert_eq!(events, [], "{}", what());
}

/// Reads both bands from one line, which is disturbed, and each must have its
/// events. This is more than is promised of such a line.
fn read_both(random: &mut Random, pair: [u8; 2], [first, second]: [Carried; 2]) -> Vec<u16> {
    let line = surrounded(&mixed(&first.0, &second.0), 0, 100);
    let line = disturbed(&line, |_| around_0(random, MOST));
    let longest = [40, 400, 4_000, 16_384][random.below(4)];
    let events = read(random, pair, &line, longest);
    for (band, (_, expected)) in pair.into_iter().zip([first, second]) {
        let what = || format!("band {band}, blocks of up to {longest}");
        let own = of_tap(band, &of_band(band, &events));
        assert_told(pair, &own, &[(band, expected)], what);
    }
    events
}

/// Either band begins up to a character and more before the other, and ends before
/// or behind it.
fn sendings_in_both_bands(random: &mut Random, pair: [u8; 2]) {
    let mut turns = 0;
    for late in (0..=CHARACTER_SAMPLES + 80).step_by(10) {
        for later in pair {
            let both = pair.map(|band| {
                let count = random.below(20);
                let before = if band == later { late } else { 0 };
                carried(band, &characters(random, count), before)
            });
            let events = read_both(random, pair, both);
            let two = events.windows(2);
            turns += two.filter(|two| two[0] / 1_000 > two[1] / 1_000).count();
        }
    }
    // The second often comes before the first, so that the order is not that of the
    // bands.
    assert!(turns >= 300, "{pair:?}: {turns}");
}

#[test]
fn sendings_in_both_bands_of_each_pair() {
    let mut random = Random::new(80);
    for pair in PAIRS {
        sendings_in_both_bands(&mut random, pair);
    }
}

/// A sending in one band gives its characters and nothing in the other.
#[test]
fn the_other_band_silent() {
    let mut random = Random::new(81);
    for pair in PAIRS {
        for band in pair {
            for longest in [40, 400, 16_384] {
                let message = every_character(&mut random);
                let line = surrounded(&sending(band, &message), 100, 200);
                let line = disturbed(&line, |_| around_0(&mut random, MOST));
                let events = read(&mut random, pair, &line, longest);
                let what = || format!("band {band}, blocks of up to {longest}");
                assert_events(&events, &of_tap(band, &as_events(&message)), what);
            }
        }
    }
}

/// Sendings in the bands of the other pair, one of them or both, and in all four on one
/// line. Nothing is asked of what is read but that both sides agree, and that there is
/// something.
#[test]
fn bands_of_the_other_pair() {
    let mut random = Random::new(109);
    for (pair, other) in [(PAIRS[0], PAIRS[1]), (PAIRS[1], PAIRS[0])] {
        let mut events = Vec::new();
        for _ in 0..10 {
            let mut lines = |pair: [u8; 2]| pair.map(|band| sending(band, &random.bytes(20)));
            let ([first, second], [third, fourth]) = (lines(other), lines(pair));
            let both = mixed(&first, &second);
            let all = mixed(&both, &mixed(&third, &fourth));
            for line in [first, second, both, all] {
                events.extend(read(&mut random, pair, &line, 1_000));
            }
        }
        for kinds in kinds_of(pair, &events) {
            assert_frequent(kinds, [5, 20, 100, 0, 30]);
        }
    }
}

/// One sending behind the other, in turns, with silence between them or none.
#[test]
fn sendings_in_turns() {
    let mut random = Random::new(82);
    for pair in PAIRS {
        for longest in [40, 400, 16_384] {
            let (mut line, mut sendings) = (vec![], vec![]);
            for band in pair.into_iter().cycle().take(40) {
                let count = random.below(5);
                let message = random.bytes(count);
                line.extend(sending(band, &message));
                line.extend(vec![0; [0, random.below(300)][random.below(2)]]);
                sendings.push((band, as_events(&message)));
            }
            let line = disturbed(&line, |_| around_0(&mut random, MOST));
            let events = read(&mut random, pair, &line, longest);
            let what = || format!("{pair:?}, blocks of up to {longest}");
            assert_told(pair, &events, &sendings, what);
        }
    }
}

#[test]
fn silence() {
    for pair in PAIRS {
        for size in [1, 48, 160, 16_384] {
            let line = vec![0; 20_000.min(2_000 * size)];
            let found = read_on(open(pair), line.chunks(size));
            assert_eq!(found, (vec![], open(pair)), "blocks of {size}");
        }
    }
}

/// A break is held in one band while characters come in the other.
#[test]
fn a_break_in_one_band() {
    let mut random = Random::new(83);
    let items = [Item::Break(5_000), Item::Character(0x41)];
    for (pair, broken) in [(0, 0), (0, 1), (1, 0), (1, 1)] {
        let pair = PAIRS[pair];
        for before in (0..=CHARACTER_SAMPLES).step_by(16) {
            let message = characters(&mut random, 14);
            let both = pair.map(|band| {
                if band == pair[broken] {
                    carried(band, &items, 0)
                } else {
                    carried(band, &message, before)
                }
            });
            read_both(&mut random, pair, both);
        }
    }
}

/// Characters and breaks at random in both.
#[test]
fn breaks_in_both_bands() {
    let mut random = Random::new(84);
    for pair in PAIRS {
        let mut events = Vec::new();
        for _ in 0..20 {
            let both = pair.map(|band| {
                let items: Vec<Item> = (0..20).map(|_| Item::any(&mut random)).collect();
                carried(band, &items, random.below(400))
            });
            events.extend(read_both(&mut random, pair, both));
        }
        for kinds in kinds_of(pair, &events) {
            assert_frequent(kinds, [200, 0, 0, 100, 0]);
        }
    }
}

#[test]
fn noise_of_full_range() {
    let mut random = Random::new(85);
    for pair in PAIRS {
        let line = noise(&mut random, 8_191, 300_000);
        let events = read(&mut random, pair, &line, 500);
        for kinds in kinds_of(pair, &events) {
            assert_frequent(kinds, [0, 0, 200, 0, 5]);
        }
    }
}

/// Pieces of silence, noise and tones of either band, on one line or mixed.
#[test]
fn any_lines() {
    let mut random = Random::new(86);
    for pair in PAIRS {
        let mut events = Vec::new();
        for longest in [40, 400, 2_000, 16_384] {
            let [first, second] = pair.map(|band| any_samples(&mut random, band, 400_000));
            for line in [mixed(&first, &second), first, second] {
                events.extend(read(&mut random, pair, &line, longest));
            }
        }
        for kinds in kinds_of(pair, &events) {
            assert_frequent(kinds, [50, 50, 300, 50, 100]);
        }
    }
}
