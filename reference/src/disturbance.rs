//! How far a disturbance can move the energies of a window, and which tone it
//! leaves the stronger one for certain: the margin test of the proof once more.

use crate::receiver::{Tone, GOOD_ENERGY, WINDOW};
use crate::sine::Sines;
use crate::transmitter::CYCLE;
use std::array;

/// The most that is added to a sample or taken from it.
pub const MOST: i16 = 100;

/// Up to which window, and from which on, a tone wins for certain.
#[derive(Clone, Copy, Debug)]
pub struct Limits {
    /// A window with up to this many samples of the later of two bits is still
    /// won by the tone of the earlier.
    pub last_of_earlier: i64,
    /// From this many on it is won by the tone of the later. In between it
    /// depends on the phase and on the disturbance.
    pub first_of_later: i64,
    /// A window of a mark bit is still won by mark when up to this many silent
    /// samples have followed the bit.
    pub last_silent: i64,
}

pub const LIMITS: Limits = Limits {
    last_of_earlier: 14,
    first_of_later: 19,
    last_silent: 15,
};

/// With up to so many samples of the later of two bits in a window, and from so many on,
/// no disturbance makes it doubtful.
pub const CLEAR: [i64; 2] = [12, 21];

impl Limits {
    /// The bit whose tone wins for certain in a window that ends with `count`
    /// samples of the bit `later` and begins with samples of `earlier`.
    pub fn certain(&self, earlier: u8, later: u8, count: i64) -> Option<u8> {
        if earlier == later || count <= self.last_of_earlier {
            Some(earlier)
        } else if count >= self.first_of_later {
            Some(later)
        } else {
            None
        }
    }
}

/// The energy of one tone in a window, undisturbed, and the bounds that it
/// keeps when every sample is altered.
#[derive(Clone, Copy, Debug)]
pub struct Energy {
    pub least: i64,
    pub undisturbed: i64,
    pub most: i64,
}

/// A tone with how far a disturbance can move its I and its Q.
struct Disturbed {
    tone: Tone,
    moves: [i64; 2],
}

impl Disturbed {
    fn new(sines: &Sines, step: u16, most: i16) -> Disturbed {
        let tone = Tone::new(sines, step);
        let size = |weights: &[i64; WINDOW]| weights.iter().map(|x| x.abs()).sum::<i64>();
        let moves = [&tone.cosines, &tone.sines].map(|weights| i64::from(most) * size(weights));
        Disturbed { tone, moves }
    }

    /// |I| and |Q| each move by at most their own bound. Of samples that the
    /// transmitter sends, the energies stay below 2^62.
    fn energy(&self, window: &[i16; WINDOW]) -> Energy {
        let [i, q] = self.tone.sums(window).map(i64::abs);
        let [i_moves, q_moves] = self.moves;
        let squares = |i: i64, q: i64| i * i + q * q;
        Energy {
            least: squares((i - i_moves).max(0), (q - q_moves).max(0)),
            undisturbed: squares(i, q),
            most: squares(i + i_moves, q + q_moves),
        }
    }
}

/// The tones of space and mark.
pub struct Pair([Disturbed; 2]);

impl Pair {
    /// With these steps, and every sample altered by at most `most`.
    pub fn new(sines: &Sines, steps: [u16; 2], most: i16) -> Pair {
        Pair(steps.map(|step| Disturbed::new(sines, step, most)))
    }

    /// The energies of space and of mark.
    pub fn energies(&self, window: &[i16; WINDOW]) -> [Energy; 2] {
        self.0.each_ref().map(|tone| tone.energy(window))
    }
}

/// The bit that is read for certain: mark where the energies are equal.
pub fn winner([space, mark]: &[Energy; 2]) -> Option<u8> {
    if mark.most < space.least {
        Some(0)
    } else if space.most <= mark.least {
        Some(1)
    } else {
        None
    }
}

/// The largest share of the larger energy that the smaller can be, in thousandths,
/// rounded up.
fn share([space, mark]: &[Energy; 2]) -> i128 {
    let of = |smaller: &Energy, larger: &Energy| {
        let larger = i128::from(larger.least.max(1));
        (1_000 * i128::from(smaller.most) + larger - 1) / larger
    };
    of(space, mark).min(of(mark, space))
}

/// By how much one energy is above the other for certain. Below 0 if none is.
fn apart([space, mark]: &[Energy; 2]) -> i64 {
    (space.least - mark.most).max(mark.least - space.most)
}

/// The level is good for certain.
pub fn is_good([space, mark]: &[Energy; 2]) -> bool {
    space.least.max(mark.least) >= GOOD_ENERGY
}

/// The level is not good for certain.
fn is_silent([space, mark]: &[Energy; 2]) -> bool {
    space.most.max(mark.most) < GOOD_ENERGY
}

/// The phases at which a bit can begin: 0, and with each the two at which its
/// bit can end.
pub fn beginnings(steps: [u16; 2]) -> Vec<u16> {
    let mut phases = vec![0];
    let mut followed = 0;
    while followed < phases.len() {
        for step in steps {
            let end = end_of_bit(phases[followed], step);
            if !phases.contains(&end) {
                phases.push(end);
            }
        }
        followed += 1;
    }
    phases
}

fn end_of_bit(phase: u16, step: u16) -> u16 {
    (phase + WINDOW as u16 * step) % CYCLE
}

/// The margin test of the proof: with every sample altered by at most `most`,
/// each window of a sending by tones of these steps is read as the limits say.
/// An error tells the first window that is not.
pub fn margins(sines: &Sines, steps: [u16; 2], most: i16, limits: &Limits) -> Result<(), String> {
    let sent = Sent {
        sines,
        steps,
        tones: Pair::new(sines, steps, most),
    };
    sent.silence()?;
    for phase in beginnings(steps) {
        for [earlier, later] in [[0, 0], [0, 1], [1, 0], [1, 1]] {
            sent.two_bits(phase, earlier, later, limits)?;
        }
        sent.fading(phase, limits)?;
    }
    Ok(())
}

/// The largest share of any window with up to `last` samples of the later of two bits,
/// or with `first` or more, and with every sample altered by at most `most`. A window can
/// be doubtful if its share is above 800.
pub fn largest_share(
    sines: &Sines,
    steps: [u16; 2],
    most: i16,
    [last, first]: [i64; 2],
) -> Option<i128> {
    let windows = windows(sines, steps, most, [last, first]);
    windows.iter().map(share).max()
}

/// The largest number that the difference of the two energies is never below in such a
/// window, as far as the bounds show.
pub fn least_difference(
    sines: &Sines,
    steps: [u16; 2],
    most: i16,
    [last, first]: [i64; 2],
) -> Option<i64> {
    let windows = windows(sines, steps, most, [last, first]);
    windows.iter().map(apart).min()
}

/// The energies of all such windows.
fn windows(sines: &Sines, steps: [u16; 2], most: i16, [last, first]: [i64; 2]) -> Vec<[Energy; 2]> {
    let sent = Sent {
        sines,
        steps,
        tones: Pair::new(sines, steps, most),
    };
    let windows = beginnings(steps).into_iter().flat_map(|phase| {
        let bits = [[0, 0], [0, 1], [1, 0], [1, 1]].into_iter();
        bits.flat_map(move |bits| {
            let counts = (0..=last).chain(first..WINDOW as i64);
            counts.map(move |count| (phase, bits, count))
        })
    });
    let energies =
        windows.map(|(phase, [earlier, later], count)| sent.two(phase, earlier, later, count));
    energies.collect()
}

/// The windows of a sending.
struct Sent<'a> {
    sines: &'a Sines,
    steps: [u16; 2],
    tones: Pair,
}

impl Sent<'_> {
    /// The samples of a bit, which are as many as a window has.
    fn bit(&self, phase: u16, bit: u8) -> [i16; WINDOW] {
        let step = usize::from(self.steps[usize::from(bit)]);
        array::from_fn(|place| self.sines.s(usize::from(phase) + place * step))
    }

    /// The energies of the window when `count` of the samples `behind` have
    /// entered it and as many of those before them have left.
    fn energies(&self, before: &[i16; WINDOW], behind: &[i16; WINDOW], count: i64) -> [Energy; 2] {
        let both = [*before, *behind].concat();
        let window = both[count as usize..].first_chunk();
        self.tones
            .energies(window.expect("at most a window has entered"))
    }

    fn silence(&self) -> Result<(), String> {
        let silence = [0; WINDOW];
        ensure(is_silent(&self.tones.energies(&silence)), || {
            "silence has a good level".to_string()
        })
    }

    /// The energies with `count` samples of the bit behind one that begins at the phase.
    fn two(&self, phase: u16, earlier: u8, later: u8, count: i64) -> [Energy; 2] {
        let before = self.bit(phase, earlier);
        let behind = self.bit(end_of_bit(phase, self.steps[usize::from(earlier)]), later);
        self.energies(&before, &behind, count)
    }

    /// One bit that begins at the phase, and the bit behind it.
    fn two_bits(&self, phase: u16, earlier: u8, later: u8, limits: &Limits) -> Result<(), String> {
        for count in 0..WINDOW as i64 {
            let energies = self.two(phase, earlier, later, count);
            let what = || format!("{count} samples of {later} behind {earlier} at phase {phase}");
            ensure(is_good(&energies), || format!("{}: the level", what()))?;
            if let Some(bit) = limits.certain(earlier, later, count) {
                let wins = winner(&energies) == Some(bit);
                ensure(wins, || format!("{}: not {bit}", what()))?;
            }
        }
        Ok(())
    }

    /// A mark bit that begins at the phase, and silence behind it.
    fn fading(&self, phase: u16, limits: &Limits) -> Result<(), String> {
        let mark = self.bit(phase, 1);
        for count in 0..=limits.last_silent {
            let energies = self.energies(&mark, &[0; WINDOW], count);
            ensure(winner(&energies) == Some(1), || {
                format!("{count} silent samples behind mark at phase {phase}")
            })?;
        }
        Ok(())
    }
}

fn ensure(holds: bool, what: impl Fn() -> String) -> Result<(), String> {
    if holds {
        Ok(())
    } else {
        Err(what())
    }
}
