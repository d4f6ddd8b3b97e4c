//! The tables of a band.

use crate::entry::{self, Entry};
use crate::table::{Bar, Unit};
use bench::minimodem::{self, Minimodem};
use bench::readers::{self, Block, BLOCK};
use bench::recording::Recording;
use bench::spandsp;
use reference::sine::Sines;
use reference::{asked_windows, in_place, shifted_window};
use std::path::Path;

/// The characters of the sending that all read, and of shorter ones that show
/// how the time grows.
const LENGTHS: [usize; 3] = [100_000, 10_000, 1_000];
/// The samples of silence, noise, idle mark and breaks: a multiple of 1,920, so that
/// a tone ends at the phase 0 that the sending behind it begins with.
pub const SAMPLES: usize = 2_000 * 1_920;
/// How many calls of one sample or none are made.
const CALLS: usize = 300_000;
/// Telephone programs hand over 20 ms at a time, of 8,000 samples a second.
const SMALL: usize = 160;
const SIZES: [usize; 5] = [BLOCK, 1_024, SMALL, 32, 1];

/// A long recording is read about as fast as a short one, so the time grows in
/// proportion to the length.
const GROWTH: Bar = Bar {
    least: 1.0 / 1.2,
    most: 1.2,
};

/// A tap takes little longer than two receivers.
const TAP: Bar = Bar::at_most(2.2);

/// A loop of the reference.
struct Peer {
    name: &'static str,
    block: Block,
}

/// Weighs the windows that the library weighs.
const ASKED_WINDOWS: Peer = Peer {
    name: "asked-windows loop",
    block: asked_windows::block,
};
/// These weigh every window.
const IN_PLACE: Peer = Peer {
    name: "in-place loop",
    block: in_place::block,
};
const SHIFTED_WINDOW: Peer = Peer {
    name: "shifted-window loop",
    block: shifted_window::block,
};

pub struct Band<'a> {
    pub sines: &'a Sines,
    pub band: u8,
    /// For a sound file.
    pub folder: &'a Path,
}

impl Band<'_> {
    /// Prints all tables, and returns whether each line keeps its bar.
    pub fn measure(&self) -> bool {
        let Band { sines, band, .. } = *self;
        let sendings = LENGTHS.map(|characters| Recording::sending(sines, band, characters));
        let both_bands = Recording::both_bands(sines, band, LENGTHS[1]);
        let tapped = both_bands.tapped(sines);
        let kept = [
            self.sendings(&sendings),
            self.silence(&Recording::silence(sines, band, SAMPLES)),
            self.noise(&Recording::noise(sines, band, SAMPLES)),
            self.idle_mark(&Recording::idle_mark(sines, band, SAMPLES)),
            self.held(
                "break held in space",
                &Recording::held_space(sines, band, SAMPLES),
            ),
            self.held(
                "break held in silence",
                &Recording::held_silence(sines, band, SAMPLES),
            ),
            self.small_blocks(&sendings[0]),
            self.block_sizes(&sendings[1]),
            self.tap(&both_bands, &tapped, BLOCK),
            self.tap(&both_bands, &tapped, SMALL),
            self.calls("no samples", 0),
            self.calls("one sample", 1),
        ];
        kept.iter().all(|&kept| kept)
    }

    fn sendings(&self, [long, shorter @ ..]: &[Recording; LENGTHS.len()]) -> bool {
        let mut entries = vec![library(long)];
        entries.extend(shorter.iter().zip(&LENGTHS[1..]).map(|(shorter, length)| {
            let name = format!("library, {length} characters");
            Entry::new(name, readers::library(BLOCK), shorter).with(GROWTH)
        }));
        let peer = |peer, least| self.peer(peer, long, BLOCK).with(Bar::at_least(least));
        entries.push(self.same_method(long));
        entries.push(peer(IN_PLACE, 4.0));
        entries.push(peer(SHIFTED_WINDOW, 8.0));
        entries.extend(spandsp(long, BLOCK, Bar::at_least(10.0)));
        entries.extend(self.minimodem(long, Bar::at_least(14.0)));
        self.print(&format!("{} characters", LENGTHS[0]), Unit::Speed, &entries)
    }

    fn silence(&self, silence: &Recording) -> bool {
        let in_place = self.peer(IN_PLACE, silence, BLOCK);
        let mut entries = vec![library(silence), self.same_method(silence)];
        entries.push(in_place.with(Bar::at_least(12.0)));
        entries.extend(spandsp(silence, BLOCK, Bar::at_least(25.0)));
        self.print("silence", Unit::Speed, &entries)
    }

    fn noise(&self, noise: &Recording) -> bool {
        let mut entries = vec![library(noise), self.same_method(noise)];
        entries.extend(spandsp(noise, BLOCK, Bar::at_least(5.0)));
        self.print("noise", Unit::Speed, &entries)
    }

    /// Here the library too weighs every window. When it did so everywhere, it
    /// read 0.88 times as fast as the same method.
    fn idle_mark(&self, mark: &Recording) -> bool {
        let same = self.peer(ASKED_WINDOWS, mark, BLOCK);
        let in_place = self.peer(IN_PLACE, mark, BLOCK);
        let mut entries = vec![library(mark), same.with(Bar::at_least(0.95))];
        entries.push(in_place.with(Bar::at_least(1.0)));
        entries.extend(spandsp(mark, BLOCK, Bar::at_least(1.7)));
        self.print("idle mark", Unit::Speed, &entries)
    }

    fn held(&self, title: &str, recording: &Recording) -> bool {
        let entries = [library(recording), self.same_method(recording)];
        self.print(title, Unit::Speed, &entries)
    }

    fn small_blocks(&self, long: &Recording) -> bool {
        let mut entries = vec![in_blocks(SMALL, long)];
        entries.extend(spandsp(long, SMALL, Bar::at_least(4.0)));
        self.print(&format!("blocks of {SMALL}"), Unit::Speed, &entries)
    }

    /// What small blocks cost. There is no bar for it.
    fn block_sizes(&self, shorter: &Recording) -> bool {
        let entries = SIZES.map(|size| in_blocks(size, shorter));
        self.print(&format!("{} characters", LENGTHS[1]), Unit::Speed, &entries)
    }

    /// A receiver of this band and a tap, which reads both, on one line with both.
    fn tap(&self, both_bands: &Recording, tapped: &Recording, size: usize) -> bool {
        let name = format!("tap, blocks of {size}");
        let tap = Entry::new(name, readers::tap(size), tapped).with(TAP);
        let entries = [in_blocks(size, both_bands), tap];
        self.print("both bands", Unit::Speed, &entries)
    }

    /// What a call costs that has one sample or none. The samples are all 0, so
    /// that in any case there is no event.
    fn calls(&self, samples: &str, size: usize) -> bool {
        let silence = Recording::of(self.sines, self.band, vec![0; CALLS]);
        let library = Entry::new("library", readers::library(size), &silence);
        let peer = self.peer(ASKED_WINDOWS, &silence, size);
        let tap = Entry::new("tap", readers::tap(size), &silence);
        let entries = [library, peer.with(Bar::at_least(0.71)), tap.with(TAP)];
        self.print(&format!("calls of {samples}"), Unit::Call, &entries)
    }

    fn print(&self, title: &str, unit: Unit, entries: &[Entry]) -> bool {
        entry::measure(&format!("band {}, {title}", self.band), unit, entries)
    }

    fn peer<'a>(&'a self, peer: Peer, recording: &'a Recording, size: usize) -> Entry<'a> {
        let reader = readers::reference(self.sines, peer.block, size);
        Entry::new(peer.name, reader, recording)
    }

    /// The library takes at most 1.4 times as long as its method does without a
    /// proof.
    fn same_method<'a>(&'a self, recording: &'a Recording) -> Entry<'a> {
        let peer = self.peer(ASKED_WINDOWS, recording, BLOCK);
        peer.with(Bar::at_least(0.71))
    }

    /// None where minimodem is not installed.
    fn minimodem<'a>(&self, recording: &'a Recording, bar: Bar) -> Option<Entry<'a>> {
        minimodem::is_installed().then(|| {
            let reader = Minimodem::new(recording, self.folder);
            Entry::new("minimodem", reader, recording).with(bar)
        })
    }
}

fn library(recording: &Recording) -> Entry<'_> {
    Entry::new("library", readers::library(BLOCK), recording)
}

fn in_blocks(size: usize, recording: &Recording) -> Entry<'_> {
    let name = format!("library, blocks of {size}");
    Entry::new(name, readers::library(size), recording)
}

/// None where spandsp is not installed.
fn spandsp(recording: &Recording, size: usize, bar: Bar) -> Option<Entry<'_>> {
    let reader = spandsp::reader(size)?;
    Some(Entry::new("spandsp", reader, recording).with(bar))
}
