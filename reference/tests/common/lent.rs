//! Lists that are lent to a call, with guards around them.

/// Places before and behind the lent ones, to find a write outside them.
const GUARD: usize = 8;

/// A list of which each place holds a number of its own, its fill, which must not
/// be one that a call writes.
pub struct Lent<T> {
    places: Vec<T>,
    fill: fn(usize) -> T,
}

impl<T: Copy + PartialEq> Lent<T> {
    pub fn new(length: usize, fill: fn(usize) -> T) -> Lent<T> {
        let places = (0..length + 2 * GUARD).map(fill).collect();
        Lent { places, fill }
    }

    /// What is lent.
    pub fn places(&mut self) -> &mut [T] {
        let end = self.places.len() - GUARD;
        &mut self.places[GUARD..end]
    }

    /// What was lent as it stands on return, of which no place but the first
    /// `count` may have changed, nor any around it.
    pub fn returned(mut self, count: usize, what: impl Fn() -> String) -> Vec<T> {
        let length = self.places().len();
        assert!(count <= length, "{}: count {count}, {length}", what());
        let written = GUARD..GUARD + count;
        let changed =
            |&place: &usize| !written.contains(&place) && self.places[place] != (self.fill)(place);
        if let Some(place) = (0..self.places.len()).find(changed) {
            panic!("{}: place {place} - {GUARD} changed", what());
        }
        self.places.truncate(GUARD + length);
        self.places.drain(..GUARD);
        self.places
    }
}

/// Differs from place to place and is no sample that is sent or read, altered or
/// not: those are at most 8191 either way.
pub fn no_sample(place: usize) -> i16 {
    let above = i16::try_from(8_192 + place / 2 % 24_000).expect("at most 32191");
    [above, -above][place % 2]
}

/// Differs from place to place and is never an event, of a receiver or of a tap, nor
/// an index in a block.
pub fn no_event(place: usize) -> u16 {
    u16::try_from(16_384 + place % 49_000).expect("at most 65383")
}

/// Differs from place to place and is never a difference, which is not below 0.
pub fn no_difference(place: usize) -> i64 {
    -1 - i64::try_from(place).expect("a short list")
}

/// Differs from place to place and is no byte of a sheet.
pub fn no_text(place: usize) -> u8 {
    128 + u8::try_from(place % 128).expect("below 128")
}
