//! spandsp's receiver, which is called from C.

#![allow(unsafe_code)]

use crate::clock::{self, Of};
use crate::readers::{Reader, Reading};
use crate::recording::Recording;
use reference::receiver::places_needed;

extern "C" {
    /// In `spandsp.c`.
    fn spandsp_read(
        band: u8,
        samples: *const i16,
        length: usize,
        block: usize,
        places: *mut u8,
        room: usize,
    ) -> usize;
}

/// Takes this many samples in a call.
pub struct Spandsp {
    size: usize,
}

/// None where spandsp is not installed, which is here.
pub fn reader(size: usize) -> Option<Spandsp> {
    Some(Spandsp { size })
}

impl Reader for Spandsp {
    fn read(&self, recording: &Recording) -> Reading {
        let samples = &recording.samples;
        // More than enough: a character takes 320 samples.
        let mut characters = vec![u8::MAX; places_needed(samples.len())];
        // SAFETY: both pointers are to slices borrowed for the call, and each
        // has its length handed with it.
        let (time, count) = clock::timed(Of::ThisProcess, || unsafe {
            spandsp_read(
                recording.band,
                samples.as_ptr(),
                samples.len(),
                self.size,
                characters.as_mut_ptr(),
                characters.len(),
            )
        });
        characters.truncate(count);
        Reading { time, characters }
    }
}
