//! Stands in for `spandsp.rs` where spandsp is not installed.

use crate::readers::{Reader, Reading};
use crate::recording::Recording;

/// There is none.
pub enum Spandsp {}

impl Reader for Spandsp {
    fn read(&self, _: &Recording) -> Reading {
        match *self {}
    }
}

pub fn reader(_: usize) -> Option<Spandsp> {
    None
}
