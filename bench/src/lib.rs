//! What the two programs of this package share: recordings, those that read
//! them, and how well a message was read.

#![deny(unsafe_code)]

pub mod clock;
pub mod minimodem;
pub mod readers;
pub mod recording;
pub mod score;
#[cfg_attr(not(feature = "spandsp"), path = "no_spandsp.rs")]
pub mod spandsp;
