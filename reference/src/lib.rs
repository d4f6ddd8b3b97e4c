//! A second modem to compare the first with: the sine, the transmitter, the
//! receiver, the tap, the sheet and the two programs, written from the specification
//! and from none of the product's code.
//! Decision 16 of `docs/DECISIONS.md` says what else was known.
//! The tests in `tests/` compare it with the static library and the programs.
//! `in_place`, `shifted_window` and `asked_windows` are the receiver again,
//! written for speed, the last by the method of the product's code; the benchmark
//! measures the library beside them.
//! `picture` draws `docs/windows.svg` from the same sine, transmitter and sums.
//! `must_fail` makes the tables of `docs/MUST-FAIL.md`, and has nothing of a modem.

#![deny(unsafe_code)]

pub mod asked_windows;
pub mod disturbance;
pub mod in_place;
pub mod indexed;
pub mod library;
pub mod must_fail;
mod natural;
pub mod picture;
pub mod programs;
pub mod random;
pub mod receiver;
pub mod sheet;
pub mod shifted_window;
pub mod sine;
pub mod tap;
pub mod transmitter;
