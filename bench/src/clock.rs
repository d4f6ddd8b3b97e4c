//! CPU time, user and system, which counts no time that other programs take.

#![allow(unsafe_code)]

use std::ffi::{c_int, c_long};
use std::time::Duration;

/// C's `struct timeval` on x86-64 Linux.
#[repr(C)]
#[derive(Default)]
struct Time {
    seconds: c_long,
    microseconds: c_long,
}

/// C's `struct rusage` there.
#[repr(C)]
#[derive(Default)]
struct Usage {
    user: Time,
    system: Time,
    others: [c_long; 14],
}

extern "C" {
    fn getrusage(who: c_int, usage: *mut Usage) -> c_int;
}

/// Whose time is measured, by the numbers of `getrusage`.
#[derive(Clone, Copy)]
pub enum Of {
    ThisProcess = 0,
    /// Those that have ended and were waited for.
    Children = -1,
}

impl From<Time> for Duration {
    fn from(time: Time) -> Duration {
        let seconds = Duration::from_secs(time.seconds as u64);
        seconds + Duration::from_micros(time.microseconds as u64)
    }
}

fn used(of: Of) -> Duration {
    let mut usage = Usage::default();
    // SAFETY: the pointer is to a place of the type that the function fills.
    let status = unsafe { getrusage(of as c_int, &mut usage) };
    assert_eq!(status, 0, "getrusage");
    Duration::from(usage.user) + Duration::from(usage.system)
}

/// The time that is used while the work is done, and what the work gives.
pub fn timed<T>(of: Of, work: impl FnOnce() -> T) -> (Duration, T) {
    let before = used(of);
    let result = work();
    (used(of) - before, result)
}
