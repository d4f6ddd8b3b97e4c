//! Files of `docs/` that a program makes.

/// Stops at the first line in which a file differs from what the program of that
/// name makes now.
pub fn assert_made(file: &str, made: &str, program: &str) {
    if file != made {
        let pairs = file.lines().zip(made.lines());
        let same = pairs.take_while(|(old, new)| old == new).count();
        panic!(
            "line {} differs: make it with examples/{program}.rs",
            same + 1
        );
    }
}
