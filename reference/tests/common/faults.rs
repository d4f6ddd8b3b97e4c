//! The programs when a read or a write goes wrong: by `faults.c`, which is
//! preloaded, or on a descriptor that does not wait.

use super::process::{input_of, path};
use std::io::Write;
use std::path::{Path, PathBuf};
use std::process::{Child, Command, Stdio};
use std::sync::OnceLock;
use std::thread;

pub const EINTR: i32 = 4;
pub const EAGAIN: i32 = 11;

/// Errors behind which nothing more can be had, and their texts.
pub const FAILURES: [(i32, &str); 6] = [
    (5, "Input/output error"),
    (9, "Bad file descriptor"),
    (21, "Is a directory"),
    (22, "Invalid argument"),
    (28, "No space left on device"),
    (116, "Stale file handle"),
];

/// What a program gave. It must end with status 0.
pub struct Given {
    pub printed: Vec<u8>,
    pub report: String,
}

impl Given {
    /// It printed this, and reports no error.
    pub fn assert_printed(&self, expected: &[u8], what: impl Fn() -> String) {
        assert_eq!(self.report, "", "{}", what());
        assert!(self.printed == expected, "{}", what());
    }

    /// It printed this, and reports a failure in one line.
    pub fn assert_failed(&self, printed: &[u8], report: &str, what: impl Fn() -> String) {
        assert_eq!(self.report, format!("{report}\n"), "{}", what());
        assert!(self.printed == printed, "{}", what());
    }
}

/// What a program that reads this gives.
pub fn given(mut program: Child, input: &[u8]) -> Given {
    let mut end = input_of(&mut program);
    let input = input.to_vec();
    // A program that fails reads no further.
    let feeding = thread::spawn(move || end.write_all(&input));
    let output = program.wait_with_output().expect("the program ends");
    let _ = feeding.join().expect("it only writes");
    assert!(output.status.success(), "{:?}", output.status);
    Given {
        printed: output.stdout,
        report: String::from_utf8(output.stderr).expect("it is a text"),
    }
}

/// What a program gives when its reads and writes go as the lists say.
pub fn with_faults(program: &str, input: &[u8], reads: &str, writes: &str) -> Given {
    static LIBRARY: OnceLock<PathBuf> = OnceLock::new();
    let library = LIBRARY.get_or_init(|| compiled("faults.c", "faults.so", &["-shared", "-fPIC"]));
    let program = piped(
        Command::new(path(program))
            .env("LD_PRELOAD", library)
            .env("READS", reads)
            .env("WRITES", writes),
    );
    given(program, input)
}

/// A list of calls that move so many bytes, by pieces, and what comes then.
pub fn after(bytes: usize, piece: usize, then: &str) -> String {
    let whole = format!("{piece} ").repeat(bytes / piece);
    match bytes % piece {
        0 => whole + then,
        rest => format!("{whole}{rest} {then}"),
    }
}

/// Starts a program with a descriptor on which no call waits: `in`, or `full`
/// for an output that has no room left.
pub fn not_waiting(which: &str, program: &str) -> Child {
    static HELPER: OnceLock<PathBuf> = OnceLock::new();
    let helper = HELPER.get_or_init(|| compiled("nonblocking.c", "nonblocking", &[]));
    piped(Command::new(helper).args([which, &path(program)]))
}

fn piped(command: &mut Command) -> Child {
    command
        .stdin(Stdio::piped())
        .stdout(Stdio::piped())
        .stderr(Stdio::piped())
        .spawn()
        .expect("the program is built before these tests")
}

/// Compiles a file of this folder. Any warning stops that.
fn compiled(source: &str, name: &str, words: &[&str]) -> PathBuf {
    let folder = concat!(env!("CARGO_MANIFEST_DIR"), "/tests/common");
    let made = Path::new(env!("CARGO_TARGET_TMPDIR")).join(name);
    let status = Command::new("cc")
        .args(["-std=gnu99", "-Wall", "-Wextra", "-Werror"])
        .args(words)
        .arg("-o")
        .arg(&made)
        .arg(Path::new(folder).join(source))
        .status();
    assert!(status.expect("cc is on the PATH").success(), "{source}");
    made
}
