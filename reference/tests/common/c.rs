//! C files compiled against the library, and tools that look at it.

use std::io::Write;
use std::path::{Path, PathBuf};
use std::process::{Command, Output};
use std::sync::OnceLock;

pub const WARNINGS: [&str; 5] = ["-pedantic", "-Wall", "-Wextra", "-Wconversion", "-Werror"];

/// A path in the repository.
pub fn file(name: &str) -> String {
    format!("{}/../{name}", env!("CARGO_MANIFEST_DIR"))
}

/// The header without its comments.
pub fn header_code() -> String {
    let text = std::fs::read_to_string(file("c/modem.h")).expect("the header");
    let mut parts = text.split("/*");
    let first = parts.next().unwrap_or("").to_string();
    let behind = |part: &str| part.split_once("*/").expect("a comment ends").1.to_string();
    parts.fold(first, |code, part| code + &behind(part))
}

/// A file for what the tests make.
pub fn made(name: &str) -> PathBuf {
    Path::new(env!("CARGO_TARGET_TMPDIR")).join(name)
}

/// Writes such a file, and gives its path.
pub fn written(name: &str, text: &str) -> String {
    let path = made(name);
    std::fs::write(&path, text).expect("it can be written");
    path.to_str().expect("UTF-8").to_string()
}

pub fn run(program: impl AsRef<std::ffi::OsStr>, arguments: &[&str]) -> Output {
    let name = program.as_ref().to_owned();
    let output = Command::new(&name).args(arguments).output();
    output.unwrap_or_else(|error| panic!("{name:?}: {error}"))
}

/// What a tool prints, which must end with status 0.
pub fn printed(tool: impl AsRef<std::ffi::OsStr>, arguments: &[&str]) -> String {
    let output = run(tool, arguments);
    let errors = String::from_utf8_lossy(&output.stderr);
    assert!(output.status.success(), "{arguments:?}: {errors}");
    String::from_utf8(output.stdout).expect("it prints text")
}

/// Where the library is.
pub fn library() -> String {
    file("target/lib")
}

/// How a program gets the library.
#[derive(Clone, Copy, Debug, PartialEq, Eq)]
pub enum Linked {
    Static,
    Shared,
}

/// Compiles a C file to a program of this name. Any warning is an error.
pub fn compiled(name: &str, source: &str, more: &[&str], linked: Linked) -> PathBuf {
    let program = made(name);
    let (include, folder) = (format!("-I{}", file("c")), library());
    let archive = format!("{folder}/libmodem.a");
    let (search, path) = (format!("-L{folder}"), format!("-Wl,-rpath,{folder}"));
    let link = match linked {
        Linked::Static => vec![archive.as_str()],
        Linked::Shared => vec![&search, &path, "-lmodem"],
    };
    let program_name = program.to_str().expect("a path in UTF-8");
    let arguments = ["-std=c99", &include, "-o", program_name, source];
    printed("cc", &[&arguments[..], &WARNINGS, more, &link].concat());
    program
}

pub const SANITIZERS: &str = "-fsanitize=address,undefined";

/// A program sanitized is compiled and runs here.
pub fn has_sanitizers() -> bool {
    static FOUND: OnceLock<bool> = OnceLock::new();
    *FOUND.get_or_init(|| {
        let source = written("nothing.c", "int main(void) { return 0; }\n");
        let program = made("nothing");
        let name = program.to_str().expect("UTF-8");
        let compiled = run("cc", &[SANITIZERS, "-o", name, &source]);
        let found = compiled.status.success() && run(&program, &[]).status.success();
        told("the sanitizers", found)
    })
}

pub fn has_valgrind() -> bool {
    static FOUND: OnceLock<bool> = OnceLock::new();
    *FOUND.get_or_init(|| {
        let version = Command::new("valgrind").arg("--version").output();
        told(
            "valgrind",
            version.is_ok_and(|output| output.status.success()),
        )
    })
}

/// Says so if it is not, and not by a macro, of which nobody sees the output when a
/// test passes.
fn told(what: &str, found: bool) -> bool {
    if !found {
        let line = format!("{what}: not here, so nothing was run with it\n");
        std::io::stderr().write_all(line.as_bytes()).expect("told");
    }
    found
}
