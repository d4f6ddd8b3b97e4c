//! With the feature `spandsp`, compiles the C file against the installed header
//! and links it and the library.

use std::env;
use std::path::Path;
use std::process::Command;

const SOURCE: &str = "src/spandsp.c";

fn main() {
    println!("cargo:rerun-if-changed={SOURCE}");
    if env::var_os("CARGO_FEATURE_SPANDSP").is_none() {
        return;
    }
    let folder = env::var_os("OUT_DIR").expect("cargo names a folder for what is built");
    let object = Path::new(&folder).join("spandsp.o");
    let status = Command::new("cc")
        .args(["-O2", "-Wall", "-Wextra", "-c", SOURCE, "-o"])
        .arg(&object)
        .status()
        .expect("cc runs");
    assert!(status.success(), "{SOURCE} does not compile");
    // The library stands behind the object that needs it, or the linker drops it.
    println!("cargo:rustc-link-arg={}", object.display());
    println!("cargo:rustc-link-arg=-lspandsp");
}
