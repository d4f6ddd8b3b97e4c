//! Links the library under test, which is built before this crate.

use std::env;
use std::path::Path;

fn main() {
    let here = env::var("CARGO_MANIFEST_DIR").expect("cargo names the package folder");
    let folder = Path::new(&here).join("../target/lib");
    let archive = folder.join("libmodem.a");
    println!("cargo:rerun-if-changed={}", archive.display());
    assert!(
        archive.exists(),
        "build it first, with `./run lib`: {} is missing",
        archive.display()
    );
    println!("cargo:rustc-link-search=native={}", folder.display());
    println!("cargo:rustc-link-lib=static=modem");
}
