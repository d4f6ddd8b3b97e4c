//! Prints the picture of `docs/windows.svg`:
//! `cargo run --example windows > ../docs/windows.svg`.

use reference::picture;
use reference::sine::Sines;

fn main() {
    print!("{}", picture::windows(&Sines::new()));
}
