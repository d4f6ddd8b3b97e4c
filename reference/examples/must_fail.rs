//! Makes the tables of `docs/MUST-FAIL.md` anew, from the edits and from what
//! `target/must-fail.log` says of them: `cargo run --offline --example must_fail`.

use reference::must_fail;
use std::fs;
use std::path::Path;
use std::process::ExitCode;

fn main() -> ExitCode {
    let root = Path::new(env!("CARGO_MANIFEST_DIR")).join("..");
    let made = must_fail::document(&root).and_then(|text| {
        let path = root.join("docs/MUST-FAIL.md");
        fs::write(&path, text).map_err(|fault| format!("{}: {fault}", path.display()))
    });
    match made {
        Ok(()) => ExitCode::SUCCESS,
        Err(faults) => {
            eprintln!("docs/MUST-FAIL.md stays as it was:\n{faults}");
            ExitCode::FAILURE
        }
    }
}
