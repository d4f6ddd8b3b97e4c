//! minimodem, a program that reads sound files.

use crate::clock::{self, Of};
use crate::readers::{Reader, Reading};
use crate::recording::Recording;
use reference::transmitter::STEPS;
use std::fs;
use std::path::{Path, PathBuf};
use std::process::Command;

const PROGRAM: &str = "minimodem";
/// Of 9,600 samples a second, with 1,920 steps to a cycle.
const HERTZ_PER_STEP: u16 = 5;

pub fn is_installed() -> bool {
    Command::new(PROGRAM).arg("--version").output().is_ok()
}

/// Reads the recording's WAV file.
pub struct Minimodem {
    file: PathBuf,
}

impl Minimodem {
    /// Writes the file into the folder.
    pub fn new(recording: &Recording, folder: &Path) -> Minimodem {
        let file = folder.join("recording.wav");
        fs::write(&file, recording.wav()).expect("the WAV file is written");
        Minimodem { file }
    }
}

impl Reader for Minimodem {
    /// The time is that of the whole process, which starts, reads the file and
    /// writes each character.
    fn read(&self, recording: &Recording) -> Reading {
        let steps = STEPS[usize::from(recording.band) - 1];
        let [space, mark] = steps.map(|step| (step * HERTZ_PER_STEP).to_string());
        let mut command = Command::new(PROGRAM);
        command.args(["--rx", "--quiet", "--space", &space, "--mark", &mark]);
        command.arg("--file").arg(&self.file).arg("300");
        let (time, output) = clock::timed(Of::Children, || command.output());
        let output = output.expect("minimodem runs");
        assert!(output.status.success(), "minimodem: {}", output.status);
        Reading {
            time,
            characters: output.stdout,
        }
    }
}
