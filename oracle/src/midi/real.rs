//! Files that other programs wrote, in tests/midi, each with its expectation beside it.

use super::compare::Midi;
use super::expected::{check, parsed};
use crate::compare::Runner;
use std::path::{Path, PathBuf};

const FOLDER: &str = "tests/midi";

pub fn all(midi: &mut Midi, runner: &mut Runner, home: &Path) {
    let entries = std::fs::read_dir(home.join(FOLDER)).into_iter().flatten().flatten();
    let mut files: Vec<PathBuf> =
        entries.map(|entry| entry.path()).filter(|path| path.extension() == Some("mid".as_ref())).collect();
    files.sort();
    if files.is_empty() {
        midi.stray(format!("{FOLDER} has no files"));
    }
    for path in files {
        let what = path.display().to_string();
        let bytes = std::fs::read(&path).unwrap_or_default();
        let text = std::fs::read_to_string(path.with_extension("txt")).unwrap_or_default();
        match parsed(&text) {
            Some(expected) => check(midi, runner, &what, &bytes, &expected),
            None => midi.stray(format!("{what} has no expectation")),
        }
    }
}
