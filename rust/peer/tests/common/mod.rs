//! Helpers for the tests that read files.

use std::fs;
use std::path::{Path, PathBuf};

/// The directory that an environment variable names, else this one beside the workspace.
pub fn directory(variable: &str, default: &str) -> PathBuf {
    match std::env::var_os(variable) {
        Some(path) => PathBuf::from(path),
        None => Path::new(env!("CARGO_MANIFEST_DIR")).join("../../tests").join(default),
    }
}

/// The files of a directory with this ending, in the order of their names. None at all is a failure.
#[allow(dead_code)]
pub fn files(directory: &Path, ending: &str) -> Vec<PathBuf> {
    let entries = fs::read_dir(directory).unwrap_or_else(|error| panic!("{}: {error}", directory.display()));
    let mut found: Vec<PathBuf> = entries
        .map(|entry| entry.unwrap().path())
        .filter(|path| path.extension().is_some_and(|e| e == ending))
        .collect();
    found.sort();
    assert!(!found.is_empty(), "no .{ending} file in {}", directory.display());
    found
}

/// The whole text of a file.
#[allow(dead_code)]
pub fn text(path: &Path) -> String {
    fs::read_to_string(path).unwrap_or_else(|error| panic!("{}: {error}", path.display()))
}
