//! Files read.

use std::ffi::OsStr;
use std::fs::File;
use std::io::{self, Read};
use std::os::fd::AsFd;

use puddockle::BUNDLE_MOST;

use crate::output::say;
use crate::words::shown;

/// The bytes of a file that should be a bundle, or so many of them that the library refuses them as too long.
pub fn bundle(name: &OsStr) -> Result<Vec<u8>, String> {
    read(name, BUNDLE_MOST + 1)
}

/// The bytes of a file, at most so many, or why it cannot be read. `-` is standard input.
pub fn read(name: &OsStr, most: usize) -> Result<Vec<u8>, String> {
    let mut bytes = Vec::new();
    let from = if name == "-" { standard() } else { File::open(name) };
    from.and_then(|file| file.take(most as u64).read_to_end(&mut bytes))
        .map_err(|error| format!("{}: cannot be read: {error}", title(name)))?;
    if bytes.is_empty() {
        say(format!("{} is empty{}", title(name), if name == "-" { " or closed" } else { "" }));
    }
    Ok(bytes)
}

/// Standard input, not as `std::io::Stdin`, which takes a descriptor that cannot be read for an empty file.
fn standard() -> io::Result<File> {
    io::stdin().as_fd().try_clone_to_owned().map(File::from)
}

/// A file's name in a message.
pub fn title(name: &OsStr) -> String {
    match name.to_str() {
        Some("-") => "standard input".into(),
        _ => shown(name),
    }
}
