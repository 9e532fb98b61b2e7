//! What the tests share: the command run, folders of their own, bundles, documents read.
#![allow(dead_code)]

pub mod json;

use std::ffi::OsStr;
use std::fs;
use std::io::Write;
use std::path::{Path, PathBuf};
use std::process::{Command, Output, Stdio};
use std::sync::atomic::{AtomicUsize, Ordering};

/// What a run printed, said and ended with.
#[derive(Debug)]
pub struct Ran {
    pub out: Vec<u8>,
    pub said: String,
    pub status: Option<i32>,
}

impl Ran {
    pub fn text(&self) -> &str {
        std::str::from_utf8(&self.out).unwrap()
    }

    pub fn document(&self) -> json::Value {
        json::parse(self.text())
    }
}

impl From<Output> for Ran {
    fn from(output: Output) -> Ran {
        let said = String::from_utf8(output.stderr).unwrap();
        assert!(!said.contains("panicked"), "{said}");
        Ran { out: output.stdout, said, status: output.status.code() }
    }
}

pub fn command() -> Command {
    let mut command = Command::new(env!("CARGO_BIN_EXE_puddockle"));
    command.current_dir(root()).stdin(Stdio::null());
    command
}

/// Runs the command at the root of the repository.
pub fn run<S: AsRef<OsStr>>(words: impl IntoIterator<Item = S>) -> Ran {
    command().args(words).output().unwrap().into()
}

/// Runs it with so much on standard input.
pub fn run_on<S: AsRef<OsStr>>(input: &[u8], words: impl IntoIterator<Item = S>) -> Ran {
    let mut command = command();
    let mut child =
        command.args(words).stdin(Stdio::piped()).stdout(Stdio::piped()).stderr(Stdio::piped()).spawn().unwrap();
    // The command may end before it has read all.
    let _ = child.stdin.take().unwrap().write_all(input);
    child.wait_with_output().unwrap().into()
}

/// Runs a line of shell in which `$P` is the command.
pub fn shell(line: &str, folder: &Path) -> Ran {
    let mut command = Command::new("sh");
    command.arg("-c").arg(line).current_dir(folder).env("P", env!("CARGO_BIN_EXE_puddockle"));
    command.output().unwrap().into()
}

/// A run that must have failed with a message and printed nothing.
#[track_caller]
pub fn fails(ran: Ran, message: &str) {
    assert_eq!((ran.status, ran.text()), (Some(2), ""), "{}", ran.said);
    assert!(ran.said.starts_with("puddockle: ") && ran.said.contains(message), "{}", ran.said);
}

pub fn root() -> PathBuf {
    Path::new(env!("CARGO_MANIFEST_DIR")).join("../..").canonicalize().unwrap()
}

/// The bundles of the example and test recordings.
pub fn recordings() -> Vec<PathBuf> {
    let folders = ["examples", "tests/recordings", "tests/recordings/damaged"];
    let files = folders.iter().flat_map(|folder| fs::read_dir(root().join(folder)).unwrap());
    let files = files.map(|entry| entry.unwrap().path());
    let mut files: Vec<PathBuf> = files.filter(|path| path.extension().is_some_and(|end| end == "bin")).collect();
    files.sort();
    assert!(files.len() > 50, "{}", files.len());
    files
}

/// The units of what `puddockle units -o -` writes, each after its length in 4 bytes.
pub fn units_of(mut resolved: &[u8]) -> Vec<Vec<u8>> {
    let mut units = Vec::new();
    while let Some((length, rest)) = resolved.split_first_chunk::<4>() {
        let (unit, rest) = rest.split_at(u32::from_be_bytes(*length) as usize);
        units.push(unit.to_vec());
        resolved = rest;
    }
    units
}

/// A new folder, removed at the end.
pub struct Folder(pub PathBuf);

impl Folder {
    pub fn new() -> Folder {
        static NEXT: AtomicUsize = AtomicUsize::new(0);
        let name = format!("puddockle-test-{}-{}", std::process::id(), NEXT.fetch_add(1, Ordering::Relaxed));
        let path = std::env::temp_dir().join(name);
        fs::create_dir(&path).unwrap();
        Folder(path)
    }

    pub fn file(&self, name: impl AsRef<Path>, bytes: &[u8]) -> PathBuf {
        let path = self.0.join(name);
        fs::write(&path, bytes).unwrap();
        path
    }

    /// Where a file of that name would be.
    pub fn path(&self, name: &str) -> String {
        self.0.join(name).into_os_string().into_string().unwrap()
    }

    /// The names of its files.
    pub fn names(&self) -> Vec<String> {
        let names = fs::read_dir(&self.0).unwrap().map(|entry| entry.unwrap().file_name().into_string().unwrap());
        let mut names: Vec<String> = names.collect();
        names.sort();
        names
    }
}

impl Drop for Folder {
    fn drop(&mut self) {
        let _ = fs::remove_dir_all(&self.0);
    }
}

pub const AVC: &[u8] = &[1, 66, 0, 30, 0xFC, 0xE0, 0];
pub const SVC: &[u8] = &[1, 83, 0, 30, 0xFC, 0, 0];
/// Records with L = 4.
pub const AVC_L4: &[u8] = &[1, 66, 0, 30, 0xFF, 0xE0, 0];
pub const SVC_L4: &[u8] = &[1, 83, 0, 30, 0xFF, 0, 0];

/// A bundle (docs/FORMAT.md, Making a bundle).
pub fn bundle(tracks: &[(u8, &[u8])], references: &[(u8, u8)], samples: &[(u8, u64, Vec<u8>)]) -> Vec<u8> {
    let mut b = vec![tracks.len() as u8];
    for (kind, record) in tracks {
        b.push(*kind);
        b.extend((record.len() as u16).to_be_bytes());
        b.extend(*record);
    }
    b.push(references.len() as u8);
    for (from, to) in references {
        b.extend([*from, *to]);
    }
    b.extend((samples.len() as u16).to_be_bytes());
    for (track, time, bytes) in samples {
        b.push(*track);
        b.extend(time.to_be_bytes());
        b.extend((bytes.len() as u32).to_be_bytes());
    }
    let total: usize = samples.iter().map(|sample| sample.2.len()).sum();
    b.extend((total as u32).to_be_bytes());
    for sample in samples {
        b.extend(&sample.2);
    }
    b
}

/// A good bundle of exactly so many bytes, with 4,096 samples of one unit.
pub fn good(size: usize) -> Vec<u8> {
    let head = 1 + 3 + 7 + 1 + 2 + 4096 * 13 + 4;
    let samples: Vec<_> = (0..4096usize)
        .map(|index| {
            let length = (size - head) / 4096 + (index < (size - head) % 4096) as usize;
            let mut bytes = (length as u32 - 4).to_be_bytes().to_vec();
            bytes.resize(length, 0x65);
            (1, u64::MAX - 4096 + index as u64, bytes)
        })
        .collect();
    let bundle = bundle(&[(0, AVC_L4)], &[], &samples);
    assert_eq!(bundle.len(), size);
    bundle
}
