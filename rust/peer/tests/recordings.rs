//! Real recordings, and damaged ones: the directory that PUDDOCKLE_RECORDINGS names (else tests/recordings beside
//! this workspace). X.bin is a bundle, X.out the program's whole output, X.tsv a line a sample.
//! `damaged/` has the same; `records/` has records, whose answers stand in README.md.

mod common;
#[path = "common/sha256.rs"]
mod digest;

use std::fs;
use std::path::Path;

use peer::audit::{states, State};
use peer::bundle::Bundle;
use peer::kind::Kind;
use peer::program;
use peer::record::{self, Trailer};
use peer::resolve::resolve;
use peer::stream::stream;

#[test]
fn program_output() {
    let directory = common::directory("PUDDOCKLE_RECORDINGS", "recordings");
    for directory in [directory.clone(), directory.join("damaged")] {
        let bundles = common::files(&directory, "bin");
        for path in &bundles {
            let expected = common::text(&path.with_extension("out"));
            assert_eq!(program::text(&fs::read(path).unwrap()), expected, "{}", path.display());
        }
        println!("{} outputs", bundles.len());
    }
}

#[test]
fn tables() {
    let tables = common::files(&common::directory("PUDDOCKLE_RECORDINGS", "recordings"), "tsv");
    let mut lines = 0;
    for path in &tables {
        let bytes = fs::read(path.with_extension("bin")).unwrap();
        let bundle = Bundle::read(&bytes).unwrap();
        let given: Vec<String> = bundle
            .numbers()
            .zip(states(&bundle))
            .map(|(number, state)| {
                let sample = bundle.sample(number);
                let head = format!("{}\t{}\t{}\t{}", number.0, sample.track.0, sample.time, sample.length);
                format!("{head}\t{}", tail(&bytes, number.0, state))
            })
            .collect();
        let text = common::text(path);
        let expected: Vec<&str> = text.lines().collect();
        assert_eq!(given, expected, "{}", path.display());
        lines += given.len();
    }
    println!("{} tables, {lines} samples", tables.len());
}

/// State, units (or refusal), place, resolved length and the fronts of two digests: of the output and of the byte stream.
fn tail(bytes: &[u8], number: usize, state: State) -> String {
    let (word, units) = match state {
        State::Refused(no) => return format!("refused\t{}\t{}\t-\t-\t-", no.number, no.place),
        State::Empty => ("empty", 0),
        State::Passed { units } => ("passed", units),
    };
    let mut out = vec![0; 1 << 20];
    let count = resolve(bytes, number as u64, &mut out).unwrap();
    format!("{word}\t{units}\t0\t{count}\t{}\t{}", front(&out[..count]), stream_text(bytes, number as u64))
}

/// The front of the byte stream's digest, or its refusal.
fn stream_text(bytes: &[u8], number: u64) -> String {
    let mut out = vec![0; 1 << 20];
    match stream(bytes, number, &mut out) {
        Ok(count) => front(&out[..count]),
        Err(no) => format!("{}@{}", no.number, no.place),
    }
}

fn front(bytes: &[u8]) -> String {
    digest::sha256(bytes)[..32].to_string()
}

#[test]
fn records() {
    let directory = common::directory("PUDDOCKLE_RECORDINGS", "recordings");
    let readme = common::text(&directory.join("README.md"));
    let mut found = 0;
    for entry in fs::read_dir(directory.join("records")).unwrap() {
        let path = entry.unwrap().path();
        let name = path.file_name().unwrap().to_str().unwrap();
        let row = readme
            .lines()
            .find(|line| line.starts_with(&format!("| {name} |")))
            .unwrap_or_else(|| panic!("no row for {name}"));
        let columns: Vec<&str> = row.split('|').map(str::trim).collect();
        assert_eq!(record_text(&path), columns[3], "{name}");
        found += 1;
    }
    println!("{found} records");
    assert!(found > 0);
}

fn record_text(path: &Path) -> String {
    let kind = if path.extension().is_some_and(|e| e == "svcc") { Kind::Svc } else { Kind::Avc };
    match record::read(kind, &fs::read(path).unwrap()) {
        Err(no) => format!("refused {} at {}", no.number, no.place),
        Ok(r) => format!(
            "ok, L {}, sps {} pps {}, {}",
            r.length_size.bytes(),
            r.sequence.count,
            r.picture.count,
            match r.trailer {
                Trailer::None => "no trailer",
                Trailer::Absent => "trailer absent",
                Trailer::Present { .. } => "trailer",
            }
        ),
    }
}

#[test]
fn digest_of_abc() {
    let expected = "ba7816bf8f01cfea414140de5dae2223b00361a396177a9cb410ff61f20015ad";
    assert_eq!(digest::sha256(b"abc"), expected);
}
