//! The header and this crate say the same: limits, sizes, refusals, version, functions.

use std::collections::{BTreeMap, BTreeSet};

use puddockle::*;

const HEADER: &str = include_str!("../../../include/puddockle.h");
const RAW: &str = include_str!("../src/raw.rs");

/// The constants of the header that are plain numbers.
fn constants() -> BTreeMap<&'static str, u64> {
    let mut found = BTreeMap::new();
    for line in HEADER.lines() {
        let define = line.strip_prefix("#define ").and_then(|rest| rest.split_once(' '));
        let Some((name, rest)) = define.or_else(|| line.trim().split_once(" = ")) else { continue };
        let number = rest.split([',', ' ']).next().unwrap_or("");
        if let (true, Ok(number)) = (name.starts_with("PUDDOCKLE_"), number.parse()) {
            assert!(found.insert(name, number).is_none(), "{name} stands twice");
        }
    }
    found
}

#[test]
fn limits_and_sizes() {
    let constants = constants();
    for (name, value) in [
        ("PUDDOCKLE_BUNDLE_MOST", BUNDLE_MOST),
        ("PUDDOCKLE_TRACKS_MOST", TRACKS_MOST),
        ("PUDDOCKLE_REFERENCES_MOST", REFERENCES_MOST),
        ("PUDDOCKLE_SAMPLES_MOST", SAMPLES_MOST),
        ("PUDDOCKLE_LINE", LINE),
        ("PUDDOCKLE_NAMES_ENTRY", NAMES_ENTRY),
        ("PUDDOCKLE_CHANGE", CHANGE),
        ("PUDDOCKLE_CHANGE_DROP", ChangeKind::Drop as usize),
        ("PUDDOCKLE_CHANGE_ZEROING", ChangeKind::Zeroing as usize),
        ("PUDDOCKLE_SPAN", SPAN),
        ("PUDDOCKLE_FIELDS", raw::FIELDS),
        ("PUDDOCKLE_AVC", Kind::Avc as usize),
        ("PUDDOCKLE_SVC", Kind::Svc as usize),
    ] {
        assert_eq!(constants[name], value as u64, "{name}");
    }
    assert!(HEADER.contains("PUDDOCKLE_LINES_MOST = PUDDOCKLE_SAMPLES_MOST * PUDDOCKLE_LINE,"));
    assert_eq!(LINES_MOST, SAMPLES_MOST * LINE);
}

#[test]
fn version() {
    let constants = constants();
    let [major, minor, patch] =
        ["MAJOR", "MINOR", "PATCH"].map(|part| constants[&*format!("PUDDOCKLE_VERSION_{part}")]);
    assert_eq!(VERSION, format!("{major}.{minor}.{patch}"));
    assert!(HEADER.contains(&format!("#define PUDDOCKLE_VERSION \"{VERSION}\"\n")));
}

/// The refusals are 1 to 34, each once, and each has a meaning of its own here.
#[test]
fn refusals() {
    let numbers: BTreeSet<u64> =
        constants().iter().filter(|(name, _)| name.starts_with("PUDDOCKLE_REFUSED_")).map(|(_, &n)| n).collect();
    assert_eq!(numbers, (1..=34).collect());
    let meaning = |number| Refusal { number, place: 0 }.meaning();
    let meanings: BTreeSet<&str> = (1..=34).map(meaning).collect();
    assert_eq!(meanings.len(), 34);
    assert!(!meanings.contains(meaning(35)) && meaning(0) == meaning(35));
}

/// A parameter: its name, its type as Rust has it.
type Parameter = (String, String);

/// The functions that a text declares. After the parameters stands `end`.
fn functions(
    text: &str,
    start: &str,
    parameter: impl Fn(&str) -> Parameter,
    end: &str,
) -> BTreeMap<String, Vec<Parameter>> {
    text.split(start)
        .skip(1)
        .map(|rest| {
            let (name, rest) = rest.split_once('(').unwrap();
            let (parameters, rest) = rest.split_once(')').unwrap();
            assert!(rest.starts_with(end), "{name}");
            let parameters = parameters.split(',').map(str::trim).filter(|words| !words.is_empty());
            (name.to_string(), parameters.map(&parameter).collect())
        })
        .collect()
}

/// `const uint8_t *bundle` is `bundle` and `*const u8`.
fn c_parameter(words: &str) -> Parameter {
    let (rest, name) = words.split_at(words.rfind([' ', '*']).unwrap() + 1);
    let (pointer, rest) = match rest.trim().strip_suffix('*') {
        None => ("", rest),
        Some(rest) => rest.strip_prefix("const ").map_or(("*mut ", rest), |rest| ("*const ", rest)),
    };
    let number = match rest.trim() {
        "uint8_t" => "u8",
        "uint32_t" => "u32",
        "uint64_t" => "u64",
        "size_t" => "usize",
        other => panic!("{words}: unknown type {other}"),
    };
    (name.to_string(), format!("{pointer}{number}"))
}

fn rust_parameter(words: &str) -> Parameter {
    let (name, kind) = words.split_once(": ").unwrap();
    (name.to_string(), kind.to_string())
}

#[test]
fn declarations() {
    let header = functions(HEADER, "\nuint32_t ", c_parameter, ";");
    let raw = functions(RAW, "pub fn ", rust_parameter, " -> u32;");
    assert_eq!(header.len(), 19);
    assert_eq!(header, raw);
}
