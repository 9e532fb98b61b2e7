//! The real recordings and the damaged ones, through the safe functions: the directory that PUDDOCKLE_RECORDINGS names
//! (else tests/recordings beside this workspace).

#[path = "../../peer/tests/common/mod.rs"]
mod common;
#[path = "../../peer/tests/common/sha256.rs"]
mod digest;

use std::fs;

use puddockle::*;

/// The audit says what X.out says, whole.
#[test]
fn audits() {
    let directory = common::directory("PUDDOCKLE_RECORDINGS", "recordings");
    let mut compared = 0;
    for directory in [directory.clone(), directory.join("damaged")] {
        for path in common::files(&directory, "bin") {
            let expected = common::text(&path.with_extension("out"));
            assert_eq!(audit_text(&fs::read(&path).unwrap()), expected, "{}", path.display());
            compared += 1;
        }
    }
    println!("{compared} recordings");
}

fn audit_text(bundle: &[u8]) -> String {
    let mut lines = vec![0; LINES_MOST];
    let audit = match audit(bundle, &mut lines) {
        Ok(audit) => audit,
        Err(no) => return format!("bundle refused {} at {}\n", no.number, no.place),
    };
    let mut text = String::new();
    for (line, number) in audit.lines().zip(1..) {
        text += &match line.outcome {
            Outcome::Refused(no) => format!("{number} refused {} at {}\n", no.number, no.place),
            Outcome::Empty => format!("{number} empty\n"),
            Outcome::Passed => format!("{number} passed {}\n", line.units),
        };
    }
    let Tally { passed, empty, refused } = audit.tally;
    text + &format!("passed {passed} empty {empty} refused {refused}\n")
}

/// What each sample resolves to has the length and the digest of X.tsv, and its units one by one are the same bytes; its
/// byte stream has the digest there.
#[test]
fn tables() {
    let tables = common::files(&common::directory("PUDDOCKLE_RECORDINGS", "recordings"), "tsv");
    let mut samples = 0;
    for path in &tables {
        let bundle = fs::read(path.with_extension("bin")).unwrap();
        for row in common::text(path).lines() {
            let columns: Vec<&str> = row.split('\t').collect();
            let number = SampleNumber(columns[0].parse().unwrap());
            assert_eq!(sample_text(&bundle, number), columns[5..10].join("\t"), "{}: {row}", path.display());
            samples += 1;
        }
    }
    println!("{} tables, {samples} samples", tables.len());
}

/// Units (or refusal), place, resolved length and the fronts of two digests: of the output and of the byte stream.
fn sample_text(bundle: &[u8], number: SampleNumber) -> String {
    let mut out = vec![0; 1 << 20];
    let count = match resolve(bundle, number, &mut out) {
        Ok(count) => count,
        Err(no) => return format!("{}\t{}\t-\t-\t-", no.number, no.place),
    };
    let mut units = 0;
    let mut joined = Vec::new();
    while let Ok(unit) = unit(bundle, number, UnitNumber(units + 1)) {
        joined.extend((unit.len() as u32).to_be_bytes());
        joined.extend(unit);
        units += 1;
    }
    assert!(joined == out[..count], "the units one by one of {number:?}");
    format!("{units}\t0\t{count}\t{}\t{}", front(&out[..count]), stream_text(bundle, number))
}

/// The front of the byte stream's digest, or its refusal.
fn stream_text(bundle: &[u8], number: SampleNumber) -> String {
    let mut out = vec![0; 1 << 20];
    match stream(bundle, number, &mut out) {
        Ok(count) => front(&out[..count]),
        Err(no) => format!("{}@{}", no.number, no.place),
    }
}

fn front(bytes: &[u8]) -> String {
    digest::sha256(bytes)[..32].to_string()
}

/// A sample's byte stream is its units, each after a start code, and is read as them; or it is refused as the sample is,
/// or with 32 for a unit that cannot stand there.
#[test]
fn streams() {
    let directory = common::directory("PUDDOCKLE_RECORDINGS", "recordings");
    let (mut written, mut not_streamable, mut refused) = (0, 0, 0);
    for path in [common::files(&directory, "bin"), common::files(&directory.join("damaged"), "bin")].concat() {
        let bundle = fs::read(&path).unwrap();
        for number in (1..=counts(&bundle).map_or(1, |counts| counts.samples)).map(SampleNumber) {
            let (mut resolved, mut out) = (vec![0; 1 << 20], vec![0; 1 << 20]);
            let streamed = stream(&bundle, number, &mut out);
            let expected = resolve(&bundle, number, &mut resolved).and_then(|count| start_codes(&resolved[..count]));
            assert!(
                streamed.map(|count| &out[..count]) == expected.as_deref().map_err(|&no| no),
                "{path:?} {number:?}"
            );
            match streamed {
                Ok(count) => {
                    comes_back(&out[..count], &resolved[..count]);
                    written += 1;
                }
                Err(no) if no.number == 32 => not_streamable += 1,
                Err(_) => refused += 1,
            }
        }
    }
    println!("{written} streams written, {not_streamable} refused with 32, {refused} refused as the sample is");
    assert!(written > 0 && refused > 0);
}

/// A byte stream that was written is read as what its sample resolves to, and as the same units with shorter lengths,
/// unless one is too long for them.
fn comes_back(stream: &[u8], resolved: &[u8]) {
    let mut sample = vec![0; stream.len()];
    assert_eq!(from_stream(4, stream, &mut sample), Ok(resolved.len()));
    assert!(sample == resolved);
    for size in [1, 2] {
        let expected = shorter_lengths(size, resolved);
        let read = from_stream(size as u32, stream, &mut sample);
        assert!(read.map(|count| &sample[..count]) == expected.as_deref().map_err(|&no| no));
    }
}

/// Resolved output with lengths of `size` bytes, or 34.
fn shorter_lengths(size: usize, resolved: &[u8]) -> Result<Vec<u8>, Refusal> {
    let (mut at, mut out) = (0, Vec::new());
    while let Some((length, rest)) = resolved[at..].split_first_chunk::<4>() {
        let (unused, kept) = length.split_at(4 - size);
        let unit = &rest[..u32::from_be_bytes(*length) as usize];
        if unused.iter().any(|&byte| byte != 0) {
            return Err(Refusal { number: 34, place: at as u64 + 4 });
        }
        out.extend([kept, unit].concat());
        at += 4 + unit.len();
    }
    Ok(out)
}

/// Resolved output with start codes in place of the lengths, or 32.
fn start_codes(resolved: &[u8]) -> Result<Vec<u8>, Refusal> {
    let mut out = Vec::new();
    while let Some((length, rest)) = resolved[out.len()..].split_first_chunk::<4>() {
        let unit = &rest[..u32::from_be_bytes(*length) as usize];
        let held = |three: &[u8]| unit.windows(3).any(|window| window == three);
        if unit.ends_with(&[0]) || held(&[0, 0, 0]) || held(&[0, 0, 1]) || held(&[0, 0, 2]) {
            return Err(Refusal { number: 32, place: out.len() as u64 });
        }
        out.extend([0, 0, 0, 1]);
        out.extend(unit);
    }
    Ok(out)
}

/// Records as the tools wrote them: the answers stand in README.md; what was read is written again as the same bytes.
#[test]
fn records() {
    let directory = common::directory("PUDDOCKLE_RECORDINGS", "recordings");
    let readme = common::text(&directory.join("README.md"));
    for (ending, kind) in [("avcc", Kind::Avc), ("svcc", Kind::Svc)] {
        for path in common::files(&directory.join("records"), ending) {
            let name = path.file_name().unwrap().to_str().unwrap();
            let row = readme.lines().find(|line| line.starts_with(&format!("| {name} |")));
            let columns: Vec<&str> =
                row.unwrap_or_else(|| panic!("no row for {name}")).split('|').map(str::trim).collect();
            assert_eq!(record_text(kind, &fs::read(&path).unwrap()), columns[3], "{name}");
        }
    }
}

fn record_text(kind: Kind, bytes: &[u8]) -> String {
    let record = match read_record(kind, bytes) {
        Ok(record) => record,
        Err(no) => return format!("refused {} at {}", no.number, no.place),
    };
    let mut out = vec![0; bytes.len()];
    assert_eq!(write_record(kind, &record, &mut out), Ok(bytes.len()));
    assert_eq!(out, bytes);
    let words = record.trailer.to_string();
    let trailer = words.split(':').next().unwrap();
    let (size, sequences, pictures) = (record.length_size as u64, record.sequence.count, record.picture.count);
    format!("ok, L {size}, sps {sequences} pps {pictures}, {trailer}")
}
