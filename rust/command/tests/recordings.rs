//! The recordings: the audit's first words are the lines of X.out, and the units are what the library resolves.

mod common;

use std::fs;
use std::path::Path;

use common::*;
use puddockle::{counts, resolve, unit, SampleNumber, UnitNumber};

#[test]
fn audits() {
    for path in recordings() {
        let expected = fs::read_to_string(path.with_extension("out")).unwrap();
        let ran = run([&"audit".into(), &path]);
        let mut lines = ran.text().lines();
        for line in expected.lines() {
            let printed = lines.next().unwrap();
            let (given, words) = printed.split_once(" - ").unwrap_or((printed, ""));
            assert_eq!(given, line, "{}", path.display());
            let refused = line.contains(" refused ") && !line.starts_with("passed");
            assert_eq!(!words.is_empty(), refused, "{}: {line}", path.display());
        }
        let refused = expected.lines().filter(|line| !line.starts_with("passed") && line.contains(" refused ")).count();
        let bundle_refused = expected.starts_with("bundle refused");
        let hanging: Vec<&str> = lines.collect();
        assert_eq!(hanging.len(), if bundle_refused { 0 } else { refused }, "{}", path.display());
        assert!(hanging.iter().all(|line| line.contains(" on sample ")), "{}", path.display());
        assert_eq!(ran.status, Some((refused > 0) as i32), "{}", path.display());
    }
}

/// Every sample of every accepted recording: with -o, one by one, and as a table.
#[test]
fn units() {
    let folder = Folder::new();
    let mut compared = 0;
    for path in recordings() {
        let bundle = fs::read(&path).unwrap();
        let Ok(counts) = counts(&bundle) else { continue };
        let mut room = vec![0; 1 << 20];
        // Some samples of each recording: a run of the command takes a millisecond or two.
        for number in (1..=counts.samples).step_by(7) {
            let sample = number.to_string();
            let out = folder.0.join("out");
            let ran = run(["units".as_ref(), path.as_os_str(), sample.as_ref(), "-o".as_ref(), out.as_os_str()]);
            match resolve(&bundle, SampleNumber(number), &mut room) {
                Ok(count) => {
                    assert_eq!((ran.status, ran.out.len()), (Some(0), 0), "{}", ran.said);
                    assert_eq!(fs::read(&out).unwrap(), room[..count]);
                    fs::remove_file(&out).unwrap();
                    let ran = run(["units".as_ref(), path.as_os_str(), sample.as_ref(), "-o-".as_ref()]);
                    assert_eq!(ran.out, room[..count]);
                    last_unit(&path, &bundle, number, &room[..count]);
                    compared += 1;
                }
                Err(no) => {
                    assert_eq!((ran.status, out.exists()), (Some(1), false));
                    assert!(ran.said.contains(&format!("refused {} at {}", no.number, no.place)), "{}", ran.said);
                }
            }
        }
    }
    assert!(compared > 100, "{compared}");
}

/// The table has a row a unit, with its type and size; the last unit alone is its bytes.
fn last_unit(path: &Path, bundle: &[u8], number: u64, resolved: &[u8]) {
    let mut rest = resolved;
    let mut rows = Vec::new();
    while let Some((length, after)) = rest.split_first_chunk::<4>() {
        let (unit, after) = after.split_at(u32::from_be_bytes(*length) as usize);
        rows.push((unit[0] & 31, unit.len()));
        rest = after;
    }
    let sample = number.to_string();
    let ran = run(["units".as_ref(), path.as_os_str(), sample.as_ref()]);
    let table: Vec<(u8, usize)> = ran
        .text()
        .lines()
        .skip(1)
        .map(|line| {
            let words: Vec<&str> = line.split_whitespace().collect();
            (words[1].parse().unwrap(), words[words.len() - 2].parse().unwrap())
        })
        .collect();
    assert_eq!(table, rows);
    let last = rows.len().to_string();
    let ran = run([
        "units".as_ref(),
        path.as_os_str(),
        sample.as_ref(),
        "-o".as_ref(),
        "-".as_ref(),
        "--unit".as_ref(),
        last.as_ref(),
    ]);
    match unit(bundle, SampleNumber(number), UnitNumber(rows.len() as u64)) {
        Ok(unit) => assert_eq!((ran.status, &ran.out[..]), (Some(0), unit)),
        Err(_) => assert_eq!((ran.status, ran.out.len()), (Some(1), 0)),
    }
}
