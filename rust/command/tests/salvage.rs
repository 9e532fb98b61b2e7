//! `puddockle salvage`: what is written, what is reported, recordings that were cut short, and files.

mod common;

use std::collections::BTreeSet;
use std::fs;
use std::os::unix::fs::symlink;
use std::path::Path;

use common::json::Value;
use common::*;
use puddockle::*;

const EXTRACTOR: [u8; 9] = [8, 0x7F, 0x80, 0, 3, 1, 0, 0, 0];
/// An extractor of a wrong size.
const SHORT: [u8; 6] = [5, 0x7F, 0x80, 0, 3, 1];

/// An aggregator with lengths of 1 byte.
fn aggregator(additional: u8, included: &[u8]) -> Vec<u8> {
    [&[5 + included.len() as u8, 0x7E, 0x80, 0, 3, additional], included].concat()
}

/// Salvages a file to `out` in the folder, which is replaced.
fn salvage_to(folder: &Folder, file: &Path, words: &[&str]) -> Ran {
    let mut command = command();
    command.current_dir(&folder.0).arg("salvage").arg(file).args(["-o", "out", "--force"]).args(words);
    command.output().unwrap().into()
}

/// The samples of an accepted bundle.
fn samples(bundle: &[u8]) -> Vec<Sample<'_>> {
    (1..=counts(bundle).unwrap().samples).map(|number| sample(bundle, SampleNumber(number)).unwrap()).collect()
}

/// The kind and length size of a sample's track.
fn form(bundle: &[u8], sample: &Sample) -> (Kind, LengthSize) {
    let track = track(bundle, sample.track).unwrap();
    (track.kind, read_record(track.kind, track.record).unwrap().length_size)
}

/// What the library makes of each sample of a bundle, and the changes as `--list` prints them.
fn by_the_library(bundle: &[u8]) -> (Vec<Vec<u8>>, String) {
    let (mut new, mut list) = (Vec::new(), String::new());
    for (sample, number) in samples(bundle).iter().zip(1..) {
        let mut rooms = [sample.bytes.len(), 5 * sample.bytes.len(), bundle.len()].map(|room| vec![0; room]);
        let [out, changes, names] = &mut rooms;
        let salvaged = salvage(bundle, SampleNumber(number), out, changes, names).unwrap();
        new.push(salvaged.sample.to_vec());
        for change in salvaged.changes.entries() {
            let what = if change.kind == ChangeKind::Drop { "drop" } else { "zero" };
            list += &format!("{number} {what} {}\n", change.place);
        }
    }
    (new, list)
}

/// Holds a result to what was to be written: accepted, each sample with its track and time, well formed, of these bytes.
#[track_caller]
fn is_written(result: &[u8], old: &[u8], meant: &[Vec<u8>]) {
    assert_eq!(check_bundle(result), Ok(()));
    let (found, old_samples) = (samples(result), samples(old));
    assert_eq!((found.len(), found.len()), (old_samples.len(), meant.len()));
    for ((found, old_sample), meant) in found.iter().zip(&old_samples).zip(meant) {
        assert_eq!((found.track, found.time), (old_sample.track, old_sample.time));
        assert!(found.bytes == meant);
        let (kind, length_size) = form(result, found);
        assert_eq!(check_sample(kind, length_size, found.bytes), Ok(()));
    }
    // Nothing else is changed: the front up to the entries.
    let front = |bundle: &[u8], samples: &[Sample]| bundle[..samples[0].start - 4 - 13 * samples.len()].to_vec();
    if !found.is_empty() {
        assert!(front(result, &found) == front(old, &old_samples));
    }
}

/// The audit of a bundle: the lines of refused samples and the tally, as the command prints them.
fn refused_lines(folder: &Folder, bundle: &[u8]) -> Vec<String> {
    let file = folder.file("audited", bundle);
    let ran = run(["audit".as_ref(), file.as_os_str()]);
    let text = ran.text().to_string();
    text.lines().filter(|line| line.contains(" refused ") && !line.contains("hang")).map(String::from).collect()
}

/// Every recording that is accepted. Those without a fault 14 to 22 come back byte for byte.
#[test]
fn recordings_salvaged() {
    let folder = Folder::new();
    let (mut same, mut changed) = (0, 0);
    for path in recordings() {
        let old = fs::read(&path).unwrap();
        let _ = fs::remove_file(folder.0.join("out"));
        let ran = salvage_to(&folder, &path, &[]);
        if check_bundle(&old).is_err() {
            continue;
        }
        let result = fs::read(folder.0.join("out")).unwrap();
        let (meant, list) = by_the_library(&old);
        is_written(&result, &old, &meant);
        let lines: Vec<&str> = ran.text().lines().collect();
        let name = path.to_str().unwrap();
        let lost = old.len() - result.len();
        if list.is_empty() {
            assert!(result == old);
            assert_eq!(lines[0], "nothing to salvage: every sample is well formed");
            assert_eq!(lines[lines.len() - 1], format!("out is {name} byte for byte"));
            same += 1;
        } else {
            let what = match lost {
                0 => "recording as it was, though no byte is".into(),
                1 => "whole recording, 1 byte".into(),
                _ => format!("whole recording, {lost} bytes"),
            };
            assert_eq!(lines[lines.len() - 1], format!("out is NOT the {what} lost: keep the original"));
            changed += 1;
        }
        // What is still refused is what the audit says.
        let refused = refused_lines(&folder, &result);
        let from = lines.iter().position(|line| line.starts_with("still refused: ")).unwrap();
        assert_eq!(lines[from + 1..lines.len() - 1], refused);
        assert_eq!(ran.status, Some((refused.len() > 1) as i32), "{name}");
        assert_eq!(ran.said, "");
        // The list; and a second run finds nothing.
        let ran = salvage_to(&folder, &path, &["--list"]);
        assert_eq!(ran.text(), list, "{name}");
        let again = folder.file("again", &result);
        let ran = salvage_to(&folder, &again, &["--list"]);
        assert_eq!((ran.text(), fs::read(folder.0.join("out")).unwrap() == result), ("", true), "{name}");
    }
    assert!(same > 20 && changed > 10, "{same} {changed}");
}

/// The extractors told in a document: the sample that they name, their own, their place.
fn told(document: &Value) -> BTreeSet<(u64, u64, u64)> {
    let mut told = BTreeSet::new();
    for one in document["stale"].list() {
        for extractor in one["extractors"].list() {
            let place = (one["sample"].number(), extractor["sample"].number(), extractor["place"].number());
            assert!(told.insert(place), "{place:?} comes twice");
        }
    }
    told
}

/// The extractors that name these samples, by the library.
fn naming(bundle: &[u8], samples: impl IntoIterator<Item = u64>) -> BTreeSet<(u64, u64, u64)> {
    let mut room = vec![0; bundle.len()];
    let mut found = BTreeSet::new();
    for number in samples {
        let list = names(bundle, SampleNumber(number), &mut room).unwrap();
        found.extend(list.entries().map(|entry| (number, entry.sample.0, entry.place)));
    }
    found
}

/// Told are exactly the extractors that name changed samples in the result, among them all those that did in the file.
#[test]
fn stale_extractors() {
    let folder = Folder::new();
    let mut told_of = 0;
    for path in recordings() {
        let old = fs::read(&path).unwrap();
        if check_bundle(&old).is_err() {
            continue;
        }
        let document = salvage_to(&folder, &path, &["--json"]).document();
        let result = fs::read(folder.0.join("out")).unwrap();
        let changed = || document["samples"].list().iter().map(|one| one["sample"].number());
        let told = told(&document);
        assert_eq!(told, naming(&result, changed()), "{}", path.display());
        assert!(told.is_superset(&naming(&old, changed())), "{}", path.display());
        let holders: BTreeSet<u64> = told.iter().map(|(_, holder, _)| *holder).collect();
        let refused = document["still_refused"].list().iter().map(|one| one["sample"].number()).collect();
        let counts = ["stale_extractors", "stale_samples", "stale_samples_not_refused"];
        let counts = counts.map(|name| document["totals"][name].number() as usize);
        assert_eq!(counts, [told.len(), holders.len(), holders.difference(&refused).count()]);
        told_of += told.len();
    }
    assert!(told_of > 3, "{told_of}");
}

/// A recording cut at a length: refused with 2 before the end of the fourth count, else what is there is salvaged.
fn is_cut(folder: &Folder, whole: &[u8], length: usize) {
    let first = samples(whole)[0].start;
    let file = folder.file("cut", &whole[..length]);
    let ran = salvage_to(folder, &file, &["--json"]);
    let out = folder.0.join("out");
    let document = ran.document();
    if length < first {
        let no = check_bundle(&whole[..length]).unwrap_err();
        assert_eq!((ran.status, ran.said.is_empty(), no.number), (Some(1), length > 0, 2), "{length}");
        assert_eq!((document["refusal"]["number"].number(), document["refusal"]["place"].number()), (2, no.place));
        assert!(!out.exists(), "{length}");
        return;
    }
    let result = fs::read(&out).unwrap();
    fs::remove_file(&out).unwrap();
    // The samples as far as they are there, each salvaged by the library.
    let (mut meant, mut dropped, mut shortened, mut emptied) = (Vec::new(), 0, Value::Null, Vec::new());
    for (sample, number) in samples(whole).iter().zip(1..) {
        let there = length.saturating_sub(sample.start).min(sample.bytes.len());
        let (kind, length_size) = form(whole, sample);
        let (mut out, mut changes) = (vec![0; there], vec![0; 5 * there]);
        let bytes = &sample.bytes[..there];
        let new = salvage_sample(kind as u32, length_size as u32, bytes, &mut out, &mut changes).unwrap();
        dropped += there - new.sample.len();
        if there == sample.bytes.len() && check_sample(kind, length_size, bytes).is_ok() {
            assert_eq!(new.sample, bytes);
        } else if there == 0 {
            emptied.push(number);
        } else if there < sample.bytes.len() {
            let fields = [("sample", number), ("bytes", sample.bytes.len()), ("bytes_left", there)];
            let fields = fields.map(|(name, value)| (name.to_string(), Value::Number(value as u64)));
            shortened = Value::Object(fields.into());
        }
        meant.push(new.sample.to_vec());
    }
    is_written(&result, whole, &meant);
    assert_eq!(ran.status, Some((document["tally"]["refused"].number() > 0) as i32));
    let missing = whole.len() - length;
    assert_eq!(document["lost_bytes"].number() as usize, missing + dropped, "{length}");
    assert_eq!(document["totals"]["dropped_bytes"].number() as usize, dropped);
    if missing == 0 {
        assert_eq!(document["cut"], Value::Null);
        return;
    }
    let cut = &document["cut"];
    let changed = document["samples"].list().iter().chain([&shortened].into_iter().filter(|one| **one != Value::Null));
    let less: BTreeSet<u64> = changed.map(|one| one["sample"].number()).chain(cut["emptied"].numbers()).collect();
    assert_eq!(told(&document), naming(&result, less), "{length}");
    assert_eq!((cut["missing_bytes"].number() as usize, &cut["shortened"]), (missing, &shortened), "{length}");
    let emptied: Vec<u64> = emptied.iter().map(|number| *number as u64).collect();
    assert_eq!(cut["emptied"].numbers(), emptied, "{length}");
}

/// Small recordings cut at every length, and a larger one at some.
#[test]
fn cut_at_every_length() {
    let folder = Folder::new();
    for (file, step) in [
        ("examples/bench.bin", 1),
        ("tests/recordings/damaged/m065_21.bin", 1),
        ("tests/recordings/damaged/m040_24.bin", 7),
        ("tests/recordings/high100_small.L2.empty.bin", 23),
        ("tests/recordings/tiny_l1.L1.agg.bin", 29),
    ] {
        let whole = fs::read(root().join(file)).unwrap();
        assert_eq!(check_bundle(&whole), Ok(()));
        for length in (0..=whole.len()).step_by(step) {
            is_cut(&folder, &whole, length);
        }
    }
}

/// What else is refused in a bundle is refused: nothing is written.
#[test]
fn refused_bundles() {
    let folder = Folder::new();
    let mut refused = 0;
    for path in recordings() {
        let Err(no) = check_bundle(&fs::read(&path).unwrap()) else { continue };
        let ran = salvage_to(&folder, &path, &[]);
        if no.number == 2 && ran.status == Some(0) {
            fs::remove_file(folder.0.join("out")).unwrap();
            continue;
        }
        assert_eq!((ran.status, ran.text()), (Some(1), ""));
        let line = format!("{}: bundle refused {} at {} - {}", path.display(), no.number, no.place, no.meaning());
        assert_eq!(ran.said, format!("puddockle: {line}\n"));
        assert!(folder.names().is_empty());
        refused += 1;
    }
    assert!(refused > 15, "{refused}");
    // A count of sample bytes that no bundle can have; one that is not the sum; and bytes that only look like a count.
    let mut long = bundle(&[(0, AVC_L4)], &[], &[(1, 0, vec![0; 40])]);
    let entry = long.len() - 40 - 4 - 4;
    long[entry] = 1;
    let two = format!("bundle refused 2 at {} - ", entry + 4);
    let seven = format!("bundle refused 7 at {} - ", entry + 4);
    assert!(run_on(&long, ["salvage", "-", "-o", "/no/such"]).said.contains(&seven));
    long[entry + 4] = 1;
    let ran = run_on(&long, ["salvage", "-", "-o", "/no/such"]);
    assert_eq!((ran.status, ran.text(), ran.said.lines().count()), (Some(1), "", 2));
    let whole = format!(": whole it would have {} bytes, more than 16777216\n", entry + 8 + 40 + (1 << 24));
    assert!(ran.said.contains(&two) && ran.said.ends_with(&whole), "{}", ran.said);
    for length in 0..entry + 8 {
        let ran = run_on(&long[..length], ["salvage", "-", "-o", "/no/such"]);
        assert_eq!((ran.status, ran.text()), (Some(1), ""));
        let last = ran.said.lines().last().unwrap();
        assert!(last.starts_with("puddockle: standard input: bundle refused 2 at "), "{}", ran.said);
    }
}

/// Every kind of change, in words.
#[test]
fn in_words() {
    let samples = [
        (1, 0, [&[2, 0x65, 0x88][..], &[9, 0x41]].concat()),
        (1, 1, aggregator(0, &[2, 0x65, 0x88])),
        (1, 2, vec![2, 0x65, 0x88]),
        (2, 0, [&aggregator(15, &[])[..], &SHORT, &EXTRACTOR, &[2, 0x65, 0x88]].concat()),
        (2, 1, [EXTRACTOR, EXTRACTOR].concat()),
        (2, 2, vec![8, 0x7F, 0x80, 0, 3, 2, 0, 0, 0]),
    ];
    let folder = Folder::new();
    folder.file("b.bin", &bundle(&[(0, AVC), (1, SVC)], &[(2, 1)], &samples));
    let ran = shell("$P salvage b.bin -o out", &folder.0);
    let text = "\
sample 1 (track 1, time 0): 3 of 5 bytes left
    at 3 dropped all to the end, 2 bytes: refused 15 at 3 - unit longer than what is left
sample 2 (track 1, time 1): 0 of 9 bytes left
    at 0 dropped type 30 aggregator, 8 bytes: refused 20 at 6 - type 1 to 5 included in an AVC track
sample 4 (track 2, time 0): 18 of 24 bytes left
    at 0 zeroed the additional_bytes of type 30 aggregator, 5 bytes: it covered 15 bytes
    at 6 dropped type 31 extractor, 5 bytes: refused 22 at 6 - extractor of a wrong size
sample 4 holds an extractor into sample 1: its offsets may be stale
sample 5 holds 2 extractors into sample 2: their offsets may be stale
salvaged: 3 samples, 1 empty now
dropped: 2 units and the end of 1 sample, 17 bytes
zeroed: 1 aggregator
may be stale: 3 extractors in 2 samples, 1 of them not refused: it may deliver wrong units
still refused: 2 samples
5 refused 26 at 0 - data_offset wrong (track 2, time 1, names sample 2)
6 refused 23 at 0 - track_ref_index is 0 or past the last (track 2, time 2)
passed 3 empty 1 refused 2
out is NOT the whole recording, 17 bytes lost: keep the original
";
    assert_eq!((ran.text(), ran.status, ran.said.as_str()), (text, Some(1), ""));
    let ran = shell("$P salvage b.bin -o out --force --list", &folder.0);
    assert_eq!((ran.text(), ran.status), ("1 drop 3\n2 drop 0\n4 zero 0\n4 drop 6\n", Some(1)));
    // Cut in sample 4, after its short extractor.
    let whole = fs::read(folder.0.join("b.bin")).unwrap();
    folder.file("cut.bin", &whole[..whole.len() - 9 - 18 - 3 - 2]);
    let ran = shell("$P salvage cut.bin -o out --force", &folder.0);
    let text = "\
cut.bin is cut short: 32 bytes missing at its end
sample 4 is shortened from 24 to 19 bytes
2 samples from 5 to 6 lost all their bytes
sample 1 (track 1, time 0): 3 of 5 bytes left
    at 3 dropped all to the end, 2 bytes: refused 15 at 3 - unit longer than what is left
sample 2 (track 1, time 1): 0 of 9 bytes left
    at 0 dropped type 30 aggregator, 8 bytes: refused 20 at 6 - type 1 to 5 included in an AVC track
sample 4 (track 2, time 0): 6 of 19 bytes left
    at 0 zeroed the additional_bytes of type 30 aggregator, 5 bytes: it covered 15 bytes
    at 6 dropped type 31 extractor, 5 bytes: refused 22 at 6 - extractor of a wrong size
    at 12 dropped all to the end, 7 bytes: refused 15 at 12 - unit longer than what is left
salvaged: 3 samples, 1 empty now
dropped: 2 units and the ends of 2 samples, 24 bytes
zeroed: 1 aggregator
may be stale: 0 extractors
still refused: 0 samples
passed 3 empty 3 refused 0
out is NOT the whole recording, 56 bytes lost: keep the original
";
    assert_eq!((ran.text(), ran.status, ran.said.as_str()), (text, Some(0), ""));
    let ran = shell("$P salvage cut.bin -o out --force --list", &folder.0);
    let list = "1 drop 3\n2 drop 0\n4 zero 0\n4 drop 6\n4 drop 12\n4 cut 19\n5 cut 0\n6 cut 0\n";
    assert_eq!((ran.text(), ran.status), (list, Some(0)));
    // Cut between two units and between two samples: no unit is dropped, but what is missing is told.
    for (less, lines) in [
        (27 + 3, "sample 4 is shortened from 24 to 21 bytes\n2 samples from 5 to 6 lost all their bytes\n"),
        (27, "2 samples from 5 to 6 lost all their bytes\n"),
        (9, "sample 6 lost all its bytes\n"),
    ] {
        folder.file("cut.bin", &whole[..whole.len() - less]);
        let ran = shell("$P salvage cut.bin -o out --force", &folder.0);
        let front = format!("cut.bin is cut short: {less} bytes missing at its end\n{lines}sample 1 (track 1");
        assert!(ran.text().starts_with(&front), "{}", ran.text());
    }
}

/// Of many samples that lost all the first and the last are told; some may have had none.
#[test]
fn many_emptied() {
    let whole = fs::read(root().join("examples/high100_small.L2.empty.bin")).unwrap();
    let ran = run_on(&whole[..5000], ["salvage", "-", "-o", "/dev/null/no"]);
    fails(ran, "cannot be written");
    let folder = Folder::new();
    folder.file("cut.bin", &whole[..5000]);
    let ran = shell("$P salvage cut.bin -o out", &folder.0);
    let front = "\
cut.bin is cut short: 1334 bytes missing at its end
sample 21 is shortened from 1084 to 507 bytes
27 samples from 22 to 59 lost all their bytes; those between them had none
sample 21 (track 1, time 10240): 25 of 507 bytes left
";
    assert!(ran.text().starts_with(front), "{}", ran.text());
}

/// A recording that lost only whole samples, each well formed: what names them may be stale.
#[test]
fn cut_between_samples() {
    let picture = vec![2, 0x65, 0x88];
    let samples = [(1, 0, EXTRACTOR.to_vec()), (2, 0, picture.clone()), (2, 1, picture)];
    let file = bundle(&[(1, SVC), (0, AVC)], &[(1, 2)], &samples);
    let folder = Folder::new();
    folder.file("cut.bin", &file[..file.len() - 6]);
    let ran = shell("$P salvage cut.bin -o out", &folder.0);
    let text = "\
cut.bin is cut short: 6 bytes missing at its end
2 samples from 2 to 3 lost all their bytes
sample 1 holds an extractor into sample 2: its offsets may be stale
salvaged: 0 samples
dropped: 0 units, 0 bytes
zeroed: 0 aggregators
may be stale: 1 extractor in 1 sample
still refused: 1 sample
1 refused 26 at 0 - data_offset wrong (track 1, time 0, names sample 2)
passed 0 empty 2 refused 1
out is NOT the whole recording, 6 bytes lost: keep the original
";
    assert_eq!((ran.text(), ran.status, ran.said.as_str()), (text, Some(1), ""));
}

/// The document: of each change the unit and the fault; sizes that add up.
#[test]
fn documents() {
    let folder = Folder::new();
    let mut changes = 0;
    for path in recordings() {
        let old = fs::read(&path).unwrap();
        let ran = salvage_to(&folder, &path, &["--json"]);
        assert_eq!(ran.said, "");
        let document = ran.document();
        if document["refusal"] != Value::Null {
            assert_eq!((ran.status, &document["samples"]), (Some(1), &Value::Null));
            continue;
        }
        assert_eq!((document["out"].text(), document["bytes"].number()), ("out", old.len() as u64));
        let result = fs::read(folder.0.join("out")).unwrap();
        assert_eq!(document["out_bytes"].number(), result.len() as u64);
        if document["cut"] != Value::Null {
            continue;
        }
        assert_eq!(document["lost_bytes"].number(), (old.len() - result.len()) as u64);
        for one in document["samples"].list() {
            let sample = sample(&old, SampleNumber(one["sample"].number())).unwrap();
            let (kind, length_size) = form(&old, &sample);
            let no = check_sample(kind, length_size, sample.bytes).unwrap_err();
            assert_eq!(
                (one["refusal"]["number"].number(), one["refusal"]["place"].number()),
                (no.number.into(), no.place)
            );
            let mut left = sample.bytes.len() as u64;
            for change in one["changes"].list() {
                let (place, bytes) = (change["place"].number(), change["bytes"].number());
                let header = sample.bytes.get(place as usize + length_size as usize);
                match (change["change"].text(), &change["type"]) {
                    ("drop", Value::Null) => {
                        assert_eq!(place + bytes, sample.bytes.len() as u64);
                        assert!((14..=18).contains(&change["refusal"]["number"].number()));
                        left -= bytes;
                    }
                    ("drop", unit_type) => {
                        assert_eq!(unit_type.number(), (header.unwrap() & 31).into());
                        assert!(matches!(change["refusal"]["number"].number(), 14..=20 | 22));
                        left -= bytes + length_size as u64;
                    }
                    (what, unit_type) => {
                        assert_eq!((what, unit_type.number(), &change["refusal"]), ("zero", 30, &Value::Null));
                        assert!(change["covered_bytes"].number() > 0);
                    }
                }
                changes += 1;
            }
            assert_eq!(one["bytes_left"].number(), left);
        }
    }
    assert!(changes > 10, "{changes}");
}

/// OUT as in the other calls: whole or not at all, and never over what is read.
#[test]
fn output_files() {
    let folder = Folder::new();
    let damaged = fs::read(root().join("examples/damaged.bin")).unwrap();
    folder.file("b.bin", &damaged);
    symlink("b.bin", folder.0.join("link")).unwrap();
    fs::hard_link(folder.0.join("b.bin"), folder.0.join("hard")).unwrap();
    let run = |words: &str| shell(&format!("$P salvage {words}"), &folder.0);
    let absolute = folder.0.join("b.bin");
    for force in ["", " --force"] {
        for out in ["b.bin", "./b.bin", "link", "hard", absolute.to_str().unwrap()] {
            for file in ["b.bin", "link", "hard", "- <b.bin"] {
                fails(run(&format!("-o {out}{force} {file}")), "it is the file that is read");
            }
        }
        fails(run(&format!("b.bin -o /dev/null{force}")), "it is no regular file");
        fails(run(&format!("b.bin -o no/such{force}")), "cannot be written: No such file");
        fails(run(&format!("b.bin -o ''{force}")), "it is no file name");
    }
    assert_eq!(fs::read(&absolute).unwrap(), damaged);
    assert_eq!(folder.names(), ["b.bin", "hard", "link"]);
    // What is there stays without --force, and where the disk is full.
    folder.file("out", b"mine");
    fails(run("b.bin -o out"), "out: cannot be written: it exists: --force replaces it");
    for out in ["new", "out --force"] {
        let ran = shell(&format!("trap '' XFSZ; ulimit -f 1; $P salvage b.bin -o {out}"), &folder.0);
        fails(ran, "cannot be written: File too large");
    }
    assert_eq!(fs::read(folder.0.join("out")).unwrap(), b"mine");
    assert_eq!(folder.names(), ["b.bin", "hard", "link", "out"]);
    let ran = run("b.bin -o out --force");
    assert_eq!((ran.status, ran.said.as_str()), (Some(1), ""));
    let result = fs::read(folder.0.join("out")).unwrap();
    assert_eq!(result.len(), damaged.len() - 24);
    // What comes through a pipe is read whole.
    let ran = run("- -o piped < b.bin");
    assert_eq!(ran.status, Some(1));
    assert_eq!(shell("cat b.bin | $P salvage - -o pipe", &folder.0).text(), ran.text().replace("piped", "pipe"));
    for name in ["piped", "pipe"] {
        assert_eq!(fs::read(folder.0.join(name)).unwrap(), result);
    }
    // A report that cannot be printed.
    let ran = run("b.bin -o out --force >/dev/full");
    assert_eq!(ran.status, Some(2));
    assert!(ran.said.contains("standard output cannot be written"), "{}", ran.said);
    let ran = shell("{ sleep 0.3; $P salvage b.bin -o out --force; echo $? >&2; } | true", &folder.0);
    assert_eq!(ran.said, "141\n");
    assert_eq!(fs::read(folder.0.join("out")).unwrap(), result);
}

#[test]
fn wrong_use() {
    let bench = "examples/bench.bin";
    for (words, message) in [
        (&["salvage", bench][..], "-o is missing"),
        (&["salvage", bench, "--force"], "-o is missing"),
        (&["salvage", bench, "-o", "-"], "-o needs a file: the report goes to standard output"),
        (&["salvage", bench, "-o", "/no/such", "--list", "--json"], "--list and --json do not go together"),
        (&["salvage", "-o", "/no/such"], "too few arguments"),
        (&["salvage", bench, bench, "-o", "/no/such"], "one argument too many"),
        (&["salvage", bench, "-o", "/no/such", "--sample", "1"], "unknown option --sample"),
    ] {
        fails(run(words), message);
    }
}
