//! `puddockle stream`: what is written, what is left out and told, and the statuses.

mod common;

use std::fs;

use common::*;
use puddockle::{counts, read_record, reference, sample, track, ReferenceNumber, SampleNumber, TrackNumber};

/// Units with a start code before each.
fn stream<U: AsRef<[u8]>>(units: &[U]) -> Vec<u8> {
    units.iter().flat_map(|unit| [&[0, 0, 0, 1], unit.as_ref()].concat()).collect()
}

/// Every track of every accepted recording: the units of its samples in order, and of those left out the line of X.out.
#[test]
fn tracks_of_recordings() {
    let (mut units, mut told) = (0, 0);
    for path in recordings() {
        let bundle = fs::read(&path).unwrap();
        let Ok(counts) = counts(&bundle) else { continue };
        let file = path.to_str().unwrap();
        let lines = fs::read_to_string(path.with_extension("out")).unwrap();
        let lines: Vec<&str> = lines.lines().collect();
        let samples: Vec<u64> = (1..=counts.samples).collect();
        for number in 1..=counts.tracks {
            let samples = samples.iter().filter(|one| sample(&bundle, SampleNumber(**one)).unwrap().track.0 == number);
            let (mut expected, mut left_out) = (Vec::new(), Vec::new());
            for one in samples {
                match lines[*one as usize - 1] {
                    line if line.contains(" passed ") => {
                        let ran = run(["units", file, &one.to_string(), "-o", "-"]);
                        expected.extend(units_of(&ran.out));
                    }
                    line => left_out.push(line),
                }
            }
            let refused = left_out.iter().any(|line| line.contains(" refused "));
            let bare = run(["stream", file, "--bare", "--track", &number.to_string()]);
            assert_eq!((bare.status, bare.out == stream(&expected)), (Some(refused as i32), true), "{file} {number}");
            let said: Vec<&str> = bare.said.lines().collect();
            assert_eq!(said.len(), left_out.len(), "{file} {number}: {}", bare.said);
            for (said, line) in said.iter().zip(&left_out) {
                let said = said.strip_prefix(&format!("puddockle: {file}: left out: ")).unwrap();
                assert_eq!(said.split(" - ").next(), Some(*line));
                told += 1;
            }
            let whole = run(["stream", file, "--track", &number.to_string()]);
            if !(expected.is_empty() && refused) {
                assert!(whole.out == [stream(&sets(&bundle, number)), bare.out].concat(), "{file} {number}");
            }
            assert_eq!((whole.status, &whole.said), (bare.status, &bare.said));
            units += expected.len();
        }
    }
    assert!(units > 2000 && told > 30, "{units} {told}");
}

/// The sets of the tracks that a track references and its own, each record whole. No recording has extensions.
fn sets(bundle: &[u8], number: u64) -> Vec<Vec<u8>> {
    let references = (1..=counts(bundle).unwrap().references).map(|one| reference(bundle, ReferenceNumber(one)));
    let mut tracks: Vec<u64> = Vec::new();
    for to in references.map(Result::unwrap).filter(|one| one.from.0 == number).map(|one| one.to.0) {
        if !tracks.contains(&to) {
            tracks.push(to);
        }
    }
    let mut sets: Vec<Vec<u8>> = Vec::new();
    for number in tracks.into_iter().chain([number]) {
        let track = track(bundle, TrackNumber(number)).unwrap();
        let record = read_record(track.kind, track.record).unwrap();
        sets.extend(record.sequence.iter().chain(record.picture.iter()).map(<[u8]>::to_vec));
    }
    sets
}

/// What is said of a sample that is left out is its line of the audit, whole.
#[test]
fn lines_are_those_of_the_audit() {
    let audit = run(["audit", "examples/damaged.bin"]);
    let lines: Vec<&str> = audit.text().lines().filter(|line| line.contains(" refused ")).collect();
    let said = |track| run(["stream", "examples/damaged.bin", "--track", track]).said;
    let expected = |lines: &[&str]| -> String {
        lines.iter().map(|line| format!("puddockle: examples/damaged.bin: left out: {line}\n")).collect()
    };
    assert_eq!(said("1"), expected(&lines[..1]));
    assert_eq!(said("2"), expected(&lines[1..4]));
}

/// A record with L = 1: of an AVC record of profile 100 the extensions come last, an SVC record has none.
fn record(profile: u8, sequence: &[&[u8]], picture: &[&[u8]], extension: Option<&[&[u8]]>) -> Vec<u8> {
    let put = |sets: &[&[u8]]| -> Vec<u8> {
        sets.iter().flat_map(|set| [&(set.len() as u16).to_be_bytes()[..], set].concat()).collect()
    };
    let first = if profile == 83 { 0 } else { 0xE0 };
    let mut record = vec![1, profile, 0, 30, 0xFC, first | sequence.len() as u8];
    record.extend(put(sequence));
    record.push(picture.len() as u8);
    record.extend(put(picture));
    if let Some(extension) = extension {
        record.extend([0xFD, 0xF8, 0xF8, extension.len() as u8]);
        record.extend(put(extension));
    }
    record
}

/// Sequence sets, their extensions, picture sets; those of the tracks referenced first, each record whole, although a
/// set stands in another too. `--sample` writes the sets of the sample's track, and `--bare` none.
#[test]
fn parameter_sets() {
    let base = record(100, &[&[0x67, 1], &[0x67, 2]], &[&[0x68, 3]], Some(&[&[0x6D, 4]]));
    let second = record(66, &[&[0x67, 5]], &[&[0x68, 3], &[0x68, 6]], None);
    let detail = record(83, &[&[0x6F, 7], &[0x67, 1]], &[&[0x68, 8]], None);
    let extractor = |index| vec![8, 0x7F, 0x80, 0, 3, index, 0, 0, 0];
    let samples = [
        (1, 0, vec![2, 0x65, 1]),
        (2, 0, vec![2, 0x65, 2]),
        (3, 0, [extractor(1), extractor(2)].concat()),
        (3, 1, vec![4, 0x74, 0x80, 0, 3]),
    ];
    let references = [(3, 2), (3, 1), (3, 2)];
    let bundle = bundle(&[(0, &base), (0, &second), (1, &detail)], &references, &samples);
    let of_base: [&[u8]; 4] = [&[0x67, 1], &[0x67, 2], &[0x6D, 4], &[0x68, 3]];
    let of_second: [&[u8]; 3] = [&[0x67, 5], &[0x68, 3], &[0x68, 6]];
    let own: [&[u8]; 3] = [&[0x6F, 7], &[0x67, 1], &[0x68, 8]];
    let of_detail = [&of_second[..], &of_base, &own].concat();
    let third: [&[u8]; 2] = [&[0x65, 2], &[0x65, 1]];
    let fourth: [&[u8]; 1] = [&[0x74, 0x80, 0, 3]];
    let gives = |words: &[&str], sets: &[&[u8]], units: &[&[u8]]| {
        let ran = run_on(&bundle, [&["stream", "-"], words].concat());
        assert_eq!((ran.status, &ran.said[..]), (Some(0), ""), "{words:?}");
        assert_eq!(ran.out, stream(&[sets, units].concat()), "{words:?}");
        let ran = run_on(&bundle, [&["stream", "-", "--bare", "-o-"], words].concat());
        assert_eq!((ran.status, ran.out), (Some(0), stream(units)), "{words:?}");
    };
    gives(&["--track", "1"], &of_base, &[&[0x65, 1]]);
    gives(&["--track=2"], &of_second, &[&[0x65, 2]]);
    gives(&["--track", "3"], &of_detail, &[&third[..], &fourth].concat());
    gives(&["--sample", "2"], &of_second, &[&[0x65, 2]]);
    gives(&["--sample=3"], &of_detail, &third);
    gives(&["--sample", "4"], &of_detail, &fourth);
}

/// Units that no byte stream can hold: 32, at the unit's length in what the sample resolves to. The others are written.
#[test]
fn units_that_cannot_stand_in_a_stream() {
    let good: [&[u8]; 4] = [&[0x65, 0, 0, 3], &[0x65, 0, 0, 3, 0, 1], &[0, 0, 3], &[0x65, 0, 1, 0, 2]];
    let bad: [&[u8]; 5] = [&[0x65, 0], &[0x65, 0, 0, 0, 9], &[0x65, 0, 0, 1], &[0x65, 0, 0, 2], &[0, 0, 1, 9]];
    let one = |unit: &[u8]| [&[unit.len() as u8], unit].concat();
    let samples: Vec<(u8, u64, Vec<u8>)> = (0..)
        .zip(good.iter().chain(&bad))
        .map(|(time, unit)| (1, time, [one(&[0x41, 7, 7]), one(unit), one(&[0x41, 8])].concat()))
        .collect();
    let bundle = bundle(&[(0, AVC)], &[], &samples);
    let ran = run_on(&bundle, ["stream", "-"]);
    let expected: Vec<&[u8]> = good.iter().flat_map(|unit| [&[0x41, 7, 7], *unit, &[0x41, 8]]).collect();
    assert_eq!((ran.status, ran.out), (Some(1), stream(&expected)));
    let lines: String = (4..9)
        .map(|time| {
            let line = "refused 32 at 7 - a unit cannot stand in a byte stream";
            format!("puddockle: standard input: left out: {} {line} (track 1, time {time})\n", time + 1)
        })
        .collect();
    assert_eq!(ran.said, lines);
    // The audit does not know of it, and the units are delivered.
    assert_eq!(run_on(&bundle, ["audit", "-"]).status, Some(0));
    assert_eq!(units_of(&run_on(&bundle, ["units", "-", "5", "-o", "-"]).out)[1], bad[0]);
}

/// A set that cannot stand in a byte stream is named, and nothing is written; `--bare` does without it.
#[test]
fn sets_that_cannot_stand_in_a_stream() {
    let good: &[u8] = &[0x67, 0, 0, 3, 0, 0, 3, 1];
    let folder = Folder::new();
    let of = |sequence: &[u8], picture: &[u8], extension: &[u8]| {
        let record = record(100, &[good, sequence], &[picture], Some(&[extension]));
        folder.file("b.bin", &bundle(&[(0, &record)], &[], &[(1, 0, vec![1, 0x65])]));
        shell("$P stream b.bin -o out", &folder.0)
    };
    for end in [&[0][..], &[0, 0, 0, 1], &[0, 0, 1, 1], &[0, 0, 2, 1], &[9, 0]] {
        for (header, title) in [
            (0x67, "sequence parameter set 2"),
            (0x68, "picture parameter set 1"),
            (0x6D, "sequence parameter set extension 1"),
        ] {
            let bad = [&[header], end].concat();
            let pick = |ours, good| if header == ours { bad.clone() } else { good };
            let ran = of(&pick(0x67, vec![0x67, 9]), &pick(0x68, vec![0x68]), &pick(0x6D, vec![0x6D]));
            assert_eq!((ran.status, ran.text()), (Some(1), ""), "{bad:?}");
            let message = format!("{title} of track 1 cannot stand in a byte stream (puddockle explain 32): --bare leaves all parameter sets out");
            assert_eq!(ran.said, format!("puddockle: b.bin: {message}\n"), "{bad:?}");
            assert_eq!(folder.names(), ["b.bin"]);
            let ran = shell("$P stream b.bin --bare", &folder.0);
            assert_eq!((ran.status, ran.out, &ran.said[..]), (Some(0), stream(&[[0x65]]), ""));
        }
    }
    assert_eq!(of(&[0x67, 9], &[0x68], &[0x6D]).status, Some(0));
    let expected: [&[u8]; 5] = [good, &[0x67, 9], &[0x6D], &[0x68], &[0x65]];
    assert_eq!(fs::read(folder.0.join("out")).unwrap(), stream(&expected));
}

/// Where there are several tracks one must be chosen; a number that is not there is refused.
#[test]
fn what_is_chosen() {
    let ran = run(["stream", "examples/damaged.bin"]);
    fails(
        ran,
        "stream: examples/damaged.bin has several tracks, choose one with --track: 1 AVC, 2 SVC: see puddockle ",
    );
    let most = "9007199254740991 or more";
    for (words, told) in [
        (["--track", "0"], "track 0 refused 30 at 0 - the bundle has 2 tracks"),
        (["--track", "3"], "track 3 refused 30 at 0 - the bundle has 2 tracks"),
        (["--track", "18446744073709551617"], &format!("track {most} refused 30 at 0 - the bundle has 2 tracks")),
        (["--sample", "0"], "sample 0 refused 30 at 0 - the bundle has 10 samples"),
        (["--sample", "11"], "sample 11 refused 30 at 0 - the bundle has 10 samples"),
    ] {
        for bare in [&[][..], &["--bare"]] {
            let ran = run([&["stream", "examples/damaged.bin"], &words[..], bare].concat());
            assert_eq!((ran.status, ran.text()), (Some(1), ""), "{words:?}");
            assert_eq!(ran.said, format!("puddockle: examples/damaged.bin: {told}\n"));
        }
    }
    for words in [&["--track", "1"][..], &["--sample", "1"], &[]] {
        let ran = run_on(&[2], [&["stream", "-"], words].concat());
        assert_eq!((ran.status, ran.text()), (Some(1), ""));
        assert!(ran.said.starts_with("puddockle: standard input: bundle refused 2 at 1 - "), "{}", ran.said);
    }
}

/// Empty samples are told and no fault. Where all is refused nothing is written, not even parameter sets.
#[test]
fn empty_and_refused() {
    let avc = record(66, &[&[0x67, 1]], &[&[0x68, 2]], None);
    let sets: [&[u8]; 2] = [&[0x67, 1], &[0x68, 2]];
    let nothing = vec![5, 0x7E, 0x80, 0, 3, 0];
    let on = |samples: &[Vec<u8>], words: &[&str]| {
        let samples: Vec<_> = (0..).zip(samples).map(|(time, bytes)| (1, time, bytes.clone())).collect();
        run_on(&bundle(&[(0, &avc)], &[], &samples), [&["stream", "-"], words].concat())
    };
    let with = |units: &[&[u8]]| stream(&[&sets[..], units].concat());
    let ran = on(&[vec![], vec![1, 0x65], vec![], nothing], &[]);
    let told = |line| format!("puddockle: standard input: left out: {line}\n");
    assert_eq!((ran.status, ran.out), (Some(0), with(&[&[0x65]])));
    assert_eq!(ran.said, told("1 empty") + &told("3 empty"));
    let ran = on(&[vec![]], &["--sample", "1"]);
    assert_eq!((ran.status, ran.out, ran.said), (Some(0), with(&[]), told("1 empty")));
    assert_eq!(on(&[], &[]).out, with(&[]));
    let cut = "1 refused 15 at 0 - unit longer than what is left (track 1, time 0)";
    for words in [&[][..], &["--track", "1"], &["--sample", "1"], &["--bare"]] {
        let ran = on(&[vec![2, 0x65]], words);
        assert_eq!((ran.status, ran.out, ran.said), (Some(1), vec![], told(cut)));
    }
    let ran = on(&[vec![2, 0x65], vec![1, 0x41]], &[]);
    assert_eq!((ran.status, ran.out, ran.said), (Some(1), with(&[&[0x41]]), told(cut)));
}

/// OUT as in `puddockle units`: never over what is there or what is read, and whole or not at all.
#[test]
fn output_files() {
    let folder = Folder::new();
    fs::copy(root().join("examples/damaged.bin"), folder.0.join("b.bin")).unwrap();
    let run = |words: &str| shell(&format!("$P stream b.bin {words}"), &folder.0);
    let expected = run("--track 1").out;
    assert!(expected.len() > 1000);
    // Written though a sample is refused; the status tells.
    let ran = run("--track 1 -o out");
    assert_eq!((ran.status, ran.text()), (Some(1), ""));
    assert_eq!(fs::read(folder.0.join("out")).unwrap(), expected);
    folder.file("out", b"mine");
    fails(run("--track 1 -o out"), "out: cannot be written: it exists: --force replaces it");
    // Refused, or not written whole: what was there stays.
    assert_eq!(run("--sample 5 -o out --force").status, Some(1));
    assert_eq!(run("--sample 5 -o new").status, Some(1));
    assert_eq!(run("--track 3 -o new").status, Some(1));
    let ran = shell("trap '' XFSZ; ulimit -f 1; $P stream b.bin --track 1 -o out --force", &folder.0);
    assert_eq!(ran.status, Some(2), "{}", ran.said);
    assert!(ran.said.contains("out: cannot be written: File too large"), "{}", ran.said);
    assert_eq!(fs::read(folder.0.join("out")).unwrap(), b"mine");
    for force in ["", " --force"] {
        fails(run(&format!("--track 1 -o b.bin{force}")), "it is the file that is read");
        fails(run(&format!("--track 1 -o /dev/null{force}")), "it is no regular file");
    }
    assert_eq!(run("--track 1 -o out --force").status, Some(1));
    assert_eq!(fs::read(folder.0.join("out")).unwrap(), expected);
    assert_eq!(run("--track 1 -o -").out, expected);
    assert_eq!(folder.names(), ["b.bin", "out"]);
}
