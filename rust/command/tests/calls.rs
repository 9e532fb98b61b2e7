//! What each call prints, whole, and its status.

mod common;

use common::*;

#[track_caller]
fn prints(words: &[&str], status: i32, text: &str) {
    let ran = run(words);
    assert_eq!((ran.text(), ran.status), (text, Some(status)), "{words:?}: {}", ran.said);
}

/// A refusal on standard error, status 1.
#[track_caller]
fn refuses(words: &[&str], message: &str) {
    let ran = run(words);
    assert_eq!((ran.text(), ran.status), ("", Some(1)), "{words:?}: {}", ran.said);
    assert_eq!(ran.said, format!("puddockle: {message}\n"));
}

#[test]
fn audit_of_a_damaged_recording() {
    let text = "\
1 passed 8
2 passed 4
3 passed 4
4 passed 4
5 refused 15 at 11 - unit longer than what is left (track 1, time 2048)
6 refused 24 at 0 - no sample is named (track 2, time 0)
7 passed 4
8 passed 4
9 refused 25 at 0 - sample named is not well formed (track 2, time 1539, names sample 5)
10 refused 25 at 0 - sample named is not well formed (track 2, time 2051, names sample 5)
passed 6 empty 0 refused 4
samples 9, 10 hang on sample 5
no sample hangs on sample 6
no sample hangs on sample 9
no sample hangs on sample 10
";
    prints(&["audit", "examples/damaged.bin"], 1, text);
    prints(&["audit", "--all", "--", "examples/damaged.bin"], 1, text);
}

/// One file that is good, one that is refused, one that is not there: all are told of, and the worst counts.
#[test]
fn audit_of_several_files() {
    let folder = Folder::new();
    let cut = folder.file("cut.bin", &std::fs::read(root().join("examples/bench.bin")).unwrap()[..15]);
    let cut = cut.to_str().unwrap();
    let good = "1 passed 1\n2 passed 1\npassed 2 empty 0 refused 0\n";
    let bad = "bundle refused 2 at 11 - bundle ends inside a count, an entry or the sample bytes\n";
    prints(&["audit", "examples/bench.bin"], 0, good);
    prints(&["audit", cut], 1, bad);
    prints(&["audit", "examples/bench.bin", cut], 1, &format!("examples/bench.bin:\n{good}\n{cut}:\n{bad}"));
    let ran = run(["audit", "no/such.bin", "examples/bench.bin"]);
    assert_eq!(ran.status, Some(2));
    assert_eq!(ran.text(), format!("no/such.bin:\n\nexamples/bench.bin:\n{good}"));
    assert_eq!(ran.said, "puddockle: no/such.bin: cannot be read: No such file or directory (os error 2)\n");
    // On one terminal the message stands where its file does.
    let ran = shell("$P audit examples/damaged.bin no/such.bin 2>&1", &root());
    let last: Vec<&str> = ran.text().lines().rev().take(4).collect();
    assert!(last[0].starts_with("puddockle: no/such.bin: "), "{}", ran.text());
    assert_eq!(last[1..], ["no/such.bin:", "", "no sample hangs on sample 10"]);
}

/// For 25 to 28 the sample named is told; it is the one that the extractor at the place names, not the first one.
#[test]
fn audit_says_which_sample_is_named() {
    let extractor = |step: i8, offset: u8, length: u8| vec![8, 0x7F, 0x80, 0, 3, 1, step as u8, offset, length];
    let picture = vec![2, 0x65, 0x88];
    let mut two = extractor(0, 0, 0);
    two.extend(extractor(-1, 1, 0));
    let samples = [
        (1, 0, vec![]),
        (1, 5, picture.clone()),
        (1, 6, picture),
        (2, 0, vec![1, 0x65]),
        (2, 5, extractor(0, 0, 2)),
        (2, 7, two),
    ];
    let folder = Folder::new();
    let file = folder.file("b.bin", &bundle(&[(0, AVC), (1, SVC)], &[(2, 1)], &samples));
    let text = "\
1 empty
2 passed 1
3 passed 1
4 passed 1
5 refused 27 at 0 - data_length wrong (track 2, time 5, names sample 2)
6 refused 26 at 9 - data_offset wrong (track 2, time 7, names sample 2)
passed 3 empty 1 refused 2
no sample hangs on sample 5
no sample hangs on sample 6
";
    prints(&["audit", file.to_str().unwrap()], 1, text);
}

/// Extractors that start at units included in an aggregator: what they copy, and the sample named by those refused.
#[test]
fn included_starts() {
    let extractor = |offset: u8, length: u8| vec![8, 0x7F, 0x80, 0, 3, 1, 0, offset, length];
    let aggregator = [&[17, 0x7E, 0x80, 0, 3, 0, 2, 6, 0x88][..], &[3, 9, 0x10, 0x80], &[4, 12, 1, 2, 3]].concat();
    let samples = [
        (1, 0, aggregator),
        (2, 0, extractor(9, 0)),
        (2, 1, [extractor(9, 9), vec![2, 0x65, 0x88], extractor(6, 3)].concat()),
        (2, 2, extractor(9, 10)),
        (2, 3, extractor(10, 3)),
    ];
    let file = bundle(&[(0, AVC), (1, SVC)], &[(2, 1)], &samples);
    let ran = run_on(&file, ["audit", "-"]);
    let text = "\
1 passed 3
2 passed 1
3 passed 4
4 refused 27 at 0 - data_length wrong (track 2, time 2, names sample 1)
5 refused 26 at 0 - data_offset wrong (track 2, time 3, names sample 1)
passed 3 empty 0 refused 2
no sample hangs on sample 4
no sample hangs on sample 5
";
    assert_eq!((ran.text(), ran.status), (text, Some(1)));
    let ran = run_on(&file, ["units", "-", "3"]);
    let text = "    unit  type                                        bytes  from sample
       1   9 access unit delimiter                        3  1
       2  12 filler data                                  4  1
       3   5 coded slice of an IDR picture                2  3
       4   6 supplemental enhancement information         2  1
";
    assert_eq!((ran.text(), ran.status), (text, Some(0)));
    let ran = run_on(&file, ["names", "-", "1"]);
    assert_eq!(ran.text(), "sample 2 at 0\nsample 3 at 0\nsample 3 at 12\nsample 4 at 0\nsample 5 at 0\n");
}

/// A sample that hangs on another by two extractors is told once.
#[test]
fn dependents_come_once() {
    let extractor = [8, 0x7F, 0x80, 0, 3, 1, 0, 0, 0];
    let samples = [(1, 0, vec![0]), (2, 0, [extractor, extractor].concat())];
    let file = bundle(&[(0, AVC), (1, SVC)], &[(2, 1)], &samples);
    let ran = run_on(&file, ["audit", "-"]);
    assert_eq!(ran.status, Some(1));
    let lines: Vec<&str> = ran.text().lines().collect();
    assert_eq!(lines[3..], ["sample 2 hangs on sample 1", "no sample hangs on sample 2"]);
    let ran = run_on(&file, ["names", "-", "1"]);
    assert_eq!((ran.status, ran.text()), (Some(0), "sample 2 at 0\nsample 2 at 9\n"));
}

/// Empty, and passed with nothing delivered.
#[test]
fn audit_tells_empty_from_passed() {
    let aggregator = vec![5, 0x7E, 0x80, 0, 3, 0];
    let file = bundle(&[(0, AVC)], &[], &[(1, 0, vec![]), (1, 1, aggregator), (1, 2, vec![1, 0x65])]);
    let ran = run_on(&file, ["audit", "-"]);
    assert_eq!((ran.status, ran.text()), (Some(0), "1 empty\n2 passed 0\n3 passed 1\npassed 2 empty 1 refused 0\n"));
    let ran = run_on(&bundle(&[(0, AVC)], &[], &[]), ["audit", "-"]);
    assert_eq!((ran.status, ran.text()), (Some(0), "passed 0 empty 0 refused 0\n"));
}

#[test]
fn names() {
    prints(&["names", "examples/damaged.bin", "5"], 0, "sample 9 at 0\nsample 10 at 0\n");
    let ran = run(["names", "examples/bench.bin", "2"]);
    assert_eq!((ran.text(), ran.status), ("", Some(0)));
    assert_eq!(ran.said, "puddockle: no extractor names sample 2\n");
    let most = "9007199254740991 or more";
    for (number, told) in
        [("0", "0"), ("11", "11"), ("18446744073709551617", most), ("100000000000000000000000000000001", most)]
    {
        let message = format!("examples/damaged.bin: sample {told} refused 30 at 0 - the bundle has 10 samples");
        refuses(&["names", "examples/damaged.bin", number], &message);
    }
}

#[test]
fn units() {
    let text = "    unit  type                                        bytes  from sample
       1   9 access unit delimiter                        2  2
       2   6 supplemental enhancement information         5  2
       3   1 coded slice of a non-IDR picture           337  2
       4   1 coded slice of a non-IDR picture           147  2
";
    prints(&["units", "examples/damaged.bin", "7"], 0, text);
    let lines: Vec<&str> = text.lines().collect();
    prints(&["units", "--unit=3", "examples/damaged.bin", "7"], 0, &format!("{}\n{}\n", lines[0], lines[3]));
    let refused = "examples/damaged.bin: sample 9 refused 25 at 0 - sample named is not well formed";
    refuses(&["units", "examples/damaged.bin", "9"], refused);
    refuses(&["units", "examples/damaged.bin", "9", "--unit", "1"], refused);
    // The sample itself is not refused where it has no such unit.
    for (sample, unit, what, why) in [
        ("7", "5", "unit 5 of sample 7", "no such unit is delivered"),
        ("7", "0", "unit 0 of sample 7", "no such unit is delivered"),
        ("11", "1", "sample 11", "the bundle has 10 samples"),
    ] {
        let message = format!("examples/damaged.bin: {what} refused 30 at 0 - {why}");
        refuses(&["units", "examples/damaged.bin", sample, "--unit", unit], &message);
    }
}

#[test]
fn tracks() {
    let text = "\
track 1: AVC, profile 66 (Baseline), compatibility 0, level 30 (3), length size 1
    0 sequence sets
    0 picture sets
    no trailer
track 2: SVC, profile 83 (Scalable Baseline), compatibility 0, level 30 (3), length size 1, complete representation
    0 sequence sets
    0 picture sets
    no trailer
1 reference
    track 2 names samples of track 1, track_ref_index 1
2 samples
  sample  track                  time     bytes
       1      1                     0         3
       2      2                     0         9
";
    prints(&["tracks", "examples/bench.bin"], 0, text);
    let ran = run(["tracks", "tests/recordings/high100_small.L4.two.bin"]);
    let references: Vec<&str> = ran.text().lines().filter(|line| line.contains("track_ref_index")).collect();
    let expected = [(1, 1), (2, 2), (1, 3)]
        .map(|(to, index)| format!("    track 3 names samples of track {to}, track_ref_index {index}"));
    assert_eq!(references, expected);
    let ran = run(["tracks", "tests/recordings/gst_high100.L4.avc.bin"]);
    assert!(ran.text().contains("\n    trailer absent\n"));
}

#[test]
fn records() {
    let folder = "tests/recordings/records";
    prints(
        &["record", "--kind", "avc", &format!("{folder}/cbr_filler_mp4_avc1.avcc")],
        0,
        "\
AVC, profile 100 (High), compatibility 0, level 12 (1.2), length size 4
    1 sequence set
        type 7 sequence parameter set, 35 bytes
    1 picture set
        type 8 picture parameter set, 5 bytes
    trailer: chroma_format 1, luma depth 8, chroma depth 8, extension sets 0
",
    );
    let ran = run(["record", &format!("{folder}/x264.high100_mkv.avcc"), "--kind=avc"]);
    assert!(ran.status == Some(0) && ran.text().ends_with("    trailer absent\n"), "{}", ran.text());
    let file = format!("{folder}/s2t1.split_mp4_svc1.svcc");
    let message = format!("{file}: record refused 10 at 0 - record's fixed bits are wrong");
    refuses(&["record", &file, "--kind", "svc"], &message);
    let with_extension = [1, 100, 0, 11, 0xFF, 0xE0, 0, 0xFD, 0xF8, 0xF8, 1, 0, 1, 13];
    let ran = run_on(&with_extension, ["record", "-", "--kind", "avc"]);
    assert!(
        ran.text().ends_with(
            "extension sets 1\n    1 extension set\n        type 13 sequence parameter set extension, 1 byte\n"
        ),
        "{}",
        ran.text()
    );
    for words in [&["record", "x"][..], &["record", "x", "--kind", "mvc"], &["record", "x", "--kind"]] {
        fails(run(words), "record: ");
    }
}

/// A record may be longer than a bundle can hold.
#[test]
fn long_records() {
    let set = [&40_000u16.to_be_bytes()[..], &[0x67; 40_000]].concat();
    let record = [&[1, 66, 0, 30, 0xFF, 0xE2], &set[..], &set, &[0]].concat();
    let ran = run_on(&record, ["record", "-", "--kind", "avc"]);
    assert_eq!(ran.text().matches("type 7 sequence parameter set, 40000 bytes\n").count(), 2, "{}", ran.said);
    let ran = run_on(&record[..record.len() - 1], ["record", "-", "--kind", "avc"]);
    assert_eq!((ran.status, ran.said.contains("record refused 8 at 0 - ")), (Some(1), true));
}

/// Profile, compatibility and level with their names (ISO/IEC 14496-10, Annexes A and G).
#[test]
fn profiles_and_levels() {
    for (kind, [profile, compatibility, level], words) in [
        ("avc", [66, 0x10, 11], "profile 66 (Baseline), compatibility 16, level 11 (1b)"),
        ("avc", [66, 0xE0, 11], "profile 66 (Baseline), compatibility 224, level 11 (1.1)"),
        ("avc", [100, 0x10, 11], "profile 100 (High), compatibility 16, level 11 (1.1)"),
        ("avc", [100, 0, 9], "profile 100 (High), compatibility 0, level 9 (1b)"),
        ("avc", [77, 0, 40], "profile 77 (Main), compatibility 0, level 40 (4)"),
        ("avc", [88, 0, 51], "profile 88 (Extended), compatibility 0, level 51 (5.1)"),
        ("svc", [86, 0, 32], "profile 86 (Scalable High), compatibility 0, level 32 (3.2)"),
        ("avc", [0, 255, 14], "profile 0, compatibility 255, level 14,"),
    ] {
        let sets = if kind == "avc" { 0xE0 } else { 0 };
        let ran = run_on(&[1, profile, compatibility, level, 0xFF, sets, 0], ["record", "-", "--kind", kind]);
        assert!(ran.status == Some(0) && ran.text().contains(words), "{words}: {}{}", ran.text(), ran.said);
    }
}

/// The types that a sample delivers with their names (ISO/IEC 14496-10, Table 7-1).
#[test]
fn unit_types() {
    let names = [
        (0, "unspecified"),
        (1, "coded slice of a non-IDR picture"),
        (5, "coded slice of an IDR picture"),
        (6, "supplemental enhancement information"),
        (7, "sequence parameter set"),
        (8, "picture parameter set"),
        (9, "access unit delimiter"),
        (12, "filler data"),
        (13, "sequence parameter set extension"),
        (14, "prefix NAL unit"),
        (15, "subset sequence parameter set"),
        (16, "reserved"),
        (19, "coded slice of an auxiliary picture"),
        (20, "coded slice extension"),
        (23, "reserved"),
        (24, "unspecified"),
    ];
    let sample = names.iter().flat_map(|(unit_type, _)| [4, 0x60 | unit_type, 0, 0, 0]).collect();
    let ran = run_on(&bundle(&[(1, SVC)], &[], &[(1, 0, sample)]), ["units", "--json", "-", "1"]);
    let document = ran.document();
    let units = document["units"].list();
    let told: Vec<(u8, &str)> = units.iter().map(|unit| (unit["type"].number() as u8, unit["name"].text())).collect();
    assert_eq!(told, names);
}

const CALLS: [&str; 9] = ["audit", "names", "units", "stream", "unstream", "salvage", "tracks", "record", "explain"];

#[test]
fn help_and_version() {
    prints(&["--version"], 0, &format!("puddockle {}\n", puddockle::VERSION));
    let help = run(["--help"]);
    assert_eq!((help.status, help.said.as_str()), (Some(0), ""));
    // The width of a terminal.
    assert!(help.text().lines().all(|line| line.len() <= 80));
    for call in CALLS {
        assert!(help.text().contains(&format!("puddockle {call} ")), "{call}");
        for words in [[call, "--help"], [call, "-h"]] {
            let ran = run(words);
            assert!(ran.status == Some(0) && ran.said.is_empty(), "{call}");
            assert!(ran.text().starts_with(&format!("usage: puddockle {call} ")), "{call}");
            assert!(ran.text().lines().all(|line| line.len() <= 80), "{call}");
        }
    }
}

/// The man page has the version, every call and every option that the help has.
#[test]
fn man_page() {
    let page = std::fs::read_to_string(root().join("docs/puddockle.1")).unwrap().replace('\\', "");
    assert!(page.contains(&format!("Puddockle {}\"", puddockle::VERSION)));
    let mut options = 0;
    for call in CALLS {
        assert!(page.contains(&format!(".B puddockle {call}\n")) && page.contains(&format!(".B {call}\n")), "{call}");
        let help = run([call, "--help"]);
        for line in help.text().lines().filter(|line| line.trim_start().starts_with('-')) {
            let option = line.split_whitespace().next().unwrap();
            let entries = [format!(".TP\n.B {option}"), format!(".TP\n.BI {option} ")];
            assert!(entries.iter().any(|entry| page.contains(entry)), "{call} {option}");
            options += 1;
        }
    }
    assert_eq!(options, 26);
}

/// Wrong use: a message, nothing printed, status 2.
#[test]
fn wrong_use() {
    let bench = "examples/bench.bin";
    fails(run::<&str>([]), "usage: puddockle audit");
    for words in [
        &["resolve", bench][..],
        &["", bench],
        &["--json"],
        &["audit"],
        &["audit", "--"],
        &["audit", "-", "-"],
        &["audit", bench, "--unit", "1"],
        &["audit", bench, "--json", "--json"],
        &["names", bench],
        &["names", bench, "1", "2"],
        &["names", bench, "one"],
        &["names", bench, ""],
        &["names", bench, "+1"],
        &["names", bench, "-1"],
        &["names", bench, "1 "],
        &["names", bench, "--", "-1"],
        &["units", bench, "1", "--unit"],
        &["units", bench, "1", "--unit", "x"],
        &["units", bench, "1", "--unit", "1", "--unit=2"],
        &["units", bench, "1", "--units", "1"],
        &["units", bench, "1", "--force"],
        &["units", bench, "1", "-o"],
        &["units", bench, "1", "-o", "-", "--json"],
        &["units", bench],
        &["units", bench, "--from", "1"],
        &["units", bench, "1", "--to", "1", "-o", "-"],
        &["stream"],
        &["stream", bench, "1"],
        &["stream", bench, "--track", "x"],
        &["stream", bench, "--sample="],
        &["stream", bench, "--track", "1", "--sample", "1"],
        &["stream", bench, "--track", "1", "--force"],
        &["stream", bench, "--track", "1", "--json"],
        &["unstream", bench],
        &["unstream", "--length-size", "4"],
        &["unstream", bench, bench, "--length-size", "4"],
        &["unstream", bench, "--length-size"],
        &["unstream", bench, "--length-size="],
        &["unstream", bench, "--length-size", "-4"],
        &["unstream", bench, "--length-size", "4x"],
        &["unstream", bench, "--length-size", "4", "--length-size=4"],
        &["unstream", bench, "--length-size", "4", "--force"],
        &["unstream", bench, "--length-size", "4", "--json"],
        &["salvage"],
        &["salvage", bench],
        &["salvage", bench, "-o"],
        &["salvage", bench, "-o", "-"],
        &["salvage", bench, "-o-", "--force"],
        &["salvage", bench, "--list"],
        &["salvage", bench, "--list", "--json", "-o", "/no/such"],
        &["salvage", bench, "1", "-o", "/no/such"],
        &["salvage", bench, "-o", "/no/such", "-o", "/no/such"],
        &["tracks"],
        &["tracks", bench, bench],
        &["tracks", "--json=yes", bench],
        &["explain"],
        &["explain", "0"],
        &["explain", "35"],
        &["explain", "18446744073709551616"],
        &["explain", "4294967297"],
        &["explain", "--json", "1"],
    ] {
        let ran = run(words);
        assert_eq!((ran.status, ran.text()), (Some(2), ""), "{words:?}: {}", ran.said);
        assert!(ran.said.starts_with("puddockle: ") && ran.said.lines().count() == 1, "{words:?}: {}", ran.said);
    }
}
