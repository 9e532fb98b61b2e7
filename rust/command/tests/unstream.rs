//! `puddockle unstream`: the sample written, what is refused and told, and the statuses.

mod common;

use std::fs;

use common::*;
use puddockle::counts;

/// Units as a sample, each after its length.
fn sample<U: AsRef<[u8]>>(length_size: usize, units: &[U]) -> Vec<u8> {
    let one = |unit: &[u8]| [&(unit.len() as u32).to_be_bytes()[4 - length_size..], unit].concat();
    units.iter().flat_map(|unit| one(unit.as_ref())).collect()
}

/// Runs it on a stream; what it says must be one line.
fn unstream(stream: &[u8], length_size: &str) -> Ran {
    let ran = run_on(stream, ["unstream", "-", "--length-size", length_size]);
    assert!(ran.said.lines().count() <= 1, "{}", ran.said);
    ran
}

/// Every sample of the recordings that is written as a byte stream comes back: with L = 4 as `puddockle units` writes
/// it, with 1 and 2 as the same units, or 34 at the first that is too long.
#[test]
fn streams_of_recordings_come_back() {
    let (mut samples, mut too_long) = (0, 0);
    for path in recordings() {
        let Ok(counts) = counts(&fs::read(&path).unwrap()) else { continue };
        let file = path.to_str().unwrap();
        for number in (1..=counts.samples).map(|number| number.to_string()) {
            let stream = run(["stream", "--bare", file, "--sample", &number]);
            if stream.status != Some(0) {
                continue;
            }
            let resolved = run(["units", file, &number, "-o", "-"]).out;
            let units = units_of(&resolved);
            let ran = unstream(&stream.out, "4");
            assert_eq!((ran.status, ran.out), (Some(0), resolved), "{file} {number}");
            for length_size in [1, 2] {
                let ran = unstream(&stream.out, &length_size.to_string());
                let long = units.iter().position(|unit| unit.len() >> (8 * length_size) > 0);
                match long {
                    None => {
                        assert_eq!((ran.status, ran.out), (Some(0), sample(length_size, &units)), "{file} {number}")
                    }
                    Some(index) => {
                        // Start codes have 4 bytes there, and so have the lengths.
                        let place = sample(4, &units[..index]).len() + 4;
                        let line = format!("byte stream refused 34 at {place} - unit too long for the length size");
                        assert_eq!((ran.status, ran.out.len()), (Some(1), 0), "{file} {number}");
                        assert_eq!(ran.said, format!("puddockle: standard input: {line}\n"));
                        too_long += 1;
                    }
                }
            }
            samples += 1;
        }
    }
    assert!(samples > 1000 && too_long > 100, "{samples} {too_long}");
}

/// A whole track: the units of all its samples, after the parameter sets.
#[test]
fn a_track_comes_back() {
    let file = "tests/recordings/main77_bslice.L4.spans.bin";
    let stream = run(["stream", file, "--track", "1"]).out;
    let resolved: Vec<u8> = (1..=50).flat_map(|number| run(["units", file, &number.to_string(), "-o-"]).out).collect();
    let ran = unstream(&stream, "4");
    let (sets, rest) = ran.out.split_at(ran.out.len() - resolved.len());
    assert_eq!(rest, resolved);
    let types: Vec<u8> = units_of(sets).iter().map(|unit| unit[0] & 31).collect();
    assert_eq!((ran.status, types), (Some(0), vec![7, 8]));
}

/// Start codes of three and four bytes, zeros before, between and after; units that begin with zeros.
#[test]
fn what_a_byte_stream_may_have() {
    let cases: [(&[u8], &[&[u8]]); 12] = [
        (&[0, 0, 1, 0x65], &[&[0x65]]),
        (&[0, 0, 0, 1, 0x65], &[&[0x65]]),
        (&[0, 0, 0, 0, 0, 1, 0x65, 0, 0, 0, 0], &[&[0x65]]),
        (&[0, 0, 1, 0x65, 0], &[&[0x65]]),
        (&[0, 0, 1, 0x65, 0, 0, 1, 0x41, 0, 0, 0, 1, 0x42], &[&[0x65], &[0x41], &[0x42]]),
        (&[0, 0, 1, 0x65, 9, 0, 0, 0, 0, 0, 0, 1, 0x41], &[&[0x65, 9], &[0x41]]),
        (&[0, 0, 1, 0x65, 0, 0, 3, 0, 0, 1, 0x41], &[&[0x65, 0, 0, 3], &[0x41]]),
        (&[0, 0, 1, 0x65, 0, 0, 3, 0, 0, 3, 0, 0], &[&[0x65, 0, 0, 3, 0, 0, 3]]),
        (&[0, 0, 1, 0, 5], &[&[0, 5]]),
        (&[0, 0, 1, 0, 0, 3, 0, 1], &[&[0, 0, 3, 0, 1]]),
        (&[0, 0, 1, 1, 0, 1, 0, 2], &[&[1, 0, 1, 0, 2]]),
        // Not judged further: the top bit, and a type that no sample can have at that size.
        (&[0, 0, 1, 0x80, 0, 0, 1, 0x7F], &[&[0x80], &[0x7F]]),
    ];
    for (stream, units) in cases {
        for length_size in [1, 2, 4] {
            let ran = unstream(stream, &length_size.to_string());
            assert_eq!((ran.status, &ran.said[..]), (Some(0), ""), "{stream:?}");
            assert_eq!(ran.out, sample(length_size, units), "{stream:?}");
        }
    }
}

/// No bytes, and zeros only: the empty sample, which is told.
#[test]
fn no_units() {
    let folder = Folder::new();
    for (count, said) in [(0, "standard input is empty or closed"), (1, ""), (2, ""), (3, ""), (1000, "")] {
        let said = if said.is_empty() { "standard input has zeros only: the sample is empty" } else { said };
        let ran = unstream(&vec![0; count], "1");
        assert_eq!((ran.status, ran.text(), &ran.said), (Some(0), "", &format!("puddockle: {said}\n")), "{count}");
        folder.file("zeros", &vec![0; count]);
        let ran = shell(&format!("$P unstream zeros --length-size 2 -o out{count}"), &folder.0);
        assert_eq!((ran.status, fs::read(folder.0.join(format!("out{count}"))).unwrap()), (Some(0), vec![]));
    }
}

/// Each refusal with its place and its words; status 1, and nothing is printed.
#[test]
fn refusals() {
    let not = "not a byte stream";
    let cases: [(&[u8], u64, &str); 16] = [
        (&[0x65], 0, "65"),
        (&[1], 0, "01"),
        (&[0, 1, 0x65], 1, "00 01"),
        (&[0, 0, 2], 2, "00 00 02"),
        (&[0, 0, 0, 0x20, b'f', b't', b'y', b'p'], 3, "00 00 00 20"),
        (&[9, 0, 0, 1, 0x65], 0, "09"),
        (&[0, 0, 1, 0x65, 0, 0, 2], 6, "65 00 00 02"),
        (&[0, 0, 1, 0, 0, 2], 5, "01 00 00 02"),
        (&[0, 0, 1, 0, 0, 0, 5], 6, "00 00 00 05"),
        (&[0, 0, 1, 0x65, 0, 0, 0, 0, 2, 9], 8, "00 00 00 02"),
        (&[0, 0, 1, 0x65, 0, 0, 0, 3], 7, "00 00 00 03"),
        (&[0, 0, 1], 2, "00 00 01"),
        (&[0, 0, 0, 1, 0, 0], 3, "00 00 00 01"),
        (&[0, 0, 1, 0, 0, 0, 0, 1, 0x65], 2, "00 00 01"),
        (&[0, 0, 1, 0x65, 0, 0, 1], 6, "65 00 00 01"),
        (&[0, 0, 1, 0x65, 0, 0, 1, 0, 0, 1, 0x41], 6, "65 00 00 01"),
    ];
    for (stream, place, bytes) in cases {
        for length_size in ["1", "2", "4"] {
            let ran = unstream(stream, length_size);
            assert_eq!((ran.status, ran.text()), (Some(1), ""), "{stream:?}");
            let line = format!("byte stream refused 33 at {place} - {not} (up to there: {bytes})");
            assert_eq!(ran.said, format!("puddockle: standard input: {line}\n"), "{stream:?}");
        }
    }
}

/// Units at the border of each length size, and which of 33 and 34 comes first.
#[test]
fn lengths() {
    let of = |length: usize| [&[0, 0, 1, 0x41, 0, 0, 0, 1], &vec![0x65; length][..], &[0, 0]].concat();
    for (length_size, most) in [("1", 255), ("2", 65_535)] {
        let ran = unstream(&of(most), length_size);
        assert_eq!((ran.status, ran.out.len()), (Some(0), most + 1 + 2 * length_size.parse::<usize>().unwrap()));
        let ran = unstream(&of(most + 1), length_size);
        let line = "byte stream refused 34 at 8 - unit too long for the length size";
        assert_eq!((ran.status, ran.text(), &ran.said), (Some(1), "", &format!("puddockle: standard input: {line}\n")));
        assert_eq!(unstream(&of(most + 1), "4").out.len(), 4 + 1 + 4 + most + 1);
    }
    let says = |stream: &[u8], text: &str| {
        let ran = unstream(stream, "1");
        assert_eq!((ran.status, ran.text()), (Some(1), ""));
        assert!(ran.said.starts_with(&format!("puddockle: standard input: byte stream refused {text} - ")), "{text}");
    };
    // 34 before a 33 inside the unit and after it, and after a 33 in a unit before.
    let long = [&[0, 0, 1], &[0x65; 200][..], &[0, 0, 2], &[0x65; 200]].concat();
    says(&long, "34 at 3");
    says(&[&of(256), &[0, 0, 1][..]].concat(), "34 at 8");
    says(&[&[0, 0, 1, 0x41, 0, 0, 2], &long[..]].concat(), "33 at 6");
}

/// The length size is judged by the library, before all; only a text that is no number is wrong use.
#[test]
fn length_sizes() {
    let most = "9007199254740991 or more";
    for (given, told) in [
        ("0", "0"),
        ("3", "3"),
        ("5", "5"),
        ("8", "8"),
        ("256", "256"),
        ("257", "257"),
        ("4294967295", "4294967295"),
        ("4294967297", "4294967297"),
        ("4294967300", "4294967300"),
        ("18446744073709551617", most),
        ("18446744073709551620", most),
    ] {
        for stream in [&[0, 0, 1, 0x65][..], &[], &[9]] {
            let ran = run_on(stream, ["unstream", "--length-size", given, "-"]);
            assert_eq!((ran.status, ran.text()), (Some(1), ""), "{given}");
            let line = format!("length size {told} refused 11 at 0 - length size is not 1, 2 or 4");
            assert_eq!(ran.said, format!("puddockle: standard input: {line}\n"));
        }
    }
    // So nothing is read then.
    for file in ["/dev/zero", "tests/no such file"] {
        let ran = run(["unstream", file, "--length-size", "3"]);
        assert_eq!((ran.status, ran.text()), (Some(1), ""));
        assert!(ran.said.contains(": length size 3 refused 11 at 0 - "), "{}", ran.said);
    }
    for given in ["1", "01", "2", "0004"] {
        let ran = run_on(&[0, 0, 1, 0x65], ["unstream", &format!("--length-size={given}"), "-"]);
        assert_eq!((ran.status, ran.out.len()), (Some(0), 1 + given.parse::<usize>().unwrap()));
    }
    fails(run(["unstream", "x"]), "unstream: --length-size is missing: see puddockle unstream --help");
    fails(run(["unstream", "x", "--length-size", "four"]), "unstream: L is no number: four: see puddockle ");
}

/// OUT as in `puddockle units`: never over what is there or what is read, and whole or not at all.
#[test]
fn output_files() {
    let folder = Folder::new();
    let stream = [&[0, 0, 1], &vec![0x65; 100_000][..]].concat();
    let expected = sample(4, &[vec![0x65; 100_000]]);
    folder.file("s.h264", &stream);
    folder.file("bad.h264", &[9]);
    let run = |words: &str| shell(&format!("$P unstream {words}"), &folder.0);
    let out = || fs::read(folder.0.join("out")).unwrap();
    // Refused: nothing is made.
    for (words, number) in
        [("bad.h264 --length-size 4", 33), ("s.h264 --length-size 2", 34), ("s.h264 --length-size 3", 11)]
    {
        let ran = run(&format!("{words} -o out"));
        assert_eq!((ran.status, ran.text()), (Some(1), ""));
        assert!(ran.said.contains(&format!(" refused {number} at ")), "{}", ran.said);
    }
    assert_eq!(folder.names(), ["bad.h264", "s.h264"]);
    let ran = run("s.h264 --length-size 4 -o out");
    assert_eq!((ran.status, ran.text(), &ran.said[..]), (Some(0), "", ""));
    assert_eq!(out(), expected);
    // What was there stays.
    folder.file("out", b"mine");
    fails(run("s.h264 --length-size 4 -o out"), "out: cannot be written: it exists: --force replaces it");
    assert_eq!(run("bad.h264 --length-size 4 -o out --force").status, Some(1));
    assert_eq!(run("s.h264 --length-size 2 -o out --force").status, Some(1));
    let ran = shell("trap '' XFSZ; ulimit -f 1; $P unstream s.h264 --length-size 4 -o out --force", &folder.0);
    assert_eq!(ran.status, Some(2), "{}", ran.said);
    assert!(ran.said.contains("out: cannot be written: File too large"), "{}", ran.said);
    assert_eq!(out(), b"mine");
    for force in ["", " --force"] {
        fails(run(&format!("s.h264 --length-size 4 -o s.h264{force}")), "it is the file that is read");
        fails(run(&format!("- --length-size 4 -o s.h264{force} <s.h264")), "it is the file that is read");
        fails(run(&format!("s.h264 --length-size 4 -o /dev/null{force}")), "it is no regular file");
    }
    assert_eq!(fs::read(folder.0.join("s.h264")).unwrap(), stream);
    assert_eq!(run("s.h264 --length-size 4 -o out --force").status, Some(0));
    assert_eq!(out(), expected);
    assert_eq!(run("s.h264 --length-size 4 -o -").out, expected);
    assert_eq!(run("- --length-size 4 <s.h264").out, expected);
    assert_eq!(folder.names(), ["bad.h264", "out", "s.h264"]);
}
