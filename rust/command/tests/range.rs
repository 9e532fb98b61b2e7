//! `puddockle units FILE --from A --to B -o OUT`: what is written, the lines, what is refused, and the statuses.

mod common;

use std::fs;
use std::os::unix::fs::symlink;
use std::path::Path;

use common::*;
use puddockle::{check_bundle, counts, resolve, SampleNumber};

/// Asks for samples of a file, and gives what was written.
fn range_of(folder: &Folder, file: &Path, words: &[&str]) -> (Ran, Option<Vec<u8>>) {
    let out = folder.0.join("out");
    let ran: Ran = command()
        .current_dir(&folder.0)
        .arg("units")
        .arg(file)
        .args(["-o", "out"])
        .args(words)
        .output()
        .unwrap()
        .into();
    let written = fs::read(&out).ok();
    let _ = fs::remove_file(&out);
    assert!(folder.names().is_empty(), "{:?}", folder.names());
    (ran, written)
}

/// The samples of an accepted bundle resolved one by one; of a refused one nothing.
fn one_by_one(bundle: &[u8]) -> Vec<Vec<u8>> {
    let mut room = vec![0; 1 << 20];
    let numbers = (1..=counts(bundle).unwrap().samples).map(SampleNumber);
    let mut resolved = |number| resolve(bundle, number, &mut room).map_or(vec![], |count| room[..count].to_vec());
    numbers.map(&mut resolved).collect()
}

/// The lines of a report without the words after a refusal, and its last line.
fn lines(ran: &Ran) -> (Vec<&str>, &str) {
    let mut lines: Vec<&str> = ran.text().lines().map(|line| line.split(" - ").next().unwrap()).collect();
    let last = lines.pop().unwrap();
    (lines, last)
}

/// How often a word stands in the lines of samples.
fn count(lines: &[&str], word: &str) -> usize {
    lines.iter().filter(|line| line.split(' ').nth(1) == Some(word)).count()
}

/// Every accepted recording: whole, it is the samples one by one, with the lines of X.out.
#[test]
fn whole_recordings() {
    let folder = Folder::new();
    let (mut sound, mut not_sound, mut empty) = (0, 0, 0);
    for path in recordings() {
        let bundle = fs::read(&path).unwrap();
        if check_bundle(&bundle).is_err() {
            continue;
        }
        let expected = one_by_one(&bundle).concat();
        let (ran, written) = range_of(&folder, &path, &[]);
        assert!(written.as_ref() == Some(&expected), "{}", path.display());
        let audit = fs::read_to_string(path.with_extension("out")).unwrap();
        let audit: Vec<&str> = audit.lines().collect();
        let (printed, last) = lines(&ran);
        assert_eq!(printed, audit, "{}", path.display());
        let samples = &audit[..audit.len() - 1];
        let refused = count(samples, "refused");
        let bytes = format!("{} bytes", expected.len());
        let end = match refused {
            0 => format!("out has {} samples, {bytes}: none is refused", samples.len()),
            _ => {
                let there = format!("it has {} of {} samples, {bytes}", samples.len() - refused, samples.len());
                let are = if refused == 1 { "is" } else { "are" };
                format!("out is NOT the whole recording: {there}; {refused} {are} refused")
            }
        };
        assert_eq!((last, ran.status, &ran.said[..]), (&end[..], Some((refused > 0) as i32), ""), "{}", path.display());
        sound += (refused == 0) as usize;
        not_sound += (refused > 0) as usize;
        empty += count(samples, "empty");
        // The words are those of the audit.
        let audit = run([&"audit".into(), &path]);
        assert!(audit.text().starts_with(ran.text().trim_end().rsplit_once('\n').unwrap().0), "{}", path.display());
    }
    assert!(sound > 10 && not_sound > 10 && empty > 10, "{sound} {not_sound} {empty}");
}

/// Every accepted recording: parts of it joined are the whole, in bytes and in lines, and each part is its samples. A
/// range of one sample is what `puddockle units FILE SAMPLE` writes.
#[test]
fn parts_of_recordings() {
    let folder = Folder::new();
    let mut parts = 0;
    for path in recordings() {
        let bundle = fs::read(&path).unwrap();
        let samples = match counts(&bundle) {
            Ok(counts) if counts.samples > 2 => counts.samples as usize,
            _ => continue,
        };
        let resolved = one_by_one(&bundle);
        let audit = fs::read_to_string(path.with_extension("out")).unwrap();
        let audit: Vec<&str> = audit.lines().collect();
        let (low, high) = (samples / 3, samples - samples / 3);
        let [below, from, to, above] = [low, low + 1, high, high + 1].map(|number| number.to_string());
        for (words, part) in [
            (&["--to", &below][..], 0..low),
            (&["--from", &from, "--to", &to], low..high),
            (&["--from", &above], high..samples),
            (&["--from", &to, "--to", &to], high - 1..high),
            (&["--from=1", "--to", &to], 0..high),
        ] {
            let (ran, written) = range_of(&folder, &path, words);
            let (printed, last) = lines(&ran);
            assert!(written == Some(resolved[part.clone()].concat()), "{} {words:?}", path.display());
            assert_eq!(printed[..part.len()], audit[part.clone()], "{} {words:?}", path.display());
            let refused = count(&audit[part.clone()], "refused");
            assert_eq!(ran.status, Some((refused > 0) as i32), "{} {words:?}", path.display());
            assert_eq!(last.starts_with("out is NOT all of sample"), refused > 0, "{last}");
            parts += 1;
        }
        let alone = run(["units".as_ref(), path.as_os_str(), to.as_ref(), "-o-".as_ref()]);
        assert!(alone.out == resolved[high - 1], "{}", path.display());
    }
    assert!(parts > 150, "{parts}");
}

/// Bundles that are refused: nothing is written.
#[test]
fn refused_bundles() {
    let folder = Folder::new();
    let mut refused = 0;
    for path in recordings() {
        let Err(no) = check_bundle(&fs::read(&path).unwrap()) else { continue };
        let line = format!("{}: bundle refused {} at {} - {}", path.display(), no.number, no.place, no.meaning());
        for words in [&[][..], &["--from", "2"], &["--to", "1"], &["--from", "0"], &["--from", "3", "--to", "2"]] {
            let (ran, written) = range_of(&folder, &path, words);
            assert_eq!((ran.status, ran.text(), written), (Some(1), "", None));
            assert_eq!(ran.said, format!("puddockle: {line}\n"));
        }
        refused += 1;
    }
    assert!(refused > 15, "{refused}");
}

/// Refused samples in words. What is told of a part is told of that part.
#[test]
fn in_words() {
    let folder = Folder::new();
    fs::copy(root().join("examples/damaged.bin"), folder.0.join("b.bin")).unwrap();
    let ran = shell("$P units b.bin --from 4 --to 9 -o part", &folder.0);
    let text = "\
4 passed 4
5 refused 15 at 11 - unit longer than what is left (track 1, time 2048)
6 refused 24 at 0 - no sample is named (track 2, time 0)
7 passed 4
8 passed 4
9 refused 25 at 0 - sample named is not well formed (track 2, time 1539, names sample 5)
passed 3 empty 0 refused 3
part is NOT all of samples 4 to 9: it has 3 of 6 samples, 1012 bytes; 3 are refused
";
    assert_eq!((ran.text(), ran.status, ran.said.as_str()), (text, Some(1), ""));
    assert_eq!(fs::metadata(folder.0.join("part")).unwrap().len(), 1012);
    let ran = shell("$P units b.bin --from 7 --to 8 -o good", &folder.0);
    let text = "7 passed 4\n8 passed 4\npassed 2 empty 0 refused 0\ngood has 2 samples, 809 bytes: none is refused\n";
    assert_eq!((ran.text(), ran.status, ran.said.as_str()), (text, Some(0), ""));
    // A file all the same: parts can be joined.
    let ran = shell("$P units b.bin --from 9 -o refused", &folder.0);
    let last = "refused is NOT all of samples 9 to 10: it has 0 of 2 samples, 0 bytes; 2 are refused";
    assert_eq!((ran.text().lines().last(), ran.status), (Some(last), Some(1)));
    assert_eq!(fs::read(folder.0.join("refused")).unwrap(), b"");
    let ran = shell("$P units b.bin --from 5 --to 5 -o one", &folder.0);
    let last = "one is NOT all of sample 5: it has 0 of 1 sample, 0 bytes; 1 is refused";
    assert_eq!((ran.text().lines().last(), ran.status), (Some(last), Some(1)));
}

/// Lines of zeros: a sample without bytes, and one that passes and delivers nothing.
#[test]
fn empty_and_nothing_delivered() {
    let nothing = vec![5, 0x7E, 0x80, 0, 3, 0];
    let samples = [(1, 0, vec![]), (1, 1, nothing), (1, 2, vec![1, 0x65]), (1, 3, vec![])];
    let folder = Folder::new();
    folder.file("b.bin", &bundle(&[(0, AVC)], &[], &samples));
    let ran = shell("$P units b.bin -o out", &folder.0);
    let text = "1 empty\n2 passed 0\n3 passed 1\n4 empty\npassed 2 empty 2 refused 0\n";
    assert_eq!(
        (ran.status, ran.text()),
        (Some(0), &format!("{text}out has 4 samples, 5 bytes: none is refused\n")[..])
    );
    assert_eq!(fs::read(folder.0.join("out")).unwrap(), [0, 0, 0, 1, 0x65]);
    let ran = shell("$P units b.bin --to 1 -o empty", &folder.0);
    assert_eq!(ran.text().lines().last(), Some("empty has 1 sample, 0 bytes: none is refused"));
    assert_eq!((ran.status, fs::read(folder.0.join("empty")).unwrap().len()), (Some(0), 0));
}

/// Samples that there are not: refused, and nothing is written.
#[test]
fn no_such_samples() {
    let folder = Folder::new();
    let damaged = root().join("examples/damaged.bin");
    let most = "9007199254740991 or more";
    let has = "the bundle has 10 samples";
    for (words, what, why) in [
        (&["--from", "0"][..], "samples 0 to 10", has),
        (&["--from", "0", "--to", "0"], "sample 0", has),
        (&["--from", "11"], "samples 11 to 10", has),
        (&["--to", "11"], "samples 1 to 11", has),
        (&["--from", "11", "--to", "11"], "sample 11", has),
        (&["--from", "18446744073709551617"], &format!("samples {most} to 10"), has),
        (&["--to", "18446744073709551616"], &format!("samples 1 to {most}"), has),
        (&["--to", "0"], "samples 1 to 0", "the first is after the last"),
        (&["--from", "7", "--to", "6"], "samples 7 to 6", "the first is after the last"),
        (&["--from", "10", "--to", "1"], "samples 10 to 1", "the first is after the last"),
    ] {
        let (ran, written) = range_of(&folder, &damaged, words);
        assert_eq!((ran.status, ran.text(), written), (Some(1), "", None), "{words:?}");
        assert_eq!(ran.said, format!("puddockle: {}: {what} refused 30 at 0 - {why}\n", damaged.display()));
        let (ran, written) = range_of(&folder, &damaged, &[words, &["--json"]].concat());
        assert_eq!((ran.status, &ran.said[..], written), (Some(1), "", None), "{words:?}");
        assert_eq!(ran.document()["refusal"]["number"].number(), 30);
    }
    // In a recording without samples there is no range.
    let none = bundle(&[(0, AVC)], &[], &[]);
    let ran = run_on(&none, ["units", "-", "-o", "/no/such"]);
    assert_eq!((ran.status, ran.text()), (Some(1), ""));
    assert_eq!(ran.said, "puddockle: standard input: samples 1 to 0 refused 30 at 0 - the bundle has 0 samples\n");
}

/// Units to standard output; the refused samples, which are left out, go to standard error.
#[test]
fn standard_output() {
    let damaged = fs::read(root().join("examples/damaged.bin")).unwrap();
    let ran = run(["units", "examples/damaged.bin", "-o", "-"]);
    assert!(ran.out == one_by_one(&damaged).concat());
    let audit = run(["audit", "examples/damaged.bin"]);
    let left_out = audit.text().lines().take(10).filter(|line| line.contains(" refused "));
    let mut said: String =
        left_out.map(|line| format!("puddockle: examples/damaged.bin: left out: {line}\n")).collect();
    let there = "it has 6 of 10 samples, 4541 bytes; 4 are refused";
    said += &format!("puddockle: standard output is NOT the whole recording: {there}\n");
    assert_eq!((ran.said, ran.status), (said, Some(1)));
    let ran = run(["units", "examples/damaged.bin", "-o-", "--from", "1", "--to", "4"]);
    assert_eq!((ran.out == one_by_one(&damaged)[..4].concat(), &ran.said[..], ran.status), (true, "", Some(0)));
    // Empty samples are no fault and not missing: nothing is said of them.
    let samples = [(1, 0, vec![]), (1, 1, vec![1, 0x65])];
    let ran = run_on(&bundle(&[(0, AVC)], &[], &samples), ["units", "-", "-o-"]);
    assert_eq!((&ran.out[..], ran.status), (&[0, 0, 0, 1, 0x65][..], Some(0)));
    assert_eq!(ran.said, "");
    let samples = [(1, 0, vec![]), (1, 1, vec![1, 0x65]), (1, 2, vec![0])];
    let ran = run_on(&bundle(&[(0, AVC)], &[], &samples), ["units", "-", "-o-"]);
    assert_eq!((&ran.out[..], ran.status), (&[0, 0, 0, 1, 0x65][..], Some(1)));
    let said = "\
puddockle: standard input: left out: 3 refused 16 at 0 - unit of length 0 (track 1, time 2)
puddockle: standard output is NOT the whole recording: it has 2 of 3 samples, 5 bytes; 1 is refused
";
    assert_eq!(ran.said, said);
}

/// The document: the lines that an audit has for the samples, and the size of what is written.
#[test]
fn documents() {
    let folder = Folder::new();
    for path in recordings() {
        let audit = run(["audit".as_ref(), "--json".as_ref(), path.as_os_str()]).document();
        let audit = &audit["files"][0];
        let (ran, written) = range_of(&folder, &path, &["--json"]);
        let document = ran.document();
        assert_eq!((&document["refusal"], &document["bytes"]), (&audit["refusal"], &audit["bytes"]));
        assert_eq!((&document["samples"], &document["tally"]), (&audit["samples"], &audit["tally"]));
        let Some(written) = written else { continue };
        assert_eq!((document["out"].text(), document["out_bytes"].number()), ("out", written.len() as u64));
        let samples = document["samples"].list();
        let last = samples.len();
        let numbers = (document["first_sample"].number(), document["last_sample"].number());
        assert_eq!(numbers, (1, last as u64));
        let (ran, _) = range_of(&folder, &path, &["--json", "--from", &last.to_string()]);
        let document = ran.document();
        let numbers = (document["first_sample"].number(), document["last_sample"].number());
        assert_eq!((numbers, document["samples"].list()), ((last as u64, last as u64), &samples[last - 1..]));
    }
}

/// OUT as in the other calls: whole or not at all, and never over what is read.
#[test]
fn output_files() {
    let folder = Folder::new();
    let damaged = fs::read(root().join("examples/damaged.bin")).unwrap();
    folder.file("b.bin", &damaged);
    symlink("b.bin", folder.0.join("link")).unwrap();
    fs::hard_link(folder.0.join("b.bin"), folder.0.join("hard")).unwrap();
    let run = |words: &str| shell(&format!("$P units {words}"), &folder.0);
    let absolute = folder.0.join("b.bin");
    for force in ["", " --force"] {
        for out in ["b.bin", "./b.bin", "link", "hard", absolute.to_str().unwrap()] {
            for file in ["b.bin", "link", "hard", "- <b.bin"] {
                fails(run(&format!("--from 2 -o {out}{force} {file}")), "it is the file that is read");
            }
        }
        fails(run(&format!("b.bin -o /dev/null{force}")), "it is no regular file");
        fails(run(&format!("b.bin -o no/such{force}")), "cannot be written: No such file");
        fails(run(&format!("b.bin -o ''{force}")), "it is no file name");
    }
    assert_eq!(fs::read(&absolute).unwrap(), damaged);
    assert_eq!(folder.names(), ["b.bin", "hard", "link"]);
    // What is there stays without --force, where the disk is full, and where the range is refused.
    folder.file("out", b"mine");
    fails(run("b.bin -o out"), "out: cannot be written: it exists: --force replaces it");
    for out in ["new", "out --force"] {
        let ran = shell(&format!("trap '' XFSZ; ulimit -f 1; $P units b.bin -o {out}"), &folder.0);
        fails(ran, "cannot be written: File too large");
    }
    assert_eq!(run("b.bin --from 11 -o out --force").status, Some(1));
    assert_eq!(fs::read(folder.0.join("out")).unwrap(), b"mine");
    assert_eq!(folder.names(), ["b.bin", "hard", "link", "out"]);
    let whole = one_by_one(&damaged).concat();
    let ran = run("b.bin -o out --force");
    assert_eq!((ran.status, ran.said.as_str()), (Some(1), ""));
    assert!(fs::read(folder.0.join("out")).unwrap() == whole);
    // What comes through a pipe, and parts joined by cat.
    let ran =
        shell("cat b.bin | $P units - -o pipe; $P units b.bin --to 3 -o 1; $P units b.bin --from 4 -o 2", &folder.0);
    assert_eq!(ran.said, "");
    assert!(fs::read(folder.0.join("pipe")).unwrap() == whole);
    assert_eq!(shell("cat 1 2 | cmp - out", &folder.0).status, Some(0));
    // A report that cannot be printed.
    for words in ["-o out --force", "-o out --force --json", "-o -"] {
        let ran = run(&format!("b.bin {words} >/dev/full"));
        assert_eq!(ran.status, Some(2), "{words}");
        assert!(ran.said.contains("standard output cannot be written"), "{}", ran.said);
        let ran = shell(&format!("{{ sleep 0.3; $P units b.bin --to 4 {words}; echo $? >&2; }} | true"), &folder.0);
        assert_eq!(ran.said, "141\n", "{words}");
    }
}

#[test]
fn wrong_use() {
    let bench = "examples/bench.bin";
    for (words, message) in [
        (&["units", bench][..], "SAMPLE is missing, or -o is missing"),
        (&["units", bench, "--json"], "SAMPLE is missing, or -o is missing"),
        (&["units", bench, "--from", "1"], "units: -o is missing"),
        (&["units", bench, "--to", "1", "--force"], "units: -o is missing"),
        (&["units", bench, "1", "--from", "1"], "SAMPLE 1 and --from do not go together: give one of them"),
        (&["units", bench, "1", "--to=2", "-o-"], "SAMPLE 1 and --to do not go together: give one of them"),
        (&["units", bench, "--from", "1", "2", "--to", "2"], "SAMPLE 2 and --from do not go together"),
        (&["units", bench, "-o", "-", "--json"], "--json and -o - both go to standard output"),
        (&["units", bench, "-o", "-", "--unit", "1"], "--unit goes with SAMPLE"),
        (&["units", bench, "-o", "-", "--from", "x"], "A is no number: x"),
        (&["units", bench, "-o", "-", "--to", "-1"], "B is no number: -1"),
        (&["units", bench, "-o", "-", "--from", "1", "--from=2"], "--from is given twice"),
        (&["units", bench, "1", "2", "-o", "-"], "one argument too many"),
        (&["units", "-o", "-"], "too few arguments"),
    ] {
        fails(run(words), message);
    }
}
