//! Recordings of the largest size, and with as many refused samples as there can be.

mod common;

use std::time::{Duration, Instant};

use common::*;

#[test]
fn sixteen_mebibytes() {
    let folder = Folder::new();
    let file = folder.file("large.bin", &good(16_777_216));
    let file = file.to_str().unwrap();
    let mut expected: String = (1..=4096).map(|number| format!("{number} passed 1\n")).collect();
    expected += "passed 4096 empty 0 refused 0\n";
    let ran = run(["audit", file]);
    assert_eq!((ran.status, ran.text() == expected), (Some(0), true));
    let ran = run(["tracks", "--json", file]);
    let samples = &ran.document()["samples"];
    assert_eq!(samples.list().len(), 4096);
    // Times of more than 53 bits are whole.
    assert_eq!(samples[4095]["time"].text(), (u64::MAX - 1).to_string());
    let ran = run(["units", file, "4096", "--json"]);
    assert_eq!(ran.document()["units"][0]["from_sample"].number(), 4096);
    // One byte more.
    let mut longer = good(16_777_216);
    longer.push(0);
    let ran = run_on(&longer, ["audit", "-"]);
    assert_eq!((ran.status, ran.text()), (Some(1), "bundle refused 1 at 0 - bundle too long\n"));
}

/// One sample of millions of units.
#[test]
fn many_units() {
    let bundle = bundle(&[(0, AVC)], &[], &[(1, 0, [1, 0x65].repeat(2_000_000))]);
    let ran = run_on(&bundle, ["units", "-", "1", "-o", "-"]);
    assert_eq!((ran.status, ran.out.len()), (Some(0), 2_000_000 * 5));
    assert!(ran.out.chunks(5).all(|unit| unit == [0, 0, 0, 1, 0x65]));
    let ran = run_on(&bundle, ["units", "-", "1", "--unit", "2000000"]);
    assert_eq!(ran.text().lines().count(), 2);
    // In 150 MB; and in too little a message.
    let folder = Folder::new();
    folder.file("b.bin", &bundle);
    let ran = shell("ulimit -v 150000; $P units b.bin 1 -o out", &folder.0);
    assert_eq!((ran.status, ran.said.as_str()), (Some(0), ""));
    assert_eq!(std::fs::metadata(folder.0.join("out")).unwrap().len(), 2_000_000 * 5);
    fails(shell("ulimit -v 60000; $P units b.bin 1 -o -", &folder.0), "no memory for 4194304 units");
}

/// 4,096 samples as a byte stream, whole and in short time.
#[test]
fn sixteen_mebibytes_as_a_stream() {
    let folder = Folder::new();
    let mut bundle = good(16_777_216);
    folder.file("large.bin", &bundle);
    let start = Instant::now();
    let ran = shell("$P stream large.bin -o out", &folder.0);
    assert!(start.elapsed() < Duration::from_secs(20), "{:?}", start.elapsed());
    assert_eq!((ran.status, ran.said.as_str()), (Some(0), ""));
    // The bundle has 4-byte lengths too: its samples with a start code in place of each.
    let mut expected = bundle.split_off(1 + 3 + 7 + 1 + 2 + 4096 * 13 + 4);
    let mut rest = &mut expected[..];
    while let Some((length, after)) = rest.split_first_chunk_mut::<4>() {
        let unit = u32::from_be_bytes(*length) as usize;
        *length = [0, 0, 0, 1];
        rest = &mut after[unit..];
    }
    assert!(std::fs::read(folder.0.join("out")).unwrap() == expected);
}

/// An AVC sample of one unit of so many bytes, and SVC samples with so many extractors that copy it.
fn copies(unit: usize, samples: usize, extractors: usize) -> Vec<u8> {
    let picture = [&(unit as u32).to_be_bytes()[..], &vec![0x65; unit]].concat();
    let extractor = [0, 0, 0, 14, 0x7F, 0x80, 0, 3, 1, 0, 0, 0, 0, 0, 0, 0, 0, 0];
    let copying = (0..samples).map(|time| (2, time as u64, extractor.repeat(extractors)));
    let samples: Vec<_> = [(1, 0, picture)].into_iter().chain(copying).collect();
    bundle(&[(0, AVC_L4), (1, SVC_L4)], &[(2, 1)], &samples)
}

/// One sample that delivers more than the bundle has bytes; and in too little memory a message.
#[test]
fn long_stream() {
    let folder = Folder::new();
    folder.file("b.bin", &copies(1 << 20, 1, 64));
    let ran = shell("$P stream b.bin --sample 2", &folder.0);
    assert_eq!((ran.status, ran.said.as_str()), (Some(0), ""));
    assert!(ran.out == [&[0, 0, 0, 1], &[0x65; 1 << 20][..]].concat().repeat(64));
    let ran = shell("ulimit -v 150000; $P stream b.bin --sample 2 -o out", &folder.0);
    fails(ran, "no memory for the stream of sample 2, 268435456 bytes");
    assert_eq!(folder.names(), ["b.bin"]);
}

/// 4,096 samples by range, whole and in short time.
#[test]
fn sixteen_mebibytes_by_range() {
    let folder = Folder::new();
    let mut bundle = good(16_777_216);
    folder.file("large.bin", &bundle);
    let start = Instant::now();
    let ran = shell("$P units large.bin -o out", &folder.0);
    assert!(start.elapsed() < Duration::from_secs(20), "{:?}", start.elapsed());
    // The bundle has 4-byte lengths too: what is written are the bytes of its samples.
    let expected = bundle.split_off(1 + 3 + 7 + 1 + 2 + 4096 * 13 + 4);
    let mut text: String = (1..=4096).map(|number| format!("{number} passed 1\n")).collect();
    text += "passed 4096 empty 0 refused 0\n";
    text += &format!("out has 4096 samples, {} bytes: none is refused\n", expected.len());
    assert_eq!((ran.status, ran.said.as_str(), ran.text() == text), (Some(0), "", true));
    assert!(std::fs::read(folder.0.join("out")).unwrap() == expected);
    let ran = shell("$P units large.bin -o - --to 4095; $P units large.bin -o - --from 4096", &folder.0);
    assert_eq!((ran.status, ran.said.as_str(), ran.out == expected), (Some(0), "", true));
}

/// A range that delivers more than the room tried first; and in too little memory a message.
#[test]
fn long_range() {
    let folder = Folder::new();
    folder.file("b.bin", &copies(1 << 20, 3, 27));
    let ran = shell("$P units b.bin -o out", &folder.0);
    let bytes = (1 + 3 * 27) * (4 + (1 << 20));
    let text = format!("out has 4 samples, {bytes} bytes: none is refused");
    assert_eq!((ran.status, ran.text().lines().last()), (Some(0), Some(&text[..])), "{}", ran.said);
    let written = std::fs::read(folder.0.join("out")).unwrap();
    assert_eq!(written.len(), bytes);
    assert!(written.chunks(4 + (1 << 20)).all(|unit| unit == &written[..4 + (1 << 20)]));
    let ran = shell("ulimit -v 150000; $P units b.bin -o new", &folder.0);
    fails(ran, "b.bin: samples 1 to 4: no memory for 1073741824 bytes");
    let ran = shell("ulimit -v 60000; $P units b.bin --to 2 -o new", &folder.0);
    fails(ran, "b.bin: samples 1 to 2: no memory for 67108864 bytes");
    assert_eq!(folder.names(), ["b.bin", "out"]);
}

/// Recordings that deliver 4 TB in 4,096 samples, more than 1 GiB in one, and 640 thousand million units in one: not
/// written, and told in short time.
#[test]
fn too_long_range() {
    let folder = Folder::new();
    let most = "more than 1073741824 bytes to write";
    let told = |words: &str, message: &str| {
        let start = Instant::now();
        fails(shell(&format!("$P units {words} -o out"), &folder.0), message);
        assert!(start.elapsed() < Duration::from_secs(20), "{:?}", start.elapsed());
        assert!(folder.names().iter().all(|name| name.ends_with(".bin")), "{:?}", folder.names());
    };
    let all = copies(8_000_000, 4095, 118);
    assert!(all.len() > 16_000_000);
    folder.file("all.bin", &all);
    let fewer = "ask for fewer with --from and --to";
    told("all.bin", &format!("puddockle: all.bin: samples 1 to 4096: {most}: {fewer}"));
    told("all.bin --from 4095", &format!("all.bin: samples 4095 to 4096: {most}: {fewer}"));
    folder.file("one.bin", &copies(8_000_000, 1, 135));
    told("one.bin --from 2", &format!("one.bin: sample 2: {most}: ask for it as SAMPLE"));
    let tiny = [0, 0, 0, 1, 0x65].repeat(1_600_000);
    let front = [0, 0, 0, 14, 0x7F, 0x80, 0, 3, 1, 0, 0, 0, 0, 0];
    let copying = [&front[..], &(tiny.len() as u32).to_be_bytes()].concat().repeat(400_000);
    folder.file("tiny.bin", &bundle(&[(0, AVC_L4), (1, SVC_L4)], &[(2, 1)], &[(1, 0, tiny), (2, 0, copying)]));
    told("tiny.bin", &format!("tiny.bin: samples 1 to 2: {most}: {fewer}"));
    // What is not too long is written.
    let ran = shell("$P units one.bin --to 1 -o out", &folder.0);
    let last = "out has 1 sample, 8000004 bytes: none is refused";
    assert_eq!((ran.status, ran.text().lines().last()), (Some(0), Some(last)));
}

/// Byte streams of 16 MiB, read whole and in short time: zeros; the units that make the longest sample; one unit; many
/// zeros after each unit.
#[test]
fn sixteen_mebibytes_from_a_stream() {
    const SIZE: usize = 1 << 24;
    let folder = Folder::new();
    let reads = |stream: &[u8], length_size: usize| -> Ran {
        folder.file("stream", stream);
        let start = Instant::now();
        let ran = shell(&format!("$P unstream stream --length-size {length_size} -o out --force"), &folder.0);
        assert!(start.elapsed() < Duration::from_secs(20), "{:?}", start.elapsed());
        ran
    };
    let gives = |stream: &[u8], length_size: usize, sample: &[u8]| {
        let ran = reads(stream, length_size);
        assert_eq!((ran.status, ran.text()), (Some(0), ""), "{}", ran.said);
        assert!(std::fs::read(folder.0.join("out")).unwrap() == sample, "{length_size}");
    };
    gives(&vec![0; SIZE], 1, &[]);
    for length_size in [1, 2, 4] {
        let unit = [&[0; 3][4 - length_size..], &[1, 0x65]].concat();
        gives(&[0, 0, 1, 0x65].repeat(SIZE / 4), length_size, &unit.repeat(SIZE / 4));
    }
    let unit = vec![0x65; SIZE - 3];
    let one = [&[0, 0, 1], &unit[..]].concat();
    gives(&one, 4, &[&(unit.len() as u32).to_be_bytes(), &unit[..]].concat());
    let zeros = [&[0, 0, 1, 0x65, 9][..], &[0; 4091]].concat();
    gives(&zeros.repeat(SIZE / 4096), 2, &[0, 2, 0x65, 9].repeat(SIZE / 4096));
    std::fs::remove_file(folder.0.join("out")).unwrap();
    // Refused: at the first unit, and at the last byte.
    for (stream, length_size, told) in [
        (one, 2, "34 at 3"),
        ([0, 0, 1].repeat(SIZE / 3), 4, "33 at 2"),
        ([&[0, 0, 1, 0x65].repeat(SIZE / 4 - 1)[..], &[0, 0, 0, 1]].concat(), 4, "33 at 16777215"),
        ([&[0, 0, 1, 0x65], &vec![0; SIZE - 5][..], &[2]].concat(), 4, "33 at 16777215"),
        ([&vec![0; SIZE - 1][..], &[9]].concat(), 4, "33 at 16777215"),
    ] {
        let ran = reads(&stream, length_size);
        assert_eq!((ran.status, ran.text()), (Some(1), ""));
        assert!(ran.said.starts_with(&format!("puddockle: stream: byte stream refused {told} - ")), "{}", ran.said);
    }
    assert_eq!(folder.names(), ["stream"]);
}

/// A stream longer than the command reads, also one without an end; and in too little memory a message.
#[test]
fn streams_too_long() {
    let folder = Folder::new();
    let ran = shell("$P unstream /dev/zero --length-size 4 -o out", &folder.0);
    fails(ran, "/dev/zero: longer than 1073741824 bytes");
    let file = std::fs::File::create(folder.0.join("stream")).unwrap();
    file.set_len(1 << 30).unwrap();
    let ran = shell("ulimit -v 46000; $P unstream stream --length-size 4 -o out", &folder.0);
    fails(ran, "stream: cannot be read: ");
    file.set_len(1 << 24).unwrap();
    let ran = shell("ulimit -v 46000; $P unstream stream --length-size 4 -o out", &folder.0);
    fails(ran, "stream: no memory for the sample, 20971520 bytes");
    assert_eq!(folder.names(), ["stream"]);
}

/// Salvages a bundle in short time.
fn salvages(folder: &Folder, bundle: &[u8], words: &str) -> Ran {
    folder.file("b.bin", bundle);
    let start = Instant::now();
    let ran = shell(&format!("$P salvage b.bin -o out --force {words}"), &folder.0);
    println!("{words} {:?}", start.elapsed());
    assert!(start.elapsed() < Duration::from_secs(20), "{:?}", start.elapsed());
    assert_eq!(ran.said, "");
    ran
}

/// 4,096 damaged samples of 4 KiB: each keeps its one good unit.
#[test]
fn sixteen_mebibytes_salvaged() {
    let folder = Folder::new();
    let mut damaged = good(16_777_216);
    let mut at = 1 + 3 + 7 + 1 + 2 + 4096 * 13 + 4;
    while let Some(length) = damaged.get(at..at + 4).map(|bytes| u32::from_be_bytes(bytes.try_into().unwrap()) as usize)
    {
        // The unit of n bytes becomes one of n - 8, and after it one of more than the 4 that are left.
        damaged[at..at + 4].copy_from_slice(&(length as u32 - 8).to_be_bytes());
        at += 4 + length;
    }
    let ran = salvages(&folder, &damaged, "");
    assert_eq!(ran.status, Some(0));
    let lines: Vec<&str> = ran.text().lines().collect();
    assert_eq!(lines.len(), 2 * 4096 + 7);
    assert!(lines[1].contains(" dropped all to the end, 8 bytes: refused 15 at "), "{}", lines[1]);
    let totals = ["salvaged: 4096 samples", "dropped: 0 units and the ends of 4096 samples, 32768 bytes"];
    assert_eq!(lines[2 * 4096..][..2], totals);
    assert_eq!(lines[2 * 4096 + 5], "passed 4096 empty 0 refused 0");
    assert_eq!(std::fs::metadata(folder.0.join("out")).unwrap().len(), 16_777_216 - 32_768);
    // And cut short: thousands of samples lost all, which is one line.
    let ran = salvages(&folder, &good(16_777_216)[..5_000_000], "");
    let front: Vec<&str> = ran.text().lines().take(3).collect();
    assert_eq!(front[0], "b.bin is cut short: 11777216 bytes missing at its end");
    assert!(front[1].starts_with("sample 1212 is shortened from "), "{}", front[1]);
    assert_eq!(front[2], "2884 samples from 1213 to 4096 lost all their bytes");
    assert_eq!(ran.text().lines().count(), 3 + 2 + 7);
}

/// Millions of changes, in time and memory as their number: extractors that are too short, and aggregators that cover too
/// much.
#[test]
fn millions_of_changes() {
    let folder = Folder::new();
    let one = [4, 0x7F, 0x80, 0, 3].repeat(3_300_000);
    let bundle_of = |samples: &[(u8, u64, Vec<u8>)]| bundle(&[(1, SVC)], &[], samples);
    let ran = salvages(&folder, &bundle_of(&[(1, 0, one)]), "--list");
    assert_eq!((ran.status, ran.text().lines().count()), (Some(0), 3_300_000));
    let covering = [5, 0x7E, 0x80, 0, 3, 200].repeat(1_000_000);
    let ran = salvages(&folder, &bundle_of(&[(1, 0, covering)]), "");
    let lines: Vec<&str> = ran.text().lines().collect();
    assert_eq!((ran.status, lines.len()), (Some(0), 1 + 1_000_000 + 7));
    assert_eq!(lines[1_000_003], "zeroed: 1000000 aggregators");
    assert_eq!(lines[1_000_007], "out is NOT the recording as it was, though no byte is lost: keep the original");
    let ran = shell("ulimit -v 400000; $P salvage b.bin -o out --force --json", &folder.0);
    assert_eq!((ran.status, ran.text().lines().filter(|line| line.contains("\"zero\"")).count()), (Some(0), 1_000_000));
}

/// Extractors into 2,048 damaged samples: 1.7 million that name alike, all told in short time; and as many that all name
/// otherwise, which are looked at up to a time, and the cut is told.
#[test]
fn many_stale() {
    let folder = Folder::new();
    let bundle_of = |extractors: &dyn Fn(usize) -> Vec<u8>| {
        let damaged = (0..2048).map(|time| (1, time, vec![2, 0x65, 0x88, 0]));
        let holding = (0..2048).map(|time| (2, time, (0..900).flat_map(extractors).collect()));
        bundle(&[(0, AVC), (1, SVC)], &[(2, 1); 64], &damaged.chain(holding).collect::<Vec<_>>())
    };
    let ran = salvages(&folder, &bundle_of(&|_| vec![8, 0x7F, 0x80, 0, 3, 1, 0, 0, 0]), "");
    let lines: Vec<&str> = ran.text().lines().skip(2 * 2048).collect();
    assert_eq!(lines[2047], "sample 4096 holds 900 extractors into sample 2048: their offsets may be stale");
    let last =
        "may be stale: 1843200 extractors in 2048 samples, 2048 of them not refused: they may deliver wrong units";
    assert_eq!((ran.status, lines[2048 + 3]), (Some(0), last));
    let different = |index| vec![8, 0x7F, 0x80, 0, 3, 1 + (index / 16) as u8, (index % 16) as u8, 0, 0];
    let ran = salvages(&folder, &bundle_of(&different), "--json");
    let document = ran.document();
    let told = document["totals"]["stale_extractors"].number();
    let cut = &document["stale_cut_at"];
    assert!(*cut == json::Value::Null || told > 900 && (2050..4096).contains(&cut.number()), "{told} {cut:?}");
}

/// 4,096 refused samples, each slow to go over: what hangs on them is listed up to a time, and the cut is told.
#[test]
fn many_refused() {
    let mut sample = [1, 0x65].repeat(2000);
    sample.push(0);
    let samples: Vec<_> = (0..4096).map(|time| (1, time, sample.clone())).collect();
    let bundle = bundle(&[(0, AVC)], &[], &samples);
    let start = Instant::now();
    let ran = run_on(&bundle, ["audit", "-"]);
    assert!(start.elapsed() < Duration::from_secs(60), "{:?}", start.elapsed());
    assert_eq!(ran.status, Some(1));
    let lines: Vec<&str> = ran.text().lines().collect();
    assert_eq!(lines[4096], "passed 0 empty 0 refused 4096");
    assert!(lines[4095].starts_with("4096 refused 16 at 4000 - "), "{}", lines[4095]);
    let listed = lines[4097..].iter().filter(|line| line.starts_with("no sample hangs on sample ")).count();
    let last = lines[lines.len() - 1];
    let cut = format!("cut after 5 seconds: what hangs on sample {} and on refused", listed + 1);
    assert!(listed == 4096 || last.starts_with(&cut), "{listed}: {last}");
    let ran = run_on(&bundle, ["audit", "--json", "-"]);
    let file = &ran.document()["files"][0];
    let listed = file["dependents"].list().len() as u64;
    assert!(listed == 4096 || file["dependents_cut_at"].number() == listed + 1);
    assert_eq!(file["samples"].list().len(), 4096);
}
