//! Document 02's request [6]: every range of every recording, damaged ones too, against its samples one by one; and cases
//! by hand.

#[path = "../../peer/tests/common/mod.rs"]
mod common;

use std::collections::BTreeSet;
use std::fs;

use puddockle::*;

const CANARY: u8 = 0xEE;
/// Bytes before and after what is lent.
const BESIDE: usize = 8;

/// The units and the lines that are written in these rooms. Nothing else is changed, on a refusal nothing at all.
fn call(bundle: &[u8], first: u64, last: u64, rooms: [usize; 2]) -> Result<[Vec<u8>; 2], Refusal> {
    let mut buffers = rooms.map(|room| vec![CANARY; BESIDE + room + BESIDE]);
    let [out, lines] = &mut buffers;
    let [out, lines] = [(out, rooms[0]), (lines, rooms[1])].map(|(buffer, room)| &mut buffer[BESIDE..][..room]);
    let answer = range(bundle, SampleNumber(first), SampleNumber(last), out, lines);
    let answer = answer.map(|ranged| [ranged.units.len(), ranged.bytes.len()]);
    let mut written = Vec::new();
    for (buffer, count) in buffers.iter().zip(answer.unwrap_or([0, 0])) {
        let (front, rest) = buffer[BESIDE..].split_at(count);
        assert!(buffer[..BESIDE].iter().chain(rest).all(|&byte| byte == CANARY), "{first} {last} {rooms:?}");
        written.push(front.to_vec());
    }
    answer.map(|_| written.try_into().unwrap())
}

fn refused<T>(number: u32, place: u64) -> Result<T, Refusal> {
    Err(Refusal { number, place })
}

/// What each sample resolves to, nothing where it is refused; and the audit's lines.
struct OneByOne {
    resolved: Vec<Vec<u8>>,
    lines: Vec<u8>,
}

impl OneByOne {
    fn of(bundle: &[u8]) -> OneByOne {
        let one = |number| {
            let mut out = vec![0; 1 << 20];
            let count = resolve(bundle, SampleNumber(number), &mut out).unwrap_or(0);
            out[..count].to_vec()
        };
        let samples = counts(bundle).unwrap().samples;
        let mut lines = vec![0; LINES_MOST];
        let count = audit(bundle, &mut lines).unwrap().bytes.len();
        lines.truncate(count);
        OneByOne { resolved: (1..=samples).map(one).collect(), lines }
    }

    /// Those from `first` to `last`, joined.
    fn joined(&self, first: usize, last: usize) -> [Vec<u8>; 2] {
        [self.resolved[first - 1..last].concat(), self.lines[(first - 1) * LINE..last * LINE].to_vec()]
    }
}

/// The recordings, damaged ones too.
fn recordings() -> Vec<Vec<u8>> {
    let directory = common::directory("PUDDOCKLE_RECORDINGS", "recordings");
    let files = [common::files(&directory, "bin"), common::files(&directory.join("damaged"), "bin")].concat();
    files.iter().map(|path| fs::read(path).unwrap()).collect()
}

fn accepted() -> Vec<Vec<u8>> {
    recordings().into_iter().filter(|bundle| check_bundle(bundle).is_ok()).collect()
}

/// Every range is its samples one by one, joined, and their lines.
#[test]
fn every_range() {
    let (mut compared, mut samples, mut refused, mut empty) = (0, 0, 0, 0);
    for bundle in accepted() {
        let one_by_one = OneByOne::of(&bundle);
        let count = one_by_one.resolved.len();
        for first in 1..=count {
            for last in first..=count {
                let expected = one_by_one.joined(first, last);
                let rooms = [expected[0].len() + last % 3, expected[1].len() + first % 3];
                assert!(call(&bundle, first as u64, last as u64, rooms) == Ok(expected), "{first} {last}");
                compared += 1;
            }
        }
        samples += count;
        refused += one_by_one.lines.chunks(LINE).filter(|line| line[0] != 0).count();
        empty += one_by_one.lines.chunks(LINE).filter(|line| line.iter().all(|&byte| byte == 0)).count();
    }
    assert!(compared > 10_000 && refused > 10 && empty > 10, "{compared} {refused} {empty}");
    println!("{compared} ranges of {samples} samples, {refused} refused, {empty} with a line of zeros");
}

/// Two ranges that meet, joined, are the range of both: at every sample of every recording.
#[test]
fn split() {
    let mut compared = 0;
    for bundle in accepted() {
        let samples = counts(&bundle).unwrap().samples;
        let rooms = [1 << 20, LINES_MOST];
        let whole = call(&bundle, 1, samples, rooms).unwrap();
        for at in 1..samples {
            let [first, second] = [(1, at), (at + 1, samples)].map(|(a, b)| call(&bundle, a, b, rooms).unwrap());
            assert!([0, 1].map(|i| [&first[i][..], &second[i]].concat()) == whole, "{at}");
            compared += 1;
        }
    }
    assert!(compared > 1000);
    println!("split at {compared} samples");
}

/// In exact rooms it is written; with a byte less in either, or in both, it is 29 and both are untouched.
#[test]
fn room() {
    let mut compared = 0;
    for bundle in accepted() {
        let one_by_one = OneByOne::of(&bundle);
        let count = one_by_one.resolved.len();
        for (first, last) in (1..=count).map(|number| (number, number)).chain((1..=count).map(|last| (1, last))) {
            let expected = one_by_one.joined(first, last);
            let [room, lines_room] = [expected[0].len(), expected[1].len()];
            let call = |rooms| call(&bundle, first as u64, last as u64, rooms);
            assert!(call([room, lines_room]) == Ok(expected));
            for lines_room in [lines_room - 1, 0] {
                assert_eq!(call([room, lines_room]), refused(29, 0));
                assert_eq!(call([1 << 20, lines_room]), refused(29, 0));
            }
            if room > 0 {
                for room in [room - 1, 0] {
                    assert_eq!(call([room, lines_room]), refused(29, 0));
                    assert_eq!(call([room, LINES_MOST]), refused(29, 0));
                    assert_eq!(call([room, lines_room - 1]), refused(29, 0));
                }
            }
            compared += 1;
        }
    }
    assert!(compared > 1000);
    println!("{compared} ranges");
}

/// Demand 3: other bytes of the same length in place of a sample's change no range that holds neither it nor a sample
/// with an extractor in its naming list. The range of all is another afterwards.
#[test]
fn replaced() {
    let (mut compared, mut changed) = (0, 0);
    for bundle in accepted() {
        let samples = counts(&bundle).unwrap().samples;
        let rooms = [1 << 20, LINES_MOST];
        for number in (1..=samples).map(SampleNumber) {
            let old = sample(&bundle, number).unwrap();
            let mut after = bundle.clone();
            after[old.start..][..old.bytes.len()].iter_mut().for_each(|byte| *byte = !*byte);
            let mut list = vec![0; bundle.len()];
            let namers = names(&bundle, number, &mut list).unwrap().entries().map(|entry| entry.sample);
            let touched: BTreeSet<SampleNumber> = namers.chain([number]).collect();
            // The longest ranges between those.
            let mut first = 1;
            for end in touched.iter().map(|touched| touched.0).chain([samples + 1]) {
                if first < end {
                    assert!(call(&bundle, first, end - 1, rooms) == call(&after, first, end - 1, rooms));
                    compared += 1;
                }
                first = end + 1;
            }
            changed += usize::from(call(&bundle, 1, samples, rooms) != call(&after, 1, samples, rooms));
        }
    }
    assert!(compared > 1000 && changed > 1000, "{compared} {changed}");
    println!("{compared} ranges the same, {changed} of a whole recording another");
}

/// B0 of document 01 up to the bytes of its samples.
const HEAD: [u8; 56] = [
    2, 0, 0, 7, 1, 0x42, 0, 0x1E, 0xFC, 0xE0, 0, 1, 0, 7, 1, 0x53, 0, 0x1E, 0xFC, 0, 0, 1, 2, 1, 0, 2, 1, 0, 0, 0, 0,
    0, 0, 0, 0, 0, 0, 0, 3, 2, 0, 0, 0, 0, 0, 0, 0, 0, 0, 0, 0, 9, 0, 0, 0, 12,
];
const PICTURE: [u8; 3] = [2, 0x65, 0x88];
const EXTRACTOR: [u8; 9] = [8, 0x7F, 0x80, 0, 3, 1, 0, 0, 0];
const RESOLVED: [u8; 6] = [0, 0, 0, 2, 0x65, 0x88];

/// B0 with these samples.
fn with_samples(first: &[u8], second: &[u8]) -> Vec<u8> {
    let mut bundle = [&HEAD, first, second].concat();
    (bundle[38], bundle[51], bundle[55]) = (first.len() as u8, second.len() as u8, (first.len() + second.len()) as u8);
    bundle
}

fn b0() -> Vec<u8> {
    with_samples(&PICTURE, &EXTRACTOR)
}

/// An audit line.
fn line(refusal: u8, place: u8, units: u8) -> [u8; LINE] {
    [refusal, 0, 0, 0, place, 0, 0, 0, 0, 0, 0, 0, units]
}

#[test]
fn by_hand() {
    let passed = line(0, 0, 1);
    // A unit, then an extractor by a reference that is not there: nothing of the sample is written.
    let half = [&PICTURE[..], &[8, 0x7F, 0x80, 0, 3, 2, 0, 0, 0]].concat();
    for (first, second, resolved, lines) in [
        (&PICTURE[..], &EXTRACTOR[..], [&RESOLVED[..], &RESOLVED], [passed, passed]),
        (&PICTURE, &half, [&RESOLVED, &[]], [passed, line(23, 3, 0)]),
        (&[0], &PICTURE, [&[], &RESOLVED], [line(16, 0, 0), passed]),
        (&[0], &EXTRACTOR, [&[], &[]], [line(16, 0, 0), line(25, 0, 0)]),
        (&[], &PICTURE, [&[], &RESOLVED], [line(0, 0, 0), passed]),
        (&[], &[], [&[], &[]], [line(0, 0, 0), line(0, 0, 0)]),
        // An aggregator that includes nothing passes and delivers nothing.
        (&PICTURE, &[5, 0x7E, 0x80, 0, 3, 0], [&RESOLVED, &[]], [passed, line(0, 0, 0)]),
    ] {
        let bundle = with_samples(first, second);
        for rooms in [[resolved.concat().len(), 2 * LINE], [64, 64]] {
            assert_eq!(call(&bundle, 1, 2, rooms), Ok([resolved.concat(), lines.concat()]), "{first:?} {second:?}");
            for number in [1, 2] {
                let expected = [resolved[number - 1].to_vec(), lines[number - 1].to_vec()];
                assert_eq!(call(&bundle, number as u64, number as u64, rooms), Ok(expected), "{first:?} {second:?}");
            }
        }
    }
}

/// Each refusal of a bundle comes before 30 and 29.
#[test]
fn refused_bundles() {
    let changed = |at: usize, value: u8| {
        let mut bundle = b0();
        bundle[at] = value;
        bundle
    };
    // The first record with these bytes after it.
    let record = |count: u8, more: &[u8]| {
        let mut bundle = b0();
        (bundle[3], bundle[9]) = (7 + more.len() as u8, 0xE0 | count);
        bundle.splice(11..11, more.iter().copied());
        bundle
    };
    let bundles = [
        (vec![0; BUNDLE_MOST + 1], 1, 0),
        (b0()[..15].to_vec(), 2, 11),
        (changed(0, 0), 3, 0),
        (changed(11, 2), 4, 11),
        (changed(23, 2), 5, 22),
        (changed(39, 3), 6, 39),
        (changed(55, 13), 7, 52),
        (changed(3, 6), 8, 1),
        (changed(14, 2), 9, 11),
        (changed(8, 0x7C), 10, 1),
        (changed(18, 0xFE), 11, 11),
        (record(1, &[0, 0]), 12, 1),
        (record(0, &[0]), 13, 1),
    ];
    for ((bundle, number, place), expected) in bundles.iter().zip(1..) {
        assert_eq!(*number, expected);
        assert_eq!(check_bundle(bundle), refused(*number, *place));
        for (first, last) in [(1, 2), (1, 1), (0, 0), (2, 1), (1, 3), (u64::MAX, u64::MAX)] {
            for rooms in [[64, 64], [0, 0]] {
                assert_eq!(call(bundle, first, last, rooms), refused(*number, *place), "{first} {last} {rooms:?}");
            }
        }
    }
    for bundle in recordings() {
        if let Err(no) = check_bundle(&bundle) {
            assert_eq!(call(&bundle, 1, 1, [64, 64]), Err(no));
        }
    }
}

/// 30 comes before 29. Numbers that are too large are not cut.
#[test]
fn refused_numbers() {
    let large = [3, 4097, 65_537, 1 << 32, 1 << 32 | 1, 1 << 32 | 2, 1 << 63 | 1, u64::MAX - 1, u64::MAX];
    let numbers = [0, 1, 2].into_iter().chain(large);
    let mut accepted = 0;
    for (first, last) in numbers.clone().flat_map(|first| numbers.clone().map(move |last| (first, last))) {
        let good = [(1, 1), (1, 2), (2, 2)].contains(&(first, last));
        for rooms in [[64, 64], [0, 0], [64, 0], [0, 64]] {
            let answer = call(&b0(), first, last, rooms);
            match (good, rooms) {
                (false, _) => assert_eq!(answer, refused(30, 0), "{first} {last}"),
                (true, [64, 64]) => accepted += usize::from(answer.is_ok()),
                (true, _) => assert_eq!(answer, refused(29, 0), "{first} {last}"),
            }
        }
        // Without samples there is no range.
        let none = [&HEAD[..24], &[0, 0, 0, 0, 0, 0]].concat();
        assert_eq!(counts(&none).map(|counts| counts.samples), Ok(0));
        assert_eq!(call(&none, first, last, [64, 64]), refused(30, 0));
    }
    assert_eq!(accepted, 3);
}

/// Slices without bytes, as they are in Rust: a range that delivers nothing needs no room for units.
#[test]
fn no_room() {
    let bundle = with_samples(&[], &[0]);
    let mut lines = [CANARY; 2 * LINE];
    let ranged = range(&bundle, SampleNumber(1), SampleNumber(2), &mut [], &mut lines).unwrap();
    assert_eq!((ranged.units, ranged.bytes), (&[][..], &[line(0, 0, 0), line(16, 0, 0)].concat()[..]));
    assert_eq!(range(&bundle, SampleNumber(1), SampleNumber(2), &mut [], &mut []).unwrap_err().number, 29);
}

/// What the lines of every range say is what the audit says of its samples.
#[test]
fn lines_read() {
    let (mut compared, mut empty, mut nothing) = (0, 0, 0);
    for bundle in accepted().into_iter().chain(zero_lines()) {
        let (mut out, mut lines, mut audit_lines) = (vec![0; 1 << 20], vec![0; LINES_MOST], vec![0; LINES_MOST]);
        let audited: Vec<AuditLine> = audit(&bundle, &mut audit_lines).unwrap().lines().collect();
        for first in 1..=audited.len() {
            for last in first..=audited.len() {
                let numbers = [first, last].map(|number| SampleNumber(number as u64));
                let ranged = range(&bundle, numbers[0], numbers[1], &mut out, &mut lines).unwrap();
                assert_eq!(ranged.lines().len(), last - first + 1);
                assert!(ranged.lines().eq(audited[first - 1..last].iter().copied()), "{first} {last}");
                compared += 1;
            }
        }
        empty += audited.iter().filter(|line| line.outcome == Outcome::Empty).count();
        nothing += audited.iter().filter(|line| (line.outcome, line.units) == (Outcome::Passed, 0)).count();
    }
    assert!(compared > 10_000 && empty > 10 && nothing > 3, "{compared} {empty} {nothing}");
}

/// Two samples with lines of zeros: empty, or an aggregator that includes nothing.
fn zero_lines() -> [Vec<u8>; 4] {
    let nothing = &[5, 0x7E, 0x80, 0, 3, 0][..];
    [(&[][..], &[][..]), (&[], nothing), (nothing, &[]), (nothing, nothing)].map(|(a, b)| with_samples(a, b))
}
