//! What is in a bundle, where units stand, what extractors name: the safe functions held against each other on the
//! real recordings, the damaged ones and a bundle with every outcome.

#[path = "../../peer/tests/common/mod.rs"]
mod common;

use std::collections::BTreeSet;
use std::fs;
use std::ptr;

use puddockle::*;

/// The recordings that are accepted as bundles.
fn bundles() -> Vec<Vec<u8>> {
    let directory = common::directory("PUDDOCKLE_RECORDINGS", "recordings");
    let mut found = vec![every_outcome()];
    for directory in [directory.clone(), directory.join("damaged")] {
        let files = common::files(&directory, "bin");
        found.extend(files.iter().map(|path| fs::read(path).unwrap()).filter(|bundle| check_bundle(bundle).is_ok()));
    }
    found
}

/// A track of L = 1: a sample that passes with one unit, an empty one, one that passes and delivers nothing (an
/// aggregator that includes nothing), a refused one, an empty one.
fn every_outcome() -> Vec<u8> {
    let samples: [&[u8]; 5] = [&[2, 0x65, 0x88], &[], &[5, 0x7E, 0x80, 0, 3, 0], &[0], &[]];
    let mut bundle = vec![1, 1, 0, 7, 1, 0x53, 0, 0x1E, 0xFC, 0, 0, 0, 0, samples.len() as u8];
    for (sample, time) in samples.iter().zip(7u64..) {
        bundle.push(1);
        bundle.extend(time.to_be_bytes());
        bundle.extend((sample.len() as u32).to_be_bytes());
    }
    bundle.extend((samples.concat().len() as u32).to_be_bytes());
    bundle.extend(samples.concat());
    bundle
}

fn numbers(count: u64) -> impl Iterator<Item = SampleNumber> {
    (1..=count).map(SampleNumber)
}

#[test]
fn outcomes() {
    let bundle = every_outcome();
    let mut lines = vec![0; LINES_MOST];
    let audited = audit(&bundle, &mut lines).unwrap();
    let refused = Outcome::Refused(Refusal { number: 16, place: 0 });
    let expected = [(Outcome::Passed, 1), (Outcome::Empty, 0), (Outcome::Passed, 0), (refused, 0), (Outcome::Empty, 0)];
    assert_eq!(audited.lines().len(), 5);
    assert!(audited.lines().eq(expected.map(|(outcome, units)| AuditLine { outcome, units })));
    assert_eq!(audited.tally, Tally { passed: 2, empty: 2, refused: 1 });
}

/// The outcomes of a bundle's lines are its tally, and those of length 0 are the empty ones.
#[test]
fn outcomes_are_the_tally() {
    for bundle in bundles() {
        let mut lines = vec![0; counts(&bundle).unwrap().samples as usize * LINE];
        let audited = audit(&bundle, &mut lines).unwrap();
        let mut tally = Tally::default();
        for (line, number) in audited.lines().zip(1..) {
            let empty = sample(&bundle, SampleNumber(number)).unwrap().bytes.is_empty();
            assert_eq!(line.outcome == Outcome::Empty, empty, "sample {number}");
            match line.outcome {
                Outcome::Passed => tally.passed += 1,
                Outcome::Empty => tally.empty += 1,
                Outcome::Refused(_) => tally.refused += 1,
            }
        }
        assert_eq!(tally, audited.tally);
    }
}

/// Every track, reference and sample is reached by its number, and there is none past the last.
#[test]
fn parts() {
    let no = Refusal { number: 30, place: 0 };
    for bundle in bundles() {
        let counts = counts(&bundle).unwrap();
        // A record stands after the count or the record before, and the 3 bytes of its entry.
        let mut end = 1;
        for n in 1..=counts.tracks {
            let track = track(&bundle, TrackNumber(n)).unwrap();
            assert_eq!(track.start, end + 3);
            let length = (track.record.len() as u16).to_be_bytes();
            assert_eq!(bundle[end..track.start], [track.kind as u8, length[0], length[1]]);
            assert!(read_record(track.kind, track.record).is_ok());
            end = track.start + track.record.len();
        }
        for n in 1..=counts.references {
            let Reference { from, to } = reference(&bundle, ReferenceNumber(n)).unwrap();
            assert!(from != to && from.0.max(to.0) <= counts.tracks && from.0.min(to.0) > 0);
            assert_eq!(bundle[end + 1 + 2 * (n as usize - 1)..][..2], [from.0 as u8, to.0 as u8]);
        }
        // Samples follow their entries and the last count, without gaps up to the end; their tracks never fall.
        end += 1 + 2 * counts.references as usize + 2 + 13 * counts.samples as usize + 4;
        let samples: Vec<Sample> = numbers(counts.samples).map(|n| sample(&bundle, n).unwrap()).collect();
        for sample in &samples {
            assert_eq!(sample.start, end);
            end += sample.bytes.len();
        }
        assert_eq!(end, bundle.len());
        assert!(samples.windows(2).all(|two| (two[0].track, two[0].time) < (two[1].track, two[1].time)));
        for past in [0, u64::MAX] {
            assert_eq!(track(&bundle, TrackNumber(past)), Err(no));
            assert_eq!(reference(&bundle, ReferenceNumber(past)), Err(no));
            assert_eq!(sample(&bundle, SampleNumber(past)), Err(no));
        }
        assert_eq!(track(&bundle, TrackNumber(counts.tracks + 1)), Err(no));
        assert_eq!(reference(&bundle, ReferenceNumber(counts.references + 1)), Err(no));
        assert_eq!(sample(&bundle, SampleNumber(counts.samples + 1)), Err(no));
    }
}

/// The units are those that are asked for one by one, and joined they are what `resolve` writes, in exactly that room.
#[test]
fn units_are_what_is_resolved() {
    for bundle in bundles() {
        let mut lines = vec![0; LINES_MOST];
        let audited = audit(&bundle, &mut lines).unwrap();
        for (line, n) in audited.lines().zip(1..) {
            let number = SampleNumber(n);
            let mut spans = vec![0; line.units as usize * SPAN];
            let found = match (units(&bundle, number, &mut spans), line.outcome) {
                (Err(no), Outcome::Refused(said)) => {
                    assert_eq!(no, said);
                    continue;
                }
                (found, _) => found.unwrap(),
            };
            assert_eq!((found.len() as u64, found.is_empty()), (line.units, line.units == 0));
            let mut joined = Vec::new();
            assert!(found.spans().map(|span| span.length).eq(found.iter().map(<[u8]>::len)));
            for (bytes, one) in found.iter().zip(1..) {
                // The same part of the bundle, not only the same bytes.
                assert!(ptr::eq(unit(&bundle, number, UnitNumber(one)).unwrap(), bytes));
                joined.extend((bytes.len() as u32).to_be_bytes());
                joined.extend(bytes);
            }
            let mut out = vec![0; joined.len()];
            assert_eq!(resolve(&bundle, number, &mut out), Ok(joined.len()));
            assert!(out == joined);
            if let Some(less) = spans.len().checked_sub(1) {
                let mut short = vec![0xEE; less];
                assert_eq!(units(&bundle, number, &mut short).unwrap_err(), Refusal { number: 29, place: 0 });
                assert!(short.iter().all(|&number| number == 0xEE));
            }
        }
    }
}

/// Where a sample may have extractors: all places with the length of one.
fn places(bundle: &[u8], number: SampleNumber) -> Vec<u64> {
    let Sample { track: of, bytes, .. } = sample(bundle, number).unwrap();
    let Track { kind, record, .. } = track(bundle, of).unwrap();
    let size = read_record(kind, record).unwrap().length_size as usize;
    let length = &(6 + 2 * size as u32).to_be_bytes()[4 - size..];
    (0..).zip(bytes.windows(size)).filter(|(_, field)| *field == length).map(|(place, _)| place).collect()
}

/// What `names` lists of a sample, `named` says of each extractor, and of no other.
#[test]
fn named_is_what_names_lists() {
    let mut compared = 0;
    for bundle in bundles() {
        let mut list = vec![0; bundle.len()];
        let (mut listed, mut said) = (BTreeSet::new(), BTreeSet::new());
        for number in numbers(counts(&bundle).unwrap().samples) {
            for entry in names(&bundle, number, &mut list).unwrap().entries() {
                assert_eq!(named(&bundle, entry.sample, entry.place), Ok(number));
                listed.insert((entry.sample, entry.place, number));
            }
            for place in places(&bundle, number) {
                said.extend(named(&bundle, number, place).map(|named| (number, place, named)));
            }
        }
        assert!(listed == said);
        compared += said.len();
    }
    assert!(compared > 0);
    println!("{compared} extractors");
}
