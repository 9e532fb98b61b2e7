//! What request [11] says of every salvaged sample, on real recordings, good, damaged and cut: it is well formed, a
//! well-formed one comes back unchanged with an empty change list, and salvaging twice equals once.

mod common;

use std::fs;

use peer::bundle::Bundle;
use peer::form;
use peer::kind::Kind;
use peer::length_size::LengthSize;
use peer::salvage::{salvage, salvage_sample};

/// Samples are cut at so many places, if they have so many.
const CUTS: usize = 40;

/// The new sample and the change list.
fn salvaged(kind: Kind, size: LengthSize, sample: &[u8]) -> (Vec<u8>, Vec<u8>) {
    let (mut new, mut changes) = (vec![0; sample.len()], vec![0; 5 * sample.len()]);
    let number = if kind == Kind::Avc { 0 } else { 1 };
    let [count, listed] = salvage_sample(number, size.bytes() as u32, sample, &mut new, &mut changes).unwrap();
    new.truncate(count);
    changes.truncate(listed);
    (new, changes)
}

/// Checks one sample, and tells whether it changes.
fn check(kind: Kind, size: LengthSize, sample: &[u8]) -> bool {
    let (new, changes) = salvaged(kind, size, sample);
    assert_eq!(form::check(kind, size, &new), Ok(()));
    assert_eq!(changes.is_empty(), form::check(kind, size, sample).is_ok());
    assert_eq!(changes.is_empty(), new == sample);
    assert_eq!(salvaged(kind, size, &new), (new.clone(), Vec::new()));
    !changes.is_empty()
}

#[test]
fn every_sample() {
    let directory = common::directory("PUDDOCKLE_RECORDINGS", "recordings");
    let (mut samples, mut cut, mut changed) = (0, 0, 0);
    for directory in [directory.clone(), directory.join("damaged")] {
        for path in common::files(&directory, "bin") {
            let bytes = fs::read(&path).unwrap();
            let Ok(bundle) = Bundle::read(&bytes) else { continue };
            for number in bundle.numbers() {
                let (track, sample) = (bundle.track_of(number), bundle.sample_bytes(number));
                changed += check(track.kind, track.length_size, sample) as usize;
                samples += 1;
                for end in (0..sample.len()).step_by(sample.len() / CUTS + 1) {
                    changed += check(track.kind, track.length_size, &sample[..end]) as usize;
                    cut += 1;
                }
                in_bundle(&bytes, number.0 as u64, track.kind, track.length_size, sample);
            }
        }
    }
    println!("{samples} samples, cut {cut} times; {changed} change");
    assert!(changed > 0 && changed < samples + cut);
}

/// In its bundle it is salvaged as by itself.
fn in_bundle(bytes: &[u8], number: u64, kind: Kind, size: LengthSize, sample: &[u8]) {
    let (mut new, mut changes, mut names) = (vec![0; sample.len()], vec![0; 5 * sample.len()], vec![0; bytes.len()]);
    let [count, listed, _] = salvage(bytes, number, &mut new, &mut changes, &mut names).unwrap();
    new.truncate(count);
    changes.truncate(listed);
    assert_eq!((new, changes), salvaged(kind, size, sample));
}
