//! A fixed bundle with all fixed samples, the same in every run: good, empty and refused ones beside each other.

use crate::fixed::samples;
use crate::make::bundle::{lay_out, Entry, Track};
use crate::make::sample::MadeSample;
use crate::make::{AVC, SVC};

/// Records of AVC and SVC with L = 1.
const AVC_RECORD: [u8; 7] = [1, 0x42, 0, 0x1E, 0xFC, 0xE0, 0];
const SVC_RECORD: [u8; 7] = [1, 0x53, 0, 0x1E, 0xFC, 0, 0];

/// All samples in an AVC track, and in an SVC track, which may copy from it, with the last first.
pub fn bundle() -> Vec<u8> {
    let track = |kind, record: [u8; 7]| Track { kind, length_size: 1, record: record.to_vec(), links: Vec::new() };
    let tracks = [track(AVC, AVC_RECORD), track(SVC, SVC_RECORD)];
    let entry = |track, (time, bytes)| Entry { track, time, sample: MadeSample { bytes, ..MadeSample::default() } };
    let first = (0..).zip(samples()).map(|sample| entry(0, sample));
    let second = (0..).zip(samples().into_iter().rev()).map(|sample| entry(1, sample));
    lay_out(&tracks, &[(1, 0)], &first.chain(second).collect::<Vec<Entry>>()).0
}
