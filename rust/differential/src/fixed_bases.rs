//! Fixed bundles to find base samples in, the same in every run: short linked tracks with every own time, long ones.

use crate::make::put;

/// Track entries of AVC and SVC with L = 1.
const AVC_ENTRY: [u8; 10] = [0, 0, 7, 1, 0x42, 0, 0x1E, 0xFC, 0xE0, 0];
const SVC_ENTRY: [u8; 10] = [1, 0, 7, 1, 0x53, 0, 0x1E, 0xFC, 0, 0];

/// Bytes of an extractor with its length.
pub const EXTRACTOR: u64 = 9;

/// The most samples in a linked track, where one other has an extractor.
const MOST_LINKED: usize = 4095;

/// The times 1, 3, 5 and so on in an AVC track, one unit in each sample; then a sample at the own time with an
/// extractor for each sample_offset.
fn with_times(count: usize, own: u64, offsets: &[i8]) -> Vec<u8> {
    let mut bundle = [&[2][..], &AVC_ENTRY, &SVC_ENTRY, &[1, 2, 1]].concat();
    put(&mut bundle, count as u64 + 1, 2);
    for index in 0..count as u64 {
        bundle.push(1);
        put(&mut bundle, 2 * index + 1, 8);
        put(&mut bundle, 3, 4);
    }
    bundle.push(2);
    put(&mut bundle, own, 8);
    put(&mut bundle, EXTRACTOR * offsets.len() as u64, 4);
    put(&mut bundle, 3 * count as u64 + EXTRACTOR * offsets.len() as u64, 4);
    for index in 0..count {
        bundle.extend([2, 0x65, index as u8]);
    }
    for &offset in offsets {
        bundle.extend([8, 0x7F, 0x80, 0, 3, 1, offset as u8, 0, 0]);
    }
    bundle
}

/// Linked tracks of none to 16 samples; own times before all, equal to each, between and after all. And the offsets.
pub fn short() -> (Vec<Vec<u8>>, Vec<i8>) {
    let offsets: Vec<i8> = [-128, 127].into_iter().chain(-18..=18).collect();
    let every = (0..=16).flat_map(|count| (0..=2 * count as u64).map(move |own| (count, own)));
    (every.map(|(count, own)| with_times(count, own, &offsets)).collect(), offsets)
}

/// Linked tracks of the most samples and of fewer, with chosen own times. And the offsets.
pub fn long() -> (Vec<Vec<u8>>, Vec<i8>) {
    let offsets = vec![0, 1, -1, 127, -128];
    let mut bundles = Vec::new();
    for count in [63, 128, 256, 1023, 1024, 2048, MOST_LINKED] {
        let last = 2 * count as u64 - 1;
        for own in [0, last / 2, last / 2 + 1, last, u64::MAX] {
            bundles.push(with_times(count, own, &offsets));
        }
    }
    (bundles, offsets)
}
