//! Fixed damaged samples, the same in every run: an aggregator with every additional_bytes before all that may follow it,
//! and a sample so long that places just fit the change list.

use std::alloc::{alloc_zeroed, Layout};

use crate::make::put;

/// A longer sample is not salvaged.
pub const LONGEST: usize = 1 << 32;

/// What follows: a plain unit, extractors of a good and a wrong size, aggregators that are good, cover the next unit and
/// are bad inside, a unit that is empty and one whose top bit is 1.
fn parts(length_size: usize) -> Vec<Vec<u8>> {
    let number = |number: usize, size: usize| {
        let mut bytes = Vec::new();
        put(&mut bytes, number as u64, size);
        bytes
    };
    let unit = |parts: &[&[u8]]| [number(parts.concat().len(), length_size), parts.concat()].concat();
    let (aggregator, extractor) = ([0x7E, 0x80, 0, 3], [0x7F, 0x80, 0, 3, 1, 0]);
    let plain = unit(&[&[0x06, 0x88]]);
    vec![
        plain.clone(),
        unit(&[&extractor, &number(0, 2 * length_size)]),
        unit(&[&extractor]),
        unit(&[&aggregator, &number(0, length_size), &plain]),
        unit(&[&aggregator, &number(plain.len(), length_size)]),
        unit(&[&aggregator, &number(plain.len(), length_size), &unit(&[])]),
        unit(&[]),
        unit(&[&[0x86]]),
    ]
}

/// An aggregator, with additional_bytes up to two past the end and the greatest, before up to three of the parts.
pub fn samples(length_size: usize) -> Vec<Vec<u8>> {
    let parts = parts(length_size);
    let mut last = vec![Vec::new()];
    let mut rests = last.clone();
    for _ in 0..3 {
        last = last.iter().flat_map(|rest| parts.iter().map(|part| [&rest[..], part].concat())).collect();
        rests.extend_from_slice(&last);
    }
    let mut samples = Vec::new();
    for rest in rests {
        for additional in (0..=rest.len() as u64 + 2).chain([(1 << (8 * length_size)) - 1]) {
            let mut sample = Vec::new();
            put(&mut sample, 4 + length_size as u64, length_size);
            sample.extend([0x7E, 0x80, 0, 3]);
            put(&mut sample, additional, length_size);
            sample.extend(&rest);
            samples.push(sample);
        }
    }
    samples
}

/// A byte more than the longest sample: with L = 4 an extractor that is far too long, and at the place LONGEST - 2 what is
/// left. None where there is not so much memory; but for the first page and the last it is not asked for.
pub fn longest() -> Option<Vec<u8>> {
    let layout = Layout::array::<u8>(LONGEST + 1).expect("a size");
    // SAFETY: the layout is not empty, and the memory is zeros, given to us with this layout.
    let mut sample = unsafe {
        let start = alloc_zeroed(layout);
        if start.is_null() {
            return None;
        }
        Vec::from_raw_parts(start, layout.size(), layout.size())
    };
    sample[..5].copy_from_slice(&[0xFF, 0xFF, 0xFF, 0xFA, 0x7F]);
    Some(sample)
}
