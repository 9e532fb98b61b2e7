//! Damaged samples, to be salvaged: units with faults inside, additional_bytes that are wrong, a first top-level fault.

use super::bundle::{lay_out, Entry, Track};
use super::record::make_record;
use super::sample::{header, plain, put_unit, MadeSample, Manner, AGGREGATOR, EXTRACTOR};
use super::{patch, put, AVC, SVC};
use crate::random::Random;

/// An aggregator whose additional_bytes are to be set: where they stand, and where it ends.
struct Covering {
    at: usize,
    end: usize,
}

/// A bundle of two tracks; extractors of the second name samples of the first, and now and then the other way.
pub fn make_damaged_bundle(random: &mut Random) -> Vec<u8> {
    let size = random.pick(&[1, 2, 4]);
    let kinds = [random.pick(&[AVC, SVC]), SVC];
    let tracks = kinds.map(|kind| {
        let record = make_record(random, kind, size).spell();
        Track { kind, length_size: size, record, links: Vec::new() }
    });
    let mut references = vec![(1, 0)];
    if random.once_in(2) {
        references.push((0, 1));
    }
    let mut entries = Vec::new();
    for (track, kind) in kinds.into_iter().enumerate() {
        for time in 0..random.between(1, 3) as u64 {
            // Only extractors in a well-formed sample name others.
            let damaged = if track == 0 { !random.once_in(4) } else { random.once_in(3) };
            let bytes = make_damaged(random, kind, size, damaged);
            entries.push(Entry { track, time, sample: MadeSample { bytes, ..MadeSample::default() } });
        }
    }
    lay_out(&tracks, &references, &entries).0
}

/// A sample of a few units. Where it is not to be damaged it is well formed.
pub fn make_damaged(random: &mut Random, kind: u8, length_size: usize, damaged: bool) -> Vec<u8> {
    let manner = Manner { kind, length_size, most_units: 0, linked: false, faults: false };
    let (mut sample, mut coverings, mut borders) = (Vec::new(), Vec::new(), Vec::new());
    for _ in 0..random.below(7) {
        borders.push(sample.len());
        let unit = match random.below(9) {
            0 | 1 => aggregator(random, &manner, false),
            2 => aggregator(random, &manner, damaged),
            3 if damaged => wrong_extractor(random, &manner),
            3 | 4 => extractor(random, &manner),
            _ => plain(random, &manner, false),
        };
        let at = sample.len() + length_size + 4;
        put_unit(&mut sample, &unit, length_size);
        if unit[0] & 31 == AGGREGATOR {
            coverings.push(Covering { at, end: sample.len() });
        }
    }
    let fault = sample.len();
    borders.push(fault);
    if damaged && random.once_in(2) {
        put_first_fault(random, &manner, &mut sample, &mut borders);
    }
    for covering in coverings {
        let end = if damaged { any_end(random, &covering, &borders, fault, sample.len()) } else { covering.end };
        let additional = end.wrapping_sub(covering.end) as u64;
        if end >= covering.end && additional < 1 << (8 * length_size) {
            patch(&mut sample, covering.at, additional, length_size);
        }
    }
    sample
}

/// Where additional_bytes end. `fault` is the first top-level fault, or the end of the sample.
fn any_end(random: &mut Random, covering: &Covering, borders: &[usize], fault: usize, length: usize) -> usize {
    let after: Vec<usize> = borders.iter().copied().filter(|&border| border > covering.end).collect();
    match random.below(12) {
        0 | 1 => covering.end,
        2..=5 if !after.is_empty() => after[random.below(after.len().min(2))],
        6 if !after.is_empty() => random.pick(&after),
        7 if !after.is_empty() => random.pick(&after) + random.pick(&[0, 2]) - 1,
        8 => fault,
        9 => length,
        10 => covering.end + random.pick(&[0xFF, 0xFFFF, 0xFFFF_FFFF]),
        _ => covering.end + random.below(length + 3 - covering.end),
    }
}

/// 14 to 18, and what follows: nothing, any bytes, good units. Borders are noted as if the fault were none.
fn put_first_fault(random: &mut Random, manner: &Manner, sample: &mut Vec<u8>, borders: &mut Vec<usize>) {
    let start = sample.len();
    put_fault(random, manner, sample, &[14, 15, 16, 17, 18]);
    if sample.len() - start >= manner.length_size {
        borders.push(sample.len());
    }
    match random.below(3) {
        0 => {}
        1 => {
            let length = random.below(6);
            sample.extend(random.bytes(length));
        }
        _ => {
            for _ in 0..random.below(3) {
                put_unit(sample, &plain(random, manner, false), manner.length_size);
                borders.push(sample.len());
            }
        }
    }
}

/// A unit with one of these faults, 14 to 20 or 22. 14 and 15 are such only at the end, 20 only in an AVC track. With
/// L = 1 there is no 14, and 16 is put.
fn put_fault(random: &mut Random, manner: &Manner, bytes: &mut Vec<u8>, faults: &[u8]) {
    let size = manner.length_size;
    let unit = match random.pick(faults) {
        14 if size > 1 => {
            let length = random.between(1, size - 1);
            return bytes.extend(random.bytes(length));
        }
        15 => {
            let (said, there) = (random.pick(&[5, 6, 40, 255]), random.below(5));
            put(bytes, said, size);
            return bytes.extend(random.bytes(there));
        }
        14 | 16 => Vec::new(),
        17 => {
            let mut unit = plain(random, manner, true);
            unit[0] |= 0x80;
            unit
        }
        18 => {
            let unit_type = random.pick(&[14, 20, AGGREGATOR, EXTRACTOR]);
            let least = if unit_type == AGGREGATOR { 4 + size } else { 4 };
            let length = random.between(1, least - 1);
            let mut unit = random.bytes(length);
            unit[0] = unit_type | (random.byte() & 3) << 5;
            unit
        }
        19 => aggregator(random, manner, false),
        20 => vec![random.between(1, 5) as u8, random.byte()],
        _ => wrong_extractor(random, manner),
    };
    put_unit(bytes, &unit, size);
}

/// An aggregator that covers nothing yet; with a fault inside, if that is asked for.
fn aggregator(random: &mut Random, manner: &Manner, fault: bool) -> Vec<u8> {
    let mut unit = header(random, AGGREGATOR).to_vec();
    put(&mut unit, 0, manner.length_size);
    for _ in 0..random.below(3) {
        let inner = if random.once_in(4) { extractor(random, manner) } else { plain(random, manner, true) };
        put_unit(&mut unit, &inner, manner.length_size);
    }
    if fault {
        put_fault(random, manner, &mut unit, &[14, 15, 16, 17, 18, 19, 20, 22]);
        if random.once_in(3) {
            put_unit(&mut unit, &plain(random, manner, true), manner.length_size);
        }
    }
    unit
}

/// An extractor on the base of the first reference, mostly.
fn extractor(random: &mut Random, manner: &Manner) -> Vec<u8> {
    let mut unit = header(random, EXTRACTOR).to_vec();
    unit.extend([random.pick(&[1, 1, 1, 1, 0, 2]), random.pick(&[0, 0, 0, 1, 0xFF])]);
    put(&mut unit, 0, 2 * manner.length_size);
    unit
}

/// An extractor of another size than its own, at least 4 bytes.
fn wrong_extractor(random: &mut Random, manner: &Manner) -> Vec<u8> {
    let mut unit = extractor(random, manner);
    let size = unit.len();
    unit.resize(if random.once_in(2) { random.between(4, size - 1) } else { size + random.between(1, 3) }, 0);
    unit
}
