//! Samples: plain units, aggregators and extractors. Extractors are aimed afterwards, when all samples are there.

use super::{patch, put, AVC};
use crate::random::Random;

pub const AGGREGATOR: u8 = 30;
pub const EXTRACTOR: u8 = 31;

/// A sample and what is known of it.
#[derive(Default)]
pub struct MadeSample {
    pub bytes: Vec<u8>,
    /// Where top-level units start, and the end.
    pub borders: Vec<usize>,
    /// For each top-level unit whether it is an extractor or includes one.
    pub extracting: Vec<bool>,
    /// For each aggregator that includes units, where those start, and its end.
    pub included: Vec<Vec<usize>>,
    /// Where extractors start, past their length fields.
    pub extractors: Vec<usize>,
}

/// How a sample is made.
pub struct Manner {
    pub kind: u8,
    pub length_size: usize,
    pub most_units: usize,
    /// Whether extractors and aggregators come often.
    pub linked: bool,
    /// Whether a unit now and then has a fault.
    pub faults: bool,
}

/// An aggregator whose additional_bytes are to be set: the index of its unit, and where they stand.
pub struct Covering {
    pub unit: usize,
    pub at: usize,
}

pub fn make_sample(random: &mut Random, manner: &Manner) -> MadeSample {
    let mut sample = MadeSample::default();
    let mut coverings = Vec::new();
    let units = if random.once_in(10) { 0 } else { random.between(1, manner.most_units) };
    for index in 0..units {
        sample.borders.push(sample.bytes.len());
        let before = sample.extractors.len();
        let unit = match random.below(if manner.linked { 7 } else { 40 }) {
            // Where extractors are few, 7 to 10 come up too.
            0 | 3 | 7..=10 => {
                coverings.push(Covering { unit: index, at: sample.bytes.len() + manner.length_size + 4 });
                aggregator(random, manner, &mut sample)
            }
            1 | 2 | 4 if manner.linked || random.once_in(3) => {
                sample.extractors.push(sample.bytes.len() + manner.length_size);
                extractor(random, manner)
            }
            _ => plain(random, manner, false),
        };
        sample.extracting.push(sample.extractors.len() > before);
        put_unit(&mut sample.bytes, &unit, manner.length_size);
    }
    sample.borders.push(sample.bytes.len());
    for covering in coverings {
        cover(random, manner, &mut sample, covering);
    }
    sample
}

pub fn put_unit(bytes: &mut Vec<u8>, unit: &[u8], length_size: usize) {
    put(bytes, unit.len() as u64, length_size);
    bytes.extend_from_slice(unit);
}

pub fn header(random: &mut Random, unit_type: u8) -> [u8; 4] {
    [unit_type | (random.byte() & 3) << 5, random.byte(), random.byte(), random.byte()]
}

/// Now and then true, where faults are asked for.
fn fault(random: &mut Random, manner: &Manner) -> bool {
    manner.faults && random.once_in(8)
}

/// A unit that is neither aggregator nor extractor.
pub fn plain(random: &mut Random, manner: &Manner, included: bool) -> Vec<u8> {
    let unit_type = match included && manner.kind == AVC {
        true if fault(random, manner) => random.between(1, 5) as u8,
        true => random.between(6, 29) as u8,
        false => random.between(0, 29) as u8,
    };
    let long = matches!(unit_type, 14 | 20);
    let longest = if random.once_in(20) { 20 } else { 7 };
    let length = random.between(if long { 4 } else { 1 }, longest);
    let mut unit = random.bytes(length);
    unit[0] = unit_type | (random.byte() & 3) << 5;
    if random.once_in(8) {
        put_zeros(random, &mut unit);
    }
    if fault(random, manner) {
        match random.below(3) {
            0 => unit.clear(),
            1 => unit[0] |= 0x80,
            _ => {
                unit[0] = random.pick(&[14, 20, AGGREGATOR, EXTRACTOR]);
                unit.truncate(random.between(1, 3));
            }
        }
    }
    unit
}

/// Two zeros and a third byte at some place of a unit, or as much of them as it has bytes left: often what a byte stream
/// cannot have, and often what it just can. At its front they make it a unit of type 0.
fn put_zeros(random: &mut Random, unit: &mut [u8]) {
    let start = random.below(unit.len());
    let three = [0, 0, random.pick(&[0, 1, 2, 3, 3, 3, 4, 0xFF])];
    for (byte, value) in unit[start..].iter_mut().zip(three) {
        *byte = value;
    }
}

/// An extractor, not yet aimed.
fn extractor(random: &mut Random, manner: &Manner) -> Vec<u8> {
    let mut unit = header(random, EXTRACTOR).to_vec();
    unit.resize(6 + 2 * manner.length_size, 0);
    if fault(random, manner) {
        let length = random.between(4, unit.len() + 1);
        unit.resize(length, 0);
    }
    unit
}

/// An aggregator that covers nothing yet, with its included units. They and the extractors among them are noted as if
/// it stood at the end of the sample.
fn aggregator(random: &mut Random, manner: &Manner, sample: &mut MadeSample) -> Vec<u8> {
    let mut unit = header(random, AGGREGATOR).to_vec();
    unit.resize(4 + manner.length_size, 0);
    let start = sample.bytes.len() + manner.length_size;
    let mut borders = Vec::new();
    for _ in 0..random.below(4) {
        borders.push(start + unit.len());
        let inner = match random.below(5) {
            0 if manner.linked || random.once_in(20) => {
                sample.extractors.push(start + unit.len() + manner.length_size);
                extractor(random, manner)
            }
            1 | 2 if fault(random, manner) => {
                let mut nested = header(random, AGGREGATOR).to_vec();
                nested.resize(4 + manner.length_size, 0);
                nested
            }
            _ => plain(random, manner, true),
        };
        put_unit(&mut unit, &inner, manner.length_size);
    }
    if !borders.is_empty() {
        borders.push(start + unit.len());
        sample.included.push(borders);
    }
    if fault(random, manner) {
        random.damage(&mut unit);
    }
    unit
}

/// Sets additional_bytes: to a border before the next aggregator, or, as a fault, near one.
pub fn cover(random: &mut Random, manner: &Manner, sample: &mut MadeSample, covering: Covering) {
    let (first, last) = (covering.unit + 1, sample.borders.len() - 1);
    let is_aggregator =
        |unit: usize| sample.bytes.get(sample.borders[unit] + manner.length_size).is_some_and(|b| b & 31 == AGGREGATOR);
    let mut end = first;
    while end < last && (!is_aggregator(end) || fault(random, manner)) && !random.once_in(3) {
        end += 1;
    }
    let mut additional = (sample.borders[end] - sample.borders[first]) as u64;
    if fault(random, manner) {
        additional = additional.wrapping_add(random.pick(&[1, u64::MAX, 7, 1 << 31]));
    }
    let fits = manner.length_size == 4 || additional < 1 << (8 * manner.length_size);
    if covering.at + manner.length_size <= sample.borders[first] {
        patch(&mut sample.bytes, covering.at, if fits { additional } else { 0 }, manner.length_size);
    }
}
