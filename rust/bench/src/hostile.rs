//! Bundles that are slow to audit if a named sample is walked for each extractor: one sample of tiny units, and as many
//! extractors as fit that copy from it. Each has exactly the bytes asked for.
//!
//! The library keeps a mark for every 1,280 bytes of a sample and walks on from the one before. So what extractors look
//! for mostly stands at the end of such a block, where it walks the most.

use crate::audit::{passed, refused, Made};
use crate::base;
use crate::contents::head;

const BLOCK: usize = 1280;
/// Bytes of a tiny unit with its length, where L = 4.
const TINY: usize = 5;
/// Tiny units in a block.
const EACH_BLOCK: usize = BLOCK / TINY;
/// An extractor with its length, where L = 4, and a tiny unit.
const SHORTEST: usize = 18 + TINY;
/// With L = 2 the last end of a block that data_offset reaches and where a tiny unit starts, with its length 3 bytes.
const FAR: usize = 63_999;
/// An aggregator's length, header and additional_bytes, where L = 4.
const AGGREGATOR_HEAD: usize = 12;

/// What it is called, and how one of so many bytes is made.
type Kind = (&'static str, fn(usize) -> Made);

pub const KINDS: [Kind; 15] = [
    ("last unit, L 4", |size| last_unit(size, 0).make(size)),
    ("last unit by its size, L 4", |size| last_unit(size, TINY).make(size)),
    ("unit at 63,999, L 2", |size| far_unit(size, 0).make(size)),
    ("same by its size, L 2", |size| far_unit(size, 3).make(size)),
    ("whole sample", |size| from_unit(size, 0).make(size)),
    ("sample but its first block", |size| from_unit(size, EACH_BLOCK - 1).make(size)),
    ("last included unit", |size| aggregated(size, |last| Aim::unit(AGGREGATOR_HEAD + last * TINY)).make(size)),
    ("all included units", |size| aggregated(size, |last| Aim::units(AGGREGATOR_HEAD, last + 1)).make(size)),
    ("unit after an aggregator", |size| {
        aggregated(size, |last| Aim::unit(AGGREGATOR_HEAD + (last + 1) * TINY)).make(size)
    }),
    ("empty aggregators copied", |size| empty_aggregators(size).make(size)),
    ("base among 4,095 samples", base::make),
    ("64 references, L 1", |size| last_reference().make(size)),
    ("refused 26, one a sample", |size| each_refused(size).make(size)),
    ("refused 26, last of many", |size| last_refused(size).make(size)),
    ("refused 25, one a sample", |size| ill_formed(size).make(size)),
];

/// data_offset, data_length and what they give: how many units, or a refusal.
#[derive(Clone, Copy)]
struct Aim {
    offset: usize,
    length: usize,
    gives: Result<usize, u8>,
}

impl Aim {
    fn unit(offset: usize) -> Aim {
        Aim { offset, length: 0, gives: Ok(1) }
    }

    /// Tiny units with L = 4.
    fn units(offset: usize, units: usize) -> Aim {
        Aim { offset, length: units * TINY, gives: Ok(units) }
    }
}

/// What a bundle is made from. The first track has the named sample, the last one those with extractors, which go by
/// their last reference. All others are empty.
struct Hostile {
    length_size: usize,
    kinds: Vec<u8>,
    references: Vec<u8>,
    named: Vec<u8>,
    named_line: [u8; 13],
    /// How many samples have extractors.
    samples: usize,
    aim: Aim,
    /// Of the last extractor of a sample.
    last: Aim,
}

/// Two SVC tracks, and one sample with extractors.
fn two_tracks(length_size: usize, named: Vec<u8>, units: usize, aim: Aim) -> Hostile {
    let named_line = passed(units as u64);
    let (kinds, references) = (vec![1, 1], vec![2, 1]);
    Hostile { length_size, kinds, references, named, named_line, samples: 1, aim, last: aim }
}

fn tiny(length_size: usize, units: usize) -> Vec<u8> {
    [&[0, 0, 0, 1][4 - length_size..], &[0x61]].concat().repeat(units)
}

/// Tiny units that take half the bytes, in whole blocks.
fn half(size: usize) -> usize {
    size / 2 / BLOCK * EACH_BLOCK
}

fn last_unit(size: usize, length: usize) -> Hostile {
    let units = half(size);
    two_tracks(4, tiny(4, units), units, Aim { length, ..Aim::unit((units - 1) * TINY) })
}

fn far_unit(size: usize, length: usize) -> Hostile {
    let units = size / 2 / 3;
    two_tracks(2, tiny(2, units), units, Aim { length, ..Aim::unit(FAR) })
}

/// All from this unit on.
fn from_unit(size: usize, first: usize) -> Hostile {
    let units = half(size) - 1;
    two_tracks(4, tiny(4, units), units, Aim::units(first * TINY, units - first))
}

/// An aggregator of tiny units, and one after it. Given which is the last included unit, counted from 0, extractors aim.
fn aggregated(size: usize, aim: fn(usize) -> Aim) -> Hostile {
    let included = half(size) - 3;
    let mut named = ((AGGREGATOR_HEAD - 4 + included * TINY) as u32).to_be_bytes().to_vec();
    named.extend([0x7E, 0x80, 0, 3, 0, 0, 0, 0]);
    named.extend(tiny(4, included + 1));
    two_tracks(4, named, included + 1, aim(included - 1))
}

/// Half the bytes are aggregators that include nothing, in an AVC sample, and each extractor copies them all: nothing is
/// delivered but the unit that takes what is left.
fn empty_aggregators(size: usize) -> Hostile {
    let aggregator = [0, 0, 0, 8, 0x7E, 0x80, 0, 3, 0, 0, 0, 0];
    let named = aggregator.repeat(size / 2 / aggregator.len());
    let aim = Aim { offset: 0, length: named.len(), gives: Ok(0) };
    Hostile { kinds: vec![0, 1], ..two_tracks(4, named, 0, aim) }
}

/// The most tracks and references.
fn last_reference() -> Hostile {
    let references = [[16, 2].repeat(63), vec![16, 1]].concat();
    Hostile { kinds: vec![1; 16], references, ..two_tracks(1, tiny(1, 1), 1, Aim::unit(0)) }
}

/// As many samples as there are, one extractor in each: no unit starts there.
fn each_refused(size: usize) -> Hostile {
    let samples = size / 4096 - 1;
    let head = head(4, &[1, 1], &[2, 1], &vec![(1, 0); samples + 1]).len();
    let units = (size - head - samples * SHORTEST) / TINY;
    let end_of_block = units * TINY / BLOCK * BLOCK - 1;
    let aim = Aim { offset: end_of_block, length: 0, gives: Err(26) };
    Hostile { samples, ..two_tracks(4, tiny(4, units), units, aim) }
}

/// As many samples, in each extractors that pass and then one that is refused.
fn last_refused(size: usize) -> Hostile {
    let units = half(size);
    let last = Aim { offset: units * TINY - 1, length: 0, gives: Err(26) };
    Hostile { samples: size / 4096 - 1, last, ..last_unit(size, 0) }
}

/// As `each_refused`, but the last unit of the named sample has a fault.
fn ill_formed(size: usize) -> Hostile {
    let mut hostile = each_refused(size);
    let end = hostile.named.len();
    hostile.named[end - 1] |= 0x80;
    hostile.named_line = refused(17, end - TINY);
    hostile.aim.gives = Err(25);
    hostile.last.gives = Err(25);
    hostile
}

impl Hostile {
    fn make(&self, size: usize) -> Made {
        let last_track = self.kinds.len() as u8;
        let with = |lengths: &[usize]| {
            let mut samples = vec![(1, self.named.len())];
            samples.extend(lengths.iter().map(|&length| (last_track, length)));
            head(self.length_size, &self.kinds, &self.references, &samples)
        };
        let rest = size - with(&vec![0; self.samples]).len() - self.named.len();
        let length = |index: usize| rest / self.samples + (index < rest % self.samples) as usize;
        let lengths: Vec<usize> = (0..self.samples).map(length).collect();
        let mut made = Made { bundle: with(&lengths), extractors: 0, lines: self.named_line.to_vec() };
        made.bundle.extend(&self.named);
        for length in lengths {
            self.put_extracting(&mut made, length);
        }
        assert_eq!(made.bundle.len(), size);
        made
    }

    /// A sample of so many bytes: as many extractors as fit, and a unit of what is left.
    fn put_extracting(&self, made: &mut Made, length: usize) {
        let extractor = 6 + 3 * self.length_size;
        let mut count = length / extractor;
        if (1..=self.length_size).contains(&(length % extractor)) {
            count -= 1;
        }
        for _ in 1..count {
            self.put_extractor(&mut made.bundle, self.aim);
        }
        self.put_extractor(&mut made.bundle, self.last);
        let left = length - count * extractor;
        if left > 0 {
            self.put_number(&mut made.bundle, left - self.length_size);
            made.bundle.resize(made.bundle.len() + left - self.length_size, 0x61);
        }
        made.extractors += count;
        made.lines.extend(match (self.aim.gives, self.last.gives) {
            (Err(number), _) => refused(number, 0),
            (_, Err(number)) => refused(number, (count - 1) * extractor),
            (Ok(units), Ok(last)) => passed(((count - 1) * units + last + (left > 0) as usize) as u64),
        });
    }

    fn put_extractor(&self, bundle: &mut Vec<u8>, aim: Aim) {
        self.put_number(bundle, 6 + 2 * self.length_size);
        bundle.extend([0x7F, 0x80, 0, 3, self.references.len() as u8 / 2, 0]);
        self.put_number(bundle, aim.offset);
        self.put_number(bundle, aim.length);
    }

    fn put_number(&self, bundle: &mut Vec<u8>, number: usize) {
        bundle.extend(&(number as u32).to_be_bytes()[4 - self.length_size..]);
    }
}
