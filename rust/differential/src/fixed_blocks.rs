//! Fixed bundles with samples longer than a block, the same in every run. The first track has samples to copy from, with
//! units, aggregators and extractors at the blocks' borders and across them; the second has an extractor in each sample.

use std::collections::BTreeSet;

use crate::make::blocks::BLOCK;
use crate::make::bundle::{lay_out, Entry, Track};
use crate::make::sample::MadeSample;
use crate::make::{patch, put, AVC, SVC};
use crate::places;

/// Bytes on either side of a block's border that count as near to it.
const NEAR: usize = 5;

/// A sample that is put together. All units but aggregators and extractors are of a type that may stand anywhere.
struct Sample {
    length_size: usize,
    bytes: Vec<u8>,
}

impl Sample {
    fn new(length_size: usize) -> Sample {
        Sample { length_size, bytes: Vec::new() }
    }

    /// A unit that ends there.
    fn unit_to(mut self, end: usize) -> Sample {
        let length = end - self.bytes.len() - self.length_size;
        put(&mut self.bytes, length as u64, self.length_size);
        self.bytes.resize(end, 0x66);
        self
    }

    /// Units of one byte up to there; the last one is longer where that is needed.
    fn tiny_to(mut self, end: usize) -> Sample {
        let tiny = self.length_size + 1;
        while end - self.bytes.len() >= 2 * tiny {
            let next = self.bytes.len() + tiny;
            self = self.unit_to(next);
        }
        self.unit_to(end)
    }

    fn extractor(mut self) -> Sample {
        let copying = Extractor { time: 0, sample_offset: 0, data_offset: 0, data_length: 0 };
        self.bytes.extend(copying.bytes(self.length_size));
        self
    }

    /// An aggregator that includes what is put in and covers so many bytes.
    fn aggregator(mut self, additional: usize, include: impl FnOnce(Sample) -> Sample) -> Sample {
        let (start, size) = (self.bytes.len(), self.length_size);
        put(&mut self.bytes, 0, size);
        self.bytes.extend([0x7E, 0x80, 0, 3]);
        put(&mut self.bytes, additional as u64, size);
        self = include(self);
        let length = self.bytes.len() - start - size;
        patch(&mut self.bytes, start, length as u64, size);
        self
    }

    /// One more unit, whose top bit is set: 17.
    fn top_bit(mut self) -> Sample {
        put(&mut self.bytes, 1, self.length_size);
        self.bytes.push(0xE6);
        self
    }

    /// The last unit lacks a byte: 15.
    fn cut(mut self) -> Sample {
        self.bytes.pop();
        self
    }
}

/// The one unit of a sample in the second track, and the time of that sample.
struct Extractor {
    time: usize,
    sample_offset: i8,
    data_offset: usize,
    data_length: usize,
}

impl Extractor {
    fn bytes(&self, length_size: usize) -> Vec<u8> {
        let mut bytes = Vec::new();
        put(&mut bytes, 6 + 2 * length_size as u64, length_size);
        bytes.extend([0x7F, 0x80, 0, 3, 1, self.sample_offset as u8]);
        put(&mut bytes, self.data_offset as u64, length_size);
        put(&mut bytes, self.data_length as u64, length_size);
        bytes
    }
}

/// The samples of the first track, at times 0, 1 and so on, and those of the second, which is an SVC track.
fn bundle(first: u8, length_size: usize, named: &[Vec<u8>], extractors: &[Extractor]) -> Vec<u8> {
    let tracks = [first, SVC].map(|kind| {
        let (profile, sets) = if kind == AVC { (66, 0xE0) } else { (83, 0) };
        let record = vec![1, profile, 0, 30, 0xFC | (length_size as u8 - 1), sets, 0];
        Track { kind, length_size, record, links: Vec::new() }
    });
    let entry = |track: usize, time: usize, bytes: Vec<u8>| {
        let sample = MadeSample { bytes, ..MadeSample::default() };
        Entry { track, time: time as u64, sample }
    };
    let named = named.iter().enumerate().map(|(time, bytes)| entry(0, time, bytes.clone()));
    let extracting = extractors.iter().map(|extractor| entry(1, extractor.time, extractor.bytes(length_size)));
    lay_out(&tracks, &[(1, 0)], &named.chain(extracting).collect::<Vec<Entry>>()).0
}

/// Samples to copy from. What stands at a border moves over it by `shift` bytes, from 0 to L.
fn named(length_size: usize, shift: usize) -> Vec<Vec<u8>> {
    let new = || Sample::new(length_size);
    let shifted = || new().unit_to(length_size + 1 + shift);
    let about = |blocks: usize| blocks * BLOCK + shift - length_size / 2;
    let included_start = about(1) + 2 * length_size + 4;
    let samples = [
        shifted().tiny_to(3 * BLOCK + 40),
        new(),
        // An aggregator of almost all, which ends at the third border.
        shifted().aggregator(0, |inside| inside.tiny_to(about(3))).tiny_to(4 * BLOCK),
        shifted().tiny_to(about(3)).top_bit(),
        // An aggregator that starts at the first border and covers units up to the third.
        shifted()
            .tiny_to(about(1))
            .aggregator(about(3) - included_start - 20, |inside| inside.tiny_to(included_start + 20))
            .tiny_to(about(3))
            .tiny_to(3 * BLOCK + 60),
        new().tiny_to(about(2)),
        // A unit over two borders; the sample ends on the fourth.
        new().tiny_to(about(1)).unit_to(3 * BLOCK + 3).tiny_to(4 * BLOCK),
        new().tiny_to(2 * BLOCK).cut(),
        // An extractor across the second border, and one in an aggregator at the third.
        shifted()
            .tiny_to(about(2) - length_size)
            .extractor()
            .tiny_to(about(3) - 100)
            .aggregator(0, |inside| inside.tiny_to(about(3)).extractor().tiny_to(about(3) + 60))
            .tiny_to(4 * BLOCK + 10),
        new().unit_to(about(1)),
        // Small aggregators one after the other.
        (1..=60).fold(new(), |sample, count| sample.aggregator(0, |inside| inside.tiny_to(count * 60 + shift))),
    ];
    samples.map(|sample| sample.bytes).into()
}

/// Starts of units near the borders of blocks and the places beside them, the front, the end of the sample, one past it.
fn places_near(bundle: &[u8], sample: usize, length: usize) -> Vec<usize> {
    let near = |place: usize| place > 0 && (place + NEAR) % BLOCK <= 2 * NEAR;
    let mut found = BTreeSet::from([0, length, length + 1]);
    let starts = places::of(bundle, sample as u64 + 1).units.into_iter().map(|place| place as usize);
    for place in starts.filter(|&place| near(place)) {
        found.extend([place - 1, place, place + 1]);
    }
    found.into_iter().collect()
}

/// A bundle with all copies from one of the named samples that start and end at those places.
fn all_copies(first: u8, length_size: usize, named: &[Vec<u8>], number: usize) -> Vec<u8> {
    let alone = bundle(first, length_size, named, &[]);
    let places = places_near(&alone, number, named[number].len());
    // The base is always the last named sample.
    let last = named.len() - 1;
    let sample_offset = -((last - number) as i8);
    let mut extractors = Vec::new();
    for (index, &data_offset) in places.iter().enumerate() {
        for end in &places[index..] {
            let time = last + extractors.len();
            extractors.push(Extractor { time, sample_offset, data_offset, data_length: end - data_offset });
        }
    }
    bundle(first, length_size, named, &extractors)
}

/// Copies from every sample above, with length sizes 2 and 4, in AVC and SVC tracks.
pub fn at_borders() -> Vec<Vec<u8>> {
    let mut bundles = Vec::new();
    for (length_size, shift) in [2, 4].into_iter().flat_map(|size| (0..=size).map(move |shift| (size, shift))) {
        let named = named(length_size, shift);
        let first = [SVC, AVC][shift % 2];
        bundles.extend((0..named.len()).map(|number| all_copies(first, length_size, &named, number)));
    }
    bundles
}

/// Bundles of about the most bytes, with about the most whole blocks: in one sample, in many of six blocks each, and in
/// many of one to eleven blocks or a byte more or less, of which some are empty and some ill-formed.
pub fn longest() -> Vec<Vec<u8>> {
    let one = Sample::new(4)
        .unit_to(6553 * BLOCK + 1)
        .aggregator(0, |inside| inside.unit_to(13_087 * BLOCK).tiny_to(13_088 * BLOCK + 3))
        .tiny_to(13_090 * BLOCK);
    let six = many(|_| 6 * BLOCK);
    let several = many(|index| match index % 50 {
        0 => 0,
        _ => (1 + index % 11) * BLOCK + index % 3 - 1,
    });
    vec![all_copies(SVC, 4, &[one.bytes], 0), six, several]
}

/// As many samples as there may be, of these lengths, each with a tiny unit at the border of a block; and as many with an
/// extractor of one of them, the base, which copies that unit, with what follows, or ends or starts beside a border.
fn many(length: impl Fn(usize) -> usize) -> Vec<u8> {
    let tiny = |index: usize| (1 + index / 11 % 6) * BLOCK - 5 + index % 7;
    let sample = |index: usize| match length(index) {
        0 => Sample::new(4),
        length if length < tiny(index) + 10 => Sample::new(4).unit_to(length),
        length => Sample::new(4).unit_to(tiny(index)).unit_to(tiny(index) + 5).unit_to(length),
    };
    let named: Vec<Vec<u8>> = (0..2048).map(|i| if i % 50 == 25 { sample(i).cut() } else { sample(i) }.bytes).collect();
    let extractor = |index: usize| Extractor {
        time: index,
        sample_offset: 0,
        data_offset: tiny(index) + index % 13 / 12,
        data_length: [0, 5, 6, named[index].len().saturating_sub(tiny(index))][index % 4],
    };
    bundle(AVC, 4, &named, &(0..2048).map(extractor).collect::<Vec<Extractor>>())
}
