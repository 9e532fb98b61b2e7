//! NAL units as they stand in a sample, each after its length.

use crate::length_size::LengthSize;

pub const PREFIX: u8 = 14;
pub const SLICE_EXTENSION: u8 = 20;
pub const AGGREGATOR: u8 = 30;
pub const EXTRACTOR: u8 = 31;

/// One unit: offsets in its sample. Its place is its length field.
#[derive(Clone, Copy, Debug, PartialEq, Eq)]
pub struct Unit {
    pub place: usize,
    pub start: usize,
    pub end: usize,
}

impl Unit {
    pub fn length(self) -> usize {
        self.end - self.start
    }

    /// The type: the low five bits of the first byte.
    pub fn unit_type(self, sample: &[u8]) -> u8 {
        sample[self.start] & 0x1F
    }
}

/// The units that stand one after the other from `at` to `end`, in a sample that is well formed.
pub struct Units<'a> {
    sample: &'a [u8],
    size: LengthSize,
    at: usize,
    end: usize,
}

impl Iterator for Units<'_> {
    type Item = Unit;

    fn next(&mut self) -> Option<Unit> {
        if self.at >= self.end {
            return None;
        }
        let unit = unit_at(self.sample, self.size, self.at);
        self.at = unit.end;
        Some(unit)
    }
}

/// The unit whose length field stands at `place`.
pub fn unit_at(sample: &[u8], size: LengthSize, place: usize) -> Unit {
    let start = place + size.bytes();
    Unit { place, start, end: start + size.read(sample, place) }
}

/// The units of a part of a sample.
pub fn units_between(sample: &[u8], size: LengthSize, at: usize, end: usize) -> Units<'_> {
    Units { sample, size, at, end }
}

/// The top-level units of a sample.
pub fn top_level(sample: &[u8], size: LengthSize) -> Units<'_> {
    units_between(sample, size, 0, sample.len())
}

/// The units that an aggregator includes.
pub fn included(sample: &[u8], size: LengthSize, aggregator: Unit) -> Units<'_> {
    units_between(sample, size, aggregator.start + size.least_aggregator_size(), aggregator.end)
}

/// Where the units that an aggregator covers by reference end.
pub fn covered_end(sample: &[u8], size: LengthSize, aggregator: Unit) -> usize {
    aggregator.end + size.read(sample, aggregator.start + crate::length_size::LONG_HEADER)
}
