//! An extractor's fields (B.3.2).

use crate::length_size::{LengthSize, LONG_HEADER};
use crate::unit::Unit;

#[derive(Clone, Copy, Debug, PartialEq, Eq)]
pub struct Extractor {
    pub track_ref_index: usize,
    pub sample_offset: i8,
    pub data_offset: usize,
    pub data_length: usize,
}

impl Extractor {
    /// The extractor that stands there in a well-formed sample.
    pub fn read(sample: &[u8], size: LengthSize, unit: Unit) -> Extractor {
        let fields = unit.start + LONG_HEADER;
        Extractor {
            track_ref_index: sample[fields] as usize,
            sample_offset: sample[fields + 1] as i8,
            data_offset: size.read(sample, fields + 2),
            data_length: size.read(sample, fields + 2 + size.bytes()),
        }
    }
}
