//! Refusals: a number of document 01 or 02 and a place.

/// A no. The place is a byte offset: in the bundle for 1 to 13, in the sample asked for 14 to 28, in the resolved output
/// for 32, in the byte stream for 33 and 34, else 0.
#[derive(Clone, Copy, Debug, PartialEq, Eq)]
pub struct Refusal {
    pub number: u8,
    pub place: usize,
}

/// The refusal with this number at this place, as a result.
pub fn refuse<T>(number: u8, place: usize) -> Result<T, Refusal> {
    Err(Refusal { number, place })
}

pub const BUNDLE_TOO_LONG: u8 = 1;
pub const BUNDLE_CUT: u8 = 2;
pub const COUNT: u8 = 3;
pub const KIND: u8 = 4;
pub const REFERENCE: u8 = 5;
pub const SAMPLE_ENTRY: u8 = 6;
pub const SAMPLE_BYTES: u8 = 7;
pub const RECORD_CUT: u8 = 8;
pub const VERSION: u8 = 9;
pub const FIXED_BITS: u8 = 10;
pub const LENGTH_SIZE: u8 = 11;
pub const SET: u8 = 12;
pub const AFTER_RECORD: u8 = 13;
pub const LENGTH_CUT: u8 = 14;
pub const UNIT_TOO_LONG: u8 = 15;
pub const UNIT_EMPTY: u8 = 16;
pub const TOP_BIT: u8 = 17;
pub const UNIT_TOO_SHORT: u8 = 18;
pub const NESTED_AGGREGATOR: u8 = 19;
pub const INCLUDED_IN_AVC: u8 = 20;
pub const ADDITIONAL_BYTES: u8 = 21;
pub const EXTRACTOR_SIZE: u8 = 22;
pub const TRACK_REF_INDEX: u8 = 23;
pub const NO_SAMPLE: u8 = 24;
pub const NAMED_NOT_WELL_FORMED: u8 = 25;
pub const DATA_OFFSET: u8 = 26;
pub const DATA_LENGTH: u8 = 27;
pub const EXTRACTOR_IN_COPY: u8 = 28;
pub const ROOM: u8 = 29;
pub const NUMBER: u8 = 30;
pub const FIELDS: u8 = 31;
pub const UNIT_NOT_STREAMABLE: u8 = 32;
pub const BAD_BYTE_STREAM: u8 = 33;
pub const UNIT_EXCEEDS_LENGTH_SIZE: u8 = 34;
