//! Refusals.

use core::error::Error;
use core::fmt;

/// A no: its number (1 to 34) and its place. The place is an offset in the bundle for 1 to 13, in the sample for 14
/// to 28, in the resolved output for 32, in the byte stream for 33 and 34, else 0; for a record, a sample or a byte
/// stream alone, 4 and 8 to 13 are at 0.
#[derive(Clone, Copy, Debug, PartialEq, Eq)]
pub struct Refusal {
    /// Which rule was broken first: see [`meaning`](Refusal::meaning).
    pub number: u32,
    /// Where.
    pub place: u64,
}

impl Refusal {
    /// `Ok` where a call returned 0.
    pub(crate) fn check(number: u32, place: u64) -> Result<(), Refusal> {
        match number {
            0 => Ok(()),
            _ => Err(Refusal { number, place }),
        }
    }

    /// What the number means.
    pub fn meaning(&self) -> &'static str {
        match self.number {
            1 => "bundle too long",
            2 => "bundle ends inside a count, an entry or the sample bytes",
            3 => "count beyond its limits",
            4 => "unknown kind",
            5 => "bad reference",
            6 => "bad sample track or time",
            7 => "count of sample bytes differs from the sum, or bytes follow",
            8 => "record cut short",
            9 => "record's version is not 1",
            10 => "record's fixed bits are wrong",
            11 => "length size is not 1, 2 or 4",
            12 => "set is empty, has its top bit set or a wrong type",
            13 => "bytes after the record",
            14 => "length field is cut",
            15 => "unit longer than what is left",
            16 => "unit of length 0",
            17 => "unit's top header bit is 1",
            18 => "unit shorter than its header",
            19 => "aggregator in an aggregator",
            20 => "type 1 to 5 included in an AVC track",
            21 => "additional_bytes wrong",
            22 => "extractor of a wrong size",
            23 => "track_ref_index is 0 or past the last",
            24 => "no sample is named",
            25 => "sample named is not well formed",
            26 => "data_offset wrong",
            27 => "data_length wrong",
            28 => "an extractor in the copy",
            29 => "output longer than the slice lent for it",
            30 => "nothing of that number, a range that ends before it starts, or no extractor at that place",
            31 => "fields fit no record",
            32 => "a unit cannot stand in a byte stream",
            33 => "not a byte stream",
            34 => "unit too long for the length size",
            _ => "unknown refusal",
        }
    }
}

impl fmt::Display for Refusal {
    fn fmt(&self, f: &mut fmt::Formatter) -> fmt::Result {
        write!(f, "refused {} at {}: {}", self.number, self.place, self.meaning())
    }
}

impl Error for Refusal {}
