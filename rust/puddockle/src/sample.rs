//! One sample, outside a bundle.

use crate::raw::puddockle_check_sample;
use crate::Refusal;

/// The kind of a track or record.
#[derive(Clone, Copy, Debug, PartialEq, Eq, Hash)]
#[repr(u32)]
pub enum Kind {
    /// The bench picture; its record is an avcC record.
    Avc = 0,
    /// The detail; its record is an svcC record.
    Svc = 1,
}

/// How many bytes the length before each NAL unit has.
#[derive(Clone, Copy, Debug, PartialEq, Eq, Hash)]
#[repr(u32)]
pub enum LengthSize {
    /// One byte.
    One = 1,
    /// Two bytes.
    Two = 2,
    /// Four bytes.
    Four = 4,
}

impl LengthSize {
    /// The length size of this many bytes, if there is one.
    pub fn of_bytes(bytes: u64) -> Option<LengthSize> {
        match bytes {
            1 => Some(LengthSize::One),
            2 => Some(LengthSize::Two),
            4 => Some(LengthSize::Four),
            _ => None,
        }
    }
}

/// Checks the form of a sample in a track of this kind and length size. Refused with 14 to 22. Where its extractors
/// lead is not judged.
pub fn check_sample(kind: Kind, length_size: LengthSize, sample: &[u8]) -> Result<(), Refusal> {
    let mut place = 0;
    // SAFETY: the slice is valid for its length, and `place` is a number of our own.
    let number =
        unsafe { puddockle_check_sample(kind as u32, length_size as u32, sample.as_ptr(), sample.len(), &mut place) };
    Refusal::check(number, place)
}
