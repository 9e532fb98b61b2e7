//! What a sample delivers: written as bytes or as a byte stream, or lent unit by unit.

use crate::bundle::part;
use crate::raw::{puddockle_resolve, puddockle_stream, puddockle_unit, puddockle_units};
use crate::{Refusal, SampleNumber};

/// The number of a delivered unit of a sample, from 1.
#[derive(Clone, Copy, Debug, PartialEq, Eq, PartialOrd, Ord, Hash)]
pub struct UnitNumber(pub u64);

/// Writes the units that a sample delivers, each after its length in 4 bytes, to the front of `out` and answers how
/// many bytes that is. Refused with 1 to 13, 30, 14 to 28, 29; `out` is then untouched.
///
/// The room that it needs is the sum of 4 and the length of each unit of [`units`].
pub fn resolve(bundle: &[u8], sample: SampleNumber, out: &mut [u8]) -> Result<usize, Refusal> {
    let (mut place, mut count) = (0, 0);
    // SAFETY: both slices are valid for their lengths, `out` is lent to us alone, and the two numbers are our own.
    let number = unsafe {
        puddockle_resolve(bundle.as_ptr(), bundle.len(), sample.0, out.as_mut_ptr(), out.len(), &mut place, &mut count)
    };
    Refusal::check(number, place)?;
    Ok(count as usize)
}

/// Writes the units that a sample delivers as a byte stream (ISO/IEC 14496-10, Annex B), `00 00 00 01` before each, to
/// the front of `out` and answers how many bytes that is. Refused with 1 to 13, 30, 14 to 28, 32, 29; `out` is then
/// untouched. 32 is for the first unit that holds `00 00 00`, `00 00 01` or `00 00 02` or ends in `00`.
///
/// The stream is as long as what [`resolve`] writes, and needs as much room.
pub fn stream(bundle: &[u8], sample: SampleNumber, out: &mut [u8]) -> Result<usize, Refusal> {
    let (mut place, mut count) = (0, 0);
    // SAFETY: both slices are valid for their lengths, `out` is lent to us alone, and the two numbers are our own.
    let number = unsafe {
        puddockle_stream(bundle.as_ptr(), bundle.len(), sample.0, out.as_mut_ptr(), out.len(), &mut place, &mut count)
    };
    Refusal::check(number, place)?;
    Ok(count as usize)
}

/// The numbers of a delivered unit in the slice lent to [`units`]: its start, its length.
pub const SPAN: usize = 2;

/// Where a delivered unit lies in the bundle.
#[derive(Clone, Copy, Debug, PartialEq, Eq)]
pub struct Span {
    /// Where it starts, after its length field.
    pub start: usize,
    /// How many bytes it has.
    pub length: usize,
}

/// The units that a sample delivers, in order: parts of the bundle, not copies.
#[derive(Clone, Copy, Debug)]
pub struct Units<'a> {
    bundle: &'a [u8],
    spans: &'a [u64],
}

impl<'a> Units<'a> {
    /// How many units are delivered.
    pub fn len(&self) -> usize {
        self.spans.len() / SPAN
    }

    /// Whether none is.
    pub fn is_empty(&self) -> bool {
        self.spans.is_empty()
    }

    /// Where each unit lies in the bundle.
    pub fn spans(&self) -> impl ExactSizeIterator<Item = Span> + 'a {
        self.spans.chunks_exact(SPAN).map(|span| Span { start: span[0] as usize, length: span[1] as usize })
    }

    /// The bytes of each unit.
    pub fn iter(&self) -> impl ExactSizeIterator<Item = &'a [u8]> + 'a {
        let bundle = self.bundle;
        self.spans.chunks_exact(SPAN).map(move |span| part(bundle, span[0], span[1]))
    }
}

/// The units that a sample delivers, in one call, which takes time as [`resolve`]; where they lie is written to the
/// front of `spans`, [`SPAN`] numbers a unit. Refused with 1 to 13, 30, 14 to 28, 29; `spans` is then untouched.
///
/// The room that it needs is [`SPAN`] times the units of the sample's [audit line](crate::AuditLine).
pub fn units<'a>(bundle: &'a [u8], sample: SampleNumber, spans: &'a mut [u64]) -> Result<Units<'a>, Refusal> {
    let (mut place, mut count) = (0, 0);
    // SAFETY: both slices are valid for their lengths, `spans` is lent to us alone, and the two numbers are our own.
    let number = unsafe {
        puddockle_units(
            bundle.as_ptr(),
            bundle.len(),
            sample.0,
            spans.as_mut_ptr(),
            spans.len(),
            &mut place,
            &mut count,
        )
    };
    Refusal::check(number, place)?;
    Ok(Units { bundle, spans: &spans[..count as usize] })
}

/// One delivered unit of a sample: a part of the bundle, not a copy. Refused with 1 to 13, 30, 14 to 28, and 30 for
/// the unit's number. Each call judges the whole sample: for all units use [`units`].
pub fn unit(bundle: &[u8], sample: SampleNumber, unit: UnitNumber) -> Result<&[u8], Refusal> {
    let (mut place, mut start, mut length) = (0, 0, 0);
    // SAFETY: the slice is valid for its length, and the three numbers are our own.
    let number =
        unsafe { puddockle_unit(bundle.as_ptr(), bundle.len(), sample.0, unit.0, &mut place, &mut start, &mut length) };
    Refusal::check(number, place)?;
    Ok(part(bundle, start, length))
}
