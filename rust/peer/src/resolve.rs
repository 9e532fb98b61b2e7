//! A sample resolved: all its delivered units, as bytes or as parts of the bundle, or one of them.

use crate::bundle::Bundle;
use crate::deliver::{deliver, Part};
use crate::forms::Forms;
use crate::numbers::SampleNumber;
use crate::refusal::*;

/// A unit is written after its length in 4 bytes.
pub const LENGTH_FIELD: usize = 4;

/// Writes each delivered unit after its 4-byte length and answers how many bytes that is.
/// Refused with 1 to 13, 30, 14 to 28, 29.
pub fn resolve(bytes: &[u8], sample: u64, out: &mut [u8]) -> Result<usize, Refusal> {
    let bundle = Bundle::read(bytes)?;
    let number = bundle.number(sample)?;
    let mut forms = Forms::new(&bundle);
    let mut needed = 0;
    deliver(&bundle, &mut forms, number, &mut |part| needed += LENGTH_FIELD + part.length)?;
    if needed > out.len() {
        return refuse(ROOM, 0);
    }
    write_units(&bundle, &mut forms, number, out)
}

/// The same for a bundle that was read, where there is room. Refused with 14 to 28.
pub fn write_units(bundle: &Bundle, forms: &mut Forms, number: SampleNumber, out: &mut [u8]) -> Result<usize, Refusal> {
    let mut at = 0;
    deliver(bundle, forms, number, &mut |part| {
        let (length, unit) = out[at..at + LENGTH_FIELD + part.length].split_at_mut(LENGTH_FIELD);
        length.copy_from_slice(&(part.length as u32).to_be_bytes());
        unit.copy_from_slice(&bundle.bytes[part.start..part.start + part.length]);
        at += LENGTH_FIELD + part.length;
    })?;
    Ok(at)
}

/// Writes where in the bundle each delivered unit stands, its start and its length, and answers how many numbers that
/// is. Refused with 1 to 13, 30, 14 to 28, 29.
pub fn units(bytes: &[u8], sample: u64, spans: &mut [u64]) -> Result<usize, Refusal> {
    let bundle = Bundle::read(bytes)?;
    let number = bundle.number(sample)?;
    let mut found = Vec::new();
    deliver(&bundle, &mut Forms::new(&bundle), number, &mut |part| {
        found.extend([part.start as u64, part.length as u64]);
    })?;
    match spans.get_mut(..found.len()) {
        Some(front) => front.copy_from_slice(&found),
        None => return refuse(ROOM, 0),
    }
    Ok(found.len())
}

/// Where in the bundle the delivered unit with this number stands.
/// Refused with 1 to 13, 30 for the sample, 14 to 28, 30 for the unit.
pub fn unit(bytes: &[u8], sample: u64, unit: u64) -> Result<Part, Refusal> {
    let bundle = Bundle::read(bytes)?;
    let number = bundle.number(sample)?;
    let mut found = None;
    let mut delivered = 0;
    deliver(&bundle, &mut Forms::new(&bundle), number, &mut |part| {
        delivered += 1;
        if delivered == unit {
            found = Some(part);
        }
    })?;
    match found {
        Some(part) => Ok(part),
        None => refuse(NUMBER, 0),
    }
}
