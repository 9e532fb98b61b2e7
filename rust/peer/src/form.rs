//! The form of a sample: refusals 14 to 22.
//!
//! Two walks over the top-level units. The first gives 14 to 18; the second looks inside aggregators and at
//! extractors, 14 to 22.

use crate::kind::Kind;
use crate::length_size::{LengthSize, LONG_HEADER};
use crate::refusal::*;
use crate::unit::*;

/// Whether the sample is well formed in a track of this kind and length size. Places are offsets in the sample.
pub fn check(kind: Kind, size: LengthSize, sample: &[u8]) -> Result<(), Refusal> {
    let mut at = 0;
    while at < sample.len() {
        at = check_unit(size, sample, at, sample.len())?.end;
    }
    for unit in top_level(sample, size) {
        match unit.unit_type(sample) {
            AGGREGATOR => check_aggregator(kind, size, sample, unit)?,
            EXTRACTOR => check_extractor(size, unit)?,
            _ => {}
        }
    }
    Ok(())
}

/// 14 to 18 of the unit at `at`, where what holds it ends at `end`.
pub fn check_unit(size: LengthSize, sample: &[u8], at: usize, end: usize) -> Result<Unit, Refusal> {
    if end - at < size.bytes() {
        return refuse(LENGTH_CUT, at);
    }
    let unit = unit_at(sample, size, at);
    if unit.end > end {
        return refuse(UNIT_TOO_LONG, at);
    }
    if unit.length() == 0 {
        return refuse(UNIT_EMPTY, at);
    }
    if sample[unit.start] & 0x80 != 0 {
        return refuse(TOP_BIT, at);
    }
    let least = match unit.unit_type(sample) {
        PREFIX | SLICE_EXTENSION | EXTRACTOR => LONG_HEADER,
        AGGREGATOR => size.least_aggregator_size(),
        _ => 1,
    };
    if unit.length() < least {
        return refuse(UNIT_TOO_SHORT, at);
    }
    Ok(unit)
}

/// An aggregator's included units front to back, then its additional_bytes.
fn check_aggregator(kind: Kind, size: LengthSize, sample: &[u8], unit: Unit) -> Result<(), Refusal> {
    check_included(kind, size, sample, unit)?;
    check_additional_bytes(size, sample, unit)
}

/// 14 to 20 and 22 of an aggregator's included units, front to back.
pub fn check_included(kind: Kind, size: LengthSize, sample: &[u8], unit: Unit) -> Result<(), Refusal> {
    let mut at = unit.start + size.least_aggregator_size();
    while at < unit.end {
        let inner = check_unit(size, sample, at, unit.end)?;
        match inner.unit_type(sample) {
            AGGREGATOR => return refuse(NESTED_AGGREGATOR, at),
            1..=5 if kind == Kind::Avc => return refuse(INCLUDED_IN_AVC, at),
            EXTRACTOR => check_extractor(size, inner)?,
            _ => {}
        }
        at = inner.end;
    }
    Ok(())
}

/// 21: additional_bytes end on a unit border of the sample and cover no aggregator.
pub fn check_additional_bytes(size: LengthSize, sample: &[u8], unit: Unit) -> Result<(), Refusal> {
    let end = covered_end(sample, size, unit);
    if end > sample.len() {
        return refuse(ADDITIONAL_BYTES, unit.place);
    }
    let mut border = unit.end;
    for covered in units_between(sample, size, unit.end, end) {
        if covered.unit_type(sample) == AGGREGATOR {
            return refuse(ADDITIONAL_BYTES, unit.place);
        }
        border = covered.end;
    }
    if border != end {
        return refuse(ADDITIONAL_BYTES, unit.place);
    }
    Ok(())
}

/// 22: an extractor has its one size.
pub fn check_extractor(size: LengthSize, unit: Unit) -> Result<(), Refusal> {
    if unit.length() != size.extractor_size() {
        return refuse(EXTRACTOR_SIZE, unit.place);
    }
    Ok(())
}
