//! What an extractor copies from a well-formed sample: refusals 26 to 28, as numbers without a place.

use std::ops::Range;

use crate::extractor::Extractor;
use crate::length_size::LengthSize;
use crate::refusal::{DATA_LENGTH, DATA_OFFSET, EXTRACTOR_IN_COPY};
use crate::unit::*;

/// Gives each copied unit to `take`, in order. On a refusal some units may have been given before.
/// `starts` is where the sample's top-level units start, if that was kept; else they are walked.
pub fn copy(
    sample: &[u8],
    size: LengthSize,
    starts: Option<&[u32]>,
    extractor: &Extractor,
    take: &mut impl FnMut(Unit),
) -> Result<(), u8> {
    let last_border = last_border(sample, size, starts, extractor.data_offset).ok_or(DATA_OFFSET)?;
    let span = span(sample, size, last_border, extractor)?;
    for unit in units_between(sample, size, span.start, span.end) {
        match unit.unit_type(sample) {
            EXTRACTOR => return Err(EXTRACTOR_IN_COPY),
            AGGREGATOR => {
                for inner in included(sample, size, unit) {
                    if inner.unit_type(sample) == EXTRACTOR {
                        return Err(EXTRACTOR_IN_COPY);
                    }
                    take(inner);
                }
            }
            _ => take(unit),
        }
    }
    Ok(())
}

/// The last border that what is copied from this offset may end on: the end of the sample where a top-level unit
/// starts there, of the aggregator where an included one does.
fn last_border(sample: &[u8], size: LengthSize, starts: Option<&[u32]>, offset: usize) -> Option<usize> {
    let unit = top_level_unit_around(sample, size, starts, offset)?;
    if unit.place == offset {
        return Some(sample.len());
    }
    let starts_included = || included(sample, size, unit).any(|inner| inner.place == offset);
    (unit.unit_type(sample) == AGGREGATOR && starts_included()).then_some(unit.end)
}

/// The top-level unit that holds this offset, its length field counted in.
fn top_level_unit_around(sample: &[u8], size: LengthSize, starts: Option<&[u32]>, offset: usize) -> Option<Unit> {
    let Some(starts) = starts else { return top_level(sample, size).find(|unit| offset < unit.end) };
    let index = match starts.binary_search(&(offset as u32)) {
        Ok(index) => index,
        Err(after) => after.checked_sub(1)?,
    };
    Some(unit_at(sample, size, starts[index] as usize)).filter(|unit| offset < unit.end)
}

/// The bytes to copy, from the start of a unit to a border of the units beside it. The last of those borders is given.
fn span(sample: &[u8], size: LengthSize, last_border: usize, extractor: &Extractor) -> Result<Range<usize>, u8> {
    let start = extractor.data_offset;
    if extractor.data_length == 0 {
        let first = unit_at(sample, size, start);
        let end = match first.unit_type(sample) {
            // No included unit is an aggregator.
            AGGREGATOR => covered_end(sample, size, first),
            _ => first.end,
        };
        return Ok(start..end);
    }
    let end = start + extractor.data_length;
    let border = units_between(sample, size, start, last_border).map(|unit| unit.end).find(|&border| border >= end);
    if border != Some(end) {
        return Err(DATA_LENGTH);
    }
    Ok(start..end)
}
