//! The units that a sample of a bundle delivers: refusals 14 to 28.

use crate::bundle::Bundle;
use crate::copy::copy;
use crate::extractor::Extractor;
use crate::forms::Forms;
use crate::link::named;
use crate::numbers::SampleNumber;
use crate::refusal::*;
use crate::unit::*;

/// A part of the bundle.
#[derive(Clone, Copy, Debug, PartialEq, Eq)]
pub struct Part {
    pub start: usize,
    pub length: usize,
}

/// Gives each delivered unit to `take`, in order. On a refusal some units may have been given before.
pub fn deliver(
    bundle: &Bundle,
    forms: &mut Forms,
    number: SampleNumber,
    take: &mut impl FnMut(Part),
) -> Result<(), Refusal> {
    forms.of(number)?;
    let sample = bundle.sample_bytes(number);
    let size = bundle.track_of(number).length_size;
    let mut one = |unit: Unit| -> Result<(), Refusal> {
        if unit.unit_type(sample) == EXTRACTOR {
            let extractor = Extractor::read(sample, size, unit);
            return extract(bundle, forms, number, &extractor, take).or_else(|no| refuse(no, unit.place));
        }
        take(part_of(bundle, number, unit));
        Ok(())
    };
    for unit in top_level(sample, size) {
        if unit.unit_type(sample) == AGGREGATOR {
            included(sample, size, unit).try_for_each(&mut one)?;
        } else {
            one(unit)?;
        }
    }
    Ok(())
}

/// What stands in an extractor's place, 23 to 28 in number order.
fn extract(
    bundle: &Bundle,
    forms: &mut Forms,
    own: SampleNumber,
    extractor: &Extractor,
    take: &mut impl FnMut(Part),
) -> Result<(), u8> {
    let from = named(bundle, own, extractor)?;
    forms.of(from).map_err(|_| NAMED_NOT_WELL_FORMED)?;
    let size = bundle.track_of(from).length_size;
    let sample = bundle.sample_bytes(from);
    copy(sample, size, forms.starts(from), extractor, &mut |unit| take(part_of(bundle, from, unit)))
}

/// Where in the bundle a unit's bytes stand.
fn part_of(bundle: &Bundle, number: SampleNumber, unit: Unit) -> Part {
    Part { start: bundle.sample(number).start + unit.start, length: unit.length() }
}
