//! The naming list: which extractors name a sample. And which sample one extractor names.

use crate::bundle::Bundle;
use crate::extractor::Extractor;
use crate::forms::Forms;
use crate::link;
use crate::numbers::SampleNumber;
use crate::refusal::*;
use crate::unit::*;

/// Writes an entry for each extractor that names the sample and answers how many bytes that is.
/// Refused with 1 to 13, 30, 29.
pub fn names(bytes: &[u8], sample: u64, out: &mut [u8]) -> Result<usize, Refusal> {
    let bundle = Bundle::read(bytes)?;
    let asked = bundle.number(sample)?;
    let list = naming_list(&bundle, asked);
    match out.get_mut(..list.len()) {
        Some(front) => front.copy_from_slice(&list),
        None => return refuse(ROOM, 0),
    }
    Ok(list.len())
}

/// The sample that the extractor at this place of a sample names.
/// Refused with 1 to 13, 30 for the sample, 14 to 22, 30 where no extractor stands there, 23, 24.
pub fn named(bytes: &[u8], sample: u64, place: u64) -> Result<SampleNumber, Refusal> {
    let bundle = Bundle::read(bytes)?;
    let own = bundle.number(sample)?;
    Forms::new(&bundle).of(own)?;
    let mut found = None;
    for_each_extractor(&bundle, own, |at, extractor| {
        if at as u64 == place {
            found = Some(*extractor);
        }
    });
    match found {
        Some(extractor) => link::named(&bundle, own, &extractor).or_else(|no| refuse(no, place as usize)),
        None => refuse(NUMBER, 0),
    }
}

/// An entry for each extractor that names `asked`, by sample and then place: the sample's number in 2 bytes, the
/// extractor's place in 4.
pub fn naming_list(bundle: &Bundle, asked: SampleNumber) -> Vec<u8> {
    let mut forms = Forms::new(bundle);
    let mut list = Vec::new();
    for number in bundle.numbers() {
        if forms.of(number).is_ok() {
            for_each_extractor(bundle, number, |place, extractor| {
                if link::named(bundle, number, extractor) == Ok(asked) {
                    list.extend((number.0 as u16).to_be_bytes());
                    list.extend((place as u32).to_be_bytes());
                }
            });
        }
    }
    list
}

/// The extractors of a well-formed sample, top-level and included, by place.
fn for_each_extractor(bundle: &Bundle, number: SampleNumber, mut take: impl FnMut(usize, &Extractor)) {
    let sample = bundle.sample_bytes(number);
    let size = bundle.track_of(number).length_size;
    let mut one = |unit: Unit| {
        if unit.unit_type(sample) == EXTRACTOR {
            take(unit.place, &Extractor::read(sample, size, unit));
        }
    };
    for unit in top_level(sample, size) {
        if unit.unit_type(sample) == AGGREGATOR {
            included(sample, size, unit).for_each(&mut one);
        } else {
            one(unit);
        }
    }
}
