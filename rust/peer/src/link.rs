//! The sample that an extractor names: refusals 23 and 24, as numbers without a place.

use crate::bundle::Bundle;
use crate::extractor::Extractor;
use crate::numbers::SampleNumber;
use crate::refusal::{NO_SAMPLE, TRACK_REF_INDEX};

/// The sample named by an extractor that stands in sample `own`.
pub fn named(bundle: &Bundle, own: SampleNumber, extractor: &Extractor) -> Result<SampleNumber, u8> {
    let links = &bundle.track_of(own).links;
    if extractor.track_ref_index == 0 || extractor.track_ref_index > links.len() {
        return Err(TRACK_REF_INDEX);
    }
    let (samples, first) = bundle.samples_of(links[extractor.track_ref_index - 1]);
    let time = bundle.sample(own).time;
    // The base is the last of those at or before the own time.
    let at_or_before = samples.partition_point(|sample| sample.time <= time);
    if at_or_before == 0 {
        return Err(NO_SAMPLE);
    }
    let base = at_or_before - 1;
    match base.checked_add_signed(extractor.sample_offset as isize) {
        Some(index) if index < samples.len() => Ok(SampleNumber(first.0 + index)),
        _ => Err(NO_SAMPLE),
    }
}
