//! Places in a sample of a bundle, to ask what stands there. By the peer's walk.

use peer::bundle::Bundle;
use peer::form;
use peer::unit::{included, top_level, Unit, AGGREGATOR, EXTRACTOR};

/// Where units stand in a sample, and which of them are extractors.
#[derive(Default)]
pub struct Places {
    pub units: Vec<u64>,
    pub extractors: Vec<u64>,
}

/// The places of all units, included ones too; none where the sample is not there or not well formed.
pub fn of(bundle: &[u8], sample: u64) -> Places {
    let mut places = Places::default();
    let Ok(bundle) = Bundle::read(bundle) else { return places };
    let Ok(number) = bundle.number(sample) else { return places };
    let (track, bytes) = (bundle.track_of(number), bundle.sample_bytes(number));
    let size = track.length_size;
    if form::check(track.kind, size, bytes).is_err() {
        return places;
    }
    let mut note = |unit: Unit| {
        places.units.push(unit.place as u64);
        if unit.unit_type(bytes) == EXTRACTOR {
            places.extractors.push(unit.place as u64);
        }
    };
    for unit in top_level(bytes, size) {
        note(unit);
        if unit.unit_type(bytes) == AGGREGATOR {
            included(bytes, size, unit).for_each(&mut note);
        }
    }
    places
}
