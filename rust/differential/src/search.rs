//! The sample that an extractor names, the base found by a scan of the linked track: the library halves, and the peer
//! bisects with the standard library.

use peer::base::{halve, scan};
use peer::bundle::Bundle;
use peer::extractor::Extractor;
use peer::unit::unit_at;

/// What an extractor names by a scan, and what is counted of such searches.
pub struct ByScan {
    /// The number of the sample named, 0 for none.
    pub named: u64,
    /// What the base is: one of the constants below.
    pub base: u32,
    /// The rounds of request [5], by the peer: no call of the library gives them.
    pub rounds: u32,
}

const NO_SAMPLES: u32 = 0;
const ALL_AFTER: u32 = 1;
const EQUAL: u32 = 2;
const EARLIER: u32 = 3;
const EARLIER_AND_LAST: u32 = 4;

/// The search for the extractor at this place of a well-formed sample, which has a linked track.
pub fn of(bundle: &[u8], sample: u64, place: u64) -> ByScan {
    let bundle = Bundle::read(bundle).expect("accepted");
    let own = bundle.number(sample).expect("there");
    let (track, bytes) = (bundle.track_of(own), bundle.sample_bytes(own));
    let unit = unit_at(bytes, track.length_size, place as usize);
    let extractor = Extractor::read(bytes, track.length_size, unit);
    let (samples, first) = bundle.samples_of(track.links[extractor.track_ref_index - 1]);
    let times: Vec<u64> = samples.iter().map(|sample| sample.time).collect();
    let time = bundle.sample(own).time;
    let base = scan(times.iter().copied(), time);
    let named = base.and_then(|base| base.checked_add_signed(extractor.sample_offset as isize));
    ByScan {
        named: named.filter(|&index| index < times.len()).map_or(0, |index| (first.0 + index) as u64),
        base: match base {
            None if times.is_empty() => NO_SAMPLES,
            None => ALL_AFTER,
            Some(base) if times[base] == time => EQUAL,
            Some(base) if base + 1 < times.len() => EARLIER,
            Some(_) => EARLIER_AND_LAST,
        },
        rounds: halve(&times, time).rounds as u32,
    }
}
