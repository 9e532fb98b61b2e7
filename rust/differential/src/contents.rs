//! The calls that say what is in a bundle, where delivered units stand, and what an extractor names.

use peer::calls::{self, Answer};
use peer::refusal::NO_SAMPLE;
use puddockle::raw::*;

use crate::buffer::{self, UNSET};
use crate::call::{outcome, pointer, pointer_mut, Outcome};
use crate::search;

/// An answer before the call: `values` numbers are to be set.
fn unset(values: usize) -> Answer {
    let mut answer = Answer { place: UNSET, ..Answer::default() };
    answer.values[..values].fill(UNSET);
    answer
}

pub fn counts(bundle: &[u8]) -> Outcome {
    let answer = calls::counts(bundle);
    let mut given = unset(3);
    let [tracks, references, samples, _] = &mut given.values;
    // SAFETY: slices and their own lengths, and numbers of our own. So in all calls below.
    given.number =
        unsafe { puddockle_counts(pointer(bundle), bundle.len(), &mut given.place, tracks, references, samples) };
    outcome(answer, given, &(), &())
}

pub fn track(bundle: &[u8], track: u64) -> Outcome {
    let answer = calls::track(bundle, track);
    let mut given = unset(3);
    let [kind, start, length, _] = &mut given.values;
    // SAFETY: as said above.
    given.number =
        unsafe { puddockle_track(pointer(bundle), bundle.len(), track, &mut given.place, kind, start, length) };
    outcome(answer, given, &(), &())
}

pub fn reference(bundle: &[u8], reference: u64) -> Outcome {
    let answer = calls::reference(bundle, reference);
    let mut given = unset(2);
    let [from, to, ..] = &mut given.values;
    // SAFETY: as said above.
    given.number = unsafe { puddockle_reference(pointer(bundle), bundle.len(), reference, &mut given.place, from, to) };
    outcome(answer, given, &(), &())
}

pub fn sample(bundle: &[u8], sample: u64) -> Outcome {
    let answer = calls::sample(bundle, sample);
    let mut given = unset(4);
    let [track, time, start, length] = &mut given.values;
    let place = &mut given.place;
    // SAFETY: as said above.
    given.number =
        unsafe { puddockle_sample(pointer(bundle), bundle.len(), sample, place, track, time, start, length) };
    outcome(answer, given, &(), &())
}

pub fn units(bundle: &[u8], sample: u64, room: usize) -> Outcome {
    let mut expected = buffer::numbers(room);
    let mut written = expected.clone();
    let answer = calls::all_units(bundle, sample, expected.lent());
    let mut given = Answer { count: UNSET, ..unset(0) };
    let (place, count) = (&mut given.place, &mut given.count);
    let spans = written.lent();
    // SAFETY: as said above.
    given.number = unsafe {
        puddockle_units(pointer(bundle), bundle.len(), sample, pointer_mut(spans), spans.len(), place, count)
    };
    outcome(answer, given, &expected, &written)
}

pub fn named(bundle: &[u8], sample: u64, extractor: u64) -> Outcome {
    let answer = calls::sample_named(bundle, sample, extractor);
    let mut given = unset(1);
    let named = &mut given.values[0];
    // SAFETY: as said above.
    given.number =
        unsafe { puddockle_named(pointer(bundle), bundle.len(), sample, extractor, &mut given.place, named) };
    let mut outcome = outcome(answer, given, &(), &());
    if answer.number == 0 || answer.number == u32::from(NO_SAMPLE) {
        let search = search::of(bundle, sample, extractor);
        if outcome.difference.is_none() && search.named != answer.values[0] {
            outcome.difference =
                Some(format!("by a scan sample {} is named, library and peer answer {answer:?}", search.named));
        }
        outcome.search = Some(search);
    }
    outcome
}
