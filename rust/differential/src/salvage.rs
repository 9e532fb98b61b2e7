//! A sample salvaged, in a bundle and outside one: three and two lent slices, compared whole.

use peer::bundle::Bundle;
use peer::calls::{self, Answer};
use peer::kind::Kind;
use peer::length_size::LengthSize;
use puddockle::raw::*;

use crate::buffer::{self, UNSET};
use crate::call::{outcome, pointer, pointer_mut, Outcome};
use crate::salvage_cases;

pub fn salvage(bundle: &[u8], sample: u64, rooms: [usize; 3]) -> Outcome {
    let mut expected = rooms.map(buffer::bytes);
    let mut written = expected.clone();
    let [out, changes, names] = expected.each_mut().map(|buffer| buffer.lent());
    let answer = calls::salvage(bundle, sample, out, changes, names);
    let mut given = Answer { place: UNSET, count: UNSET, values: [UNSET, UNSET, 0, 0], ..Answer::default() };
    let [changes_count, names_count, ..] = &mut given.values;
    let [out, changes, names] = written.each_mut().map(|buffer| buffer.lent());
    // SAFETY: slices and their own lengths, and numbers of our own. So in the call below.
    given.number = unsafe {
        puddockle_salvage(
            pointer(bundle),
            bundle.len(),
            sample,
            pointer_mut(out),
            out.len(),
            pointer_mut(changes),
            changes.len(),
            pointer_mut(names),
            names.len(),
            &mut given.place,
            &mut given.count,
            changes_count,
            names_count,
        )
    };
    let mut outcome = outcome(answer, given, &expected, &written);
    if answer.number == 0 {
        let bundle = Bundle::read(bundle).expect("accepted");
        let number = bundle.number(sample).expect("there");
        let track = bundle.track_of(number);
        let bytes = bundle.sample_bytes(number);
        outcome.cases = salvage_cases::of(track.kind, track.length_size, bytes, answer.values[1] > 0);
    }
    outcome
}

pub fn salvage_sample(kind: u32, length_size: u32, sample: &[u8], rooms: [usize; 2]) -> Outcome {
    let mut expected = rooms.map(buffer::bytes);
    let mut written = expected.clone();
    let [out, changes] = expected.each_mut().map(|buffer| buffer.lent());
    let answer = calls::salvage_sample(kind, length_size, sample, out, changes);
    let mut given = Answer { place: UNSET, count: UNSET, values: [UNSET, 0, 0, 0], ..Answer::default() };
    let [out, changes] = written.each_mut().map(|buffer| buffer.lent());
    // SAFETY: as said above.
    given.number = unsafe {
        puddockle_salvage_sample(
            kind,
            length_size,
            pointer(sample),
            sample.len(),
            pointer_mut(out),
            out.len(),
            pointer_mut(changes),
            changes.len(),
            &mut given.place,
            &mut given.count,
            &mut given.values[0],
        )
    };
    let mut outcome = outcome(answer, given, &expected, &written);
    if answer.number == 0 {
        let kind = Kind::of_number(kind, 0).expect("accepted");
        let size = LengthSize::of_bytes(length_size as u64).expect("accepted");
        outcome.cases = salvage_cases::of(kind, size, sample, false);
    }
    outcome
}
