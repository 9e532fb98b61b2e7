//! The library on the requests with answers: every line of the vectors but `base`, through the C functions.

#[path = "../../peer/tests/common/mod.rs"]
mod common;
#[path = "../../peer/tests/common/lines.rs"]
mod lines;

use lines::{Answer, Calls};
use puddockle::raw::*;

#[test]
fn every_line() {
    lines::run::<Library>(&["base"]);
}

/// What a number holds that a call must set.
const UNSET: u64 = 0xA5A5_A5A5_A5A5_A5A5;

struct Library;

// SAFETY, in all: slices with their own lengths, those written to lent to us alone, and numbers of our own.
impl Calls for Library {
    fn read_record(kind: u32, bytes: &[u8], fields: &mut [u64]) -> Answer {
        let mut answer = Answer { place: UNSET, ..Answer::default() };
        let (numbers, room) = (fields.as_mut_ptr(), fields.len());
        // SAFETY: as said above.
        answer.number =
            unsafe { puddockle_read_record(kind, bytes.as_ptr(), bytes.len(), numbers, room, &mut answer.place) };
        answer
    }

    fn write_record(kind: u32, fields: &[u64], [sequence, picture, extension]: [&[u8]; 3], out: &mut [u8]) -> Answer {
        let mut answer = Answer { place: UNSET, count: UNSET, ..Answer::default() };
        // SAFETY: as said above.
        answer.number = unsafe {
            puddockle_write_record(
                kind,
                fields.as_ptr(),
                fields.len(),
                sequence.as_ptr(),
                sequence.len(),
                picture.as_ptr(),
                picture.len(),
                extension.as_ptr(),
                extension.len(),
                out.as_mut_ptr(),
                out.len(),
                &mut answer.place,
                &mut answer.count,
            )
        };
        answer
    }

    fn check_sample(kind: u32, length_size: u32, sample: &[u8]) -> Answer {
        let mut answer = Answer { place: UNSET, ..Answer::default() };
        // SAFETY: as said above.
        answer.number =
            unsafe { puddockle_check_sample(kind, length_size, sample.as_ptr(), sample.len(), &mut answer.place) };
        answer
    }

    fn check_bundle(bundle: &[u8]) -> Answer {
        let mut answer = Answer { place: UNSET, ..Answer::default() };
        // SAFETY: as said above.
        answer.number = unsafe { puddockle_check_bundle(bundle.as_ptr(), bundle.len(), &mut answer.place) };
        answer
    }

    fn resolve(bundle: &[u8], sample: u64, out: &mut [u8]) -> Answer {
        let mut answer = Answer { place: UNSET, count: UNSET, ..Answer::default() };
        let (place, count) = (&mut answer.place, &mut answer.count);
        // SAFETY: as said above.
        answer.number = unsafe {
            puddockle_resolve(bundle.as_ptr(), bundle.len(), sample, out.as_mut_ptr(), out.len(), place, count)
        };
        answer
    }

    fn range(bundle: &[u8], first: u64, last: u64, out: &mut [u8], lines: &mut [u8]) -> Answer {
        let mut answer = Answer { count: UNSET, ..unset(1) };
        let (place, count) = (&mut answer.place, &mut answer.count);
        // SAFETY: as said above.
        answer.number = unsafe {
            puddockle_range(
                bundle.as_ptr(),
                bundle.len(),
                first,
                last,
                out.as_mut_ptr(),
                out.len(),
                lines.as_mut_ptr(),
                lines.len(),
                place,
                count,
                &mut answer.values[0],
            )
        };
        answer
    }

    fn stream(bundle: &[u8], sample: u64, out: &mut [u8]) -> Answer {
        let mut answer = Answer { place: UNSET, count: UNSET, ..Answer::default() };
        let (place, count) = (&mut answer.place, &mut answer.count);
        // SAFETY: as said above.
        answer.number = unsafe {
            puddockle_stream(bundle.as_ptr(), bundle.len(), sample, out.as_mut_ptr(), out.len(), place, count)
        };
        answer
    }

    fn from_stream(length_size: u32, stream: &[u8], out: &mut [u8]) -> Answer {
        let mut answer = Answer { place: UNSET, count: UNSET, ..Answer::default() };
        let (place, count) = (&mut answer.place, &mut answer.count);
        // SAFETY: as said above.
        answer.number = unsafe {
            let (bytes, size) = (stream.as_ptr(), stream.len());
            puddockle_from_stream(length_size, bytes, size, out.as_mut_ptr(), out.len(), place, count)
        };
        answer
    }

    fn salvage(bundle: &[u8], sample: u64, out: &mut [u8], changes: &mut [u8], names: &mut [u8]) -> Answer {
        let mut answer = Answer { count: UNSET, ..unset(2) };
        let (place, count) = (&mut answer.place, &mut answer.count);
        let [changes_count, names_count, ..] = &mut answer.values;
        // SAFETY: as said above.
        answer.number = unsafe {
            puddockle_salvage(
                bundle.as_ptr(),
                bundle.len(),
                sample,
                out.as_mut_ptr(),
                out.len(),
                changes.as_mut_ptr(),
                changes.len(),
                names.as_mut_ptr(),
                names.len(),
                place,
                count,
                changes_count,
                names_count,
            )
        };
        answer
    }

    fn salvage_sample(kind: u32, length_size: u32, sample: &[u8], out: &mut [u8], changes: &mut [u8]) -> Answer {
        let mut answer = Answer { count: UNSET, ..unset(1) };
        let (place, count) = (&mut answer.place, &mut answer.count);
        // SAFETY: as said above.
        answer.number = unsafe {
            puddockle_salvage_sample(
                kind,
                length_size,
                sample.as_ptr(),
                sample.len(),
                out.as_mut_ptr(),
                out.len(),
                changes.as_mut_ptr(),
                changes.len(),
                place,
                count,
                &mut answer.values[0],
            )
        };
        answer
    }

    fn unit(bundle: &[u8], sample: u64, unit: u64) -> Answer {
        let mut answer = Answer { place: UNSET, start: UNSET, length: UNSET, ..Answer::default() };
        let (place, start, length) = (&mut answer.place, &mut answer.start, &mut answer.length);
        // SAFETY: as said above.
        answer.number = unsafe { puddockle_unit(bundle.as_ptr(), bundle.len(), sample, unit, place, start, length) };
        answer
    }

    fn names(bundle: &[u8], sample: u64, out: &mut [u8]) -> Answer {
        let mut answer = Answer { place: UNSET, count: UNSET, ..Answer::default() };
        let (place, count) = (&mut answer.place, &mut answer.count);
        // SAFETY: as said above.
        answer.number = unsafe {
            puddockle_names(bundle.as_ptr(), bundle.len(), sample, out.as_mut_ptr(), out.len(), place, count)
        };
        answer
    }

    fn audit(bundle: &[u8], lines: &mut [u8]) -> Answer {
        let mut answer = Answer { place: UNSET, count: UNSET, tally: [UNSET; 3], ..Answer::default() };
        let (place, count) = (&mut answer.place, &mut answer.count);
        let [passed, empty, refused] = &mut answer.tally;
        let (out, room) = (lines.as_mut_ptr(), lines.len());
        // SAFETY: as said above.
        answer.number =
            unsafe { puddockle_audit(bundle.as_ptr(), bundle.len(), out, room, place, count, passed, empty, refused) };
        answer
    }

    fn counts(bundle: &[u8]) -> Answer {
        let mut answer = unset(3);
        let [tracks, references, samples, _] = &mut answer.values;
        let place = &mut answer.place;
        // SAFETY: as said above.
        answer.number = unsafe { puddockle_counts(bundle.as_ptr(), bundle.len(), place, tracks, references, samples) };
        answer
    }

    fn track(bundle: &[u8], track: u64) -> Answer {
        let mut answer = unset(3);
        let [kind, start, length, _] = &mut answer.values;
        let place = &mut answer.place;
        // SAFETY: as said above.
        answer.number = unsafe { puddockle_track(bundle.as_ptr(), bundle.len(), track, place, kind, start, length) };
        answer
    }

    fn reference(bundle: &[u8], reference: u64) -> Answer {
        let mut answer = unset(2);
        let [from, to, ..] = &mut answer.values;
        let place = &mut answer.place;
        // SAFETY: as said above.
        answer.number = unsafe { puddockle_reference(bundle.as_ptr(), bundle.len(), reference, place, from, to) };
        answer
    }

    fn sample(bundle: &[u8], sample: u64) -> Answer {
        let mut answer = unset(4);
        let [track, time, start, length] = &mut answer.values;
        let place = &mut answer.place;
        // SAFETY: as said above.
        answer.number =
            unsafe { puddockle_sample(bundle.as_ptr(), bundle.len(), sample, place, track, time, start, length) };
        answer
    }

    fn units(bundle: &[u8], sample: u64, spans: &mut [u64]) -> Answer {
        let mut answer = Answer { count: UNSET, ..unset(0) };
        let (place, count) = (&mut answer.place, &mut answer.count);
        let (out, room) = (spans.as_mut_ptr(), spans.len());
        // SAFETY: as said above.
        answer.number = unsafe { puddockle_units(bundle.as_ptr(), bundle.len(), sample, out, room, place, count) };
        answer
    }

    fn named(bundle: &[u8], sample: u64, extractor: u64) -> Answer {
        let mut answer = unset(1);
        let (place, named) = (&mut answer.place, &mut answer.values[0]);
        // SAFETY: as said above.
        answer.number = unsafe { puddockle_named(bundle.as_ptr(), bundle.len(), sample, extractor, place, named) };
        answer
    }
}

/// An answer before the call: its place and so many values are to be set.
fn unset(values: usize) -> Answer {
    let mut answer = Answer { place: UNSET, ..Answer::default() };
    answer.values[..values].fill(UNSET);
    answer
}
