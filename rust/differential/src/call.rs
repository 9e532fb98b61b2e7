//! One call, asked of the library and of the peer. What each returns, sets and writes is compared whole.

use std::ptr;

use peer::calls::{self, Answer};
use peer::record_writer::LentSets;
use puddockle::raw::*;

use crate::buffer::{self, UNSET};
use crate::byte_streams;
use crate::contents;
use crate::make::fields::MadeFields;
use crate::range;
use crate::salvage;
use crate::search::ByScan;

/// A call of the C interface with all its arguments. `room` is the length of the slice lent for the output,
/// in numbers for `ReadRecord` and `Units`, else in bytes; `rooms` are those of several slices, in their order.
/// `ReadBack` is `stream` and then `from_stream`, of a sample whose stream is written and has `length` bytes.
pub enum Call<'a> {
    ReadRecord { kind: u32, record: &'a [u8], room: usize },
    WriteRecord { kind: u32, fields: &'a MadeFields, room: usize },
    CheckSample { kind: u32, length_size: u32, sample: &'a [u8] },
    CheckBundle { bundle: &'a [u8] },
    Resolve { bundle: &'a [u8], sample: u64, room: usize },
    Range { bundle: &'a [u8], first: u64, last: u64, rooms: [usize; 2] },
    Stream { bundle: &'a [u8], sample: u64, room: usize },
    FromStream { length_size: u32, stream: &'a [u8], room: usize },
    ReadBack { length_size: u32, bundle: &'a [u8], sample: u64, length: usize },
    Salvage { bundle: &'a [u8], sample: u64, rooms: [usize; 3] },
    SalvageSample { kind: u32, length_size: u32, sample: &'a [u8], rooms: [usize; 2] },
    Unit { bundle: &'a [u8], sample: u64, unit: u64 },
    Names { bundle: &'a [u8], sample: u64, room: usize },
    Audit { bundle: &'a [u8], room: usize },
    Counts { bundle: &'a [u8] },
    Track { bundle: &'a [u8], track: u64 },
    Reference { bundle: &'a [u8], reference: u64 },
    Sample { bundle: &'a [u8], sample: u64 },
    Units { bundle: &'a [u8], sample: u64, room: usize },
    Named { bundle: &'a [u8], sample: u64, extractor: u64 },
}

/// Which number of a record says what there is of its trailer.
const TRAILER: usize = 11;

/// What the peer said, and the first difference if there is one.
pub struct Outcome {
    pub answer: Answer,
    /// The audit's lines, or none.
    pub lines: Vec<u8>,
    /// What is said of the trailer (0 to 2) of each record that was accepted.
    pub trailers: Vec<u64>,
    /// The search for a base sample by a scan, where an extractor was asked about that has a linked track.
    pub search: Option<ByScan>,
    /// What a range or a salvaged sample has, under which name and number it is counted.
    pub cases: Vec<(&'static str, u32)>,
    pub difference: Option<String>,
}

/// The pointer of a slice; null where it is empty, since C callers may give that.
pub fn pointer<T>(slice: &[T]) -> *const T {
    if slice.is_empty() {
        ptr::null()
    } else {
        slice.as_ptr()
    }
}

pub fn pointer_mut<T>(slice: &mut [T]) -> *mut T {
    if slice.is_empty() {
        ptr::null_mut()
    } else {
        slice.as_mut_ptr()
    }
}

impl Call<'_> {
    /// Asks both.
    pub fn compare(&self) -> Outcome {
        match *self {
            Call::ReadRecord { kind, record, room } => read_record(kind, record, room),
            Call::WriteRecord { kind, fields, room } => write_record(kind, fields, room),
            Call::CheckSample { kind, length_size, sample } => check_sample(kind, length_size, sample),
            Call::CheckBundle { bundle } => check_bundle(bundle),
            Call::Resolve { bundle, sample, room } => resolve(bundle, sample, room),
            Call::Range { bundle, first, last, rooms } => range::range(bundle, first, last, rooms),
            Call::Stream { bundle, sample, room } => stream(bundle, sample, room),
            Call::FromStream { length_size, stream, room } => byte_streams::from_stream(length_size, stream, room),
            Call::ReadBack { length_size, bundle, sample, length } => {
                byte_streams::read_back(length_size, bundle, sample, length)
            }
            Call::Salvage { bundle, sample, rooms } => salvage::salvage(bundle, sample, rooms),
            Call::SalvageSample { kind, length_size, sample, rooms } => {
                salvage::salvage_sample(kind, length_size, sample, rooms)
            }
            Call::Unit { bundle, sample, unit } => one_unit(bundle, sample, unit),
            Call::Names { bundle, sample, room } => names(bundle, sample, room),
            Call::Audit { bundle, room } => audit(bundle, room),
            Call::Counts { bundle } => contents::counts(bundle),
            Call::Track { bundle, track } => contents::track(bundle, track),
            Call::Reference { bundle, reference } => contents::reference(bundle, reference),
            Call::Sample { bundle, sample } => contents::sample(bundle, sample),
            Call::Units { bundle, sample, room } => contents::units(bundle, sample, room),
            Call::Named { bundle, sample, extractor } => contents::named(bundle, sample, extractor),
        }
    }
}

/// The outcome, given both answers and both buffers.
pub fn outcome<T: PartialEq>(answer: Answer, given: Answer, expected: &T, written: &T) -> Outcome {
    let difference = if given != answer {
        Some(format!("the peer answers {answer:?}, the library {given:?}"))
    } else if written != expected {
        Some(format!("both answer {answer:?}, but the buffers differ"))
    } else {
        None
    };
    Outcome { answer, lines: Vec::new(), trailers: Vec::new(), search: None, cases: Vec::new(), difference }
}

fn read_record(kind: u32, record: &[u8], room: usize) -> Outcome {
    let mut expected = buffer::numbers(room);
    let mut written = expected.clone();
    let answer = calls::read_record(kind, record, expected.lent());
    let mut given = Answer { place: UNSET, ..Answer::default() };
    let fields = written.lent();
    // SAFETY: slices and their own lengths, and a number of our own. So in all calls below.
    given.number = unsafe {
        puddockle_read_record(kind, pointer(record), record.len(), pointer_mut(fields), fields.len(), &mut given.place)
    };
    let trailers = if answer.number == 0 { vec![expected.lent()[TRAILER]] } else { Vec::new() };
    Outcome { trailers, ..outcome(answer, given, &expected, &written) }
}

fn write_record(kind: u32, fields: &MadeFields, room: usize) -> Outcome {
    let mut expected = buffer::bytes(room);
    let mut written = expected.clone();
    let MadeFields { numbers, sequence, picture, extension } = fields;
    let sets = LentSets { sequence, picture, extension };
    let answer = calls::write_record(kind, numbers, sets, expected.lent());
    let mut given = Answer { place: UNSET, count: UNSET, ..Answer::default() };
    let out = written.lent();
    // SAFETY: as said above.
    given.number = unsafe {
        puddockle_write_record(
            kind,
            pointer(numbers),
            numbers.len(),
            pointer(sequence),
            sequence.len(),
            pointer(picture),
            picture.len(),
            pointer(extension),
            extension.len(),
            pointer_mut(out),
            out.len(),
            &mut given.place,
            &mut given.count,
        )
    };
    let trailers = if answer.number == 0 { vec![numbers[TRAILER]] } else { Vec::new() };
    Outcome { trailers, ..outcome(answer, given, &expected, &written) }
}

fn check_sample(kind: u32, length_size: u32, sample: &[u8]) -> Outcome {
    let answer = calls::check_sample(kind, length_size, sample);
    let mut given = Answer { place: UNSET, ..Answer::default() };
    // SAFETY: as said above.
    given.number =
        unsafe { puddockle_check_sample(kind, length_size, pointer(sample), sample.len(), &mut given.place) };
    outcome(answer, given, &(), &())
}

fn check_bundle(bundle: &[u8]) -> Outcome {
    let answer = calls::check_bundle(bundle);
    let mut given = Answer { place: UNSET, ..Answer::default() };
    // SAFETY: as said above.
    given.number = unsafe { puddockle_check_bundle(pointer(bundle), bundle.len(), &mut given.place) };
    let trailers = if answer.number == 0 { trailers_in(bundle) } else { Vec::new() };
    Outcome { trailers, ..outcome(answer, given, &(), &()) }
}

/// What is said of the trailer of each track's record, in a bundle that is accepted.
fn trailers_in(bundle: &[u8]) -> Vec<u64> {
    let mut rest = &bundle[1..];
    let mut trailers = Vec::new();
    for _ in 0..bundle[0] {
        let length = u16::from_be_bytes([rest[1], rest[2]]) as usize;
        let mut fields = [0; FIELDS];
        calls::read_record(rest[0] as u32, &rest[3..3 + length], &mut fields);
        trailers.push(fields[TRAILER]);
        rest = &rest[3 + length..];
    }
    trailers
}

fn resolve(bundle: &[u8], sample: u64, room: usize) -> Outcome {
    let mut expected = buffer::bytes(room);
    let mut written = expected.clone();
    let answer = calls::resolve_sample(bundle, sample, expected.lent());
    let mut given = Answer { place: UNSET, count: UNSET, ..Answer::default() };
    let out = written.lent();
    // SAFETY: as said above.
    given.number = unsafe {
        puddockle_resolve(
            pointer(bundle),
            bundle.len(),
            sample,
            pointer_mut(out),
            out.len(),
            &mut given.place,
            &mut given.count,
        )
    };
    outcome(answer, given, &expected, &written)
}

fn stream(bundle: &[u8], sample: u64, room: usize) -> Outcome {
    let mut expected = buffer::bytes(room);
    let mut written = expected.clone();
    let answer = calls::stream_sample(bundle, sample, expected.lent());
    let mut given = Answer { place: UNSET, count: UNSET, ..Answer::default() };
    let out = written.lent();
    // SAFETY: as said above.
    given.number = unsafe {
        puddockle_stream(
            pointer(bundle),
            bundle.len(),
            sample,
            pointer_mut(out),
            out.len(),
            &mut given.place,
            &mut given.count,
        )
    };
    outcome(answer, given, &expected, &written)
}

fn one_unit(bundle: &[u8], sample: u64, unit: u64) -> Outcome {
    let answer = calls::one_unit(bundle, sample, unit);
    let mut given = Answer { place: UNSET, start: UNSET, length: UNSET, ..Answer::default() };
    // SAFETY: as said above.
    given.number = unsafe {
        puddockle_unit(
            pointer(bundle),
            bundle.len(),
            sample,
            unit,
            &mut given.place,
            &mut given.start,
            &mut given.length,
        )
    };
    outcome(answer, given, &(), &())
}

fn names(bundle: &[u8], sample: u64, room: usize) -> Outcome {
    let mut expected = buffer::bytes(room);
    let mut written = expected.clone();
    let answer = calls::naming_list(bundle, sample, expected.lent());
    let mut given = Answer { place: UNSET, count: UNSET, ..Answer::default() };
    let out = written.lent();
    // SAFETY: as said above.
    given.number = unsafe {
        puddockle_names(
            pointer(bundle),
            bundle.len(),
            sample,
            pointer_mut(out),
            out.len(),
            &mut given.place,
            &mut given.count,
        )
    };
    outcome(answer, given, &expected, &written)
}

fn audit(bundle: &[u8], room: usize) -> Outcome {
    let mut expected = buffer::bytes(room);
    let mut written = expected.clone();
    let answer = calls::audit_bundle(bundle, expected.lent());
    let mut given = Answer { place: UNSET, count: UNSET, tally: [UNSET; 3], ..Answer::default() };
    let [mut passed, mut empty, mut refused] = given.tally;
    let lines = written.lent();
    // SAFETY: as said above.
    given.number = unsafe {
        puddockle_audit(
            pointer(bundle),
            bundle.len(),
            pointer_mut(lines),
            lines.len(),
            &mut given.place,
            &mut given.count,
            &mut passed,
            &mut empty,
            &mut refused,
        )
    };
    given.tally = [passed, empty, refused];
    let lines = expected.lent()[..answer.count as usize].to_vec();
    Outcome { lines, ..outcome(answer, given, &expected, &written) }
}
