//! Every call of the C interface, on slices: the refusal number (0: accepted) and all that the call sets.

use crate::audit::{audit, Tally};
use crate::bundle::Bundle;
use crate::contents;
use crate::form;
use crate::from_stream::from_stream;
use crate::kind::Kind;
use crate::length_size::LengthSize;
use crate::names::{named, names};
use crate::range;
use crate::record::{self, Record, Sets, Trailer};
use crate::record_writer::{self, Fields, LentSets, TrailerFields};
use crate::refusal::*;
use crate::resolve::{resolve, unit, units};
use crate::salvage;
use crate::stream::stream;

/// How many numbers describe a record.
pub const FIELD_COUNT: usize = 18;

/// The number returned and the numbers set. What a call does not set stays 0.
#[derive(Clone, Copy, Debug, Default, PartialEq, Eq)]
pub struct Answer {
    pub number: u32,
    pub place: u64,
    pub count: u64,
    pub start: u64,
    pub length: u64,
    pub tally: [u64; 3],
    /// What `counts`, `track`, `reference`, `sample` and `named` set, in the order of the C functions. The counts that
    /// `range`, `salvage` and `salvage_sample` set after the first.
    pub values: [u64; 4],
}

/// The answer of a refusal, or else the one that `accepted` makes.
fn answer<T>(result: Result<T, Refusal>, accepted: impl FnOnce(T) -> Answer) -> Answer {
    match result {
        Ok(value) => accepted(value),
        Err(no) => Answer { number: no.number as u32, place: no.place as u64, ..Answer::default() },
    }
}

fn counted(count: usize) -> Answer {
    Answer { count: count as u64, ..Answer::default() }
}

fn values(values: [u64; 4]) -> Answer {
    Answer { values, ..Answer::default() }
}

pub fn read_record(kind: u32, bytes: &[u8], fields: &mut [u64]) -> Answer {
    let result = Kind::of_number(kind, 0).and_then(|kind| {
        let record = record::read(kind, bytes)?;
        if fields.len() < FIELD_COUNT {
            return refuse(ROOM, 0);
        }
        fields[..FIELD_COUNT].copy_from_slice(&numbers_of(&record));
        Ok(())
    });
    answer(result, |()| Answer::default())
}

pub fn write_record(kind: u32, fields: &[u64], sets: LentSets, out: &mut [u8]) -> Answer {
    let result = Kind::of_number(kind, 0).and_then(|kind| match fields_of(fields) {
        Some(fields) => record_writer::write(kind, &fields, sets, out),
        None => refuse(FIELDS, 0),
    });
    answer(result, counted)
}

pub fn check_sample(kind: u32, length_size: u32, sample: &[u8]) -> Answer {
    let result = Kind::of_number(kind, 0).and_then(|kind| match LengthSize::of_bytes(length_size as u64) {
        Some(size) => form::check(kind, size, sample),
        None => refuse(LENGTH_SIZE, 0),
    });
    answer(result, |()| Answer::default())
}

pub fn check_bundle(bundle: &[u8]) -> Answer {
    answer(Bundle::read(bundle), |_| Answer::default())
}

pub fn counts(bundle: &[u8]) -> Answer {
    answer(contents::counts(bundle), |[tracks, references, samples]| {
        values([tracks as u64, references as u64, samples as u64, 0])
    })
}

pub fn track(bundle: &[u8], number: u64) -> Answer {
    answer(contents::track(bundle, number), |track| {
        let kind = match track.kind {
            Kind::Avc => 0,
            Kind::Svc => 1,
        };
        values([kind, track.record.start as u64, track.record.len() as u64, 0])
    })
}

pub fn reference(bundle: &[u8], number: u64) -> Answer {
    answer(contents::reference(bundle, number), |found| values([found.from.0 as u64, found.to.0 as u64, 0, 0]))
}

pub fn sample(bundle: &[u8], number: u64) -> Answer {
    answer(contents::sample(bundle, number), |found| {
        values([found.track.0 as u64, found.time, found.start as u64, found.length as u64])
    })
}

pub fn all_units(bundle: &[u8], sample: u64, spans: &mut [u64]) -> Answer {
    answer(units(bundle, sample, spans), counted)
}

pub fn sample_named(bundle: &[u8], sample: u64, place: u64) -> Answer {
    answer(named(bundle, sample, place), |found| values([found.0 as u64, 0, 0, 0]))
}

pub fn resolve_sample(bundle: &[u8], sample: u64, out: &mut [u8]) -> Answer {
    answer(resolve(bundle, sample, out), counted)
}

pub fn range(bundle: &[u8], first: u64, last: u64, out: &mut [u8], lines: &mut [u8]) -> Answer {
    answer(range::range(bundle, first, last, out, lines), |[count, lines]| Answer {
        values: [lines as u64, 0, 0, 0],
        ..counted(count)
    })
}

pub fn stream_sample(bundle: &[u8], sample: u64, out: &mut [u8]) -> Answer {
    answer(stream(bundle, sample, out), counted)
}

pub fn sample_from_stream(length_size: u32, stream: &[u8], out: &mut [u8]) -> Answer {
    answer(from_stream(length_size, stream, out), counted)
}

pub fn salvage(bundle: &[u8], sample: u64, out: &mut [u8], changes: &mut [u8], names: &mut [u8]) -> Answer {
    answer(salvage::salvage(bundle, sample, out, changes, names), |[count, changes, names]| Answer {
        values: [changes as u64, names as u64, 0, 0],
        ..counted(count)
    })
}

pub fn salvage_sample(kind: u32, length_size: u32, sample: &[u8], out: &mut [u8], changes: &mut [u8]) -> Answer {
    answer(salvage::salvage_sample(kind, length_size, sample, out, changes), |[count, changes]| Answer {
        values: [changes as u64, 0, 0, 0],
        ..counted(count)
    })
}

pub fn one_unit(bundle: &[u8], sample: u64, number: u64) -> Answer {
    answer(unit(bundle, sample, number), |part| Answer {
        start: part.start as u64,
        length: part.length as u64,
        ..Answer::default()
    })
}

pub fn naming_list(bundle: &[u8], sample: u64, out: &mut [u8]) -> Answer {
    answer(names(bundle, sample, out), counted)
}

pub fn audit_bundle(bundle: &[u8], lines: &mut [u8]) -> Answer {
    answer(audit(bundle, lines), |(count, Tally { passed, empty, refused })| Answer {
        count: count as u64,
        tally: [passed, empty, refused],
        ..Answer::default()
    })
}

/// A record as the 18 numbers of the C interface. Unless a trailer is present its numbers are 0.
fn numbers_of(record: &Record) -> [u64; FIELD_COUNT] {
    let sets = |sets: Sets| [sets.count as u64, sets.start as u64, sets.length as u64];
    let [sequences, sequence_start, sequence_length] = sets(record.sequence);
    let [pictures, picture_start, picture_length] = sets(record.picture);
    let (trailer, values, extension) = match record.trailer {
        Trailer::None => (0, [0; 3], [0; 3]),
        Trailer::Absent => (1, [0; 3], [0; 3]),
        Trailer::Present { chroma_format, luma_depth_less_8, chroma_depth_less_8, extension } => {
            (2, [chroma_format, luma_depth_less_8, chroma_depth_less_8], sets(extension))
        }
    };
    [
        record.profile as u64,
        record.compatibility as u64,
        record.level as u64,
        (record.complete_representation == Some(true)) as u64,
        record.length_size.bytes() as u64,
        sequences,
        sequence_start,
        sequence_length,
        pictures,
        picture_start,
        picture_length,
        trailer,
        values[0] as u64,
        values[1] as u64,
        values[2] as u64,
        extension[0],
        extension[1],
        extension[2],
    ]
}

/// The writer's fields from the 18 numbers, if there are so many and the trailer's is 0, 1 or 2.
/// Starts and lengths are not looked at, nor a trailer's numbers where none is said to be present.
fn fields_of(numbers: &[u64]) -> Option<Fields> {
    if numbers.len() < FIELD_COUNT {
        return None;
    }
    let trailer = match numbers[11] {
        0 => TrailerFields::None,
        1 => TrailerFields::Absent,
        2 => TrailerFields::Present {
            chroma_format: numbers[12],
            luma_depth_less_8: numbers[13],
            chroma_depth_less_8: numbers[14],
            extension_count: numbers[15],
        },
        _ => return None,
    };
    Some(Fields {
        profile: numbers[0],
        compatibility: numbers[1],
        level: numbers[2],
        complete_representation: numbers[3],
        length_size: numbers[4],
        sequence_count: numbers[5],
        picture_count: numbers[8],
        trailer,
    })
}
