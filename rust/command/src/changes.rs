//! What a change of a sample is: the unit that it was made to, and why.

use puddockle::{check_sample, Change, ChangeKind, Refusal};

use crate::json::Value;
use crate::salvaged::Changed;
use crate::words::{counted, refusal, unit_name, unit_type};

/// A change, with what the old sample has at its place.
pub struct Detail {
    pub change: Change,
    pub what: What,
}

/// Sizes of units are without their length fields. Places of refusals are offsets in the old sample.
pub enum What {
    /// A unit that is dropped.
    Unit { unit_type: u8, size: usize, why: Option<Refusal> },
    /// All from a top-level fault on.
    Rest { size: usize, why: Refusal },
    /// An aggregator that no longer covers so many bytes.
    Aggregator { unit_type: u8, size: usize, covered: usize },
}

/// The changes of a sample, by place. They take time as its bytes.
pub fn details<'a>(changed: &'a Changed) -> impl Iterator<Item = Detail> + 'a {
    let changes = changed.changes().entries();
    let last = changes.len();
    changes.zip(1..).map(move |(change, number)| Detail { change, what: what(changed, change, number == last) })
}

/// How much was changed.
#[derive(Default)]
pub struct Totals {
    pub samples: u64,
    /// Of how many of them nothing is left.
    pub emptied: u64,
    pub units: u64,
    /// How many samples have lost all from a top-level fault on.
    pub ends: u64,
    /// All bytes dropped, length fields among them.
    pub bytes: u64,
    pub zeroings: u64,
}

impl Totals {
    pub fn of(all: &[Changed]) -> Totals {
        let mut totals = Totals::default();
        for one in all {
            let changes = one.changes().entries();
            let drops = changes.filter(|change| change.kind == ChangeKind::Drop).count() as u64;
            let last = one.changes().entries().last();
            let end = last.is_some_and(|last| matches!(what(one, last, true), What::Rest { .. })) as u64;
            totals.samples += 1;
            totals.emptied += u64::from(one.new.is_empty());
            totals.units += drops - end;
            totals.ends += end;
            totals.bytes += (one.old.bytes.len() - one.new.len()) as u64;
            totals.zeroings += one.changes().entries().len() as u64 - drops;
        }
        totals
    }
}

fn what(changed: &Changed, change: Change, is_last: bool) -> What {
    let length_size = changed.length_size as usize;
    let rest = &changed.old.bytes[change.place as usize..];
    // Of a rest the library says one of 14 to 18 at its front, where a whole unit has none of them.
    let why = if is_last { fault(changed, change.place, rest) } else { None };
    if let Some(why @ Refusal { number: 14..=18, place }) = why {
        if place == change.place {
            return What::Rest { size: rest.len(), why };
        }
    }
    let size = big_endian(&rest[..length_size]);
    let unit = &rest[length_size..][..size];
    match change.kind {
        ChangeKind::Drop => {
            let why = fault(changed, change.place, &rest[..length_size + size]);
            What::Unit { unit_type: unit_type(unit), size, why }
        }
        ChangeKind::Zeroing => {
            let covered = big_endian(&unit[ADDITIONAL_BYTES..][..length_size]);
            What::Aggregator { unit_type: unit_type(unit), size, covered }
        }
    }
}

/// Where the additional_bytes stand in an aggregator: after its header.
const ADDITIONAL_BYTES: usize = 4;

/// What the library refuses in a part of the old sample, taken for a sample of its own.
fn fault(changed: &Changed, start: u64, part: &[u8]) -> Option<Refusal> {
    let no = check_sample(changed.kind, changed.length_size, part).err()?;
    Some(Refusal { place: start + no.place, ..no })
}

pub fn big_endian(bytes: &[u8]) -> usize {
    bytes.iter().fold(0, |number, &byte| number << 8 | byte as usize)
}

/// In words, without the sample.
pub fn in_words(detail: &Detail) -> String {
    let unit = |unit_type, size| format!("type {unit_type} {}, {}", unit_name(unit_type), bytes(size));
    let why = |no: &Refusal| format!(": {}", refusal(no));
    let place = detail.change.place;
    match &detail.what {
        What::Unit { unit_type, size, why: no } => {
            format!("at {place} dropped {}{}", unit(*unit_type, *size), no.as_ref().map_or(String::new(), why))
        }
        What::Rest { size, why: no } => format!("at {place} dropped all to the end, {}{}", bytes(*size), why(no)),
        What::Aggregator { unit_type, size, covered } => {
            let unit = unit(*unit_type, *size);
            format!("at {place} zeroed the additional_bytes of {unit}: it covered {}", bytes(*covered))
        }
    }
}

fn bytes(count: usize) -> String {
    counted(count as u64, "byte")
}

/// In a document.
pub fn value<'a>(detail: Detail) -> Value<'a> {
    let number = |number: usize| Value::Number(number as u64);
    let (change, of_type, size, why, covered) = match detail.what {
        What::Unit { unit_type, size, why } => ("drop", Some(unit_type), size, why, None),
        What::Rest { size, why } => ("drop", None, size, Some(why), None),
        What::Aggregator { unit_type, size, covered } => ("zero", Some(unit_type), size, None, Some(covered)),
    };
    Value::Object(vec![
        ("change", Value::text(change)),
        ("place", Value::Number(detail.change.place)),
        ("type", of_type.map_or(Value::Null, |of_type| Value::Number(of_type.into()))),
        ("name", of_type.map_or(Value::Null, |of_type| Value::text(unit_name(of_type)))),
        ("bytes", number(size)),
        ("refusal", Value::refusal(why.as_ref())),
        ("covered_bytes", covered.map_or(Value::Null, number)),
    ])
}
