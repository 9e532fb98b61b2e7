//! A well-formed sample made of a damaged one: document 02's request [11].

use crate::bundle::Bundle;
use crate::form::*;
use crate::kind::Kind;
use crate::length_size::{LengthSize, LONG_HEADER};
use crate::names::naming_list;
use crate::refusal::*;
use crate::unit::*;

/// What an entry of the change list tells. The place in the old sample follows in 4 bytes.
const DROP: u8 = 1;
const ZEROING: u8 = 2;

/// Places in a longer sample would not fit 4 bytes.
const LONGEST_SAMPLE: u64 = 1 << 32;

/// Writes the new sample, the change list and the naming list of the old sample, and answers how many bytes each has.
/// Refused with 1 to 13, 30, 29.
pub fn salvage(
    bytes: &[u8],
    sample: u64,
    out: &mut [u8],
    changes: &mut [u8],
    names: &mut [u8],
) -> Result<[usize; 3], Refusal> {
    let bundle = Bundle::read(bytes)?;
    let number = bundle.number(sample)?;
    let track = bundle.track_of(number);
    let (new, list) = salvaged(track.kind, track.length_size, bundle.sample_bytes(number));
    write([(&new, out), (&list, changes), (&naming_list(&bundle, number), names)])
}

/// The same outside a bundle, without a naming list. Refused with 4, 11, 29.
pub fn salvage_sample(
    kind: u32,
    length_size: u32,
    sample: &[u8],
    out: &mut [u8],
    changes: &mut [u8],
) -> Result<[usize; 2], Refusal> {
    let kind = Kind::of_number(kind, 0)?;
    let Some(size) = LengthSize::of_bytes(length_size as u64) else {
        return refuse(LENGTH_SIZE, 0);
    };
    if sample.len() as u64 > LONGEST_SAMPLE {
        return refuse(ROOM, 0);
    }
    let (new, list) = salvaged(kind, size, sample);
    write([(&new, out), (&list, changes)])
}

/// Writes all, each to its own slice, or nothing: 29 where one lacks room.
fn write<const N: usize>(parts: [(&Vec<u8>, &mut [u8]); N]) -> Result<[usize; N], Refusal> {
    if parts.iter().any(|(bytes, room)| bytes.len() > room.len()) {
        return refuse(ROOM, 0);
    }
    Ok(parts.map(|(bytes, room)| {
        room[..bytes.len()].copy_from_slice(bytes);
        bytes.len()
    }))
}

/// The new sample and the change list.
fn salvaged(kind: Kind, size: LengthSize, sample: &[u8]) -> (Vec<u8>, Vec<u8>) {
    let front = before_first_fault(size, sample);
    let (mut new, mut list) = (Vec::with_capacity(front.len()), Vec::new());
    for unit in top_level(front, size) {
        if is_dropped(kind, size, front, unit) {
            put_entry(&mut list, DROP, unit.place);
            continue;
        }
        let additional_bytes = new.len() + size.bytes() + LONG_HEADER;
        new.extend_from_slice(&front[unit.place..unit.end]);
        if is_zeroed(kind, size, front, unit) {
            new[additional_bytes..additional_bytes + size.bytes()].fill(0);
            put_entry(&mut list, ZEROING, unit.place);
        }
    }
    if front.len() < sample.len() {
        put_entry(&mut list, DROP, front.len());
    }
    (new, list)
}

fn put_entry(list: &mut Vec<u8>, change: u8, place: usize) {
    list.push(change);
    list.extend((place as u32).to_be_bytes());
}

/// The sample up to its first top-level fault, 14 to 18; all of it where there is none.
fn before_first_fault(size: LengthSize, sample: &[u8]) -> &[u8] {
    let mut at = 0;
    while at < sample.len() {
        match check_unit(size, sample, at, sample.len()) {
            Ok(unit) => at = unit.end,
            Err(_) => break,
        }
    }
    &sample[..at]
}

/// Whether a top-level unit has a fault inside, 14 to 20 or 22, or is an extractor with 22.
fn is_dropped(kind: Kind, size: LengthSize, front: &[u8], unit: Unit) -> bool {
    match unit.unit_type(front) {
        AGGREGATOR => check_included(kind, size, front, unit).is_err(),
        EXTRACTOR => check_extractor(size, unit).is_err(),
        _ => false,
    }
}

/// Whether a unit that is kept is an aggregator with 21, or covers a unit that is dropped. Up to the next aggregator is
/// as far as units are looked at, so none is looked at for two.
fn is_zeroed(kind: Kind, size: LengthSize, front: &[u8], unit: Unit) -> bool {
    unit.unit_type(front) == AGGREGATOR
        && (check_additional_bytes(size, front, unit).is_err()
            || units_between(front, size, unit.end, covered_end(front, size, unit))
                .any(|covered| is_dropped(kind, size, front, covered)))
}
