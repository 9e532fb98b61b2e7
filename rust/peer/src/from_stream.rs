//! A byte stream of ISO/IEC 14496-10, Annex B, read into a sample: document 02's request [3].

use std::ops::Range;

use crate::length_size::LengthSize;
use crate::refusal::*;

/// Writes each unit of the stream after its length in `length_size` bytes and answers how many bytes that is.
/// Refused with 11; the first by place of 33 and 34; 29.
pub fn from_stream(length_size: u32, stream: &[u8], out: &mut [u8]) -> Result<usize, Refusal> {
    let Some(size) = LengthSize::of_bytes(length_size as u64) else {
        return refuse(LENGTH_SIZE, 0);
    };
    let first = first_unit(stream)?;
    let mut needed = 0;
    let mut next = first;
    while let Some(start) = next {
        let found = find_unit(stream, start);
        judge(&found, size)?;
        needed += size.bytes() + found.unit.len();
        next = found.next;
    }
    if needed > out.len() {
        return refuse(ROOM, 0);
    }
    let mut at = 0;
    let mut next = first;
    while let Some(start) = next {
        let found = find_unit(stream, start);
        let (length, unit) = out[at..at + size.bytes() + found.unit.len()].split_at_mut(size.bytes());
        let bytes = (found.unit.len() as u32).to_be_bytes();
        length.copy_from_slice(&bytes[bytes.len() - size.bytes()..]);
        unit.copy_from_slice(&stream[found.unit.clone()]);
        at += size.bytes() + found.unit.len();
        next = found.next;
    }
    Ok(needed)
}

/// Where the first unit starts, if there is one: after the zeros at the front and the 01 of its start code.
fn first_unit(stream: &[u8]) -> Result<Option<usize>, Refusal> {
    match stream.iter().position(|&byte| byte != 0) {
        None => Ok(None),
        Some(place) if place >= 2 && stream[place] == 1 => Ok(Some(place + 1)),
        Some(place) => refuse(BAD_BYTE_STREAM, place),
    }
}

/// A unit of a stream.
struct Found {
    /// Where it stands. It is empty where nothing, or zeros alone, stand after its start code.
    unit: Range<usize>,
    /// The first byte in it that may not follow the zeros before it.
    fault: Option<usize>,
    /// Where the next unit starts, if there is one.
    next: Option<usize>,
}

/// The unit that starts here, just after its start code.
fn find_unit(stream: &[u8], start: usize) -> Found {
    let mut fault = None;
    let mut at = start;
    while let Some(zeros) = next_zeros(stream, at) {
        match stream.get(zeros.end) {
            None => return Found { unit: start..zeros.start, fault, next: None },
            Some(1) => return Found { unit: start..zeros.start, fault, next: Some(zeros.end + 1) },
            Some(2) => fault = fault.or(Some(zeros.end)),
            Some(_) if zeros.len() > 2 => fault = fault.or(Some(zeros.end)),
            Some(_) => {}
        }
        at = zeros.end + 1;
    }
    let zero_at_end = stream[start..].ends_with(&[0]) as usize;
    Found { unit: start..stream.len() - zero_at_end, fault, next: None }
}

/// The next zeros, two or more and as many as there are, from a byte on that no zero stands before.
fn next_zeros(stream: &[u8], mut at: usize) -> Option<Range<usize>> {
    while at + 1 < stream.len() {
        if stream[at + 1] != 0 {
            at += 2;
        } else if stream[at] != 0 {
            at += 1;
        } else {
            let more = stream[at + 2..].iter().take_while(|&&byte| byte == 0).count();
            return Some(at..at + 2 + more);
        }
    }
    None
}

/// 33 for an empty unit, at the 01 before it; 34; 33 for a byte in the unit.
fn judge(found: &Found, size: LengthSize) -> Result<(), Refusal> {
    if found.unit.is_empty() {
        return refuse(BAD_BYTE_STREAM, found.unit.start - 1);
    }
    if found.unit.len() as u64 >> (8 * size.bytes()) != 0 {
        return refuse(UNIT_EXCEEDS_LENGTH_SIZE, found.unit.start);
    }
    match found.fault {
        Some(place) => refuse(BAD_BYTE_STREAM, place),
        None => Ok(()),
    }
}
