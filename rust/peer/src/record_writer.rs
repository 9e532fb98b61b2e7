//! Decoder configuration records written.
//!
//! This follows document 01's words: the fields fit no record exactly when a number does not fit its bits, the lent
//! sets are not exactly the count, what is said about the trailer is against the profile, or the reader would refuse
//! the bytes they spell. So the bytes are spelled and read. By document 02's request [1] a trailer that belongs there
//! may be said to be absent, and is then spelled as nothing; one that is neither there nor said to be absent is missing.

use crate::kind::Kind;
use crate::record::{read, trailer_belongs};
use crate::refusal::*;

/// What is said about a trailer.
#[derive(Clone, Copy, Debug, PartialEq, Eq)]
pub enum TrailerFields {
    /// No trailer belongs there.
    None,
    /// A trailer belongs there and is left out.
    Absent,
    Present {
        chroma_format: u64,
        luma_depth_less_8: u64,
        chroma_depth_less_8: u64,
        extension_count: u64,
    },
}

/// The fields of a record, as numbers that may be too large.
#[derive(Clone, Copy, Debug, PartialEq, Eq)]
pub struct Fields {
    pub profile: u64,
    pub compatibility: u64,
    pub level: u64,
    /// 0 or 1; 0 in an AVC record, which has no such bit.
    pub complete_representation: u64,
    /// In bytes: 1, 2 or 4.
    pub length_size: u64,
    pub sequence_count: u64,
    pub picture_count: u64,
    pub trailer: TrailerFields,
}

/// The lent sets, each after its 2-byte length.
#[derive(Clone, Copy, Debug)]
pub struct LentSets<'a> {
    pub sequence: &'a [u8],
    pub picture: &'a [u8],
    pub extension: &'a [u8],
}

/// Writes the record to the front of `out` and answers its length. Refused with 31, then 29.
pub fn write(kind: Kind, fields: &Fields, sets: LentSets, out: &mut [u8]) -> Result<usize, Refusal> {
    let record = match spell(kind, fields, sets) {
        Some(record) if read(kind, &record).is_ok() => record,
        _ => return refuse(FIELDS, 0),
    };
    if record.len() > out.len() {
        return refuse(ROOM, 0);
    }
    out[..record.len()].copy_from_slice(&record);
    Ok(record.len())
}

/// The bytes that the fields spell, if every number fits its bits and the sets are exactly the counts.
fn spell(kind: Kind, fields: &Fields, sets: LentSets) -> Option<Vec<u8>> {
    let profile = bits(fields.profile, 8)?;
    let mut record = vec![1, profile, bits(fields.compatibility, 8)?, bits(fields.level, 8)?];
    let size_less_one = bits(fields.length_size.checked_sub(1)?, 2)?;
    match kind {
        Kind::Avc => {
            bits(fields.complete_representation, 0)?;
            record.push(0xFC | size_less_one);
            record.push(0xE0 | bits(fields.sequence_count, 5)?);
        }
        Kind::Svc => {
            record.push(bits(fields.complete_representation, 1)? << 7 | 0x7C | size_less_one);
            record.push(bits(fields.sequence_count, 7)?);
        }
    }
    record.extend_from_slice(exactly(fields.sequence_count, sets.sequence)?);
    record.push(bits(fields.picture_count, 8)?);
    record.extend_from_slice(exactly(fields.picture_count, sets.picture)?);
    match (fields.trailer, trailer_belongs(kind, profile)) {
        (TrailerFields::None, false) | (TrailerFields::Absent, true) => {
            exactly(0, sets.extension)?;
        }
        (TrailerFields::Present { chroma_format, luma_depth_less_8, chroma_depth_less_8, extension_count }, true) => {
            record.push(0xFC | bits(chroma_format, 2)?);
            record.push(0xF8 | bits(luma_depth_less_8, 3)?);
            record.push(0xF8 | bits(chroma_depth_less_8, 3)?);
            record.push(bits(extension_count, 8)?);
            record.extend_from_slice(exactly(extension_count, sets.extension)?);
        }
        _ => return None,
    }
    Some(record)
}

/// The number as a byte, if it fits this many bits.
fn bits(number: u64, count: u32) -> Option<u8> {
    (number < 1 << count).then_some(number as u8)
}

/// The lent bytes, if they are exactly `count` sets, each after its 2-byte length.
fn exactly(count: u64, lent: &[u8]) -> Option<&[u8]> {
    let mut at = 0;
    let mut found = 0;
    while at < lent.len() {
        let length = u16::from_be_bytes([lent[at], *lent.get(at + 1)?]) as usize;
        at += 2 + length;
        found += 1;
    }
    (at == lent.len() && found == count).then_some(lent)
}
