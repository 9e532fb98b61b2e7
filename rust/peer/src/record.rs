//! Decoder configuration records read: the AVC record (5.2.4.1) and the SVC record (A.5.3).
//!
//! Checks run front to back. A byte is asked for (8) only when the reading comes to it. By document 02's request [1] a
//! record of a high profile may end where its trailer would start.

use crate::kind::Kind;
use crate::length_size::LengthSize;
use crate::refusal::*;

/// The sets of one kind: how many, and where in the record they stand, each after its 2-byte length.
#[derive(Clone, Copy, Debug, Default, PartialEq, Eq)]
pub struct Sets {
    pub count: usize,
    pub start: usize,
    pub length: usize,
}

/// What follows the picture sets.
#[derive(Clone, Copy, Debug, PartialEq, Eq)]
pub enum Trailer {
    /// No trailer belongs there.
    None,
    /// A trailer belongs there, and the record ends before it.
    Absent,
    Present {
        chroma_format: u8,
        luma_depth_less_8: u8,
        chroma_depth_less_8: u8,
        extension: Sets,
    },
}

#[derive(Clone, Copy, Debug, PartialEq, Eq)]
pub struct Record {
    pub profile: u8,
    pub compatibility: u8,
    pub level: u8,
    /// `None` in an AVC record, which has no such bit.
    pub complete_representation: Option<bool>,
    pub length_size: LengthSize,
    pub sequence: Sets,
    pub picture: Sets,
    pub trailer: Trailer,
}

const SEQUENCE_SET: u8 = 7;
const PICTURE_SET: u8 = 8;
const SEQUENCE_SET_EXTENSION: u8 = 13;
const SUBSET_SEQUENCE_SET: u8 = 15;

/// Whether a trailer belongs to a record of this kind and profile.
pub fn trailer_belongs(kind: Kind, profile: u8) -> bool {
    kind == Kind::Avc && matches!(profile, 100 | 110 | 122 | 144)
}

/// Reads a whole record. Refused with 8 to 13, always at 0: a record alone has no other places.
pub fn read(kind: Kind, bytes: &[u8]) -> Result<Record, Refusal> {
    let mut rest = Reader { bytes, at: 0 };
    if rest.byte()? != 1 {
        return refuse(VERSION, 0);
    }
    let profile = rest.byte()?;
    let compatibility = rest.byte()?;
    let level = rest.byte()?;
    let (complete_representation, length_size) = read_fifth_byte(kind, &mut rest)?;
    let sequence = match kind {
        Kind::Avc => {
            let count = rest.after_ones(3)?;
            rest.sets(count, &[SEQUENCE_SET])?
        }
        Kind::Svc => {
            let count = rest.byte()?;
            if count & 0x80 != 0 {
                return refuse(FIXED_BITS, 0);
            }
            rest.sets(count, &[SEQUENCE_SET, SUBSET_SEQUENCE_SET])?
        }
    };
    let picture_count = rest.byte()?;
    let picture = rest.sets(picture_count, &[PICTURE_SET])?;
    let trailer = match trailer_belongs(kind, profile) {
        true if rest.is_at_end() => Trailer::Absent,
        true => read_trailer(&mut rest)?,
        false => Trailer::None,
    };
    if !rest.is_at_end() {
        return refuse(AFTER_RECORD, 0);
    }
    Ok(Record { profile, compatibility, level, complete_representation, length_size, sequence, picture, trailer })
}

/// The fifth byte: fixed bits (10) come before the length size (11).
fn read_fifth_byte(kind: Kind, rest: &mut Reader) -> Result<(Option<bool>, LengthSize), Refusal> {
    let byte = rest.byte()?;
    let complete = match kind {
        Kind::Avc if byte & 0xFC == 0xFC => None,
        Kind::Svc if byte & 0x7C == 0x7C => Some(byte & 0x80 != 0),
        _ => return refuse(FIXED_BITS, 0),
    };
    match LengthSize::of_bytes((byte & 3) as u64 + 1) {
        Some(size) => Ok((complete, size)),
        None => refuse(LENGTH_SIZE, 0),
    }
}

/// A trailer of which at least one byte is there: the whole of it must follow.
fn read_trailer(rest: &mut Reader) -> Result<Trailer, Refusal> {
    let chroma_format = rest.after_ones(6)?;
    let luma_depth_less_8 = rest.after_ones(5)?;
    let chroma_depth_less_8 = rest.after_ones(5)?;
    let count = rest.byte()?;
    let extension = rest.sets(count, &[SEQUENCE_SET_EXTENSION])?;
    Ok(Trailer::Present { chroma_format, luma_depth_less_8, chroma_depth_less_8, extension })
}

/// The bytes of a record and how far they are read.
struct Reader<'a> {
    bytes: &'a [u8],
    at: usize,
}

impl Reader<'_> {
    fn is_at_end(&self) -> bool {
        self.at == self.bytes.len()
    }

    fn byte(&mut self) -> Result<u8, Refusal> {
        match self.bytes.get(self.at) {
            Some(&byte) => {
                self.at += 1;
                Ok(byte)
            }
            None => refuse(RECORD_CUT, 0),
        }
    }

    /// A byte whose top `ones` bits must be 1: the number in its other bits.
    fn after_ones(&mut self, ones: u32) -> Result<u8, Refusal> {
        let byte = self.byte()?;
        if byte.leading_ones() < ones {
            return refuse(FIXED_BITS, 0);
        }
        Ok(byte & (0xFF >> ones))
    }

    fn sets(&mut self, count: u8, types: &[u8]) -> Result<Sets, Refusal> {
        let start = self.at;
        for _ in 0..count {
            self.set(types)?;
        }
        Ok(Sets { count: count as usize, start, length: self.at - start })
    }

    /// One set after its length. All its bytes must be there before its header is judged.
    fn set(&mut self, types: &[u8]) -> Result<(), Refusal> {
        let length = u16::from_be_bytes([self.byte()?, self.byte()?]) as usize;
        if length == 0 {
            return refuse(SET, 0);
        }
        if self.bytes.len() - self.at < length {
            return refuse(RECORD_CUT, 0);
        }
        let header = self.bytes[self.at];
        if header & 0x80 != 0 || !types.contains(&(header & 0x1F)) {
            return refuse(SET, 0);
        }
        self.at += length;
        Ok(())
    }
}
