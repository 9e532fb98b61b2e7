//! Decoder configuration records read and written.

use core::fmt;

use crate::raw::{puddockle_read_record, puddockle_write_record, FIELDS};
use crate::{Kind, LengthSize, Refusal};

/// The sets of one kind: how many, and their bytes, each set after its 2-byte length.
#[derive(Clone, Copy, Debug, Default, PartialEq, Eq)]
pub struct Sets<'a> {
    /// How many sets there are.
    pub count: u64,
    /// The sets, each after its length.
    pub bytes: &'a [u8],
}

impl<'a> Sets<'a> {
    /// The sets one by one, without their lengths. Ends where a set is cut.
    pub fn iter(&self) -> SetsIter<'a> {
        SetsIter { rest: self.bytes }
    }
}

/// See [`Sets::iter`].
#[derive(Clone, Debug)]
pub struct SetsIter<'a> {
    rest: &'a [u8],
}

impl<'a> Iterator for SetsIter<'a> {
    type Item = &'a [u8];

    fn next(&mut self) -> Option<&'a [u8]> {
        let (length, rest) = self.rest.split_first_chunk::<2>()?;
        let (set, rest) = rest.split_at_checked(u16::from_be_bytes(*length) as usize)?;
        self.rest = rest;
        Some(set)
    }
}

/// What follows the picture sets. The writer refuses (31) what does not go with the kind and the profile: [`None`] or
/// [`Absent`] said in place of the other, or [`Present`] where no trailer belongs.
///
/// [`None`]: Trailer::None
/// [`Absent`]: Trailer::Absent
/// [`Present`]: Trailer::Present
#[derive(Clone, Copy, Debug, PartialEq, Eq)]
pub enum Trailer<'a> {
    /// No trailer belongs there: an SVC record, or a profile other than 100, 110, 122 and 144.
    None,
    /// A trailer belongs there and is left out: the record ends after its picture sets, as older recorders write it.
    Absent,
    /// The trailer of an AVC record of profile 100, 110, 122 or 144.
    Present {
        /// chroma_format, 2 bits.
        chroma_format: u64,
        /// The luma bit depth less 8, 3 bits.
        luma_depth_less_8: u64,
        /// The chroma bit depth less 8, 3 bits.
        chroma_depth_less_8: u64,
        /// Sequence parameter set extensions, units of type 13.
        extension: Sets<'a>,
    },
}

/// In words, as a list of a record's fields has it.
impl fmt::Display for Trailer<'_> {
    fn fmt(&self, f: &mut fmt::Formatter) -> fmt::Result {
        match self {
            Trailer::None => write!(f, "no trailer"),
            Trailer::Absent => write!(f, "trailer absent"),
            Trailer::Present { chroma_format, luma_depth_less_8, chroma_depth_less_8, extension } => write!(
                f,
                "trailer: chroma_format {chroma_format}, luma depth {}, chroma depth {}, extension sets {}",
                8 + u128::from(*luma_depth_less_8),
                8 + u128::from(*chroma_depth_less_8),
                extension.count
            ),
        }
    }
}

/// A record. Its sets are lent: where it was read, they are parts of the bytes read. Numbers may be too large for
/// their bits; the writer refuses them.
#[derive(Clone, Copy, Debug, PartialEq, Eq)]
pub struct Record<'a> {
    /// The profile, one byte.
    pub profile: u64,
    /// The compatibility flags, one byte.
    pub compatibility: u64,
    /// The level, one byte.
    pub level: u64,
    /// complete_representation of an SVC record. False in an AVC record, which has no such bit.
    pub complete_representation: bool,
    /// The length size of the track's samples.
    pub length_size: LengthSize,
    /// Sequence parameter sets, units of type 7, in an SVC record of type 7 or 15.
    pub sequence: Sets<'a>,
    /// Picture parameter sets, units of type 8.
    pub picture: Sets<'a>,
    /// The trailer, or why there is none.
    pub trailer: Trailer<'a>,
}

/// Reads a whole record. Refused with 8 to 13.
pub fn read_record(kind: Kind, record: &[u8]) -> Result<Record<'_>, Refusal> {
    let mut fields = [0; FIELDS];
    let mut place = 0;
    // SAFETY: both slices are valid for their lengths, and `place` is a number of our own.
    let number = unsafe {
        puddockle_read_record(kind as u32, record.as_ptr(), record.len(), fields.as_mut_ptr(), fields.len(), &mut place)
    };
    Refusal::check(number, place)?;
    let sets = |at: usize| Sets {
        count: fields[at],
        bytes: &record[fields[at + 1] as usize..(fields[at + 1] + fields[at + 2]) as usize],
    };
    Ok(Record {
        profile: fields[0],
        compatibility: fields[1],
        level: fields[2],
        complete_representation: fields[3] == 1,
        length_size: LengthSize::of_bytes(fields[4]).expect("an accepted record has a length size of 1, 2 or 4"),
        sequence: sets(5),
        picture: sets(8),
        trailer: match fields[11] {
            0 => Trailer::None,
            1 => Trailer::Absent,
            _ => Trailer::Present {
                chroma_format: fields[12],
                luma_depth_less_8: fields[13],
                chroma_depth_less_8: fields[14],
                extension: sets(15),
            },
        },
    })
}

/// Writes a record to the front of `out` and answers its length. Refused with 31, then 29; `out` is then untouched.
///
/// The room that it needs is 7 and the bytes of the sequence and picture sets; where a trailer is present, also 4 and
/// the bytes of the extension sets.
pub fn write_record(kind: Kind, record: &Record, out: &mut [u8]) -> Result<usize, Refusal> {
    let (sequence, picture) = (record.sequence, record.picture);
    let (trailer, values, extension) = match record.trailer {
        Trailer::None => (0, [0; 3], Sets::default()),
        Trailer::Absent => (1, [0; 3], Sets::default()),
        Trailer::Present { chroma_format, luma_depth_less_8, chroma_depth_less_8, extension } => {
            (2, [chroma_format, luma_depth_less_8, chroma_depth_less_8], extension)
        }
    };
    let mut fields = [0; FIELDS];
    fields[..3].copy_from_slice(&[record.profile, record.compatibility, record.level]);
    fields[3] = record.complete_representation as u64;
    fields[4] = record.length_size as u64;
    fields[5] = sequence.count;
    fields[8] = picture.count;
    fields[11] = trailer;
    fields[12..15].copy_from_slice(&values);
    fields[15] = extension.count;
    let (mut place, mut count) = (0, 0);
    // SAFETY: every slice is valid for its length, `out` is lent to us alone, and the two numbers are our own.
    let number = unsafe {
        puddockle_write_record(
            kind as u32,
            fields.as_ptr(),
            fields.len(),
            sequence.bytes.as_ptr(),
            sequence.bytes.len(),
            picture.bytes.as_ptr(),
            picture.bytes.len(),
            extension.bytes.as_ptr(),
            extension.bytes.len(),
            out.as_mut_ptr(),
            out.len(),
            &mut place,
            &mut count,
        )
    };
    Refusal::check(number, place)?;
    Ok(count as usize)
}
