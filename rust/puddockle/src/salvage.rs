//! What is sound in a damaged sample, written as a new one.

use crate::number::big_endian;
use crate::raw::{puddockle_salvage, puddockle_salvage_sample};
use crate::{NamingList, Refusal, SampleNumber};

/// The bytes of an entry of a change list.
pub const CHANGE: usize = 5;

/// What was done at a place.
#[derive(Clone, Copy, Debug, PartialEq, Eq)]
#[repr(u8)]
pub enum ChangeKind {
    /// The top-level unit there was left out; at the first top-level fault (14 to 18), all bytes from there on.
    Drop = 1,
    /// The additional_bytes of the aggregator there were set to 0, so that it covers nothing.
    Zeroing = 2,
}

/// One change.
#[derive(Clone, Copy, Debug, PartialEq, Eq)]
pub struct Change {
    /// What was done.
    pub kind: ChangeKind,
    /// Where: the offset of the unit's length field in the old sample.
    pub place: u64,
}

/// All changes that were made.
#[derive(Clone, Copy, Debug)]
pub struct ChangeList<'a> {
    /// The list, [`CHANGE`] bytes an entry. Empty exactly if the old sample was well formed.
    pub bytes: &'a [u8],
}

impl<'a> ChangeList<'a> {
    /// The changes, by place.
    pub fn entries(&self) -> impl ExactSizeIterator<Item = Change> + 'a {
        self.bytes.chunks_exact(CHANGE).map(|entry| Change {
            kind: if entry[0] == ChangeKind::Drop as u8 { ChangeKind::Drop } else { ChangeKind::Zeroing },
            place: big_endian(&entry[1..]),
        })
    }
}

/// What [`salvage`] wrote.
#[derive(Clone, Copy, Debug)]
pub struct Salvaged<'a> {
    /// The new sample. It is well formed.
    pub sample: &'a [u8],
    /// What was changed.
    pub changes: ChangeList<'a>,
    /// The extractors that name the old sample: their offsets into it may be stale now.
    pub names: NamingList<'a>,
}

/// Salvages a sample of a bundle: writes a well-formed sample to the front of `out`, to the front of `changes` what was
/// changed, and to the front of `names` the naming list of the old sample ([`names`](crate::names)). Refused with 1 to
/// 13, 30, then 29 where one of the three lacks room; all three are then untouched. A sample with faults does not make
/// it refuse.
///
/// Kept are the top-level units before the first top-level fault (14 to 18), but those with an inside fault 14 to 20,
/// or a 22. In a kept aggregator additional_bytes become 0 where 21 arises, judged as if the sample ended at that first
/// fault, or where a unit that they cover was dropped. A well-formed sample comes back as it is, with an empty list, and
/// so does one that was salvaged. No other sample is changed, and no extractor rewritten.
///
/// The new sample is never longer than the old one, the change list at most 4 bytes longer than the old sample, and the
/// naming list never longer than the bundle.
///
/// ```
/// use puddockle::{check_sample, salvage, Change, ChangeKind, Kind, LengthSize, NamesEntry, SampleNumber};
///
/// // As the first example of this crate, but sample 1 has a unit of length 0, a fault (16), after its good one.
/// let bundle = [
///     2, 0, 0, 7, 1, 0x42, 0, 0x1E, 0xFC, 0xE0, 0, 1, 0, 7, 1, 0x53, 0, 0x1E, 0xFC, 0, 0, 1, 2, 1, 0, 2,
///     1, 0, 0, 0, 0, 0, 0, 0, 0, 0, 0, 0, 5, 2, 0, 0, 0, 0, 0, 0, 0, 0, 0, 0, 0, 9,
///     0, 0, 0, 14, 2, 0x65, 0x88, 0, 0x99, 8, 0x7F, 0x80, 0, 3, 1, 0, 0, 0,
/// ];
/// let (mut out, mut changes, mut names) = ([0; 5], [0; 15], [0; 70]);
/// let salvaged = salvage(&bundle, SampleNumber(1), &mut out, &mut changes, &mut names).unwrap();
/// assert_eq!(salvaged.sample, [2, 0x65, 0x88]);
/// assert_eq!(check_sample(Kind::Avc, LengthSize::One, salvaged.sample), Ok(()));
/// // All from byte 3 on was dropped.
/// assert!(salvaged.changes.entries().eq([Change { kind: ChangeKind::Drop, place: 3 }]));
/// // The extractor at byte 0 of sample 2 names sample 1.
/// assert!(salvaged.names.entries().eq([NamesEntry { sample: SampleNumber(2), place: 0 }]));
/// ```
pub fn salvage<'a>(
    bundle: &[u8],
    sample: SampleNumber,
    out: &'a mut [u8],
    changes: &'a mut [u8],
    names: &'a mut [u8],
) -> Result<Salvaged<'a>, Refusal> {
    let (mut place, mut count, mut changes_count, mut names_count) = (0, 0, 0, 0);
    // SAFETY: the four slices are valid for their lengths, the last three are lent to us alone, and the numbers are our
    // own.
    let number = unsafe {
        puddockle_salvage(
            bundle.as_ptr(),
            bundle.len(),
            sample.0,
            out.as_mut_ptr(),
            out.len(),
            changes.as_mut_ptr(),
            changes.len(),
            names.as_mut_ptr(),
            names.len(),
            &mut place,
            &mut count,
            &mut changes_count,
            &mut names_count,
        )
    };
    Refusal::check(number, place)?;
    Ok(Salvaged {
        sample: &out[..count as usize],
        changes: ChangeList { bytes: &changes[..changes_count as usize] },
        names: NamingList { bytes: &names[..names_count as usize] },
    })
}

/// What [`salvage_sample`] wrote.
#[derive(Clone, Copy, Debug)]
pub struct SalvagedSample<'a> {
    /// The new sample. It is well formed.
    pub sample: &'a [u8],
    /// What was changed.
    pub changes: ChangeList<'a>,
}

/// Salvages a sample outside a bundle, by the kind and length size of its track, as [`salvage`] does, without a naming
/// list. Refused with 4 where `kind` is not 0 or 1, 11 where `length_size` is not 1, 2 or 4, then 29 where one of the two
/// slices lacks room or the sample, a well-formed one too, has more than 4,294,967,296 bytes, whose places do not fit the
/// list; both are then untouched.
///
/// The new sample is never longer than the old one, and the change list at most 4 bytes longer than the old sample.
///
/// ```
/// use puddockle::{salvage_sample, Change, ChangeKind, Kind};
///
/// // With lengths of 1 byte: an aggregator that covers the next 6 bytes, an extractor of a wrong size (22), a picture.
/// let old = [5, 0x7E, 0x80, 0, 3, 6, 5, 0x7F, 0x80, 0, 3, 1, 2, 0x65, 0x88];
/// let (mut out, mut changes) = ([0; 15], [0; 15 + 4]);
/// let salvaged = salvage_sample(Kind::Svc as u32, 1, &old, &mut out, &mut changes).unwrap();
/// // The extractor is dropped, so the aggregator covers nothing any more.
/// assert_eq!(salvaged.sample, [5, 0x7E, 0x80, 0, 3, 0, 2, 0x65, 0x88]);
/// let expected = [Change { kind: ChangeKind::Zeroing, place: 0 }, Change { kind: ChangeKind::Drop, place: 6 }];
/// assert!(salvaged.changes.entries().eq(expected));
///
/// let no = salvage_sample(2, 1, &old, &mut out, &mut changes).unwrap_err();
/// assert_eq!(no.to_string(), "refused 4 at 0: unknown kind");
/// ```
pub fn salvage_sample<'a>(
    kind: u32,
    length_size: u32,
    sample: &[u8],
    out: &'a mut [u8],
    changes: &'a mut [u8],
) -> Result<SalvagedSample<'a>, Refusal> {
    let (mut place, mut count, mut changes_count) = (0, 0, 0);
    // SAFETY: the three slices are valid for their lengths, the last two are lent to us alone, and the numbers are our
    // own.
    let number = unsafe {
        puddockle_salvage_sample(
            kind,
            length_size,
            sample.as_ptr(),
            sample.len(),
            out.as_mut_ptr(),
            out.len(),
            changes.as_mut_ptr(),
            changes.len(),
            &mut place,
            &mut count,
            &mut changes_count,
        )
    };
    Refusal::check(number, place)?;
    Ok(SalvagedSample {
        sample: &out[..count as usize],
        changes: ChangeList { bytes: &changes[..changes_count as usize] },
    })
}
