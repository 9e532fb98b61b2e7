//! Which extractors name a sample, and which sample an extractor names.

use crate::number::big_endian;
use crate::raw::{puddockle_named, puddockle_names};
use crate::{Refusal, SampleNumber};

/// The bytes of a naming list entry.
pub const NAMES_ENTRY: usize = 6;

/// One extractor of a naming list.
#[derive(Clone, Copy, Debug, PartialEq, Eq)]
pub struct NamesEntry {
    /// The sample that the extractor stands in.
    pub sample: SampleNumber,
    /// Its place: the offset of its length field in that sample.
    pub place: u64,
}

/// The entries that [`names`] wrote.
#[derive(Clone, Copy, Debug)]
pub struct NamingList<'a> {
    /// The list, [`NAMES_ENTRY`] bytes an entry.
    pub bytes: &'a [u8],
}

impl<'a> NamingList<'a> {
    /// The entries, by sample and then place.
    pub fn entries(&self) -> impl ExactSizeIterator<Item = NamesEntry> + 'a {
        self.bytes
            .chunks_exact(NAMES_ENTRY)
            .map(|entry| NamesEntry { sample: SampleNumber(big_endian(&entry[..2])), place: big_endian(&entry[2..]) })
    }
}

/// Lists the extractors that name a sample in `out`, 6 bytes each. Refused with 1 to 13, 30, 29; `out` is then
/// untouched. A list is never longer than its bundle.
pub fn names<'a>(bundle: &[u8], sample: SampleNumber, out: &'a mut [u8]) -> Result<NamingList<'a>, Refusal> {
    let (mut place, mut count) = (0, 0);
    // SAFETY: both slices are valid for their lengths, `out` is lent to us alone, and the two numbers are our own.
    let number = unsafe {
        puddockle_names(bundle.as_ptr(), bundle.len(), sample.0, out.as_mut_ptr(), out.len(), &mut place, &mut count)
    };
    Refusal::check(number, place)?;
    Ok(NamingList { bytes: &out[..count as usize] })
}

/// The sample that the extractor at `place` of a sample names; `place` is the offset of the extractor's length field
/// in that sample. Refused with 1 to 13, 30 for the sample's number, 14 to 22 of that sample, 30 where no extractor
/// stands at `place`, then 23 and 24.
pub fn named(bundle: &[u8], sample: SampleNumber, place: u64) -> Result<SampleNumber, Refusal> {
    let (mut refused, mut named) = (0, 0);
    // SAFETY: the slice is valid for its length, and the two numbers are our own.
    let number = unsafe { puddockle_named(bundle.as_ptr(), bundle.len(), sample.0, place, &mut refused, &mut named) };
    Refusal::check(number, refused)?;
    Ok(SampleNumber(named))
}
