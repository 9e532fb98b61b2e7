//! A bundle checked, its limits, and what is in it: tracks, references, samples.

use crate::raw::{puddockle_check_bundle, puddockle_counts, puddockle_reference, puddockle_sample, puddockle_track};
use crate::{Kind, Refusal};

/// The most bytes that a bundle may have.
pub const BUNDLE_MOST: usize = 16_777_216;

/// The most tracks that a bundle may have. It has at least one.
pub const TRACKS_MOST: usize = 16;

/// The most references that a bundle may have.
pub const REFERENCES_MOST: usize = 64;

/// The most samples that a bundle may have.
pub const SAMPLES_MOST: usize = 4096;

/// The number of a track in its bundle, from 1.
#[derive(Clone, Copy, Debug, PartialEq, Eq, PartialOrd, Ord, Hash)]
pub struct TrackNumber(pub u64);

/// The number of a reference in its bundle, from 1: over all tracks, not the track_ref_index of one.
#[derive(Clone, Copy, Debug, PartialEq, Eq, PartialOrd, Ord, Hash)]
pub struct ReferenceNumber(pub u64);

/// The number of a sample in its bundle, from 1.
#[derive(Clone, Copy, Debug, PartialEq, Eq, PartialOrd, Ord, Hash)]
pub struct SampleNumber(pub u64);

/// Checks a bundle. Refused with 1 to 13. The form of its samples is not judged.
pub fn check_bundle(bundle: &[u8]) -> Result<(), Refusal> {
    let mut place = 0;
    // SAFETY: the slice is valid for its length, and `place` is a number of our own.
    let number = unsafe { puddockle_check_bundle(bundle.as_ptr(), bundle.len(), &mut place) };
    Refusal::check(number, place)
}

/// How much a bundle has of what.
#[derive(Clone, Copy, Debug, PartialEq, Eq)]
pub struct Counts {
    /// Its tracks, 1 to [`TRACKS_MOST`].
    pub tracks: u64,
    /// Its references, at most [`REFERENCES_MOST`].
    pub references: u64,
    /// Its samples, at most [`SAMPLES_MOST`].
    pub samples: u64,
}

/// How many tracks, references and samples a bundle has. Refused with 1 to 13.
pub fn counts(bundle: &[u8]) -> Result<Counts, Refusal> {
    let mut place = 0;
    let mut counts = Counts { tracks: 0, references: 0, samples: 0 };
    // SAFETY: the slice is valid for its length, and the numbers are our own.
    let number = unsafe {
        puddockle_counts(
            bundle.as_ptr(),
            bundle.len(),
            &mut place,
            &mut counts.tracks,
            &mut counts.references,
            &mut counts.samples,
        )
    };
    Refusal::check(number, place)?;
    Ok(counts)
}

/// A track of a bundle.
#[derive(Clone, Copy, Debug, PartialEq, Eq)]
pub struct Track<'a> {
    /// AVC or SVC.
    pub kind: Kind,
    /// Where the record starts in the bundle.
    pub start: usize,
    /// The decoder configuration record: [`read_record`](crate::read_record) accepts it.
    pub record: &'a [u8],
}

/// The track of that number. Refused with 1 to 13, then 30.
pub fn track(bundle: &[u8], track: TrackNumber) -> Result<Track<'_>, Refusal> {
    let (mut place, mut kind, mut start, mut length) = (0, 0, 0, 0);
    // SAFETY: the slice is valid for its length, and the four numbers are our own.
    let number = unsafe {
        puddockle_track(bundle.as_ptr(), bundle.len(), track.0, &mut place, &mut kind, &mut start, &mut length)
    };
    Refusal::check(number, place)?;
    let kind = if kind == 0 { Kind::Avc } else { Kind::Svc };
    Ok(Track { kind, start: start as usize, record: part(bundle, start, length) })
}

/// A reference of a bundle: extractors in samples of `from` may name samples of `to`.
#[derive(Clone, Copy, Debug, PartialEq, Eq)]
pub struct Reference {
    /// The track whose extractors use it.
    pub from: TrackNumber,
    /// The track that they copy from.
    pub to: TrackNumber,
}

/// The reference of that number. Refused with 1 to 13, then 30.
pub fn reference(bundle: &[u8], reference: ReferenceNumber) -> Result<Reference, Refusal> {
    let (mut place, mut from, mut to) = (0, 0, 0);
    // SAFETY: the slice is valid for its length, and the three numbers are our own.
    let number =
        unsafe { puddockle_reference(bundle.as_ptr(), bundle.len(), reference.0, &mut place, &mut from, &mut to) };
    Refusal::check(number, place)?;
    Ok(Reference { from: TrackNumber(from), to: TrackNumber(to) })
}

/// A sample of a bundle, as it stands there.
#[derive(Clone, Copy, Debug, PartialEq, Eq)]
pub struct Sample<'a> {
    /// The track that it belongs to.
    pub track: TrackNumber,
    /// Its decode time.
    pub time: u64,
    /// Where it starts in the bundle.
    pub start: usize,
    /// Its bytes. Whether they are a well-formed sample is not judged here.
    pub bytes: &'a [u8],
}

/// The sample of that number. Refused with 1 to 13, then 30.
pub fn sample(bundle: &[u8], sample: SampleNumber) -> Result<Sample<'_>, Refusal> {
    let (mut place, mut track, mut time, mut start, mut length) = (0, 0, 0, 0, 0);
    // SAFETY: the slice is valid for its length, and the five numbers are our own.
    let number = unsafe {
        puddockle_sample(
            bundle.as_ptr(),
            bundle.len(),
            sample.0,
            &mut place,
            &mut track,
            &mut time,
            &mut start,
            &mut length,
        )
    };
    Refusal::check(number, place)?;
    Ok(Sample { track: TrackNumber(track), time, start: start as usize, bytes: part(bundle, start, length) })
}

/// The `length` bytes from `start` on.
pub(crate) fn part(bundle: &[u8], start: u64, length: u64) -> &[u8] {
    &bundle[start as usize..][..length as usize]
}
