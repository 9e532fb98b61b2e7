//! The bundle: tracks, references, samples, sample bytes. Refusals 1 to 13.

use std::ops::Range;

use crate::kind::Kind;
use crate::length_size::LengthSize;
use crate::numbers::{SampleNumber, TrackNumber};
use crate::record;
use crate::refusal::*;

pub const LONGEST_BUNDLE: usize = 16_777_216;
const MOST_TRACKS: usize = 16;
const MOST_REFERENCES: usize = 64;
const MOST_SAMPLES: usize = 4096;

#[derive(Clone, Debug)]
pub struct Track {
    pub kind: Kind,
    /// Where its record stands in the bundle.
    pub record: Range<usize>,
    pub length_size: LengthSize,
    /// The tracks that its references lead to: track_ref_index n is entry n - 1.
    pub links: Vec<TrackNumber>,
    /// Its samples: a range of indices into the bundle's samples.
    pub samples: Range<usize>,
}

#[derive(Clone, Copy, Debug)]
pub struct Sample {
    pub track: TrackNumber,
    pub time: u64,
    /// Where its bytes start in the bundle.
    pub start: usize,
    pub length: usize,
}

/// A reference entry.
#[derive(Clone, Copy, Debug, PartialEq, Eq)]
pub struct Reference {
    pub from: TrackNumber,
    pub to: TrackNumber,
}

/// A bundle that was accepted.
#[derive(Clone, Debug)]
pub struct Bundle<'a> {
    pub bytes: &'a [u8],
    tracks: Vec<Track>,
    references: Vec<Reference>,
    samples: Vec<Sample>,
}

impl<'a> Bundle<'a> {
    /// Reads a bundle front to back. Places are offsets in the bundle.
    pub fn read(bytes: &'a [u8]) -> Result<Bundle<'a>, Refusal> {
        if bytes.len() > LONGEST_BUNDLE {
            return refuse(BUNDLE_TOO_LONG, 0);
        }
        let mut rest = Reader { bytes, at: 0 };
        let mut tracks = read_tracks(&mut rest)?;
        let references = read_references(&mut rest, &mut tracks)?;
        let samples = read_samples(&mut rest, &mut tracks)?;
        let samples = place_samples(&mut rest, samples)?;
        Ok(Bundle { bytes, tracks, references, samples })
    }

    pub fn track_count(&self) -> usize {
        self.tracks.len()
    }

    /// The references of all tracks, in the order of their entries.
    pub fn references(&self) -> &[Reference] {
        &self.references
    }

    pub fn sample_count(&self) -> usize {
        self.samples.len()
    }

    /// All sample numbers, in order.
    pub fn numbers(&self) -> impl Iterator<Item = SampleNumber> {
        (1..=self.samples.len()).map(SampleNumber)
    }

    /// The sample number that a caller gives, if there is such a sample; else 30.
    pub fn number(&self, given: u64) -> Result<SampleNumber, Refusal> {
        if given == 0 || given > self.samples.len() as u64 {
            return refuse(NUMBER, 0);
        }
        Ok(SampleNumber(given as usize))
    }

    /// The track number that a caller gives, if there is such a track; else 30.
    pub fn track_number(&self, given: u64) -> Result<TrackNumber, Refusal> {
        match usize::try_from(given) {
            Ok(number) if (1..=self.tracks.len()).contains(&number) => Ok(TrackNumber(number)),
            _ => refuse(NUMBER, 0),
        }
    }

    pub fn sample(&self, number: SampleNumber) -> &Sample {
        &self.samples[number.0 - 1]
    }

    pub fn track(&self, number: TrackNumber) -> &Track {
        &self.tracks[number.0 - 1]
    }

    pub fn track_of(&self, number: SampleNumber) -> &Track {
        self.track(self.sample(number).track)
    }

    pub fn sample_bytes(&self, number: SampleNumber) -> &'a [u8] {
        let sample = self.sample(number);
        &self.bytes[sample.start..sample.start + sample.length]
    }

    /// The samples of a track, in number order, and the number of the first.
    pub fn samples_of(&self, track: TrackNumber) -> (&[Sample], SampleNumber) {
        let range = self.track(track).samples.clone();
        let first = SampleNumber(range.start + 1);
        (&self.samples[range], first)
    }
}

/// Section 1. A whole entry must be there before its kind (4) and its record (8 to 13) are judged.
fn read_tracks(rest: &mut Reader) -> Result<Vec<Track>, Refusal> {
    let count = rest.count(1, 1, MOST_TRACKS)?;
    let mut tracks = Vec::with_capacity(count);
    for _ in 0..count {
        let entry = rest.at;
        let kind = rest.number(1, entry)?;
        let length = rest.number(2, entry)?;
        let bytes = rest.take(length as usize, entry)?;
        let end = rest.at;
        let kind = Kind::of_number(kind as u32, entry)?;
        let record = match record::read(kind, bytes) {
            Ok(record) => record,
            Err(refusal) => return refuse(refusal.number, entry),
        };
        tracks.push(Track {
            kind,
            record: end - bytes.len()..end,
            length_size: record.length_size,
            links: Vec::new(),
            samples: 0..0,
        });
    }
    Ok(tracks)
}

/// Section 2. Both tracks exist, differ, and have the same length size.
fn read_references(rest: &mut Reader, tracks: &mut [Track]) -> Result<Vec<Reference>, Refusal> {
    let count = rest.count(1, 0, MOST_REFERENCES)?;
    let mut references = Vec::with_capacity(count);
    for _ in 0..count {
        let entry = rest.at;
        let from = rest.number(1, entry)? as usize;
        let to = rest.number(1, entry)? as usize;
        let exist = (1..=tracks.len()).contains(&from) && (1..=tracks.len()).contains(&to);
        if !exist || from == to || tracks[from - 1].length_size != tracks[to - 1].length_size {
            return refuse(REFERENCE, entry);
        }
        tracks[from - 1].links.push(TrackNumber(to));
        references.push(Reference { from: TrackNumber(from), to: TrackNumber(to) });
    }
    Ok(references)
}

/// Section 3. Track numbers never fall; within a track times strictly rise.
fn read_samples(rest: &mut Reader, tracks: &mut [Track]) -> Result<Vec<Sample>, Refusal> {
    let count = rest.count(2, 0, MOST_SAMPLES)?;
    let mut samples: Vec<Sample> = Vec::with_capacity(count);
    for index in 0..count {
        let entry = rest.at;
        let track = TrackNumber(rest.number(1, entry)? as usize);
        let time = rest.number(8, entry)?;
        let length = rest.number(4, entry)? as usize;
        if track.0 == 0 || track.0 > tracks.len() {
            return refuse(SAMPLE_ENTRY, entry);
        }
        if let Some(last) = samples.last() {
            if track < last.track || (track == last.track && time <= last.time) {
                return refuse(SAMPLE_ENTRY, entry);
            }
        }
        let range = &mut tracks[track.0 - 1].samples;
        if range.start == range.end {
            *range = index..index;
        }
        range.end = index + 1;
        samples.push(Sample { track, time, start: 0, length });
    }
    Ok(samples)
}

/// Section 4. One place for all: the count. The sum (7) first, then 2, then bytes that follow (7).
fn place_samples(rest: &mut Reader, mut samples: Vec<Sample>) -> Result<Vec<Sample>, Refusal> {
    let place = rest.at;
    let count = rest.number(4, place)? as usize;
    let sum: usize = samples.iter().map(|sample| sample.length).sum();
    if sum != count {
        return refuse(SAMPLE_BYTES, place);
    }
    let mut start = rest.at;
    rest.take(count, place)?;
    if rest.at != rest.bytes.len() {
        return refuse(SAMPLE_BYTES, place);
    }
    for sample in &mut samples {
        sample.start = start;
        start += sample.length;
    }
    Ok(samples)
}

/// The bytes of a bundle and how far they are read.
struct Reader<'a> {
    bytes: &'a [u8],
    at: usize,
}

impl<'a> Reader<'a> {
    /// The next bytes; 2 at `place` if they are not all there.
    fn take(&mut self, length: usize, place: usize) -> Result<&'a [u8], Refusal> {
        if self.bytes.len() - self.at < length {
            return refuse(BUNDLE_CUT, place);
        }
        let taken = &self.bytes[self.at..self.at + length];
        self.at += length;
        Ok(taken)
    }

    /// A big-endian number of `length` bytes.
    fn number(&mut self, length: usize, place: usize) -> Result<u64, Refusal> {
        let bytes = self.take(length, place)?;
        Ok(bytes.iter().fold(0, |number, &byte| number << 8 | byte as u64))
    }

    /// A section's count, within its limits.
    fn count(&mut self, length: usize, least: usize, most: usize) -> Result<usize, Refusal> {
        let place = self.at;
        let count = self.number(length, place)? as usize;
        if count < least || count > most {
            return refuse(COUNT, place);
        }
        Ok(count)
    }
}
