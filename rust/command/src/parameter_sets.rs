//! The parameter sets that a decoder needs before the samples of a track.

use puddockle::{counts, read_record, reference, track, ReferenceNumber, Refusal, Sets, TrackNumber, Trailer};

use crate::words::{unit_name, unit_type};

/// A parameter set of the record of a track.
pub struct ParameterSet<'a> {
    track: TrackNumber,
    /// Which one of its type it is in the record, from 1.
    number: usize,
    pub unit: &'a [u8],
}

impl ParameterSet<'_> {
    /// What a message calls it.
    pub fn title(&self) -> String {
        format!("{} {} of track {}", unit_name(unit_type(self.unit)), self.number, self.track.0)
    }

    /// Whether it can stand in a byte stream: the rule for delivered units, which the library judges for samples only.
    pub fn is_streamable(&self) -> bool {
        self.unit.last().is_some_and(|last| *last != 0)
            && !self.unit.windows(3).any(|bytes| matches!(bytes, [0, 0, 0..=2]))
    }
}

/// The sets of the tracks that a track references, whose units its extractors copy, then its own. Each record is whole,
/// also where a set stood in another: a decoder may bind a picture set to the sequence set that it has last seen.
pub fn parameter_sets(bundle: &[u8], number: TrackNumber) -> Result<Vec<ParameterSet<'_>>, Refusal> {
    let mut tracks = Vec::new();
    for one in 1..=counts(bundle)?.references {
        let one = reference(bundle, ReferenceNumber(one))?;
        if one.from == number && !tracks.contains(&one.to) {
            tracks.push(one.to);
        }
    }
    tracks.push(number);
    let mut sets = Vec::new();
    for number in tracks {
        sets.extend(of_record(bundle, number)?);
    }
    Ok(sets)
}

/// The sets of one record. A set comes after those that it refers to by id: extensions and picture sets after the
/// sequence sets, and extensions, which the record has last, next to what they extend.
fn of_record(bundle: &[u8], number: TrackNumber) -> Result<Vec<ParameterSet<'_>>, Refusal> {
    let track = track(bundle, number)?;
    let record = read_record(track.kind, track.record)?;
    let extension = match record.trailer {
        Trailer::Present { extension, .. } => extension,
        Trailer::None | Trailer::Absent => Sets::default(),
    };
    let mut sets: Vec<ParameterSet> = Vec::new();
    for unit in [record.sequence, extension, record.picture].iter().flat_map(|sets| sets.iter()) {
        let same = sets.iter().filter(|other| unit_type(other.unit) == unit_type(unit)).count();
        sets.push(ParameterSet { track: number, number: same + 1, unit });
    }
    Ok(sets)
}
