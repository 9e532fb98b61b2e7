//! The samples of a recording salvaged, and the recording written anew with them.

use std::borrow::Cow;

use puddockle::{
    check_sample, counts, read_record, salvage_sample, track, ChangeList, Kind, LengthSize, Refusal, Sample,
    SampleNumber, TrackNumber, CHANGE,
};

use crate::rewrite::rewritten;

/// A sample that was not well formed.
pub struct Changed<'a> {
    pub number: SampleNumber,
    pub kind: Kind,
    pub length_size: LengthSize,
    /// As it stands in the bundle.
    pub old: Sample<'a>,
    /// Why it is not well formed.
    pub refusal: Refusal,
    pub new: Vec<u8>,
    changes: Vec<u8>,
}

impl Changed<'_> {
    pub fn changes(&self) -> ChangeList<'_> {
        ChangeList { bytes: &self.changes }
    }
}

/// The kind and length size of each track of an accepted bundle.
pub struct Forms(Vec<(Kind, LengthSize)>);

impl Forms {
    pub fn of(bundle: &[u8]) -> Result<Forms, Refusal> {
        let tracks = (1..=counts(bundle)?.tracks).map(|number| {
            let track = track(bundle, TrackNumber(number))?;
            Ok((track.kind, read_record(track.kind, track.record)?.length_size))
        });
        tracks.collect::<Result<_, _>>().map(Forms)
    }

    /// Of the track that a sample of the bundle belongs to.
    pub fn of_sample(&self, sample: &Sample) -> (Kind, LengthSize) {
        self.0[sample.track.0 as usize - 1]
    }
}

/// The samples of an accepted bundle that are not well formed, each salvaged. Each is taken by itself, so that it takes
/// time as its own bytes: with its naming list it would take a pass over the bundle.
pub fn salvaged<'a>(forms: &Forms, samples: &[Sample<'a>]) -> Result<Vec<Changed<'a>>, Refusal> {
    let mut found = Vec::new();
    for (&old, number) in samples.iter().zip((1..).map(SampleNumber)) {
        let (kind, length_size) = forms.of_sample(&old);
        if let Err(refusal) = check_sample(kind, length_size, old.bytes) {
            // At most one change for each length field and byte after it.
            let mut changes = vec![0; old.bytes.len() + CHANGE - 1];
            let mut out = vec![0; old.bytes.len()];
            let salvaged = salvage_sample(kind as u32, length_size as u32, old.bytes, &mut out, &mut changes)?;
            let (new, changes) = (salvaged.sample.to_vec(), salvaged.changes.bytes.to_vec());
            found.push(Changed { number, kind, length_size, old, refusal, new, changes });
        }
    }
    Ok(found)
}

/// The bundle with the new samples in place of the old ones. None where it cannot be written so, which cannot be.
pub fn mended<'a>(bundle: &'a [u8], samples: &[Sample], changed: &[Changed]) -> Option<Cow<'a, [u8]>> {
    if changed.is_empty() {
        return Some(bundle.into());
    }
    let mut new: Vec<&[u8]> = samples.iter().map(|sample| sample.bytes).collect();
    for one in changed {
        *new.get_mut(one.number.0 as usize - 1)? = &one.new;
    }
    rewritten(bundle, samples, &new).map(Cow::from)
}
