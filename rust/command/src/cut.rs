//! A recording that was cut short, as where the recorder lost power: its sample bytes end early.

use std::borrow::Cow;

use puddockle::{check_bundle, Refusal, Sample, SampleNumber, BUNDLE_MOST};

use crate::rewrite::{rewritten, said_length, samples, without_samples};

/// What a recording lost at its end.
pub struct Cut {
    /// How many bytes are missing.
    pub missing: usize,
    /// The sample in which the file ends, unless it ends between two.
    pub shortened: Option<Shortened>,
    /// The samples that lost all their bytes.
    pub emptied: Vec<SampleNumber>,
}

/// A sample of which only the front is there.
pub struct Shortened {
    pub sample: SampleNumber,
    pub from: usize,
    pub to: usize,
}

/// The bundle that a file holds: the file itself or, where only sample bytes are missing at its end, one in which the
/// samples are as long as what is there.
pub fn bundle_of(file: &[u8]) -> Result<(Cow<'_, [u8]>, Option<Cut>), Refusal> {
    let Err(no) = check_bundle(file) else { return Ok((file.into(), None)) };
    let length = whole_length(file, &no).filter(|length| *length <= BUNDLE_MOST).ok_or(no)?;
    let (bundle, cut) = shortened(file, length).ok_or(no)?;
    Ok((bundle.into(), Some(cut)))
}

/// How long a refused file should be, of which only sample bytes are missing. It is refused with 2 at their count then;
/// that a count is theirs the library tells by 7 for a count of 0, since they are some.
pub fn whole_length(file: &[u8], no: &Refusal) -> Option<usize> {
    let place = no.place as usize;
    let length = said_length(file, place).filter(|_| no.number == 2)?;
    let with_none = check_bundle(&without_samples(file, place));
    (with_none == Err(Refusal { number: 7, place: no.place })).then_some(length)
}

/// Made whole with zeros, the file is a bundle of which the library tells the samples. Then each is cut where the file
/// ends.
fn shortened(file: &[u8], length: usize) -> Option<(Vec<u8>, Cut)> {
    let mut whole = file.to_vec();
    whole.resize(length, 0);
    let samples = samples(&whole).ok()?;
    let there = |sample: &Sample| file.len().saturating_sub(sample.start).min(sample.bytes.len());
    let bytes: Vec<&[u8]> = samples.iter().map(|sample| &sample.bytes[..there(sample)]).collect();
    let mut cut = Cut { missing: length - file.len(), shortened: None, emptied: Vec::new() };
    for ((sample, left), number) in samples.iter().zip(&bytes).zip((1..).map(SampleNumber)) {
        match (sample.bytes.len(), left.len()) {
            (from, to) if from == to => {}
            (_, 0) => cut.emptied.push(number),
            (from, to) => cut.shortened = Some(Shortened { sample: number, from, to }),
        }
    }
    Some((rewritten(&whole, &samples, &bytes)?, cut))
}
