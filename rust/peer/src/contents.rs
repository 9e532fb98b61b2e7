//! What is in a bundle: its counts, and one track, reference or sample by its number. Refused with 1 to 13, then 30.

use crate::bundle::{Bundle, Reference, Sample, Track};
use crate::refusal::*;

/// How many tracks, references and samples there are.
pub fn counts(bytes: &[u8]) -> Result<[usize; 3], Refusal> {
    let bundle = Bundle::read(bytes)?;
    Ok([bundle.track_count(), bundle.references().len(), bundle.sample_count()])
}

pub fn track(bytes: &[u8], number: u64) -> Result<Track, Refusal> {
    let bundle = Bundle::read(bytes)?;
    let number = bundle.track_number(number)?;
    Ok(bundle.track(number).clone())
}

pub fn reference(bytes: &[u8], number: u64) -> Result<Reference, Refusal> {
    let bundle = Bundle::read(bytes)?;
    let all = bundle.references();
    match all.iter().zip(1..).find(|&(_, own)| own == number) {
        Some((&found, _)) => Ok(found),
        None => refuse(NUMBER, 0),
    }
}

pub fn sample(bytes: &[u8], number: u64) -> Result<Sample, Refusal> {
    let bundle = Bundle::read(bytes)?;
    let number = bundle.number(number)?;
    Ok(*bundle.sample(number))
}
