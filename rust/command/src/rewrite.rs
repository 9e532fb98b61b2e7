//! A bundle written anew with other samples. All that this command knows of a bundle's layout stands here: the lengths
//! of the samples, and the count of their bytes after them (docs/FORMAT.md, The bundle).

use puddockle::{counts, sample, Refusal, Sample, SampleNumber};

/// The bytes of a sample's entry: its track in 1, its decode time in 8, its length in the last 4. The entries stand one
/// after the other up to the count of the sample bytes.
const ENTRY: usize = 13;

/// The bytes of a length, and of the count of the sample bytes, after which these follow.
const NUMBER: usize = 4;

/// How long a bundle says that it is, whose count of the sample bytes stands at `place`. None where it is not there.
pub fn said_length(bundle: &[u8], place: usize) -> Option<usize> {
    let count = bundle.get(place..)?.first_chunk::<NUMBER>()?;
    (u32::from_be_bytes(*count) as usize).checked_add(place + NUMBER)
}

/// The front of a bundle up to `place`, and a count of no sample bytes.
pub fn without_samples(bundle: &[u8], place: usize) -> Vec<u8> {
    [&bundle[..place], &[0; NUMBER]].concat()
}

/// All samples of an accepted bundle, as the library tells them.
pub fn samples(bundle: &[u8]) -> Result<Vec<Sample<'_>>, Refusal> {
    (1..=counts(bundle)?.samples).map(|number| sample(bundle, SampleNumber(number))).collect()
}

/// An accepted bundle with these bytes of its samples, and nothing else changed. None where the library does not read
/// them so from what was written, which cannot be.
pub fn rewritten(bundle: &[u8], old: &[Sample], new: &[&[u8]]) -> Option<Vec<u8>> {
    let Some(first) = old.first() else { return Some(bundle.to_vec()) };
    let mut written = bundle[..first.start].to_vec();
    let count_at = first.start - NUMBER;
    let entries_at = count_at - ENTRY * old.len();
    for (entry, bytes) in written[entries_at..count_at].chunks_exact_mut(ENTRY).zip(new) {
        entry[ENTRY - NUMBER..].copy_from_slice(&number(bytes.len())?);
    }
    written[count_at..].copy_from_slice(&number(new.iter().map(|bytes| bytes.len()).sum())?);
    new.iter().for_each(|bytes| written.extend(*bytes));
    is_as_meant(&written, old, new).then_some(written)
}

fn number(length: usize) -> Option<[u8; NUMBER]> {
    u32::try_from(length).ok().map(u32::to_be_bytes)
}

/// Whether the library accepts the bundle, and each sample has its track and time as before and the bytes meant.
fn is_as_meant(written: &[u8], old: &[Sample], new: &[&[u8]]) -> bool {
    let Ok(found) = samples(written) else { return false };
    let same = |((found, old), new): ((&Sample, &Sample), &&[u8])| {
        (found.track, found.time, found.bytes) == (old.track, old.time, *new)
    };
    found.len() == old.len() && found.len() == new.len() && found.iter().zip(old).zip(new).all(same)
}

#[cfg(test)]
mod tests {
    use super::*;

    const BENCH: &[u8] = include_bytes!("../../../examples/bench.bin");

    /// Samples of other lengths are read back; the same ones give the same bundle.
    #[test]
    fn other_samples() {
        let old = samples(BENCH).unwrap();
        let same: Vec<&[u8]> = old.iter().map(|sample| sample.bytes).collect();
        assert_eq!(rewritten(BENCH, &old, &same).as_deref(), Some(BENCH));
        for new in [[&[][..], &[]], [&[1], &[]], [&[], &[1, 2, 3]], [&[7; 70_000], &[9; 300]]] {
            let written = rewritten(BENCH, &old, &new).unwrap();
            assert_eq!(written.len(), BENCH.len() - 12 + new.concat().len());
            assert!(samples(&written).unwrap().iter().map(|sample| sample.bytes).eq(new));
            assert_eq!(written[..35], BENCH[..35]);
        }
    }

    /// What the library would not read as it is meant is not written.
    #[test]
    fn not_as_meant() {
        let old = samples(BENCH).unwrap();
        assert_eq!(rewritten(BENCH, &old, &[&[1]]), None);
        assert_eq!(rewritten(BENCH, &old, &[&[1], &[2], &[3]]), None);
        assert_eq!(rewritten(BENCH, &old, &[&vec![0; 1 << 24], &[]]), None);
        let mut other_time = old.clone();
        other_time[1].time = 1;
        assert_eq!(rewritten(BENCH, &other_time, &[&[1], &[2]]), None);
    }
}
