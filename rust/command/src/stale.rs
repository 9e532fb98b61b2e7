//! The extractors that name changed samples. They copy by offsets, which are not rewritten and may be stale.

use std::collections::{BTreeMap, BTreeSet, HashMap};
use std::time::{Duration, Instant};

use puddockle::{named, NamesEntry, Refusal, SampleNumber};

use crate::audited::{Audited, LISTING_SECONDS};
use crate::changes::big_endian;
use crate::rewrite::samples;
use crate::salvaged::Forms;
use crate::words::unit_type;

/// What was found.
#[derive(Default)]
pub struct Stale {
    /// For each changed sample that extractors name, these, by sample and then place.
    pub lists: BTreeMap<SampleNumber, Vec<NamesEntry>>,
    /// The first sample whose extractors were not looked at.
    pub cut_at: Option<SampleNumber>,
}

/// How many extractors may be stale.
pub struct Counts {
    pub extractors: u64,
    /// The samples that hold them.
    pub samples: u64,
    /// Those of them that are not refused: they may deliver wrong units.
    pub not_refused: u64,
}

impl Stale {
    /// In a bundle whose samples are all well formed. Which sample an extractor names the library says. It is asked once
    /// for those of a sample that have the same track_ref_index and sample_offset, since they name the same: so of a
    /// recording with millions of extractors it is mostly asked some thousand times. Without `all` no further sample is
    /// looked at after [`LISTING_SECONDS`].
    pub fn of(bundle: &[u8], forms: &Forms, changed: &BTreeSet<SampleNumber>, all: bool) -> Result<Stale, Refusal> {
        let mut stale = Stale::default();
        if changed.is_empty() {
            return Ok(stale);
        }
        let end = Instant::now() + Duration::from_secs(LISTING_SECONDS);
        for (sample, number) in samples(bundle)?.iter().zip((1..).map(SampleNumber)) {
            let (_, length_size) = forms.of_sample(sample);
            let mut known: HashMap<[u8; 2], Option<SampleNumber>> = HashMap::new();
            let mut found = Vec::new();
            for Extractor { place, names } in Extractors::of(length_size as usize, sample.bytes) {
                let is_new = !known.contains_key(&names);
                if is_new && !all && Instant::now() > end {
                    stale.cut_at = Some(number);
                    return Ok(stale);
                }
                let named = *known.entry(names).or_insert_with(|| named(bundle, number, place).ok());
                found.extend(named.filter(|named| changed.contains(named)).map(|named| (named, place)));
            }
            for (named, place) in found {
                stale.lists.entry(named).or_default().push(NamesEntry { sample: number, place });
            }
        }
        Ok(stale)
    }

    pub fn counts(&self, audited: &Audited) -> Counts {
        let extractors = self.lists.values().flatten();
        let mut holders: BTreeSet<SampleNumber> = extractors.clone().map(|entry| entry.sample).collect();
        let samples = holders.len() as u64;
        for refused in audited.refused() {
            holders.remove(&refused);
        }
        Counts { extractors: extractors.count() as u64, samples, not_refused: holders.len() as u64 }
    }
}

/// An extractor of a sample: the place of its length field, and its track_ref_index and sample_offset.
struct Extractor {
    place: u64,
    names: [u8; 2],
}

/// The extractors of a well-formed sample, top-level and included.
struct Extractors<'a> {
    length_size: usize,
    sample: &'a [u8],
    at: usize,
}

/// Unit types, and the bytes of the header that such units have.
const AGGREGATOR: u8 = 30;
const EXTRACTOR: u8 = 31;
const HEADER: usize = 4;

impl<'a> Extractors<'a> {
    fn of(length_size: usize, sample: &'a [u8]) -> Extractors<'a> {
        Extractors { length_size, sample, at: 0 }
    }
}

impl Iterator for Extractors<'_> {
    type Item = Extractor;

    /// Units stand one after the other, and so do those in an aggregator up to its end: it is enough to step over the
    /// header and the additional_bytes of an aggregator, and over other units whole.
    fn next(&mut self) -> Option<Extractor> {
        loop {
            let place = self.at;
            let (length, rest) = self.sample.get(place..)?.split_at_checked(self.length_size)?;
            let unit = rest.get(..big_endian(length)).filter(|unit| !unit.is_empty())?;
            let is_aggregator = unit_type(unit) == AGGREGATOR;
            self.at += self.length_size + if is_aggregator { HEADER + self.length_size } else { unit.len() };
            if unit_type(unit) == EXTRACTOR {
                return Some(Extractor { place: place as u64, names: *unit.get(HEADER..)?.first_chunk()? });
            }
        }
    }
}

#[cfg(test)]
mod tests {
    use std::fs;
    use std::path::Path;

    use puddockle::{check_sample, names};

    use super::*;

    /// In every recording without a fault 14 to 22, with all samples taken as changed: what the library's naming lists say.
    #[test]
    fn as_the_naming_lists() {
        let recordings = Path::new(env!("CARGO_MANIFEST_DIR")).join("../../tests/recordings");
        let (mut extractors, mut included) = (0, 0);
        for folder in [recordings.clone(), recordings.join("damaged")] {
            for entry in fs::read_dir(folder).unwrap() {
                let bundle = fs::read(entry.unwrap().path()).unwrap_or_default();
                let (Ok(forms), Ok(all)) = (Forms::of(&bundle), samples(&bundle)) else { continue };
                let is_formed = |sample: &puddockle::Sample| {
                    let (kind, length_size) = forms.of_sample(sample);
                    check_sample(kind, length_size, sample.bytes).is_ok()
                };
                if !all.iter().all(is_formed) {
                    continue;
                }
                let numbers: BTreeSet<SampleNumber> = (1..=all.len() as u64).map(SampleNumber).collect();
                let found = Stale::of(&bundle, &forms, &numbers, true).unwrap();
                let mut room = vec![0; bundle.len()];
                for number in numbers {
                    let list = names(&bundle, number, &mut room).unwrap();
                    assert!(found.lists.get(&number).into_iter().flatten().copied().eq(list.entries()), "{number:?}");
                    extractors += list.entries().len();
                    included += list.entries().filter(|entry| is_in_aggregator(&all, &forms, entry)).count();
                }
            }
        }
        assert!(extractors > 500 && included > 50, "{extractors} {included}");
        println!("{extractors} extractors, {included} in an aggregator");
    }

    /// Whether it stands in an aggregator at the front of its sample.
    fn is_in_aggregator(all: &[puddockle::Sample], forms: &Forms, entry: &NamesEntry) -> bool {
        let sample = &all[entry.sample.0 as usize - 1];
        let size = forms.of_sample(sample).1 as usize;
        let length = big_endian(&sample.bytes[..size]);
        unit_type(&sample.bytes[size..]) == AGGREGATOR && (entry.place as usize) < size + length
    }
}
