//! The forms of a bundle's samples, each checked once and remembered.

use crate::bundle::Bundle;
use crate::form;
use crate::numbers::SampleNumber;
use crate::refusal::Refusal;
use crate::unit::top_level;

pub struct Forms<'a> {
    bundle: &'a Bundle<'a>,
    known: Vec<Option<Result<(), Refusal>>>,
    /// Where the top-level units of each sample start, if that is kept. Empty for samples not well formed.
    starts: Option<Vec<Vec<u32>>>,
}

impl<'a> Forms<'a> {
    /// Nothing is checked yet.
    pub fn new(bundle: &'a Bundle<'a>) -> Forms<'a> {
        Forms { bundle, known: vec![None; bundle.sample_count()], starts: None }
    }

    /// Every sample is checked.
    pub fn all(bundle: &'a Bundle<'a>) -> Forms<'a> {
        let mut forms = Forms::new(bundle);
        for number in bundle.numbers() {
            let _ = forms.of(number);
        }
        forms
    }

    /// Every sample is checked, and where its top-level units start is kept too.
    pub fn all_with_starts(bundle: &'a Bundle<'a>) -> Forms<'a> {
        let mut forms = Forms::all(bundle);
        let starts = bundle.numbers().map(|number| match forms.of(number) {
            Ok(()) => {
                let size = bundle.track_of(number).length_size;
                top_level(bundle.sample_bytes(number), size).map(|unit| unit.place as u32).collect()
            }
            Err(_) => Vec::new(),
        });
        let starts = starts.collect();
        forms.starts = Some(starts);
        forms
    }

    /// The form of a sample, judged by its own track. Checked where it is asked for the first time.
    pub fn of(&mut self, number: SampleNumber) -> Result<(), Refusal> {
        let bundle = self.bundle;
        *self.known[number.0 - 1].get_or_insert_with(|| {
            let track = bundle.track_of(number);
            form::check(track.kind, track.length_size, bundle.sample_bytes(number))
        })
    }

    /// Where a sample's top-level units start, if that is kept.
    pub fn starts(&self, number: SampleNumber) -> Option<&[u32]> {
        self.starts.as_ref().map(|starts| &starts[number.0 - 1][..])
    }
}
