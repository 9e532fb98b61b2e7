//! The message for what is refused in a bundle.

use std::ffi::OsStr;

use puddockle::{counts, Counts, Refusal, SampleNumber, TrackNumber};

use crate::arguments::NUMBER_MOST;
use crate::input::title;
use crate::output::{say, Status};
use crate::words::counted;

/// What was asked for.
#[derive(Clone, Copy)]
pub enum Asked {
    Bundle,
    Track(TrackNumber),
    Sample(SampleNumber),
    Unit(SampleNumber, u64),
}

/// What was asked for, of which file.
pub struct Refused<'a> {
    pub file: &'a OsStr,
    pub bundle: &'a [u8],
    pub asked: Asked,
}

impl Refused<'_> {
    /// Says on standard error why it is refused.
    pub fn say(&self, no: &Refusal) -> Status {
        let counts = counts(self.bundle).unwrap_or(Counts { tracks: 0, references: 0, samples: 0 });
        let has = |count, what| format!("the bundle has {}", counted(count, what));
        let (what, why) = match (no.number, self.asked) {
            (1..=13, _) | (_, Asked::Bundle) => ("bundle".into(), no.meaning().into()),
            (30, Asked::Unit(sample, unit)) if (1..=counts.samples).contains(&sample.0) => {
                (format!("unit {} of sample {}", given(unit), sample.0), "no such unit is delivered".into())
            }
            (30, Asked::Sample(sample) | Asked::Unit(sample, _)) => {
                (format!("sample {}", given(sample.0)), has(counts.samples, "sample"))
            }
            (30, Asked::Track(track)) => (format!("track {}", given(track.0)), has(counts.tracks, "track")),
            (_, Asked::Sample(sample) | Asked::Unit(sample, _)) => {
                (format!("sample {}", sample.0), no.meaning().into())
            }
            (_, Asked::Track(track)) => (format!("track {}", track.0), no.meaning().into()),
        };
        say(format!("{}: {what} refused {} at {} - {why}", title(self.file), no.number, no.place));
        Status::Refused
    }
}

/// A number that was given; of the largest ones it is only known that they are that large.
pub fn given(number: u64) -> String {
    format!("{number}{}", if number == NUMBER_MOST { " or more" } else { "" })
}
