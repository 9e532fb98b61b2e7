//! The line of one sample, as the audit prints it.

use puddockle::{named, sample, AuditLine, Outcome, Refusal, SampleNumber, TrackNumber};

use crate::words;

/// `4 passed 8`, `5 empty`, or the refusal in words and where the sample belongs.
pub fn sample_line(bundle: &[u8], number: SampleNumber, line: &AuditLine) -> String {
    match &line.outcome {
        Outcome::Passed => format!("{} passed {}", number.0, line.units),
        Outcome::Empty => format!("{} empty", number.0),
        Outcome::Refused(no) => {
            let detail = Detail::of(bundle, number, line).map_or(String::new(), in_words);
            format!("{} {}{detail}", number.0, words::refusal(no))
        }
    }
}

fn in_words(detail: Detail) -> String {
    let named = detail.named.map_or(String::new(), |SampleNumber(named)| format!(", names sample {named}"));
    format!(" (track {}, time {}{named})", detail.track.0, detail.time)
}

/// Where a sample belongs and, for 25 to 28, the sample that the extractor names.
pub struct Detail {
    pub track: TrackNumber,
    pub time: u64,
    pub named: Option<SampleNumber>,
}

impl Detail {
    pub fn of(bundle: &[u8], number: SampleNumber, line: &AuditLine) -> Option<Detail> {
        let sample = sample(bundle, number).ok()?;
        let named = match line.outcome {
            Outcome::Refused(Refusal { number: 25..=28, place }) => named(bundle, number, place).ok(),
            _ => None,
        };
        Some(Detail { track: sample.track, time: sample.time, named })
    }
}
