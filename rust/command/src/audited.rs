//! What the library says of all samples of a recording, or of a range of them.

use std::time::{Duration, Instant};

use puddockle::{audit, counts, names, AuditLine, AuditLines, Outcome, Refusal, SampleNumber, Tally, LINE};

use crate::output::Status;

/// After so long no further naming list of a recording is asked for: each is a pass over all samples.
pub const LISTING_SECONDS: u64 = 5;

/// What the audit says of samples.
pub struct Audited {
    first: SampleNumber,
    lines: Vec<AuditLine>,
    pub tally: Tally,
}

impl Audited {
    /// All samples of a recording.
    pub fn of(bundle: &[u8]) -> Result<Audited, Refusal> {
        let mut room = vec![0; counts(bundle)?.samples as usize * LINE];
        let audit = audit(bundle, &mut room)?;
        Ok(Audited { first: SampleNumber(1), lines: audit.lines().collect(), tally: audit.tally })
    }

    /// The samples from `first` on, by their lines.
    pub fn of_lines(first: SampleNumber, lines: AuditLines) -> Audited {
        let lines: Vec<AuditLine> = lines.collect();
        let mut tally = Tally::default();
        for line in &lines {
            match line.outcome {
                Outcome::Passed => tally.passed += 1,
                Outcome::Empty => tally.empty += 1,
                Outcome::Refused(_) => tally.refused += 1,
            }
        }
        Audited { first, lines, tally }
    }

    pub fn numbered(&self) -> impl Iterator<Item = (SampleNumber, &AuditLine)> {
        (self.first.0..).map(SampleNumber).zip(&self.lines)
    }

    pub fn refused(&self) -> impl Iterator<Item = SampleNumber> + '_ {
        self.numbered().filter(|(_, line)| matches!(line.outcome, Outcome::Refused(_))).map(|(number, _)| number)
    }

    pub fn status(&self) -> Status {
        match self.tally.refused {
            0 => Status::Held,
            _ => Status::Refused,
        }
    }
}

/// The samples with an extractor in the naming list of each refused one.
pub struct Dependents<'a> {
    bundle: &'a [u8],
    refused: Vec<SampleNumber>,
    next: usize,
    room: Vec<u8>,
    end: Option<Instant>,
}

impl<'a> Dependents<'a> {
    pub fn of(bundle: &'a [u8], audited: &Audited, all: bool) -> Dependents<'a> {
        let refused: Vec<SampleNumber> = audited.refused().collect();
        let room = if refused.is_empty() { Vec::new() } else { vec![0; bundle.len()] };
        let end = if all { None } else { Instant::now().checked_add(Duration::from_secs(LISTING_SECONDS)) };
        Dependents { bundle, refused, next: 0, room, end }
    }

    /// The first refused sample whose list was not asked for.
    pub fn cut(&self) -> Option<SampleNumber> {
        self.refused.get(self.next).copied()
    }
}

impl Iterator for Dependents<'_> {
    type Item = (SampleNumber, Vec<u64>);

    fn next(&mut self) -> Option<Self::Item> {
        let number = self.cut()?;
        if self.end.is_some_and(|end| Instant::now() > end) {
            return None;
        }
        let list = names(self.bundle, number, &mut self.room).ok()?;
        self.next += 1;
        let mut samples: Vec<u64> = list.entries().map(|entry| entry.sample.0).collect();
        samples.dedup();
        Some((number, samples))
    }
}

#[cfg(test)]
mod tests {
    use super::*;

    /// The lists end at the time, and the first sample that is not listed is told; with `all` there is no such time.
    #[test]
    fn lists_are_cut_at_a_time() {
        let bundle = include_bytes!("../../../examples/damaged.bin");
        let audited = Audited::of(bundle).unwrap();
        let refused = |lists: &mut Dependents| -> Vec<u64> { lists.map(|(SampleNumber(number), _)| number).collect() };
        let mut all = Dependents::of(bundle, &audited, true);
        assert!(all.end.is_none());
        assert_eq!((refused(&mut all), all.cut()), (vec![5, 6, 9, 10], None));
        let mut some = Dependents::of(bundle, &audited, false);
        assert!(some.next().is_some());
        some.end = some.end.and_then(|end| end.checked_sub(Duration::from_secs(LISTING_SECONDS)));
        assert!(some.end.is_some());
        assert_eq!((refused(&mut some), some.cut()), (vec![], Some(SampleNumber(6))));
    }
}
