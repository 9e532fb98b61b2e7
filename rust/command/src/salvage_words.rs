//! What was salvaged, in words and as lines for scripts.

use puddockle::{ChangeKind, Outcome, SampleNumber, Tally};

use crate::audited::LISTING_SECONDS;
use crate::changes::{details, in_words};
use crate::cut::Cut;
use crate::input::title;
use crate::line::sample_line;
use crate::output::{Output, Stop};
use crate::salvage::Report;
use crate::stale::Counts;
use crate::words::{counted, shown};

/// The whole report.
pub fn print(report: &Report, out: &mut Output) -> Result<(), Stop> {
    if let Some(cut) = &report.cut {
        print_cut(report, cut, out)?;
    }
    for one in report.changed {
        let (sample, left) = (&one.old, one.new.len());
        let left = format!("{left} of {} left", counted(sample.bytes.len() as u64, "byte"));
        writeln!(out, "sample {} (track {}, time {}): {left}", one.number.0, sample.track.0, sample.time)?;
        for detail in details(one) {
            writeln!(out, "    {}", in_words(&detail))?;
        }
    }
    print_stale(report, out)?;
    print_totals(report, out)?;
    print_refused(report, out)?;
    let name = shown(report.out);
    match report.lost_bytes() {
        0 if report.is_unchanged() => writeln!(out, "{name} is {} byte for byte", title(report.file)),
        0 => writeln!(out, "{name} is NOT the recording as it was, though no byte is lost: keep the original"),
        lost => writeln!(out, "{name} is NOT the whole recording, {} lost: keep the original", counted(lost, "byte")),
    }
}

/// What is missing at the end of the file.
fn print_cut(report: &Report, cut: &Cut, out: &mut Output) -> Result<(), Stop> {
    let missing = counted(cut.missing as u64, "byte");
    writeln!(out, "{} is cut short: {missing} missing at its end", title(report.file))?;
    if let Some(one) = &cut.shortened {
        let to = counted(one.to as u64, "byte");
        writeln!(out, "sample {} is shortened from {} to {to}", one.sample.0, one.from)?;
    }
    match cut.emptied[..] {
        [] => Ok(()),
        [SampleNumber(one)] => writeln!(out, "sample {one} lost all its bytes"),
        [SampleNumber(first), .., SampleNumber(last)] => {
            // Only samples that had no bytes can stand between two that lost theirs.
            let count = cut.emptied.len() as u64;
            let rest = if last - first + 1 == count { "" } else { "; those between them had none" };
            writeln!(out, "{count} samples from {first} to {last} lost all their bytes{rest}")
        }
    }
}

/// Which samples copy by offsets that may be wrong now.
fn print_stale(report: &Report, out: &mut Output) -> Result<(), Stop> {
    for (SampleNumber(number), extractors) in &report.stale.lists {
        let mut holders: Vec<SampleNumber> = extractors.iter().map(|entry| entry.sample).collect();
        holders.dedup();
        let holders = match &holders[..] {
            [SampleNumber(one)] => format!("sample {one} holds"),
            all => format!("samples {} hold", runs(all)),
        };
        let (extractors, offsets) = match extractors.len() {
            1 => ("an extractor".into(), "its offsets"),
            count => (format!("{count} extractors"), "their offsets"),
        };
        writeln!(out, "{holders} {extractors} into sample {number}: {offsets} may be stale")?;
    }
    match report.stale.cut_at {
        Some(SampleNumber(number)) => writeln!(
            out,
            "cut after {LISTING_SECONDS} seconds: the extractors of sample {number} and of samples after it were not \
             looked at; --all looks at all"
        ),
        None => Ok(()),
    }
}

fn print_totals(report: &Report, out: &mut Output) -> Result<(), Stop> {
    let totals = &report.totals;
    if report.is_unchanged() {
        return writeln!(out, "nothing to salvage: every sample is well formed");
    }
    let empty = if totals.emptied > 0 { format!(", {} empty now", totals.emptied) } else { String::new() };
    writeln!(out, "salvaged: {}{empty}", counted(totals.samples, "sample"))?;
    let ends = match totals.ends {
        0 => String::new(),
        1 => " and the end of 1 sample".into(),
        count => format!(" and the ends of {count} samples"),
    };
    writeln!(out, "dropped: {}{ends}, {}", counted(totals.units, "unit"), counted(totals.bytes, "byte"))?;
    writeln!(out, "zeroed: {}", counted(totals.zeroings, "aggregator"))?;
    let Counts { extractors, samples, not_refused } = report.stale.counts(&report.audited);
    let more = if report.stale.cut_at.is_some() { " or more" } else { "" };
    let held = if extractors == 0 { String::new() } else { format!(" in {}", counted(samples, "sample")) };
    let not_refused = match not_refused {
        0 => String::new(),
        1 => ", 1 of them not refused: it may deliver wrong units".into(),
        count => format!(", {count} of them not refused: they may deliver wrong units"),
    };
    writeln!(out, "may be stale: {}{more}{held}{not_refused}", counted(extractors, "extractor"))
}

/// What the audit refuses in the new recording, and its tally.
fn print_refused(report: &Report, out: &mut Output) -> Result<(), Stop> {
    let Tally { passed, empty, refused } = report.audited.tally;
    writeln!(out, "still refused: {}", counted(refused, "sample"))?;
    for (number, line) in report.audited.numbered() {
        if let Outcome::Refused(_) = line.outcome {
            writeln!(out, "{}", sample_line(report.bundle, number, line))?;
        }
    }
    writeln!(out, "passed {passed} empty {empty} refused {refused}")
}

/// The changes alone, a line each. Samples after a cut are empty, so it comes after the changes.
pub fn list(report: &Report, out: &mut Output) -> Result<(), Stop> {
    for one in report.changed {
        for change in one.changes().entries() {
            let what = match change.kind {
                ChangeKind::Drop => "drop",
                ChangeKind::Zeroing => "zero",
            };
            writeln!(out, "{} {what} {}", one.number.0, change.place)?;
        }
    }
    if let Some(cut) = &report.cut {
        let shortened = cut.shortened.iter().map(|one| (one.sample, one.to));
        for (SampleNumber(number), place) in shortened.chain(cut.emptied.iter().map(|number| (*number, 0))) {
            writeln!(out, "{number} cut {place}")?;
        }
    }
    Ok(())
}

/// Rising numbers as `3, 5 to 9, 12`.
fn runs(numbers: &[SampleNumber]) -> String {
    let mut runs: Vec<(u64, u64)> = Vec::new();
    for SampleNumber(number) in numbers {
        match runs.last_mut() {
            Some((_, last)) if *last + 1 == *number => *last = *number,
            _ => runs.push((*number, *number)),
        }
    }
    let text = |(first, last): &(u64, u64)| match last - first {
        0 => first.to_string(),
        1 => format!("{first}, {last}"),
        _ => format!("{first} to {last}"),
    };
    runs.iter().map(text).collect::<Vec<_>>().join(", ")
}

#[cfg(test)]
mod tests {
    use super::*;

    #[test]
    fn numbers_in_runs() {
        let text = |numbers: &[u64]| runs(&numbers.iter().copied().map(SampleNumber).collect::<Vec<_>>());
        assert_eq!(text(&[7]), "7");
        assert_eq!(text(&[7, 8]), "7, 8");
        assert_eq!(text(&[1, 3, 4, 5, 9, 10, 4094, 4095, 4096]), "1, 3 to 5, 9, 10, 4094 to 4096");
    }
}
