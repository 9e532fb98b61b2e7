//! What was salvaged, as a JSON document.

use std::ffi::OsStr;

use puddockle::{NamesEntry, Outcome, Refusal, SampleNumber};

use crate::audit::{sample_value, tally_value};
use crate::changes;
use crate::cut::Cut;
use crate::json::{document, Value};
use crate::output::{Output, Stop};
use crate::salvage::Report;
use crate::salvaged::Changed;

type Fields<'a> = Vec<(&'static str, Value<'a>)>;

pub fn document_of(report: &Report, out: &mut Output) -> Result<(), Stop> {
    let refused = report.audited.numbered().filter(|(_, line)| matches!(line.outcome, Outcome::Refused(_)));
    let mut fields = front(report.file, report.bytes, report.out, None);
    fields.extend([
        ("out_bytes", number(report.bundle.len())),
        ("lost_bytes", Value::Number(report.lost_bytes())),
        ("cut", report.cut.as_ref().map_or(Value::Null, cut_value)),
        ("samples", Value::list(report.changed.iter().map(changed_value))),
        ("totals", totals_value(report)),
        ("stale", Value::list(report.stale.lists.iter().map(|(number, extractors)| stale_value(*number, extractors)))),
        ("stale_cut_at", report.stale.cut_at.map_or(Value::Null, |SampleNumber(number)| Value::Number(number))),
        ("still_refused", Value::list(refused.map(|(number, line)| sample_value(report.bundle, number, line)))),
        ("tally", tally_value(report.audited.tally)),
    ]);
    document("salvage", fields, out)
}

/// The document of a bundle that is refused; nothing is written then.
pub fn document_of_refusal(file: &OsStr, bytes: usize, to: &OsStr, no: &Refusal, out: &mut Output) -> Result<(), Stop> {
    let mut fields = front(file, bytes, to, Some(no));
    let names =
        ["out_bytes", "lost_bytes", "cut", "samples", "totals", "stale", "stale_cut_at", "still_refused", "tally"];
    fields.extend(names.map(|name| (name, Value::Null)));
    document("salvage", fields, out)
}

fn front<'a>(file: &OsStr, bytes: usize, to: &OsStr, no: Option<&Refusal>) -> Fields<'a> {
    vec![
        ("file", Value::name(file)),
        ("bytes", number(bytes)),
        ("refusal", Value::refusal(no)),
        ("out", Value::name(to)),
    ]
}

fn cut_value<'a>(cut: &Cut) -> Value<'a> {
    let shortened = cut.shortened.as_ref().map_or(Value::Null, |one| {
        Value::Object(vec![
            ("sample", Value::Number(one.sample.0)),
            ("bytes", number(one.from)),
            ("bytes_left", number(one.to)),
        ])
    });
    Value::Object(vec![
        ("missing_bytes", number(cut.missing)),
        ("shortened", shortened),
        ("emptied", Value::Numbers(cut.emptied.iter().map(|number| number.0).collect())),
    ])
}

fn changed_value<'a>(one: &'a Changed) -> Value<'a> {
    Value::Object(vec![
        ("sample", Value::Number(one.number.0)),
        ("track", Value::Number(one.old.track.0)),
        ("time", Value::text(one.old.time.to_string())),
        ("bytes", number(one.old.bytes.len())),
        ("bytes_left", number(one.new.len())),
        ("refusal", Value::refusal(Some(&one.refusal))),
        ("changes", Value::list(changes::details(one).map(changes::value))),
    ])
}

fn totals_value<'a>(report: &Report) -> Value<'a> {
    let (totals, stale) = (&report.totals, report.stale.counts(&report.audited));
    let fields = [
        ("salvaged_samples", totals.samples),
        ("emptied_samples", totals.emptied),
        ("dropped_units", totals.units),
        ("dropped_ends", totals.ends),
        ("dropped_bytes", totals.bytes),
        ("zeroed_aggregators", totals.zeroings),
        ("stale_extractors", stale.extractors),
        ("stale_samples", stale.samples),
        ("stale_samples_not_refused", stale.not_refused),
    ];
    Value::Object(fields.map(|(name, count)| (name, Value::Number(count))).into())
}

fn stale_value<'a>(number: SampleNumber, extractors: &'a [NamesEntry]) -> Value<'a> {
    let one = |entry: &NamesEntry| {
        Value::Object(vec![("sample", Value::Number(entry.sample.0)), ("place", Value::Number(entry.place))])
    };
    Value::Object(vec![("sample", Value::Number(number.0)), ("extractors", Value::list(extractors.iter().map(one)))])
}

fn number<'a>(number: usize) -> Value<'a> {
    Value::Number(number as u64)
}
