//! `puddockle audit FILE..`: would each sample resolve, and what hangs on those that would not?

use std::cell::Cell;
use std::ffi::OsStr;

use puddockle::{AuditLine, Outcome, SampleNumber, Tally};

use crate::arguments::{wrong, Arguments, Call};
use crate::audited::{Audited, Dependents, LISTING_SECONDS};
use crate::input;
use crate::json::{document, Value};
use crate::line::{sample_line, Detail};
use crate::output::{say, Output, Status, Stop};
use crate::words;

pub const CALL: Call =
    Call { name: "audit", help: HELP, operands: 1..=usize::MAX, flags: &["--json", "--all"], values: &[], run };

const HELP: &str = "\
usage: puddockle audit [--json] [--all] FILE..

Says of each sample of a recording whether it resolves to NAL units:

    4 passed 8                8 units are delivered
    5 empty                   the sample has no bytes, and no fault
    6 refused 15 at 11 - ..   fault 15 at byte 11 of the sample, in words, with
                              the track and the decode time; for 25 to 28 the
                              sample that the extractor names

then how many passed, are empty, are refused; then for each refused sample the
samples that hang on it: those with an extractor that names it. A recording
that is refused itself gives one line. Nothing is printed before all samples
are judged.
FILE is the bundle of a recording, of at most 16 MiB; - is standard input.

  --json   one JSON document instead (docs/JSON.md)
  --all    list what hangs on all refused samples. Each such list is a pass over
           the recording; without --all no further one is begun after 5 seconds,
           and a last line says where the list was cut

Status: 0 nothing is refused; 1 a bundle or sample is refused; 2 wrong use, or
a FILE that cannot be read.
";

fn run(arguments: &Arguments, out: &mut Output) -> Result<Status, Stop> {
    let files = &arguments.operands;
    if files.iter().filter(|file| *file == "-").count() > 1 {
        return Err(wrong(&CALL, "- is given twice".into()));
    }
    let all = arguments.flag("--all");
    if !arguments.flag("--json") {
        let mut status = Status::Held;
        for (index, file) in files.iter().enumerate() {
            if files.len() > 1 {
                writeln!(out, "{}{}:", if index > 0 { "\n" } else { "" }, words::shown(file))?;
            }
            // What is said of a file comes after what is printed of those before it.
            out.flush()?;
            status = status.max(print(file, all, out)?);
        }
        return Ok(status);
    }
    let status = Cell::new(Status::Held);
    let reports = files.iter().map(|file| {
        let (report, its) = report(file, all);
        status.set(status.get().max(its));
        report
    });
    document("audit", vec![("files", Value::list(reports))], out)?;
    Ok(status.get())
}

/// The text for one file.
fn print(file: &OsStr, all: bool, out: &mut Output) -> Result<Status, Stop> {
    let bundle = match input::bundle(file) {
        Ok(bundle) => bundle,
        Err(message) => {
            say(message);
            return Ok(Status::Failed);
        }
    };
    let audited = match Audited::of(&bundle) {
        Ok(audited) => audited,
        Err(no) => {
            writeln!(out, "bundle {}", words::refusal(&no))?;
            return Ok(Status::Refused);
        }
    };
    print_lines(&bundle, &audited, out)?;
    out.flush()?;
    print_dependents(Dependents::of(&bundle, &audited, all), out)?;
    Ok(audited.status())
}

/// A line for each sample, and the tally.
pub fn print_lines(bundle: &[u8], audited: &Audited, out: &mut Output) -> Result<(), Stop> {
    for (sample, line) in audited.numbered() {
        writeln!(out, "{}", sample_line(bundle, sample, line))?;
    }
    let Tally { passed, empty, refused } = audited.tally;
    writeln!(out, "passed {passed} empty {empty} refused {refused}")
}

fn print_dependents(mut dependents: Dependents, out: &mut Output) -> Result<(), Stop> {
    for (SampleNumber(number), samples) in dependents.by_ref() {
        match samples[..] {
            [] => writeln!(out, "no sample hangs on sample {number}")?,
            [one] => writeln!(out, "sample {one} hangs on sample {number}")?,
            _ => {
                let all: Vec<String> = samples.iter().map(u64::to_string).collect();
                writeln!(out, "samples {} hang on sample {number}", all.join(", "))?;
            }
        }
    }
    match dependents.cut() {
        Some(SampleNumber(number)) => writeln!(
            out,
            "cut after {LISTING_SECONDS} seconds: what hangs on sample {number} and on refused samples after it is not \
             listed; --all lists it"
        ),
        None => Ok(()),
    }
}

/// The part of the document for one file.
fn report<'a>(file: &OsStr, all: bool) -> (Value<'a>, Status) {
    let name = ("file", Value::name(file));
    let bundle = match input::bundle(file) {
        Ok(bundle) => bundle,
        Err(message) => {
            say(&message);
            let fields = vec![name, ("error", Value::text(message)), ("bytes", Value::Null), ("refusal", Value::Null)];
            return (Value::Object(with_nothing(fields)), Status::Failed);
        }
    };
    let mut fields = vec![name, ("error", Value::Null), ("bytes", Value::Number(bundle.len() as u64))];
    let audited = match Audited::of(&bundle) {
        Ok(audited) => audited,
        Err(no) => {
            fields.push(("refusal", Value::refusal(Some(&no))));
            return (Value::Object(with_nothing(fields)), Status::Refused);
        }
    };
    let samples: Vec<Value> = audited.numbered().map(|(number, line)| sample_value(&bundle, number, line)).collect();
    let mut dependents = Dependents::of(&bundle, &audited, all);
    let lists: Vec<Value> = dependents.by_ref().map(dependents_value).collect();
    fields.extend([
        ("refusal", Value::Null),
        ("samples", Value::list(samples.into_iter())),
        ("tally", tally_value(audited.tally)),
        ("dependents", Value::list(lists.into_iter())),
        ("dependents_cut_at", dependents.cut().map_or(Value::Null, |SampleNumber(number)| Value::Number(number))),
    ]);
    (Value::Object(fields), audited.status())
}

/// The fields of a file that was not audited.
fn with_nothing<'a>(mut fields: Vec<(&'static str, Value<'a>)>) -> Vec<(&'static str, Value<'a>)> {
    fields.extend(["samples", "tally", "dependents", "dependents_cut_at"].map(|name| (name, Value::Null)));
    fields
}

/// A sample in a document.
pub fn sample_value<'a>(bundle: &[u8], number: SampleNumber, line: &AuditLine) -> Value<'a> {
    let (outcome, no) = match &line.outcome {
        Outcome::Passed => ("passed", None),
        Outcome::Empty => ("empty", None),
        Outcome::Refused(no) => ("refused", Some(no)),
    };
    let detail = Detail::of(bundle, number, line);
    let detail = detail.as_ref();
    let named = detail.and_then(|detail| detail.named);
    Value::Object(vec![
        ("sample", Value::Number(number.0)),
        ("track", detail.map_or(Value::Null, |detail| Value::Number(detail.track.0))),
        ("time", detail.map_or(Value::Null, |detail| Value::text(detail.time.to_string()))),
        ("outcome", Value::text(outcome)),
        ("units", Value::Number(line.units)),
        ("refusal", Value::refusal(no)),
        ("names_sample", named.map_or(Value::Null, |SampleNumber(named)| Value::Number(named))),
    ])
}

/// A tally in a document.
pub fn tally_value<'a>(Tally { passed, empty, refused }: Tally) -> Value<'a> {
    let tally = [("passed", passed), ("empty", empty), ("refused", refused)];
    Value::Object(tally.map(|(name, count)| (name, Value::Number(count))).into())
}

fn dependents_value<'a>((number, samples): (SampleNumber, Vec<u64>)) -> Value<'a> {
    Value::Object(vec![("sample", Value::Number(number.0)), ("samples", Value::Numbers(samples))])
}
