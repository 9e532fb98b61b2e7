//! What became of a range of samples, in words and as a JSON document.

use std::ffi::OsStr;

use puddockle::{Outcome, Refusal, Tally};

use crate::audit::{print_lines, sample_value, tally_value};
use crate::input;
use crate::json::{document, Value};
use crate::line::sample_line;
use crate::output::{say, Output, Status, Stop};
use crate::range::{Joined, Range};
use crate::words::{counted, shown};

/// A line for each sample, the tally, and how much was written.
pub fn print(range: &Range, name: &OsStr, joined: &Joined, out: &mut Output) -> Result<(), Stop> {
    print_lines(range.bundle, &joined.audited, out)?;
    writeln!(out, "{}", written(range, &shown(name), joined))
}

/// Where standard output has the units: the refused samples, which are not in them. An empty one is not missing.
pub fn say_left_out(range: &Range, joined: &Joined) {
    for (number, line) in joined.audited.numbered().filter(|(_, line)| matches!(line.outcome, Outcome::Refused(_))) {
        say(format!("{}: left out: {}", input::title(range.file), sample_line(range.bundle, number, line)));
    }
    if joined.audited.status() == Status::Refused {
        say(written(range, "standard output", joined));
    }
}

/// How much was written, and whether it is all that was asked for.
fn written(range: &Range, name: &str, joined: &Joined) -> String {
    let Tally { passed, empty, refused } = joined.audited.tally;
    let (there, bytes) = (passed + empty, counted(joined.units.len() as u64, "byte"));
    if refused == 0 {
        return format!("{name} has {}, {bytes}: none is refused", counted(there, "sample"));
    }
    let whole = match there + refused == range.samples {
        true => "the whole recording".into(),
        false => format!("all of {}", range.title()),
    };
    let are = if refused == 1 { "is" } else { "are" };
    let all = counted(there + refused, "sample");
    format!("{name} is NOT {whole}: it has {there} of {all}, {bytes}; {refused} {are} refused")
}

pub fn document_of(
    range: &Range,
    name: &OsStr,
    joined: Result<&Joined, &Refusal>,
    out: &mut Output,
) -> Result<(), Stop> {
    let mut fields = vec![
        ("file", Value::name(range.file)),
        ("bytes", Value::Number(range.bundle.len() as u64)),
        ("first_sample", Value::Number(range.first.0)),
        ("last_sample", Value::Number(range.last.0)),
        ("refusal", Value::refusal(joined.err())),
        ("out", Value::name(name)),
    ];
    match joined {
        Ok(Joined { units, audited }) => {
            let samples = audited.numbered().map(|(number, line)| sample_value(range.bundle, number, line));
            fields.extend([
                ("out_bytes", Value::Number(units.len() as u64)),
                ("samples", Value::list(samples)),
                ("tally", tally_value(audited.tally)),
            ]);
        }
        Err(_) => fields.extend(["out_bytes", "samples", "tally"].map(|name| (name, Value::Null))),
    }
    document("units", fields, out)
}
