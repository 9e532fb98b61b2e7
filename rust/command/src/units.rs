//! `puddockle units FILE SAMPLE`: what a sample delivers. Without SAMPLE it is range.rs that runs.

use std::ffi::OsStr;
use std::io::{self, Write};

use puddockle::{unit, units, Refusal, SampleNumber, UnitNumber, SPAN};

use crate::arguments::{number, wrong, Arguments, Call};
use crate::input;
use crate::json::{document, Value};
use crate::output::{Output, Status, Stop};
use crate::places::Places;
use crate::range;
use crate::refused::{Asked, Refused};
use crate::whole_file::WholeFile;
use crate::words::{shown, unit_name, unit_type};

pub const CALL: Call = Call {
    name: "units",
    help: HELP,
    operands: 1..=2,
    flags: &["--json", "--force"],
    values: &["-o", "--unit", "--from", "--to"],
    run,
};

const HELP: &str = "\
usage: puddockle units [--unit K] [-o OUT [--force]] [--json] FILE SAMPLE
       puddockle units [--from A] [--to B] -o OUT [--force] [--json] FILE

The NAL units that a sample delivers: aggregators opened, extractors replaced by
what they copy. Without -o a table: number, type with its name, size in bytes,
and the sample that the unit stands in.
Without SAMPLE the units of all samples, or of samples A to B, one sample after
the other, in OUT; and for each sample a line, as puddockle audit prints it, and
the tally. A refused sample has its line, and no bytes in OUT: then the last
line says that OUT is NOT the whole. The OUT of samples 1 to 5 and then that of
6 to 9 are together the OUT of 1 to 9.
FILE is the bundle of a recording, of at most 16 MiB; - is standard input.
Samples and units are numbered from 1.

  -o OUT     write the units to the file OUT, each after its length in 4 bytes,
             big-endian. OUT is written whole or not at all; - is standard
             output, and what is left out is then said on standard error
  --unit K   only unit K; with -o its bytes alone, without a length
  --from A   from sample A on; without it from sample 1 on
  --to B     up to sample B; without it up to the last
  --force    replace OUT if it exists
  --json     the table, or the lines, as one JSON document (docs/JSON.md)

Status: 0 delivered; 1 the bundle or a sample is refused, or there is no such
sample or unit; 2 wrong use, or a file that cannot be read or written. Of a
range what is not refused is written all the same. More than 16,777,216 units of
a sample are not listed or written at once (2): ask for one with --unit; nor is
a range that delivers more than 1 GiB (2): ask for fewer samples.
";

/// The most units that are listed or written at once: more than a bundle can hold, but copies may come often.
const UNITS_MOST: usize = 1 << 24;

/// The room that is tried first, in units, and how much more is tried next.
const UNITS_FIRST: usize = 1 << 12;
const UNITS_TIMES: usize = 4;

fn run(arguments: &Arguments, out: &mut Output) -> Result<Status, Stop> {
    let option = ["--from", "--to"].into_iter().find(|option| arguments.value(option).is_some());
    match (arguments.operands.get(1), option) {
        (Some(sample), None) => one_sample(arguments, sample, out),
        (Some(sample), Some(option)) => {
            Err(wrong(&CALL, format!("SAMPLE {} and {option} do not go together: give one of them", shown(sample))))
        }
        (None, _) => range::run(arguments, out),
    }
}

/// Refuses that a document and units both go to standard output.
pub fn one_output(arguments: &Arguments) -> Result<(), Stop> {
    match arguments.flag("--json") && arguments.value("-o").is_some_and(|to| to == "-") {
        true => Err(wrong(&CALL, "--json and -o - both go to standard output".into())),
        false => Ok(()),
    }
}

fn one_sample(arguments: &Arguments, sample: &OsStr, out: &mut Output) -> Result<Status, Stop> {
    let file = arguments.operand(0);
    let sample = SampleNumber(number(&CALL, "SAMPLE", sample)?);
    let only = arguments.value("--unit").map(|word| number(&CALL, "K", word)).transpose()?;
    let to = arguments.value("-o");
    let json = arguments.flag("--json");
    one_output(arguments)?;
    let to_file = WholeFile::asked(&CALL, arguments, file)?;
    let bundle = input::bundle(file)?;
    let found = match only {
        Some(only) => one(&bundle, sample, only),
        None => all(&bundle, sample)?,
    };
    let alone = only.is_some();
    if let (Ok(numbers), Some(to_file)) = (&found, to_file) {
        to_file.write(|to| put(&bundle, numbers, alone, to))?;
    }
    let numbers = match &found {
        Ok(numbers) => numbers,
        Err(no) if !json => {
            let asked = only.map_or(Asked::Sample(sample), |unit| Asked::Unit(sample, unit));
            return Ok(Refused { file, bundle: &bundle, asked }.say(no));
        }
        Err(_) => &vec![],
    };
    match (json, to) {
        (false, None) => table(&bundle, only, numbers, out)?,
        (false, Some(to)) if to == "-" => out.with(|to| put(&bundle, numbers, alone, to))?,
        (false, Some(_)) => {}
        (true, _) => {
            let units = if found.is_ok() { list(&bundle, only, numbers) } else { Value::Null };
            let fields = vec![
                ("file", Value::name(file)),
                ("bytes", Value::Number(bundle.len() as u64)),
                ("sample", Value::Number(sample.0)),
                ("refusal", Value::refusal(found.as_ref().err())),
                ("units", units),
            ];
            document("units", fields, out)?;
        }
    }
    Ok(Status::of(&found))
}

/// One delivered unit: where it starts in the bundle, and its length.
fn one(bundle: &[u8], sample: SampleNumber, number: u64) -> Result<Vec<u64>, Refusal> {
    let bytes = unit(bundle, sample, UnitNumber(number))?;
    // It is lent as a part of the bundle: where that part starts is the difference of the two addresses.
    let start = bytes.as_ptr() as usize - bundle.as_ptr() as usize;
    Ok(vec![start as u64, bytes.len() as u64])
}

/// All delivered units, two numbers each: asked for with more room until it is enough.
fn all(bundle: &[u8], sample: SampleNumber) -> Result<Result<Vec<u64>, Refusal>, Stop> {
    let mut room = UNITS_FIRST;
    while room <= UNITS_MOST {
        let mut numbers = Vec::new();
        if numbers.try_reserve_exact(SPAN * room).is_err() {
            return Err(Stop::failed(format!("no memory for {room} units: ask for one with --unit")));
        }
        numbers.resize(SPAN * room, 0);
        match units(bundle, sample, &mut numbers).map(|units| units.len()) {
            Ok(count) => {
                numbers.truncate(SPAN * count);
                return Ok(Ok(numbers));
            }
            Err(no) if no.number == 29 => room *= UNITS_TIMES,
            Err(no) => return Ok(Err(no)),
        }
    }
    Err(Stop::failed(format!("sample {} delivers more than {UNITS_MOST} units: ask for one with --unit", sample.0)))
}

/// The bytes of each unit, and where they start in the bundle.
fn parts<'a>(bundle: &'a [u8], numbers: &'a [u64]) -> impl Iterator<Item = (usize, &'a [u8])> + 'a {
    numbers.chunks_exact(SPAN).map(|span| {
        let start = span[0] as usize;
        (start, &bundle[start..][..span[1] as usize])
    })
}

/// The units' bytes, each after its length or, for one alone, without.
fn put(bundle: &[u8], numbers: &[u64], alone: bool, to: &mut dyn Write) -> io::Result<()> {
    for (_, bytes) in parts(bundle, numbers) {
        if !alone {
            to.write_all(&(bytes.len() as u32).to_be_bytes())?;
        }
        to.write_all(bytes)?;
    }
    Ok(())
}

/// A row of the table.
struct Row {
    number: u64,
    unit_type: u8,
    length: usize,
    from: Option<SampleNumber>,
}

fn rows<'a>(bundle: &'a [u8], only: Option<u64>, numbers: &'a [u64]) -> impl Iterator<Item = Row> + 'a {
    let mut places = Places::of(bundle).ok();
    (only.unwrap_or(1)..).zip(parts(bundle, numbers)).map(move |(number, (start, bytes))| Row {
        number,
        unit_type: unit_type(bytes),
        length: bytes.len(),
        from: places.as_mut().and_then(|places| places.holding(start).ok()),
    })
}

fn table(bundle: &[u8], only: Option<u64>, numbers: &[u64], out: &mut Output) -> Result<(), Stop> {
    writeln!(out, "{:>8}  {:<39}  {:>8}  from sample", "unit", "type", "bytes")?;
    for row in rows(bundle, only, numbers) {
        let from = row.from.map_or(String::new(), |SampleNumber(from)| from.to_string());
        let Row { number, unit_type, length, .. } = row;
        writeln!(out, "{number:>8}  {unit_type:>2} {:<36}  {length:>8}  {from}", unit_name(unit_type))?;
    }
    Ok(())
}

fn list<'a>(bundle: &'a [u8], only: Option<u64>, numbers: &'a [u64]) -> Value<'a> {
    Value::list(rows(bundle, only, numbers).map(|row| {
        Value::Object(vec![
            ("unit", Value::Number(row.number)),
            ("type", Value::Number(row.unit_type.into())),
            ("name", Value::text(unit_name(row.unit_type))),
            ("bytes", Value::Number(row.length as u64)),
            ("from_sample", row.from.map_or(Value::Null, |SampleNumber(from)| Value::Number(from))),
        ])
    }))
}
