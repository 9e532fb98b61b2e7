//! `puddockle names FILE SAMPLE`: the extractors that name a sample.

use puddockle::{names, SampleNumber};

use crate::arguments::{number, Arguments, Call};
use crate::input;
use crate::json::{document, Value};
use crate::output::{say, Output, Status, Stop};
use crate::refused::{Asked, Refused};

pub const CALL: Call = Call { name: "names", help: HELP, operands: 2..=2, flags: &["--json"], values: &[], run };

const HELP: &str = "\
usage: puddockle names [--json] FILE SAMPLE

Lists the extractors that name a sample, a line each, by sample and then place:

    sample 9 at 0             the extractor at byte 0 of sample 9

If the bytes of SAMPLE are replaced by as many others, what it and these samples
give may change, and what others give does not.
FILE is the bundle of a recording, of at most 16 MiB; - is standard input.
Samples are numbered from 1, as the audit numbers them.

  --json   one JSON document instead (docs/JSON.md)

Status: 0 listed, also where no extractor names it; 1 the bundle is refused, or
it has no such sample; 2 wrong use, or a FILE that cannot be read.
";

fn run(arguments: &Arguments, out: &mut Output) -> Result<Status, Stop> {
    let file = arguments.operand(0);
    let sample = SampleNumber(number(&CALL, "SAMPLE", arguments.operand(1))?);
    let bundle = input::bundle(file)?;
    // A list is never longer than its bundle.
    let mut room = vec![0; bundle.len()];
    let list = names(&bundle, sample, &mut room);
    if arguments.flag("--json") {
        let extractors = list.as_ref().map_or(Value::Null, |list| {
            Value::list(list.entries().map(|entry| {
                Value::Object(vec![("sample", Value::Number(entry.sample.0)), ("place", Value::Number(entry.place))])
            }))
        });
        let fields = vec![
            ("file", Value::name(file)),
            ("bytes", Value::Number(bundle.len() as u64)),
            ("sample", Value::Number(sample.0)),
            ("refusal", Value::refusal(list.as_ref().err())),
            ("extractors", extractors),
        ];
        document("names", fields, out)?;
        return Ok(Status::of(&list));
    }
    match list {
        Ok(list) => {
            if list.bytes.is_empty() {
                say(format!("no extractor names sample {}", sample.0));
            }
            for entry in list.entries() {
                writeln!(out, "sample {} at {}", entry.sample.0, entry.place)?;
            }
            Ok(Status::Held)
        }
        Err(no) => Ok(Refused { file, bundle: &bundle, asked: Asked::Sample(sample) }.say(&no)),
    }
}
