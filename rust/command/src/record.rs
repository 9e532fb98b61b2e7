//! `puddockle record FILE --kind KIND`: a bare decoder configuration record.

use puddockle::{read_record, Kind};

use crate::arguments::{wrong, Arguments, Call};
use crate::input;
use crate::json::{document, Value};
use crate::output::{say, Output, Status, Stop};
use crate::record_words::{fields, kind_name, print};
use crate::words::{refusal, shown};

pub const CALL: Call =
    Call { name: "record", help: HELP, operands: 1..=1, flags: &["--json"], values: &["--kind"], run };

const HELP: &str = "\
usage: puddockle record [--json] --kind avc|svc FILE

A bare decoder configuration record in words: profile, compatibility, level,
length size, its parameter sets, its trailer.
FILE is the record, the whole of it and nothing more; - is standard input.

  --kind avc   an AVC record (avcC)
  --kind svc   an SVC record (svcC)
  --json       one JSON document instead (docs/JSON.md)

Status: 0 the record is good; 1 it is refused; 2 wrong use, or a FILE that
cannot be read.
";

/// No record is longer: at most 31 and twice 255 sets in an AVC record, 127 and 255 in an SVC record, each of 2 and
/// 65,535 bytes at most, and 11 bytes besides. One byte more, and what the reader says no longer depends on the rest.
const RECORD_MOST: usize = (31 + 2 * 255) * (2 + 65_535) + 11;

fn run(arguments: &Arguments, out: &mut Output) -> Result<Status, Stop> {
    let file = arguments.operand(0);
    let kind = match arguments.value("--kind") {
        Some(kind) if kind == "avc" => Kind::Avc,
        Some(kind) if kind == "svc" => Kind::Svc,
        Some(other) => return Err(wrong(&CALL, format!("KIND is avc or svc, not {}", shown(other)))),
        None => return Err(wrong(&CALL, "--kind is missing".into())),
    };
    let bytes = input::read(file, RECORD_MOST + 1)?;
    let read = read_record(kind, &bytes);
    if arguments.flag("--json") {
        let record = match &read {
            Ok(record) => Value::Object(fields(kind, record)),
            Err(_) => Value::Null,
        };
        let fields = vec![
            ("file", Value::name(file)),
            ("bytes", Value::Number(bytes.len() as u64)),
            ("kind", Value::text(kind_name(kind).to_lowercase())),
            ("refusal", Value::refusal(read.as_ref().err())),
            ("record", record),
        ];
        document("record", fields, out)?;
    } else {
        match &read {
            Ok(record) => print(kind, record, out)?,
            Err(no) => say(format!("{}: record {}", input::title(file), refusal(no))),
        }
    }
    Ok(Status::of(&read))
}
