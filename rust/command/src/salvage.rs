//! `puddockle salvage FILE -o OUT`: what is sound in a damaged recording, as a recording.

use std::collections::BTreeSet;
use std::ffi::OsStr;

use puddockle::{Refusal, SampleNumber, BUNDLE_MOST};

use crate::arguments::{wrong, Arguments, Call};
use crate::audited::Audited;
use crate::changes::Totals;
use crate::cut::{bundle_of, whole_length, Cut};
use crate::input;
use crate::output::{say, Output, Status, Stop};
use crate::refused::{Asked, Refused};
use crate::rewrite::samples;
use crate::salvage_json::{document_of, document_of_refusal};
use crate::salvage_words::{list, print};
use crate::salvaged::{mended, salvaged, Changed, Forms};
use crate::stale::Stale;
use crate::whole_file::WholeFile;

pub const CALL: Call = Call {
    name: "salvage",
    help: HELP,
    operands: 1..=1,
    flags: &["--list", "--json", "--all", "--force"],
    values: &["-o"],
    run,
};

const HELP: &str = "\
usage: puddockle salvage [--list | --json] [--all] -o OUT [--force] FILE

Writes a damaged recording anew with what is sound in it, and says what is lost.
A sample with a fault 14 to 22 keeps its top-level NAL units up to the first
that is broken itself (14 to 18), but those with a fault inside (14 to 20, 22);
where what an aggregator covers is wrong or dropped, it covers nothing now. All
other samples stay byte for byte, also those refused with 23 to 28; a recording
that needs nothing comes back as it is.
A FILE whose sample bytes end too early, as where the recorder lost power, is
read as far as it goes: the sample in which it ends is shortened, and those
after it become empty.

The report says what is missing at the end of FILE; of each sample what is
dropped, where and why; which samples hold extractors that name a changed one,
as these copy by offsets that may be wrong now and are not rewritten; the
totals; what is still refused in OUT, as puddockle audit says it; and how many
bytes are lost. OUT is no replacement for FILE: keep both.
FILE is the bundle of a recording, of at most 16 MiB; - is standard input.

  -o OUT    the file to write, whole or not at all; never FILE itself
  --force   replace OUT if it exists
  --list    in place of the report a line a change, by sample and place:
            5 drop 11   of sample 5 the unit at byte 11, or all from there on
            5 zero 0    the aggregator at byte 0 of sample 5 covers nothing now
            7 cut 40    of sample 7 all from byte 40 on is missing in FILE
  --json    one JSON document instead (docs/JSON.md)
  --all     look at the extractors of all samples. Without --all no further
            sample is looked at after 5 seconds, and a line says where that was

Status: 0 no sample of OUT is refused, also where something is lost; 1 a sample
of OUT is still refused, or the bundle is refused in another way than above, and
then nothing is written; 2 wrong use, or a file that cannot be read or written.
";

/// What was done to a recording.
pub struct Report<'a> {
    pub file: &'a OsStr,
    /// The size of the file.
    pub bytes: usize,
    pub out: &'a OsStr,
    pub cut: Option<Cut>,
    pub changed: &'a [Changed<'a>],
    pub totals: Totals,
    /// The bundle that is written.
    pub bundle: &'a [u8],
    pub audited: Audited,
    /// The extractors into samples that were changed or lost bytes, in the bundle that is written.
    pub stale: Stale,
}

impl Report<'_> {
    /// Whether the file needed nothing.
    pub fn is_unchanged(&self) -> bool {
        self.cut.is_none() && self.changed.is_empty()
    }

    pub fn lost_bytes(&self) -> u64 {
        self.cut.as_ref().map_or(0, |cut| cut.missing as u64) + self.totals.bytes
    }
}

/// How the report is printed.
#[derive(Clone, Copy, PartialEq, Eq)]
enum Form {
    Words,
    List,
    Json,
}

impl Form {
    fn asked(arguments: &Arguments) -> Result<Form, Stop> {
        match (arguments.flag("--list"), arguments.flag("--json")) {
            (true, true) => Err(wrong(&CALL, "--list and --json do not go together".into())),
            (true, false) => Ok(Form::List),
            (false, true) => Ok(Form::Json),
            (false, false) => Ok(Form::Words),
        }
    }
}

fn run(arguments: &Arguments, out: &mut Output) -> Result<Status, Stop> {
    let file = arguments.operand(0);
    let form = Form::asked(arguments)?;
    let Some(name) = arguments.value("-o") else {
        return Err(wrong(&CALL, "-o is missing".into()));
    };
    let Some(to_file) = WholeFile::asked(&CALL, arguments, file)? else {
        return Err(wrong(&CALL, "-o needs a file: the report goes to standard output".into()));
    };
    let read = input::bundle(file)?;
    let (bundle, cut) = match bundle_of(&read) {
        Ok(found) => found,
        Err(no) if form == Form::Json => {
            return document_of_refusal(file, read.len(), name, &no, out).map(|()| Status::Refused);
        }
        Err(no) => return Ok(refuse(file, &read, &no)),
    };
    let failed = || Stop::failed(format!("{}: the recording cannot be written anew", input::title(file)));
    let forms = Forms::of(&bundle).map_err(|_| failed())?;
    let samples = samples(&bundle).map_err(|_| failed())?;
    let changed = salvaged(&forms, &samples).map_err(|_| failed())?;
    let mended = mended(&bundle, &samples, &changed).ok_or_else(failed)?;
    let audited = Audited::of(&mended).map_err(|_| failed())?;
    to_file.write(|to| to.write_all(&mended))?;
    let status = audited.status();
    let asked = if form == Form::List { BTreeSet::new() } else { with_less(cut.as_ref(), &changed) };
    let stale = Stale::of(&mended, &forms, &asked, arguments.flag("--all")).map_err(|_| failed())?;
    let (bytes, totals) = (read.len(), Totals::of(&changed));
    let (changed, bundle) = (&changed[..], &mended[..]);
    let report = Report { file, bytes, out: name, cut, changed, totals, bundle, audited, stale };
    match form {
        Form::Words => print(&report, out)?,
        Form::List => list(&report, out)?,
        Form::Json => document_of(&report, out)?,
    }
    Ok(status)
}

/// Says why nothing is salvaged.
fn refuse(file: &OsStr, read: &[u8], no: &Refusal) -> Status {
    let status = Refused { file, bundle: read, asked: Asked::Bundle }.say(no);
    if let Some(length) = whole_length(read, no) {
        let why = format!("whole it would have {length} bytes, more than {BUNDLE_MOST}");
        say(format!("{}: {why}", input::title(file)));
    }
    status
}

/// The samples that were changed or lost bytes.
fn with_less(cut: Option<&Cut>, changed: &[Changed]) -> BTreeSet<SampleNumber> {
    let mut numbers: BTreeSet<SampleNumber> = changed.iter().map(|one| one.number).collect();
    if let Some(cut) = cut {
        numbers.extend(cut.shortened.as_ref().map(|one| one.sample));
        numbers.extend(&cut.emptied);
    }
    numbers
}
