//! `puddockle units FILE --from A --to B -o OUT`: what a range of samples delivers, joined, and a line for each.

use std::ffi::OsStr;

use puddockle::{counts, range, Refusal, SampleNumber, LINES_MOST};

use crate::arguments::{number, wrong, Arguments};
use crate::audited::Audited;
use crate::input;
use crate::output::{say, Output, Status, Stop};
use crate::range_words::{document_of, print, say_left_out};
use crate::refused::{given, Asked, Refused};
use crate::units::{one_output, CALL};
use crate::whole_file::WholeFile;
use crate::words::counted;

/// The room that is tried first for what the samples deliver, in bytes: four times the longest bundle, which is enough
/// where little is copied twice. Then the most. Each try judges the samples anew; room that is not written takes no
/// memory.
const ROOM_FIRST: usize = 1 << 26;
const ROOM_MOST: usize = 1 << 30;

/// Samples of a recording, as asked for.
pub struct Range<'a> {
    pub file: &'a OsStr,
    pub bundle: &'a [u8],
    pub first: SampleNumber,
    pub last: SampleNumber,
    /// How many samples the recording has.
    pub samples: u64,
}

/// What they deliver, each unit after its length, and what the audit says of them.
pub struct Joined {
    pub units: Vec<u8>,
    pub audited: Audited,
}

pub fn run(arguments: &Arguments, out: &mut Output) -> Result<Status, Stop> {
    let file = arguments.operand(0);
    let asked = |option, what| arguments.value(option).map(|word| number(&CALL, what, word)).transpose();
    let (first, last) = (asked("--from", "A")?, asked("--to", "B")?);
    let Some(name) = arguments.value("-o") else {
        let either = if first.or(last).is_none() { "SAMPLE is missing, or " } else { "" };
        return Err(wrong(&CALL, format!("{either}-o is missing")));
    };
    if arguments.value("--unit").is_some() {
        return Err(wrong(&CALL, "--unit goes with SAMPLE".into()));
    }
    let json = arguments.flag("--json");
    one_output(arguments)?;
    let to_file = WholeFile::asked(&CALL, arguments, file)?;
    let bundle = input::bundle(file)?;
    // A bundle that is refused has none. What is asked for is judged after the bundle.
    let samples = counts(&bundle).map_or(0, |counts| counts.samples);
    let (first, last) = (SampleNumber(first.unwrap_or(1)), SampleNumber(last.unwrap_or(samples)));
    let range = Range { file, bundle: &bundle, first, last, samples };
    let joined = match range.joined()? {
        Ok(joined) => joined,
        Err(no) if json => return document_of(&range, name, Err(&no), out).map(|()| Status::Refused),
        Err(no) => return Ok(range.refuse(&no)),
    };
    match to_file {
        Some(to_file) => {
            to_file.write(|to| to.write_all(&joined.units))?;
            match json {
                true => document_of(&range, name, Ok(&joined), out)?,
                false => print(&range, name, &joined, out)?,
            }
        }
        None => {
            out.with(|to| to.write_all(&joined.units))?;
            say_left_out(&range, &joined);
        }
    }
    Ok(joined.audited.status())
}

impl Range<'_> {
    /// Asks the library, with more room where it is too little.
    fn joined(&self) -> Result<Result<Joined, Refusal>, Stop> {
        let failed = |why: String| Stop::failed(format!("{}: {}: {why}", input::title(self.file), self.title()));
        let mut lines = vec![0; LINES_MOST];
        for room in [ROOM_FIRST, ROOM_MOST] {
            // Only to ask whether there is so much: it is given back at once. `vec!` below would end the command without
            // a message where there is not, and room reserved and then filled with zeros would all be written.
            if Vec::<u8>::new().try_reserve_exact(room).is_err() {
                return Err(failed(format!("no memory for {room} bytes")));
            }
            let mut units = vec![0; room];
            match range(self.bundle, self.first, self.last, &mut units, &mut lines) {
                Ok(ranged) => {
                    let (count, audited) = (ranged.units.len(), Audited::of_lines(self.first, ranged.lines()));
                    units.truncate(count);
                    return Ok(Ok(Joined { units, audited }));
                }
                // There is room for all lines that there can be.
                Err(no) if no.number == 29 => {}
                Err(no) => return Ok(Err(no)),
            }
        }
        let advice = match self.first == self.last {
            true => "ask for it as SAMPLE",
            false => "ask for fewer with --from and --to",
        };
        Err(failed(format!("more than {ROOM_MOST} bytes to write: {advice}")))
    }

    pub fn title(&self) -> String {
        let (SampleNumber(first), SampleNumber(last)) = (self.first, self.last);
        match first == last {
            true => format!("sample {}", given(first)),
            false => format!("samples {} to {}", given(first), given(last)),
        }
    }

    /// Says why nothing is written: the bundle is refused, or there are no such samples.
    fn refuse(&self, no: &Refusal) -> Status {
        if no.number != 30 {
            return Refused { file: self.file, bundle: self.bundle, asked: Asked::Bundle }.say(no);
        }
        let why = match (1..=self.samples).contains(&self.first.0) && self.last.0 <= self.samples {
            true => "the first is after the last".into(),
            false => format!("the bundle has {}", counted(self.samples, "sample")),
        };
        say(format!("{}: {} refused 30 at {} - {why}", input::title(self.file), self.title(), no.place));
        Status::Refused
    }
}
