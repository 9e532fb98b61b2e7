//! `puddockle unstream FILE`: a byte stream as a sample, a length before each unit.

use std::ffi::OsStr;

use puddockle::{from_stream, Refusal};

use crate::arguments::{number, wrong, Arguments, Call};
use crate::input;
use crate::output::{say, Output, Status, Stop};
use crate::refused::given;
use crate::whole_file::WholeFile;
use crate::words::refusal;

pub const CALL: Call =
    Call { name: "unstream", help: HELP, operands: 1..=1, flags: &["--force"], values: &["-o", "--length-size"], run };

const HELP: &str = "\
usage: puddockle unstream --length-size L [-o OUT [--force]] FILE

A byte stream (ISO/IEC 14496-10, Annex B) as a sample: its NAL units in order,
each after its length in L bytes, big-endian, in place of its start code. Start
codes of three and of four bytes, zeros before the first one and zeros after a
unit are read; what is in the units is not judged. A stream that is empty or has
zeros only gives the empty sample.
FILE is the byte stream, of at most 1 GiB; - is standard input. A sample is what
stands at one decode time, so give one access unit at a time; a longer stream
gives its units all the same, one after the other.

  --length-size L   1, 2 or 4: how many bytes a length has
  -o OUT            write to the file OUT and not to standard output. OUT is
                    written whole or not at all; - is standard output
  --force           replace OUT if it exists

Status: 0 written; 1 FILE is no byte stream (puddockle explain 33), a unit is
too long for L (puddockle explain 34) or L is not 1, 2 or 4, and nothing is
written; 2 wrong use, FILE is longer than 1 GiB, or a file cannot be read or
written.
";

/// The longest stream that is read, so that endless input ends.
const STREAM_MOST: usize = 1 << 30;

fn run(arguments: &Arguments, out: &mut Output) -> Result<Status, Stop> {
    let file = arguments.operand(0);
    let Some(word) = arguments.value("--length-size") else {
        return Err(wrong(&CALL, "--length-size is missing".into()));
    };
    let length_size = number(&CALL, "L", word)?;
    let to_file = WholeFile::asked(&CALL, arguments, file)?;
    // One that is cut to the largest number is no good one either.
    let size = u32::try_from(length_size).unwrap_or(u32::MAX);
    // The library judges the length size before all, so before a file is read that may be long: a stream without bytes has
    // no other fault.
    if let Err(no) = from_stream(size, &[], &mut []) {
        say(format!("{}: length size {} {}", input::title(file), given(length_size), refusal(&no)));
        return Ok(Status::Refused);
    }
    let stream = input::read(file, STREAM_MOST + 1)?;
    if stream.len() > STREAM_MOST {
        return Err(Stop::failed(format!("{}: longer than {STREAM_MOST} bytes", input::title(file))));
    }
    let mut room = room(file, stream.len())?;
    let sample = match from_stream(size, &stream, &mut room) {
        Ok(count) => &room[..count],
        Err(no) => {
            say(format!("{}: byte stream {}{}", input::title(file), refusal(&no), detail(&stream, &no)));
            return Ok(Status::Refused);
        }
    };
    if sample.is_empty() && !stream.is_empty() {
        say(format!("{} has zeros only: the sample is empty", input::title(file)));
    }
    match to_file {
        Some(to_file) => to_file.write(|to| to.write_all(sample))?,
        None => out.with(|to| to.write_all(sample))?,
    }
    Ok(Status::Held)
}

/// Room for the sample of a stream of so many bytes, which is enough for every length size. A unit of n bytes, n at least
/// 1, takes 3 + n bytes of the stream or more, and 4 + n of the sample or fewer. So there is at most one unit for each 4
/// bytes of the stream, and each makes the sample at most 1 byte longer than the stream. `00 00 01 65` again and again
/// takes all of it with L = 4.
fn room(file: &OsStr, stream: usize) -> Result<Vec<u8>, Stop> {
    let bytes = stream + stream / 4;
    let mut room = Vec::new();
    if room.try_reserve_exact(bytes).is_err() {
        return Err(Stop::failed(format!("{}: no memory for the sample, {bytes} bytes", input::title(file))));
    }
    room.resize(bytes, 0);
    Ok(room)
}

/// For 33 the bytes up to the place, which mostly tell what is wrong.
fn detail(stream: &[u8], no: &Refusal) -> String {
    let place = no.place as usize;
    match stream.get(place.saturating_sub(3)..=place) {
        Some(bytes) if no.number == 33 => {
            let bytes: Vec<String> = bytes.iter().map(|byte| format!("{byte:02X}")).collect();
            format!(" (up to there: {})", bytes.join(" "))
        }
        _ => String::new(),
    }
}
