//! The command `puddockle`: what the verified library says of recordings in files, in words and as JSON. Every
//! judgement is the library's, but whether a parameter set can stand in a byte stream (parameter_sets.rs); here
//! arguments and files are read and answers printed. Of layouts two things are known here: where a bundle has the
//! lengths of its samples (rewrite.rs), and of a unit where its length, its additional_bytes and what names a sample
//! stand (changes.rs, stale.rs).

#![forbid(unsafe_code)]

mod arguments;
mod audit;
mod audited;
mod changes;
mod cut;
mod explain;
mod input;
mod json;
mod line;
mod names;
mod output;
mod parameter_sets;
mod places;
mod range;
mod range_words;
mod record;
mod record_words;
mod refused;
mod rewrite;
mod salvage;
mod salvage_json;
mod salvage_words;
mod salvaged;
mod stale;
mod stream;
mod tracks;
mod units;
mod unstream;
mod whole_file;
mod words;

use std::ffi::OsString;
use std::process::ExitCode;

use arguments::{Arguments, Call};
use output::{say, Output, Status, Stop};

const CALLS: [Call; 9] = [
    audit::CALL,
    names::CALL,
    units::CALL,
    stream::CALL,
    unstream::CALL,
    salvage::CALL,
    tracks::CALL,
    record::CALL,
    explain::CALL,
];

const HELP: &str = "\
usage: puddockle audit FILE..             would each sample resolve?
       puddockle names FILE SAMPLE        the extractors that name a sample
       puddockle units FILE SAMPLE        the NAL units that a sample delivers
       puddockle units FILE -o OUT        those of all samples, or of a range
       puddockle stream FILE              a track as a byte stream, for decoders
       puddockle unstream FILE --length-size L
                                          a byte stream as a sample
       puddockle salvage FILE -o OUT      what is sound in a damaged recording
       puddockle tracks FILE              what is in a recording
       puddockle record FILE --kind KIND  a bare avcC or svcC record in words
       puddockle explain NUMBER           a refusal in words

A FILE of audit, names, units, stream, salvage and tracks is the bundle of a
recording; - is standard input. puddockle CALL --help says more of a call,
puddockle --version which version this is.

Status: 0 nothing is refused; 1 a bundle, record, sample or byte stream is
refused; 2 wrong use, or a file that cannot be read or written.
";

fn main() -> ExitCode {
    let given: Vec<OsString> = std::env::args_os().skip(1).collect();
    let mut out = match Output::standard() {
        Ok(out) => out,
        Err(stop) => return ExitCode::from(stop.status()),
    };
    let status = run(&given, &mut out).and_then(|status| out.flush().map(|()| status));
    ExitCode::from(status.map_or_else(Stop::status, |status| status as u8))
}

fn run(given: &[OsString], out: &mut Output) -> Result<Status, Stop> {
    let Some((first, rest)) = given.split_first() else {
        say(HELP.trim_end());
        return Ok(Status::Failed);
    };
    match first.to_str() {
        Some("--help" | "-h") => {
            write!(out, "{HELP}")?;
            return Ok(Status::Held);
        }
        Some("--version" | "-V") => {
            writeln!(out, "puddockle {}", puddockle::VERSION)?;
            return Ok(Status::Held);
        }
        _ => {}
    }
    let Some(call) = CALLS.iter().find(|call| first == call.name) else {
        return Err(Stop::failed(format!("no call {}: puddockle --help lists the calls", words::shown(first))));
    };
    if arguments::asks_help(rest) {
        write!(out, "{}", call.help)?;
        return Ok(Status::Held);
    }
    let arguments = Arguments::parse(call, rest)?;
    (call.run)(&arguments, out)
}
