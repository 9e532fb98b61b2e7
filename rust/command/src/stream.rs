//! `puddockle stream FILE`: a track or a sample as a byte stream, for decoders.

use std::ffi::OsStr;
use std::io::{self, Write};
use std::vec::IntoIter;

use puddockle::{counts, sample, stream, track, AuditLine, Outcome, Refusal, SampleNumber, TrackNumber};

use crate::arguments::{number, wrong, Arguments, Call};
use crate::input;
use crate::line::sample_line;
use crate::output::{say, Output, Status, Stop};
use crate::parameter_sets::{parameter_sets, ParameterSet};
use crate::record_words::kind_name;
use crate::refused::{Asked, Refused};
use crate::whole_file::WholeFile;

pub const CALL: Call = Call {
    name: "stream",
    help: HELP,
    operands: 1..=1,
    flags: &["--bare", "--force"],
    values: &["-o", "--sample", "--track"],
    run,
};

const HELP: &str = "\
usage: puddockle stream [--track K | --sample N] [--bare] [-o OUT [--force]]
                        FILE

A track as a byte stream (ISO/IEC 14496-10, Annex B), for decoders: first
parameter sets, then the NAL units that its samples deliver, in order, 00 00 00
01 before each. A sample that is empty or refused is left out, and its line of
the audit is said on standard error. Refused here is also a sample with a unit
that cannot stand in a byte stream (puddockle explain 32).
The parameter sets are those of the tracks that the track references, since
extractors copy units from there, then those of its own record. Where two of
them have one id, a decoder takes the later one.
FILE is the bundle of a recording, of at most 16 MiB; - is standard input.
Tracks and samples are numbered from 1, as puddockle tracks lists them.

  --track K    track K; may be left out where there is only one track
  --sample N   sample N alone, after the parameter sets of its track
  --bare       no parameter sets
  -o OUT       write to the file OUT and not to standard output. OUT is written
               whole or not at all; - is standard output
  --force      replace OUT if it exists

Status: 0 written; 1 a sample was refused and left out, or the bundle or a
parameter set is refused or there is no such track or sample, and nothing is
written; 2 wrong use, several tracks and none chosen, or a file that cannot be
read or written. Where a sample was refused and none is left to write, nothing
is written. The stream of one sample is at most 1 GiB long: at a longer one the
command ends (2), and standard output may have what comes before it.
";

/// What stands before each unit.
const START_CODE: [u8; 4] = [0, 0, 0, 1];

/// The room that is tried first for the stream of a sample, in bytes, how much more is tried next, and the most. Each try
/// judges the sample anew, so they are few; room that is not written takes no memory.
const ROOM_FIRST: usize = 1 << 20;
const ROOM_TIMES: usize = 16;
const ROOM_MOST: usize = 1 << 30;

fn run(arguments: &Arguments, out: &mut Output) -> Result<Status, Stop> {
    let file = arguments.operand(0);
    let given = |option, what| arguments.value(option).map(|word| number(&CALL, what, word)).transpose();
    let asked = match (given("--track", "K")?, given("--sample", "N")?) {
        (Some(_), Some(_)) => return Err(wrong(&CALL, "--track and --sample do not go together".into())),
        (Some(track), None) => Asked::Track(TrackNumber(track)),
        (None, Some(sample)) => Asked::Sample(SampleNumber(sample)),
        (None, None) => Asked::Bundle,
    };
    let to_file = WholeFile::asked(&CALL, arguments, file)?;
    let bundle = input::bundle(file)?;
    let Chosen { sets, samples } = match choose(&bundle, asked, arguments.flag("--bare")) {
        Ok(Some(chosen)) => chosen,
        Ok(None) => return Err(several(file, &bundle)),
        Err(no) => return Ok(Refused { file, bundle: &bundle, asked }.say(&no)),
    };
    if let Some(set) = sets.iter().find(|set| !set.is_streamable()) {
        let no = "cannot stand in a byte stream (puddockle explain 32)";
        say(format!("{}: {} {no}: --bare leaves all parameter sets out", input::title(file), set.title()));
        return Ok(Status::Refused);
    }
    let mut streams = Streams::of(file, &bundle, samples);
    let wrote = match streams.find() {
        Ok(false) if streams.status == Status::Refused => Ok(()),
        Ok(_) => match to_file {
            Some(to_file) => to_file.write(|to| put(&sets, &mut streams, to)),
            None => out.with(|to| put(&sets, &mut streams, to)),
        },
        Err(error) => Err(Stop::failed(error.to_string())),
    };
    match streams.failure {
        Some(failure) => Err(Stop::failed(failure)),
        None => wrote.map(|()| streams.status),
    }
}

/// What is written: parameter sets, then samples.
struct Chosen<'a> {
    sets: Vec<ParameterSet<'a>>,
    samples: Vec<SampleNumber>,
}

/// The samples asked for and the sets of their track; nothing where there are several tracks and none of them is named.
fn choose(bundle: &[u8], asked: Asked, bare: bool) -> Result<Option<Chosen<'_>>, Refusal> {
    let counts = counts(bundle)?;
    let (number, samples) = match asked {
        Asked::Track(number) => (number, samples(bundle, number)?),
        Asked::Sample(number) | Asked::Unit(number, _) => (sample(bundle, number)?.track, vec![number]),
        Asked::Bundle if counts.tracks == 1 => (TrackNumber(1), samples(bundle, TrackNumber(1))?),
        Asked::Bundle => return Ok(None),
    };
    let sets = if bare { Vec::new() } else { parameter_sets(bundle, number)? };
    Ok(Some(Chosen { sets, samples }))
}

/// The samples of a track, in order.
fn samples(bundle: &[u8], number: TrackNumber) -> Result<Vec<SampleNumber>, Refusal> {
    track(bundle, number)?;
    let mut samples = Vec::new();
    for one in (1..=counts(bundle)?.samples).map(SampleNumber) {
        if sample(bundle, one)?.track == number {
            samples.push(one);
        }
    }
    Ok(samples)
}

/// Which tracks there are, where one must be chosen.
fn several(file: &OsStr, bundle: &[u8]) -> Stop {
    let tracks = (1..).map_while(|number| Some((number, track(bundle, TrackNumber(number)).ok()?.kind)));
    let tracks: Vec<String> = tracks.map(|(number, kind)| format!("{number} {}", kind_name(kind))).collect();
    let tracks = tracks.join(", ");
    wrong(&CALL, format!("{} has several tracks, choose one with --track: {tracks}", input::title(file)))
}

/// Writes the sets, then the streams.
fn put(sets: &[ParameterSet], streams: &mut Streams, to: &mut dyn Write) -> io::Result<()> {
    for set in sets {
        to.write_all(&START_CODE)?;
        to.write_all(set.unit)?;
    }
    to.write_all(streams.found())?;
    while streams.find()? {
        to.write_all(streams.found())?;
    }
    Ok(())
}

/// The streams of samples, one after the other.
struct Streams<'a> {
    file: &'a OsStr,
    bundle: &'a [u8],
    rest: IntoIter<SampleNumber>,
    room: Vec<u8>,
    /// How much of the room the last stream takes.
    length: usize,
    /// Whether one was refused.
    status: Status,
    /// Why no stream can be had of a sample, which ends the call.
    failure: Option<String>,
}

impl<'a> Streams<'a> {
    fn of(file: &'a OsStr, bundle: &'a [u8], samples: Vec<SampleNumber>) -> Streams<'a> {
        let room = vec![0; ROOM_FIRST];
        Streams { file, bundle, rest: samples.into_iter(), room, length: 0, status: Status::Held, failure: None }
    }

    /// Goes to the next sample that is neither refused nor empty, and says which are left out before it.
    fn find(&mut self) -> io::Result<bool> {
        self.length = 0;
        while let Some(number) = self.rest.next() {
            let outcome = match self.stream(number)? {
                Ok(0) if sample(self.bundle, number).is_ok_and(|sample| sample.bytes.is_empty()) => Outcome::Empty,
                Ok(length) => {
                    self.length = length;
                    return Ok(true);
                }
                Err(no) => {
                    self.status = Status::Refused;
                    Outcome::Refused(no)
                }
            };
            let line = sample_line(self.bundle, number, &AuditLine { outcome, units: 0 });
            say(format!("{}: left out: {line}", input::title(self.file)));
        }
        Ok(false)
    }

    /// The stream of the sample found.
    fn found(&self) -> &[u8] {
        &self.room[..self.length]
    }

    /// The length of a sample's stream: asked for with more room until it is enough.
    fn stream(&mut self, number: SampleNumber) -> io::Result<Result<usize, Refusal>> {
        loop {
            match stream(self.bundle, number, &mut self.room) {
                Err(no) if no.number == 29 => self.enlarge(number)?,
                answer => return Ok(answer),
            }
        }
    }

    fn enlarge(&mut self, SampleNumber(number): SampleNumber) -> io::Result<()> {
        let room = ROOM_MOST.min(self.room.len() * ROOM_TIMES);
        if room == self.room.len() {
            return self.fail(format!("sample {number} gives a stream of more than {room} bytes"));
        }
        // What the room holds is not needed any more.
        self.room = Vec::new();
        if Vec::<u8>::new().try_reserve_exact(room).is_err() {
            return self.fail(format!("no memory for the stream of sample {number}, {room} bytes"));
        }
        self.room = vec![0; room];
        Ok(())
    }

    fn fail(&mut self, why: String) -> io::Result<()> {
        let why = format!("{}: {why}", input::title(self.file));
        self.failure = Some(why.clone());
        Err(io::Error::other(why))
    }
}

#[cfg(test)]
mod tests {
    use super::*;

    /// The room grows up to a limit.
    #[test]
    fn room_has_a_limit() {
        let mut streams = Streams::of(OsStr::new("-"), &[], vec![]);
        assert!(streams.enlarge(SampleNumber(1)).is_ok());
        assert_eq!(streams.room.len(), ROOM_FIRST * ROOM_TIMES);
        for _ in 0..2 {
            assert!(streams.enlarge(SampleNumber(1)).is_ok());
        }
        assert_eq!(streams.room.len(), ROOM_MOST);
        assert!(streams.enlarge(SampleNumber(7)).is_err());
        let message = "standard input: sample 7 gives a stream of more than 1073741824 bytes";
        assert_eq!(streams.failure.as_deref(), Some(message));
    }
}
