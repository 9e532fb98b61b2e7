//! `puddockle tracks FILE`: what is in a recording.

use puddockle::{
    counts, read_record, reference, sample, track, Kind, Record, Reference, ReferenceNumber, Refusal, Sample,
    SampleNumber, TrackNumber,
};

use crate::arguments::{Arguments, Call};
use crate::input;
use crate::json::{document, Value};
use crate::output::{Output, Status, Stop};
use crate::record_words;
use crate::refused::{Asked, Refused};
use crate::words::counted;

pub const CALL: Call = Call { name: "tracks", help: HELP, operands: 1..=1, flags: &["--json"], values: &[], run };

const HELP: &str = "\
usage: puddockle tracks [--json] FILE

What is in a recording: its tracks with kind, profile, compatibility, level,
length size, parameter sets and trailer; its references, by which extractors of
one track name samples of another; its samples with their decode times and
sizes. Samples are not judged: puddockle audit does that.
FILE is the bundle of a recording, of at most 16 MiB; - is standard input.

  --json   one JSON document instead (docs/JSON.md)

Status: 0 printed; 1 the bundle is refused; 2 wrong use, or a FILE that cannot
be read.
";

/// What is in a bundle.
struct Contents<'a> {
    tracks: Vec<(Kind, Record<'a>)>,
    /// Each with its track_ref_index: how many of its from-track there are up to it.
    references: Vec<(Reference, u64)>,
    samples: Vec<Sample<'a>>,
}

impl<'a> Contents<'a> {
    fn of(bundle: &'a [u8]) -> Result<Contents<'a>, Refusal> {
        let counts = counts(bundle)?;
        let tracks = (1..=counts.tracks).map(|number| {
            let track = track(bundle, TrackNumber(number))?;
            Ok((track.kind, read_record(track.kind, track.record)?))
        });
        let tracks = tracks.collect::<Result<_, _>>()?;
        let mut references: Vec<(Reference, u64)> = Vec::new();
        for number in 1..=counts.references {
            let one = reference(bundle, ReferenceNumber(number))?;
            let before = references.iter().filter(|(other, _)| other.from == one.from).count();
            references.push((one, before as u64 + 1));
        }
        let samples = (1..=counts.samples).map(|number| sample(bundle, SampleNumber(number)));
        Ok(Contents { tracks, references, samples: samples.collect::<Result<_, _>>()? })
    }

    fn print(&self, out: &mut Output) -> Result<(), Stop> {
        for (number, (kind, record)) in (1..).zip(&self.tracks) {
            write!(out, "track {number}: ")?;
            record_words::print(*kind, record, out)?;
        }
        writeln!(out, "{}", counted(self.references.len() as u64, "reference"))?;
        for (one, index) in &self.references {
            writeln!(out, "    track {} names samples of track {}, track_ref_index {index}", one.from.0, one.to.0)?;
        }
        writeln!(out, "{}", counted(self.samples.len() as u64, "sample"))?;
        if !self.samples.is_empty() {
            writeln!(out, "{:>8}  {:>5}  {:>20}  {:>8}", "sample", "track", "time", "bytes")?;
        }
        for (number, sample) in (1..).zip(&self.samples) {
            writeln!(out, "{number:>8}  {:>5}  {:>20}  {:>8}", sample.track.0, sample.time, sample.bytes.len())?;
        }
        Ok(())
    }

    fn tracks(&self) -> Value<'_> {
        Value::list((1..).zip(&self.tracks).map(|(number, (kind, record))| {
            let mut fields = vec![("track", Value::Number(number))];
            fields.extend(record_words::fields(*kind, record));
            Value::Object(fields)
        }))
    }

    fn references(&self) -> Value<'_> {
        Value::list(self.references.iter().map(|(one, index)| {
            let fields = [("from_track", one.from.0), ("to_track", one.to.0), ("track_ref_index", *index)];
            Value::Object(fields.map(|(name, number)| (name, Value::Number(number))).into())
        }))
    }

    fn samples(&self) -> Value<'_> {
        Value::list((1..).zip(&self.samples).map(|(number, sample)| {
            Value::Object(vec![
                ("sample", Value::Number(number)),
                ("track", Value::Number(sample.track.0)),
                ("time", Value::text(sample.time.to_string())),
                ("bytes", Value::Number(sample.bytes.len() as u64)),
            ])
        }))
    }
}

fn run(arguments: &Arguments, out: &mut Output) -> Result<Status, Stop> {
    let file = arguments.operand(0);
    let bundle = input::bundle(file)?;
    let contents = Contents::of(&bundle);
    if arguments.flag("--json") {
        let part = |part: fn(&'_ _) -> Value<'_>| contents.as_ref().map_or(Value::Null, part);
        let fields = vec![
            ("file", Value::name(file)),
            ("bytes", Value::Number(bundle.len() as u64)),
            ("refusal", Value::refusal(contents.as_ref().err())),
            ("tracks", part(Contents::tracks)),
            ("references", part(Contents::references)),
            ("samples", part(Contents::samples)),
        ];
        document("tracks", fields, out)?;
        return Ok(Status::of(&contents));
    }
    match contents {
        Ok(contents) => contents.print(out).map(|()| Status::Held),
        Err(no) => Ok(Refused { file, bundle: &bundle, asked: Asked::Bundle }.say(&no)),
    }
}
