//! `puddockle explain NUMBER`: a refusal in words.

use puddockle::Refusal;

use crate::arguments::{number, wrong, Arguments, Call};
use crate::output::{Output, Status, Stop};

pub const CALL: Call = Call { name: "explain", help: HELP, operands: 1..=1, flags: &[], values: &[], run };

const HELP: &str = "\
usage: puddockle explain NUMBER

A refusal, 1 to 34, in words: the rule, what it means at the bench, what to do.
The causes are likely ones, not proved. 1 to 13 stop a whole recording or
record, 14 to 22 are faults in a sample itself, 23 to 28 in what it borrows,
29 to 31 in a call. With 32 a sample cannot be written as a byte stream, with 33
and 34 a byte stream cannot be written as a sample. What is sound in a recording
with 14 to 22, or that ends too early (2), puddockle salvage writes anew.

Status: 0 printed; 2 wrong use.
";

fn run(arguments: &Arguments, out: &mut Output) -> Result<Status, Stop> {
    let number = number(&CALL, "NUMBER", arguments.operand(0))?;
    let index = usize::try_from(number).unwrap_or(0).wrapping_sub(1);
    let Some((means, to_do)) = AT_THE_BENCH.get(index) else {
        return Err(wrong(&CALL, format!("refusals are numbered 1 to {}", AT_THE_BENCH.len())));
    };
    let refusal = Refusal { number: number as u32, place: 0 };
    writeln!(out, "refusal {number}: {}", refusal.meaning())?;
    writeln!(out, "at the bench: {means}")?;
    writeln!(out, "what to do: {to_do}")?;
    Ok(Status::Held)
}

/// For each refusal, from 1, what it means and what to do: the table 'At the bench' of docs/FORMAT.md. What it says 'as'
/// another number is said in full.
#[rustfmt::skip]
const AT_THE_BENCH: [(&str, &str); 34] = [
    ("The file is over 16 MiB", "Export the recording in parts"),
    ("The file ends too early", "Copy it again from the scope and compare the sizes: the copy may have been broken off"),
    ("It says it has no track, or too many tracks, references or samples", "If the file is a bundle at all, export fewer tracks or a shorter part"),
    ("A track is neither AVC nor SVC", "The exporter is newer than this program, or the byte is damaged: copy again, then export as AVC and SVC"),
    ("The file joins a track with itself, with one that is not there, or with one of another length size", "A fault of the exporter: give both tracks the same length size and export again"),
    ("The list of samples is out of order, or names a track that is not there", "A fault of the exporter, or damage: copy again, then export again"),
    ("The sizes of the samples do not add to the bytes that are there", "The file may have been edited, or something added at its end: go back to the original"),
    ("A track's decoder set-up ends too early", "The record's length is wrong, or its exporter left a set or the trailer half written: export again"),
    ("A decoder set-up is of another version", "Not an avcC or svcC record, or damage: export again"),
    ("Reserved bits of a decoder set-up are wrong", "A real SVC muxer writes them wrong: export with another muxer"),
    ("Lengths of 3 bytes", "Export with 1, 2 or 4. In a call on one sample or byte stream: the caller gave a wrong L"),
    ("A parameter set is empty, damaged or in the wrong list", "The track cannot be decoded: export again"),
    ("Something follows the decoder set-up", "The record's length is wrong, or a trailer was written for a profile that has none: export again"),
    ("The sample ends inside a length", "The sample was cut, or its track's L is wrong"),
    ("A unit is longer than the rest of the sample", "The sample was cut or a length is damaged: copy again; all units from the place on are lost"),
    ("A unit has no bytes", "With L = 1, a real muxer cut lengths over 255: export with L = 2 or 4. Else zeros over the sample, perhaps: copy again"),
    ("A unit begins with a bit that must be 0", "Damage, or a length before it is wrong: copy again"),
    ("A unit is too short for its type", "Damage, or a length before it is wrong: copy again"),
    ("A package of units in a package", "A fault of the exporter"),
    ("Picture slices packed in the bench track", "A fault of the exporter: aggregate slices in SVC tracks only"),
    ("A package claims units after it that do not end there", "Units may have been added or dropped after the package was written: export again"),
    ("An extractor has the wrong size", "Written for another L, perhaps: export again"),
    ("A detail picture borrows by a reference that its track does not have", "References may have been dropped with a track: export all tracks together"),
    ("A detail picture borrows from a sample that is not there", "The bench track may begin later, or be cut: export both tracks over the same time"),
    ("A detail picture borrows from a damaged sample", "The fault is in that sample: mend it first. puddockle names on it lists all that hang on it"),
    ("It borrows from a place where no unit starts", "The bench sample may have been changed after the extractor was written: export both tracks together"),
    ("It borrows a part that does not end with a top-level unit or, where it starts inside an aggregator, with a unit of that aggregator", "The bench sample may have been changed after the extractor was written: export both tracks together"),
    ("It borrows what is itself borrowed", "Chains are not followed: export with extractors that point to the pictures themselves"),
    ("The caller's buffer is too small", "Nothing is wrong with the recording: lend a larger buffer"),
    ("There is no sample, unit, track or reference of that number, a range ends before it starts, or no extractor is at that place", "Ask for a number from 1 to the count"),
    ("The fields given make no record", "Nothing was written: look at the list under 'Writing' in docs/FORMAT.md"),
    ("A unit has zeros where a byte stream cannot have them: a decoder could not find its end", "The encoder may not write 00 00 03, or zeros were added after the unit: export again. The sample still resolves, with lengths in place of start codes"),
    ("The file is no byte stream: something stands before its first start code, a start code has no unit after it, or a unit has zeros that no unit can have", "An MP4 file or a sample with lengths is none: write it as a byte stream first. Else it was cut at a start code, or is damaged: copy again"),
    ("A unit is too long for the lengths asked for", "The stream may be good: ask for lengths of 2 or 4 bytes"),
];
