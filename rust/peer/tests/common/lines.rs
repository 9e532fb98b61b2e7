//! The lines of the vectors (tests/vectors/README.md), asked of an implementation with the calls of the C interface.

use std::collections::{BTreeMap, BTreeSet};

use crate::common;

/// How many numbers describe a record.
pub const FIELDS: usize = 18;

/// What a lent buffer holds before a call.
const CANARY: u8 = 0xEE;

/// The same for a buffer of numbers.
const CANARY_NUMBER: u64 = 0xEEEE_EEEE_EEEE_EEEE;

/// The number returned and the numbers set. What a call does not set stays 0.
#[derive(Clone, Copy, Debug, Default, PartialEq, Eq)]
pub struct Answer {
    pub number: u32,
    pub place: u64,
    pub count: u64,
    pub start: u64,
    pub length: u64,
    pub tally: [u64; 3],
    /// What `counts`, `track`, `reference`, `sample` and `named` set, in the order of the C functions. The counts that
    /// `range`, `salvage` and `salvage_sample` set after the first. For `base` what is found, and the rounds.
    pub values: [u64; 4],
}

/// The calls of an implementation, each as the C function, and the text of the program.
pub trait Calls: Sized {
    fn read_record(kind: u32, bytes: &[u8], fields: &mut [u64]) -> Answer;
    fn write_record(kind: u32, fields: &[u64], sets: [&[u8]; 3], out: &mut [u8]) -> Answer;
    fn check_sample(kind: u32, length_size: u32, sample: &[u8]) -> Answer;
    fn check_bundle(bundle: &[u8]) -> Answer;
    fn resolve(bundle: &[u8], sample: u64, out: &mut [u8]) -> Answer;
    fn range(bundle: &[u8], first: u64, last: u64, out: &mut [u8], lines: &mut [u8]) -> Answer;
    fn stream(bundle: &[u8], sample: u64, out: &mut [u8]) -> Answer;
    fn from_stream(length_size: u32, stream: &[u8], out: &mut [u8]) -> Answer;
    fn salvage(bundle: &[u8], sample: u64, out: &mut [u8], changes: &mut [u8], names: &mut [u8]) -> Answer;
    fn salvage_sample(kind: u32, length_size: u32, sample: &[u8], out: &mut [u8], changes: &mut [u8]) -> Answer;
    fn unit(bundle: &[u8], sample: u64, unit: u64) -> Answer;
    fn names(bundle: &[u8], sample: u64, out: &mut [u8]) -> Answer;
    fn audit(bundle: &[u8], lines: &mut [u8]) -> Answer;
    fn counts(bundle: &[u8]) -> Answer;
    fn track(bundle: &[u8], track: u64) -> Answer;
    fn reference(bundle: &[u8], reference: u64) -> Answer;
    fn sample(bundle: &[u8], sample: u64) -> Answer;
    fn units(bundle: &[u8], sample: u64, spans: &mut [u64]) -> Answer;
    fn named(bundle: &[u8], sample: u64, extractor: u64) -> Answer;

    /// What a search by halving finds in a track, and its rounds. None where there is no such call, as in C.
    fn base(_bundle: &[u8], _sample: u64, _track: u64) -> Option<Answer> {
        None
    }

    /// What the program prints of a bundle that is not too big for it, by the audit's lines.
    fn program(bundle: &[u8]) -> String {
        let mut lines = vec![CANARY; 13 * 4096];
        let Answer { number, place, count, tally: [passed, empty, refused], .. } = Self::audit(bundle, &mut lines);
        if number != 0 {
            return format!("bundle refused {number} at {place}\n");
        }
        let mut text = String::new();
        for ((line, sample), n) in lines[..count as usize].chunks(13).zip(samples(bundle)).zip(1..) {
            let (refusal, place, units) = (line[0], big_endian(&line[1..5]), big_endian(&line[5..]));
            text += &match refusal {
                0 if sample.is_empty() => format!("{n} empty\n"),
                0 => format!("{n} passed {units}\n"),
                _ => format!("{n} refused {refusal} at {place}\n"),
            };
        }
        text + &format!("passed {passed} empty {empty} refused {refused}\n")
    }
}

/// Runs every line of every .txt file in the directory that PUDDOCKLE_VECTORS names (else tests/vectors beside this
/// workspace). A line of a kind that is not known here fails the test; those that the implementation has no call for
/// are left out, and must be of just these kinds.
pub fn run<C: Calls>(no_call: &[&str]) {
    let mut kinds: BTreeMap<String, usize> = BTreeMap::new();
    let mut left_out: BTreeMap<String, usize> = BTreeMap::new();
    let mut wrong = Vec::new();
    for path in common::files(&common::directory("PUDDOCKLE_VECTORS", "vectors"), "txt") {
        for (line, number) in common::text(&path).lines().zip(1..) {
            if line.is_empty() || line.starts_with('#') {
                continue;
            }
            let (request, expected) = line.split_once(" = ").unwrap_or_else(|| panic!("no answer: {line}"));
            let words: Vec<&str> = request.split(' ').collect();
            let Some(given) = asked::<C>(&words) else {
                *left_out.entry(words[0].to_string()).or_default() += 1;
                continue;
            };
            *kinds.entry(words[0].to_string()).or_default() += 1;
            if given != expected {
                wrong.push(format!("{}:{number}: expected {expected}, got {given}", path.display()));
            }
        }
    }
    for (kind, count) in &kinds {
        println!("{kind}: {count} lines");
    }
    println!("left out: {left_out:?}");
    assert!(left_out.keys().eq(no_call), "left out: {left_out:?}");
    assert!(wrong.is_empty(), "{} wrong:\n{}", wrong.len(), wrong.join("\n"));
    assert!(!kinds.is_empty(), "no lines");
}

/// The answer; none where the implementation has no such call.
fn asked<C: Calls>(words: &[&str]) -> Option<String> {
    match *words {
        ["base", bytes, sample, track] => {
            C::base(&hex(bytes), number(sample), number(track)).map(|answer| values(&answer, 2))
        }
        _ => Some(answer::<C>(words)),
    }
}

fn answer<C: Calls>(words: &[&str]) -> String {
    match *words {
        ["check", kind, size, bytes] => plain(&C::check_sample(small(kind), small(size), &hex(bytes)), String::new),
        ["record", kind, bytes] => record_answer::<C>(small(kind), &hex(bytes)),
        ["writerec", kind, room, ref rest @ ..] => write_answer::<C>(small(kind), number(room), rest),
        ["bundle", bytes] => plain(&C::check_bundle(&hex(bytes)), String::new),
        ["audit", bytes, room] => {
            let mut out = vec![CANARY; number(room)];
            let answer = C::audit(&hex(bytes), &mut out);
            let [passed, empty, refused] = answer.tally;
            written(&answer, &out, &format!(" {passed} {empty} {refused}"))
        }
        ["names", bytes, sample, room] => {
            let mut out = vec![CANARY; number(room)];
            let answer = C::names(&hex(bytes), number(sample), &mut out);
            written(&answer, &out, "")
        }
        ["resolve", bytes, sample, room] => {
            let mut out = vec![CANARY; number(room)];
            let answer = C::resolve(&hex(bytes), number(sample), &mut out);
            written(&answer, &out, "")
        }
        ["range", bytes, first, last, room, lines_room] => {
            let mut buffers = [room, lines_room].map(|room| vec![CANARY; number(room)]);
            let [out, lines] = &mut buffers;
            let answer = C::range(&hex(bytes), number(first), number(last), out, lines);
            all_written(&answer, [answer.count, answer.values[0]], &buffers)
        }
        ["stream", bytes, sample, room] => {
            let mut out = vec![CANARY; number(room)];
            let answer = C::stream(&hex(bytes), number(sample), &mut out);
            written(&answer, &out, "")
        }
        ["from_stream", size, bytes, room] => {
            let mut out = vec![CANARY; number(room)];
            let answer = C::from_stream(small(size), &hex(bytes), &mut out);
            written(&answer, &out, "")
        }
        ["salvage", kind, size, bytes, room, list_room] => {
            let mut buffers = [room, list_room].map(|room| vec![CANARY; number(room)]);
            let [out, changes] = &mut buffers;
            let answer = C::salvage_sample(small(kind), small(size), &hex(bytes), out, changes);
            all_written(&answer, [answer.count, answer.values[0]], &buffers)
        }
        ["salvagein", bytes, sample, room, list_room, names_room] => {
            let mut buffers = [room, list_room, names_room].map(|room| vec![CANARY; number(room)]);
            let [out, changes, names] = &mut buffers;
            let answer = C::salvage(&hex(bytes), number(sample), out, changes, names);
            all_written(&answer, [answer.count, answer.values[0], answer.values[1]], &buffers)
        }
        ["unit", bytes, sample, unit] => {
            let bundle = hex(bytes);
            let answer = C::unit(&bundle, number(sample), number(unit));
            let part = answer.start as usize..(answer.start + answer.length) as usize;
            plain(&answer, || format!(" {}", dash(&bundle[part])))
        }
        ["counts", bytes] => values(&C::counts(&hex(bytes)), 3),
        ["track", bytes, track] => values(&C::track(&hex(bytes), number(track)), 3),
        ["reference", bytes, reference] => values(&C::reference(&hex(bytes), number(reference)), 2),
        ["sample", bytes, sample] => values(&C::sample(&hex(bytes), number(sample)), 4),
        ["named", bytes, sample, place] => values(&C::named(&hex(bytes), number(sample), number(place)), 1),
        ["units", bytes, sample, room] => {
            let mut spans = vec![CANARY_NUMBER; number(room)];
            let answer = C::units(&hex(bytes), number(sample), &mut spans);
            let (front, rest) = spans.split_at(answer.count as usize);
            let changed = if rest.iter().all(|&number| number == CANARY_NUMBER) { "" } else { " CHANGED" };
            plain(&answer, || decimals(front)) + changed
        }
        ["replace", bytes, sample, new] => replaced::<C>(&hex(bytes), number(sample), &hex(new)),
        ["program", bytes] => C::program(&hex(bytes)).replace('\n', "\\n"),
        _ => panic!("unknown request: {words:?}"),
    }
}

/// Other bytes in place of a sample's, over and over and cut to its length: how many samples outside its naming list
/// resolve to the same, and how many stand in the list.
fn replaced<C: Calls>(bytes: &[u8], sample: u64, new: &[u8]) -> String {
    let mut list = vec![CANARY; bytes.len()];
    let names = C::names(bytes, sample, &mut list);
    if names.number != 0 {
        return plain(&names, String::new);
    }
    let samples = samples(bytes);
    let mut after = bytes.to_vec();
    for (at, byte) in after[samples[sample as usize - 1].clone()].iter_mut().enumerate() {
        *byte = if new.is_empty() { 0 } else { new[at % new.len()] };
    }
    let listed: BTreeSet<u64> =
        list[..names.count as usize].chunks(6).map(|entry| big_endian(&entry[..2]) as u64).collect();
    let mut list_after = vec![CANARY; bytes.len()];
    let names_after = C::names(&after, sample, &mut list_after);
    assert!(names_after.number == 0 && list_after == list, "the list of the sample itself changed");
    let mut compared = 0;
    for other in (1..=samples.len() as u64).filter(|other| *other != sample && !listed.contains(other)) {
        let (mut one, mut two) = (vec![CANARY; 100_000], vec![CANARY; 100_000]);
        if C::resolve(bytes, other, &mut one) != C::resolve(&after, other, &mut two) || one != two {
            return format!("DIFFERS {other}");
        }
        compared += 1;
    }
    format!("OK {compared} {}", listed.len())
}

/// Where the samples of an accepted bundle stand.
pub fn samples(bundle: &[u8]) -> Vec<std::ops::Range<usize>> {
    let mut at = 1;
    for _ in 0..bundle[0] {
        at += 3 + big_endian(&bundle[at + 1..at + 3]);
    }
    at += 1 + 2 * bundle[at] as usize;
    let count = big_endian(&bundle[at..at + 2]);
    let entries = &bundle[at + 2..at + 2 + 13 * count];
    let mut start = at + 2 + 13 * count + 4;
    let mut ranges = Vec::new();
    for entry in entries.chunks(13) {
        let end = start + big_endian(&entry[9..]);
        ranges.push(start..end);
        start = end;
    }
    ranges
}

fn big_endian(bytes: &[u8]) -> usize {
    bytes.iter().fold(0, |number, &byte| number << 8 | byte as usize)
}

/// A refusal, or `OK` and what was accepted.
fn plain(answer: &Answer, accepted: impl FnOnce() -> String) -> String {
    match answer.number {
        0 => "OK".to_string() + &accepted(),
        no => format!("R {no} {}", answer.place),
    }
}

/// As `plain`, with the first of the values. On a refusal they are all 0.
fn values(answer: &Answer, count: usize) -> String {
    assert!(answer.number == 0 || answer.values == [0; 4], "refused, and a number is set: {answer:?}");
    plain(answer, || decimals(&answer.values[..count]))
}

/// Each number after a space.
fn decimals(numbers: &[u64]) -> String {
    numbers.iter().map(|number| format!(" {number}")).collect()
}

/// As `plain`, with the bytes written; says so if others were changed.
fn written(answer: &Answer, out: &[u8], more: &str) -> String {
    let count = answer.count as usize;
    let changed = if out[count..].iter().all(|&byte| byte == CANARY) { "" } else { " CHANGED" };
    plain(answer, || format!(" {}{more}", dash(&out[..count]))) + changed
}

/// The same for several buffers, each with its count.
fn all_written<const N: usize>(answer: &Answer, counts: [u64; N], buffers: &[Vec<u8>; N]) -> String {
    assert!(answer.number == 0 || counts == [0; N], "refused, and a count is set: {answer:?}");
    let parts = || buffers.iter().zip(counts).map(|(buffer, count)| buffer.split_at(count as usize));
    let changed = if parts().all(|(_, rest)| rest.iter().all(|&byte| byte == CANARY)) { "" } else { " CHANGED" };
    plain(answer, || parts().map(|(front, _)| format!(" {}", dash(front))).collect()) + changed
}

fn record_answer<C: Calls>(kind: u32, bytes: &[u8]) -> String {
    let mut fields = [CANARY as u64; FIELDS];
    let answer = C::read_record(kind, bytes, &mut fields);
    if answer.number != 0 {
        assert_eq!(fields, [CANARY as u64; FIELDS], "refused, and numbers are written");
        return plain(&answer, String::new);
    }
    let lent = |at: usize| &bytes[fields[at + 1] as usize..(fields[at + 1] + fields[at + 2]) as usize];
    let sets = |at: usize| format!("{} {}", fields[at], dash(lent(at)));
    let complete = match (kind, fields[3]) {
        (0, 0) => "-",
        (1, 0) => "0",
        (1, 1) => "1",
        other => panic!("kind and complete_representation: {other:?}"),
    };
    let trailer = match fields[11] {
        0 => "none".to_string(),
        1 => "absent".to_string(),
        2 => format!("{} {} {} {}", fields[12], fields[13], fields[14], sets(15)),
        other => panic!("unknown trailer: {other}"),
    };
    assert!(fields[11] == 2 || fields[12..] == [0; 6], "no trailer, and its numbers are not 0");
    // Written again, it is the same bytes.
    let mut again = vec![CANARY; bytes.len()];
    let count = C::write_record(kind, &fields, [lent(5), lent(8), lent(15)], &mut again).count;
    assert_eq!((count as usize, &again[..]), (bytes.len(), bytes), "written again");
    let [profile, compatibility, level, _, size, ..] = fields;
    format!("OK {profile} {compatibility} {level} {complete} {size} {} {} {trailer}", sets(5), sets(8))
}

fn write_answer<C: Calls>(kind: u32, room: usize, words: &[&str]) -> String {
    let [profile, compatibility, level, complete, size_less_one, ref sets @ ..] = *words else {
        panic!("short request: {words:?}")
    };
    let [sequences, sequence, pictures, picture, ref rest @ ..] = *sets else { panic!("short request: {words:?}") };
    let (trailer, values, extension) = match *rest {
        ["none"] => (0, [0; 4], Vec::new()),
        ["absent"] => (1, [0; 4], Vec::new()),
        [chroma, luma, depth, count, extension] => {
            (2, [number(chroma), number(luma), number(depth), number(count)], hex(extension))
        }
        _ => panic!("unknown trailer: {rest:?}"),
    };
    let mut fields = [0; FIELDS];
    for (at, word) in [(0, profile), (1, compatibility), (2, level), (3, complete), (5, sequences), (8, pictures)] {
        fields[at] = number(word);
    }
    fields[4] = number::<u64>(size_less_one).saturating_add(1);
    fields[11] = trailer;
    fields[12..16].copy_from_slice(&values);
    let mut out = vec![CANARY; room];
    let answer = C::write_record(kind, &fields, [&hex(sequence), &hex(picture), &extension], &mut out);
    written(&answer, &out, "")
}

fn number<T: std::str::FromStr>(word: &str) -> T {
    word.parse().unwrap_or_else(|_| panic!("not a number: {word}"))
}

/// A kind or length size; one of 2^32 or more becomes the largest, which is out of range too.
fn small(word: &str) -> u32 {
    number::<u64>(word).min(u32::MAX as u64) as u32
}

fn hex(word: &str) -> Vec<u8> {
    if word == "-" {
        return Vec::new();
    }
    assert!(word.len() & 1 == 0, "odd number of digits: {word}");
    (0..word.len()).step_by(2).map(|at| u8::from_str_radix(&word[at..at + 2], 16).unwrap()).collect()
}

/// Bytes in hexadecimal, `-` for none.
fn dash(bytes: &[u8]) -> String {
    if bytes.is_empty() {
        return "-".to_string();
    }
    bytes.iter().map(|byte| format!("{byte:02x}")).collect()
}
