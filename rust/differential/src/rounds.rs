//! Rounds: a thing is made, and several calls are made on it.

use peer::calls;

use crate::call::Call;
use crate::make::blocks::make_blocks;
use crate::make::bundle::make_bundle;
use crate::make::fields::{make_fields, MadeFields};
use crate::make::long::{make_long, Long};
use crate::make::record::make_bytes;
use crate::make::sample::{make_sample, Manner};
use crate::make::stream::make_stream;
use crate::places;
use crate::random::Random;
use crate::range_rounds::{fixed_range, range_around, range_bundle};
use crate::rooms::room;
use crate::salvage_rounds::{fixed_salvage, salvage_bundle, salvage_one, salvage_round};

/// A kind: mostly 0 or 1, sometimes one that only looks so in fewer bits.
pub fn kind(random: &mut Random) -> u32 {
    match random.below(24) {
        0 => 2,
        1 => 256 + random.below(2) as u32,
        2 => random.next() as u32,
        _ => random.below(2) as u32,
    }
}

/// One round of a run.
pub fn round(random: &mut Random, ask: &mut impl FnMut(Call)) {
    if random.once_in(13) {
        return long_round(random, ask);
    }
    if random.once_in(15) {
        return blocks_round(random, ask);
    }
    match random.below(10) {
        0 => record_round(random, ask),
        1 => fields_round(random, ask),
        2 => sample_round(random, ask),
        3 => stream_round(random, ask),
        4 => salvage_round(random, ask),
        _ => {
            let bundle = make_bundle(random);
            bundle_round(random, &bundle, ask);
        }
    }
}

fn record_round(random: &mut Random, ask: &mut impl FnMut(Call)) {
    let kind = kind(random);
    let record = make_bytes(random, kind as u8 & 1);
    let room = random.pick(&[18, 18, 18, 18, 19, 25, 17, 1, 0]);
    ask(Call::ReadRecord { kind, record: &record, room });
}

fn fields_round(random: &mut Random, ask: &mut impl FnMut(Call)) {
    let kind = kind(random);
    let fields = make_fields(random, kind as u8 & 1);
    for _ in 0..2 {
        let needed = record_length(kind, &fields);
        let room = room(random, needed);
        ask(Call::WriteRecord { kind, fields: &fields, room });
    }
}

/// The length of the record, or 0.
fn record_length(kind: u32, fields: &MadeFields) -> u64 {
    let sets = peer::record_writer::LentSets {
        sequence: &fields.sequence,
        picture: &fields.picture,
        extension: &fields.extension,
    };
    let mut out = vec![0; 64 + fields.sequence.len() + fields.picture.len() + fields.extension.len()];
    calls::write_record(kind, &fields.numbers, sets, &mut out).count
}

fn sample_round(random: &mut Random, ask: &mut impl FnMut(Call)) {
    let kind = kind(random);
    let size = random.pick(&[1, 2, 4]);
    let manner = Manner {
        kind: kind as u8 & 1,
        length_size: size,
        most_units: random.pick(&[1, 3, 8, 30]),
        linked: random.once_in(2),
        faults: random.once_in(2),
    };
    let mut sample = make_sample(random, &manner).bytes;
    if random.once_in(3) {
        random.damage(&mut sample);
    }
    let length_size = length_size(random, size as u32);
    ask(Call::CheckSample { kind, length_size, sample: &sample });
    for other in [1, 2, 4] {
        ask(Call::CheckSample { kind: kind & 1, length_size: other, sample: &sample });
    }
    salvage_one(random, kind, length_size, &sample, ask);
}

/// Mostly this length size, sometimes one that is none or only looks so in fewer bits.
pub fn length_size(random: &mut Random, size: u32) -> u32 {
    match random.below(24) {
        0 => 0,
        1 => 3,
        2 => 256 + size,
        3 => random.next() as u32,
        _ => size,
    }
}

fn stream_round(random: &mut Random, ask: &mut impl FnMut(Call)) {
    let stream = make_stream(random);
    read_stream(random, &stream, ask);
}

/// A byte stream read with every length size, in exact room, in one byte less, and in another.
fn read_stream(random: &mut Random, stream: &[u8], ask: &mut impl FnMut(Call)) {
    for size in [1, 2, 4] {
        let needed = sample_length(size, stream);
        let length_size = length_size(random, size);
        for room in [needed as usize, needed.saturating_sub(1) as usize, room(random, needed)] {
            ask(Call::FromStream { length_size, stream, room });
        }
    }
}

/// The stream of a sample as the library writes it, read back. Answers the stream as the peer writes it, if it does.
pub fn stream_back(bundle: &[u8], sample: u64, length: usize, ask: &mut impl FnMut(Call)) -> Option<Vec<u8>> {
    let mut stream = vec![0; length];
    if calls::stream_sample(bundle, sample, &mut stream).number != 0 {
        return None;
    }
    for length_size in [1, 2, 4] {
        ask(Call::ReadBack { length_size, bundle, sample, length });
    }
    Some(stream)
}

/// All calls on a bundle, for random samples, units and rooms.
fn bundle_round(random: &mut Random, bundle: &[u8], ask: &mut impl FnMut(Call)) {
    ask(Call::CheckBundle { bundle });
    let samples = peer::bundle::Bundle::read(bundle).map_or(2, |bundle| bundle.sample_count()) as u64;
    let needed = 13 * samples;
    ask(Call::Audit { bundle, room: room(random, needed) });
    for _ in 0..3 {
        let sample = random.near(samples);
        let needed = resolved_length(bundle, sample);
        ask(Call::Resolve { bundle, sample, room: room(random, needed) });
        ask(Call::Stream { bundle, sample, room: room(random, needed) });
        if random.once_in(4) {
            if let Some(stream) = stream_back(bundle, sample, needed as usize, ask) {
                read_stream(random, &stream, ask);
            }
        }
        let units = unit_count(bundle, sample);
        ask(Call::Unit { bundle, sample, unit: random.near(units) });
    }
    for _ in 0..2 {
        range_bundle(random, bundle, samples, ask);
    }
    contents_round(random, bundle, ask);
    let sample = random.near(samples);
    salvage_bundle(random, bundle, sample, ask);
    for _ in 0..2 {
        // The first samples are named most.
        let sample = if random.once_in(2) { random.near(samples) } else { random.between(1, 4) as u64 };
        let needed = names_length(bundle, sample);
        ask(Call::Names { bundle, sample, room: room(random, needed) });
    }
}

/// The calls that find base samples, on a bundle with long linked tracks.
fn long_round(random: &mut Random, ask: &mut impl FnMut(Call)) {
    let Long { bytes, own } = make_long(random);
    let bundle = &bytes;
    let samples = calls::counts(bundle).values[2];
    if random.once_in(3) {
        ask(Call::Audit { bundle, room: room(random, 13 * samples) });
    }
    // From a sample before those with extractors to the last of them, where there is one.
    range_around(bundle, own.start().saturating_sub(1).max(1), *own.end(), ask);
    let mut named = 0;
    for sample in own {
        let needed = resolved_length(bundle, sample);
        ask(Call::Resolve { bundle, sample, room: room(random, needed) });
        let extractors = places::of(bundle, sample).extractors;
        for &extractor in &extractors {
            ask(Call::Named { bundle, sample, extractor });
        }
        named = calls::sample_named(bundle, sample, extractors[0]).values[0];
    }
    // The list of what the last of them names, else any.
    let sample = if named == 0 { random.near(samples) } else { named };
    let needed = names_length(bundle, sample);
    ask(Call::Names { bundle, sample, room: room(random, needed) });
}

/// All calls on a bundle with samples longer than a block.
fn blocks_round(random: &mut Random, ask: &mut impl FnMut(Call)) {
    let bundle = make_blocks(random);
    let samples = calls::counts(&bundle).values[2] as usize;
    ask(Call::Audit { bundle: &bundle, room: 13 * samples });
    bundle_round(random, &bundle, ask);
}

/// What is in the bundle, the units of its samples, and what extractors name.
fn contents_round(random: &mut Random, bundle: &[u8], ask: &mut impl FnMut(Call)) {
    ask(Call::Counts { bundle });
    let [tracks, references, samples, _] = calls::counts(bundle).values;
    ask(Call::Track { bundle, track: random.near(tracks) });
    ask(Call::Reference { bundle, reference: random.near(references) });
    for _ in 0..2 {
        ask(Call::Sample { bundle, sample: random.near(samples) });
    }
    for _ in 0..2 {
        let sample = random.near(samples);
        let needed = 2 * unit_count(bundle, sample);
        ask(Call::Units { bundle, sample, room: room(random, needed) });
    }
    // Later samples have the extractors.
    for _ in 0..3 {
        let sample = if random.once_in(2) {
            random.near(samples)
        } else {
            samples - random.below(3).min(samples as usize) as u64
        };
        let places = places::of(bundle, sample);
        let place = match random.below(8) {
            0 => random.near(calls::sample(bundle, sample).values[3]),
            1 | 2 if !places.units.is_empty() => random.pick(&places.units),
            _ if !places.extractors.is_empty() => random.pick(&places.extractors),
            _ => random.below(40) as u64,
        };
        ask(Call::Named { bundle, sample, extractor: place });
    }
}

/// All calls on a fixed bundle: samples 0 to 4 and numbers that only look like 1, exact rooms and one byte less.
pub fn fixed_round(bundle: &[u8], ask: &mut impl FnMut(Call)) {
    ask(Call::CheckBundle { bundle });
    let samples = peer::bundle::Bundle::read(bundle).map_or(0, |bundle| bundle.sample_count());
    for room in [13 * samples, (13 * samples).saturating_sub(1), 13 * samples + 5] {
        ask(Call::Audit { bundle, room });
    }
    fixed_range(bundle, samples as u64, ask);
    for sample in [0, 1, 2, 3, 4, 1 << 32 | 1] {
        let needed = resolved_length(bundle, sample) as usize;
        for room in [needed, needed.saturating_sub(1), needed + 3] {
            ask(Call::Resolve { bundle, sample, room });
            ask(Call::Stream { bundle, sample, room });
        }
        stream_back(bundle, sample, needed, ask);
        let needed = names_length(bundle, sample) as usize;
        for room in [needed, needed.saturating_sub(1), needed + 3] {
            ask(Call::Names { bundle, sample, room });
        }
        fixed_salvage(bundle, sample, ask);
        for unit in [0, 1, 2, 1 << 32 | 1] {
            ask(Call::Unit { bundle, sample, unit });
        }
        let needed = 2 * unit_count(bundle, sample) as usize;
        for room in [needed, needed.saturating_sub(1), needed + 3] {
            ask(Call::Units { bundle, sample, room });
        }
        // Every place of a small sample and one past it, and places that only look like 0.
        let length = calls::sample(bundle, sample).values[3];
        for extractor in (0..=length.min(MOST_PLACES)).chain([length, length + 1, 1 << 32, u64::MAX]) {
            ask(Call::Named { bundle, sample, extractor });
        }
    }
    fixed_contents(bundle, ask);
}

/// The calls on one sample of a fixed bundle, in exact room; of its extractors the first.
pub fn fixed_sample_round(bundle: &[u8], sample: u64, ask: &mut impl FnMut(Call)) {
    let (units, bytes) = delivered(bundle, sample);
    ask(Call::Resolve { bundle, sample, room: bytes as usize });
    ask(Call::Stream { bundle, sample, room: bytes as usize });
    ask(Call::Units { bundle, sample, room: 2 * units as usize });
    for unit in [1, units] {
        ask(Call::Unit { bundle, sample, unit });
    }
    ask(Call::Named { bundle, sample, extractor: 0 });
    let names = names_length(bundle, sample) as usize;
    ask(Call::Names { bundle, sample, room: names });
    // No change is listed where the sample is well formed.
    let length = calls::sample(bundle, sample).values[3] as usize;
    ask(Call::Salvage { bundle, sample, rooms: [length, 0, names] });
}

/// Places that are asked one by one in a fixed bundle.
const MOST_PLACES: u64 = 24;

/// What is in a fixed bundle: numbers 0, 1, 2, the last, past it, and those that only look like 1.
fn fixed_contents(bundle: &[u8], ask: &mut impl FnMut(Call)) {
    ask(Call::Counts { bundle });
    let [tracks, references, samples, _] = calls::counts(bundle).values;
    let numbers = |last: u64| [0, 1, 2, last, last + 1, 257, 1 << 32 | 1, u64::MAX];
    for track in numbers(tracks) {
        ask(Call::Track { bundle, track });
    }
    for reference in numbers(references) {
        ask(Call::Reference { bundle, reference });
    }
    for sample in numbers(samples) {
        ask(Call::Sample { bundle, sample });
    }
}

/// How long the sample's resolved units are; 0 where it is refused.
fn resolved_length(bundle: &[u8], sample: u64) -> u64 {
    delivered(bundle, sample).1
}

/// How long the sample is that a byte stream is read into; 0 where it is refused.
fn sample_length(length_size: u32, stream: &[u8]) -> u64 {
    let mut out = vec![0; stream.len() + stream.len() / 4];
    calls::sample_from_stream(length_size, stream, &mut out).count
}

/// A fixed byte stream: exact room, one byte less, more, with each length size.
pub fn fixed_stream(stream: &[u8], ask: &mut impl FnMut(Call)) {
    for length_size in [1, 2, 4] {
        let needed = sample_length(length_size, stream) as usize;
        for room in [needed, needed.saturating_sub(1), needed + 3] {
            ask(Call::FromStream { length_size, stream, room });
        }
    }
}

/// How many units the sample delivers; 0 where it is refused.
fn unit_count(bundle: &[u8], sample: u64) -> u64 {
    delivered(bundle, sample).0
}

/// Units and resolved bytes of a sample; none where it is refused.
fn delivered(bundle: &[u8], sample: u64) -> (u64, u64) {
    let Ok(bundle) = peer::bundle::Bundle::read(bundle) else { return (0, 0) };
    let Ok(number) = bundle.number(sample) else { return (0, 0) };
    let (mut units, mut bytes) = (0, 0);
    let mut forms = peer::forms::Forms::new(&bundle);
    let result = peer::deliver::deliver(&bundle, &mut forms, number, &mut |part| {
        units += 1;
        bytes += 4 + part.length as u64;
    });
    match result {
        Ok(()) => (units, bytes),
        Err(_) => (0, 0),
    }
}

/// How long the sample's naming list is.
fn names_length(bundle: &[u8], sample: u64) -> u64 {
    let mut out = vec![0; 6 * bundle.len()];
    calls::naming_list(bundle, sample, &mut out).count
}
