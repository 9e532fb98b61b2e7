//! Bundles with samples longer than a block, to copy from: units, aggregators and extractors that start and end at the
//! blocks' borders or lie across them, and copies that do.

use super::bundle::{lay_out, Entry, Track};
use super::record::make_record;
use super::sample::{cover, header, Covering, MadeSample, Manner, AGGREGATOR, EXTRACTOR};
use super::{patch, put, AVC, SVC};
use crate::random::Random;

/// The library keeps a mark for every so many bytes of a sample.
pub const BLOCK: usize = 1280;

/// Bytes on either side of a block's border that count as near to it.
const NEAR: usize = 6;

/// A bundle: tracks with samples to copy from, now and then empty or ill-formed, and a track with extractors.
pub fn make_blocks(random: &mut Random) -> Vec<u8> {
    let length_size = random.pick(&[1, 2, 2, 2, 4, 4, 4]);
    let named_tracks = random.pick(&[1, 1, 2]);
    let links: Vec<usize> = (0..random.between(1, 3)).map(|_| random.below(named_tracks)).collect();
    let mut references: Vec<(usize, usize)> = links.iter().map(|&to| (named_tracks, to)).collect();
    if random.once_in(2) {
        references.push((0, named_tracks));
    }
    let most = if random.once_in(30) { 60 } else { 4 };
    let mut entries = Vec::new();
    for track in 0..named_tracks {
        for time in 0..random.between(1, most) as u64 {
            entries.push(Entry { track, time, sample: make_named(random, length_size) });
        }
    }
    let named = entries.len();
    let (mut time, count) = (0, random.between(2, 8));
    for _ in 0..count {
        time += random.between(1, 2) as u64;
        let sample = make_extracting(random, &links, &entries[..named], length_size, time);
        entries.push(Entry { track: named_tracks, time, sample });
    }
    let tracks: Vec<Track> = (0..=named_tracks)
        .map(|track| {
            let kind = if track == named_tracks { SVC } else { random.pick(&[AVC, SVC]) };
            let record = make_record(random, kind, length_size).spell();
            Track { kind, length_size, record, links: Vec::new() }
        })
        .collect();
    lay_out(&tracks, &references, &entries).0
}

/// A sample of some blocks, mostly: of many small units, or of some that often end near borders. One in four has
/// extractors.
fn make_named(random: &mut Random, length_size: usize) -> MadeSample {
    let extracting = random.once_in(4);
    let small = random.once_in(2);
    let length = match random.below(10) {
        0 => 0,
        1 => random.below(BLOCK),
        2..=5 => BLOCK * random.between(1, 4) + random.between(0, 2 * NEAR) - NEAR,
        _ => random.between(BLOCK, 6 * BLOCK),
    };
    let (mut sample, mut coverings) = (MadeSample::default(), Vec::new());
    while sample.bytes.len() < length {
        let start = sample.bytes.len();
        match random.below(if small { 40 } else { 8 }) {
            0 => {
                coverings.push(Covering { unit: sample.borders.len(), at: start + length_size + 4 });
                put_aggregator(random, &mut sample, length_size, extracting, small);
            }
            1 if extracting => put_extractor(random, &mut sample, length_size),
            _ => put_plain(random, &mut sample.bytes, length_size, small),
        }
        sample.borders.push(start);
    }
    sample.borders.push(sample.bytes.len());
    let manner = Manner { kind: AVC, length_size, most_units: 0, linked: false, faults: false };
    for covering in coverings {
        cover(random, &manner, &mut sample, covering);
    }
    if random.once_in(8) && length > 0 {
        spoil(random, &mut sample.bytes);
    }
    sample
}

/// A change in the last bytes, or anywhere.
fn spoil(random: &mut Random, bytes: &mut Vec<u8>) {
    let end = bytes.len();
    match random.below(3) {
        0 => bytes.truncate(end - 1),
        1 => bytes[end - 1] |= 0x80,
        _ => random.change_byte(bytes),
    }
}

/// Bytes of a unit with its length, from `least` to `most`, where it is put at `at`. Often it ends near a block's border;
/// where units are small, as soon as that is so near that a small one may.
fn length_at(random: &mut Random, at: usize, least: usize, most: usize, small: bool) -> usize {
    let to_border = BLOCK - at % BLOCK;
    if small && to_border > 2 * NEAR {
        return least + random.below(3);
    }
    let beside = random.between(0, 2 * NEAR);
    let length = match random.below(8) {
        0 | 1 => (to_border + beside).saturating_sub(NEAR),
        2 => to_border + BLOCK * random.between(1, 2) + beside - NEAR,
        3 => random.between(least, 300),
        _ => least + random.below(20),
    };
    length.clamp(least, most)
}

/// The most bytes of a unit here, with its length. With L = 1 two of them fit into an aggregator.
fn longest(length_size: usize) -> usize {
    if length_size == 1 {
        120
    } else {
        4 * BLOCK
    }
}

/// A unit of a type that an aggregator may include in any track.
fn put_plain(random: &mut Random, bytes: &mut Vec<u8>, length_size: usize, small: bool) {
    let length = length_at(random, bytes.len(), length_size + 1, longest(length_size), small) - length_size;
    put(bytes, length as u64, length_size);
    let unit_type = if length < 4 { random.pick(&[6, 7, 12]) } else { random.pick(&[6, 9, 14, 20]) };
    let start = bytes.len();
    bytes.extend(random.bytes(length));
    bytes[start] = unit_type | (random.byte() & 3) << 5;
}

/// An extractor that goes by the first reference and copies one unit at the front.
fn put_extractor(random: &mut Random, sample: &mut MadeSample, length_size: usize) {
    put(&mut sample.bytes, 6 + 2 * length_size as u64, length_size);
    sample.extractors.push(sample.bytes.len());
    sample.bytes.extend(header(random, EXTRACTOR));
    sample.bytes.extend([1, 0]);
    put(&mut sample.bytes, 0, 2 * length_size);
}

/// An aggregator that covers nothing yet, with included units up to about a length that may be several blocks.
fn put_aggregator(random: &mut Random, sample: &mut MadeSample, length_size: usize, extracting: bool, small: bool) {
    let start = sample.bytes.len();
    put(&mut sample.bytes, 0, length_size);
    sample.bytes.extend(header(random, AGGREGATOR));
    put(&mut sample.bytes, 0, length_size);
    let length = if length_size == 1 { longest(1) } else { random.pick(&[0, 60, 300, BLOCK, 3 * BLOCK]) };
    let mut borders = Vec::new();
    while sample.bytes.len() - start < length {
        borders.push(sample.bytes.len());
        if extracting && random.once_in(10) {
            put_extractor(random, sample, length_size);
        } else {
            put_plain(random, &mut sample.bytes, length_size, small);
        }
    }
    let size = sample.bytes.len() - start - length_size;
    patch(&mut sample.bytes, start, size as u64, length_size);
    if !borders.is_empty() {
        borders.push(sample.bytes.len());
        sample.included.push(borders);
    }
}

/// Extractors with units between them, now and then longer than a block.
fn make_extracting(random: &mut Random, links: &[usize], named: &[Entry], length_size: usize, time: u64) -> MadeSample {
    let mut sample = MadeSample::default();
    let small = !random.once_in(8);
    for _ in 0..random.between(1, 4) {
        if random.once_in(3) {
            put_plain(random, &mut sample.bytes, length_size, small);
        }
        put_extractor(random, &mut sample, length_size);
        let at = sample.bytes.len() - 2 - 2 * length_size;
        let index = random.below(links.len());
        let linked: Vec<&Entry> = named.iter().filter(|entry| entry.track == links[index]).collect();
        let base = linked.iter().filter(|entry| entry.time <= time).count() - 1;
        let chosen = random.below(linked.len());
        sample.bytes[at] = index as u8 + 1;
        sample.bytes[at + 1] = (chosen as i64 - base as i64) as u8;
        let (offset, length) = aim(random, &linked[chosen].sample);
        if length_size > 1 || offset.max(length) < 256 {
            patch(&mut sample.bytes, at + 2, offset as u64, length_size);
            patch(&mut sample.bytes, at + 2 + length_size, length as u64, length_size);
        }
    }
    sample
}

/// Where a copy starts and how long it is: from a top-level unit or an included one, mostly up to a border that it may
/// end on.
fn aim(random: &mut Random, sample: &MadeSample) -> (usize, usize) {
    let included = !sample.included.is_empty() && random.once_in(2);
    let own = if included { &sample.included[random.below(sample.included.len())] } else { &sample.borders };
    let last = own.len() - 1;
    if last == 0 {
        return (0, random.below(3));
    }
    let start = one_near(random, &own[..last]);
    let after: Vec<usize> = own.iter().copied().filter(|&border| border > start).collect();
    let end = match random.below(16) {
        0..=3 => start,
        4 => own[last],
        5 => sample.bytes.len() + random.below(2),
        6 => one_near(random, &after) + random.pick(&[0, 2]) - 1,
        7 => {
            let all = sample.borders.iter().chain(sample.included.iter().flatten());
            let all: Vec<usize> = all.copied().filter(|&border| border > start).collect();
            one_near(random, &all)
        }
        8 => return (start + 1, random.below(2) * (own[last] - start)),
        _ => one_near(random, &after),
    };
    (start, end.saturating_sub(start))
}

/// One of these places, mostly one near a block's border.
fn one_near(random: &mut Random, places: &[usize]) -> usize {
    let near = |place: usize| (place + NEAR) % BLOCK <= 2 * NEAR && place >= BLOCK - NEAR;
    let nearby: Vec<usize> = places.iter().copied().filter(|&place| near(place)).collect();
    if nearby.is_empty() || random.once_in(3) {
        random.pick(places)
    } else {
        random.pick(&nearby)
    }
}
