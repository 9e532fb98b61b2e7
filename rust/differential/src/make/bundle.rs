//! Bundles: tracks, references and samples, with extractors aimed at units that are there.

use super::record::make_record;
use super::sample::{make_sample, MadeSample, Manner};
use super::{patch, put, AVC, SVC};
use crate::random::Random;

pub struct Track {
    pub kind: u8,
    pub length_size: usize,
    pub record: Vec<u8>,
    pub links: Vec<usize>,
}

pub struct Entry {
    pub track: usize,
    pub time: u64,
    pub sample: MadeSample,
}

/// A bundle, good or damaged.
pub fn make_bundle(random: &mut Random) -> Vec<u8> {
    let damaged = random.once_in(2);
    let tracks = make_tracks(random, damaged);
    let (references, tracks) = make_references(random, tracks);
    let mut entries = make_samples(random, &tracks, damaged);
    aim_all(random, &tracks, &mut entries, damaged);
    if damaged && random.once_in(4) && !entries.is_empty() {
        let at = random.below(entries.len());
        random.damage(&mut entries[at].sample.bytes);
    }
    let (mut bytes, sections) = lay_out(&tracks, &references, &entries);
    if damaged && random.once_in(3) {
        damage_sections(random, &mut bytes, &sections);
    }
    bytes
}

fn make_tracks(random: &mut Random, damaged: bool) -> Vec<Track> {
    let count = if random.once_in(50) { 16 } else { random.pick(&[1, 2, 2, 2, 3, 3, 4]) };
    let common = random.pick(&[1, 2, 4]);
    (0..count)
        .map(|index| {
            let kind = if index == 0 && !random.once_in(3) { AVC } else { random.pick(&[AVC, SVC, SVC]) };
            let length_size = if random.once_in(8) { random.pick(&[1, 2, 4]) } else { common };
            let mut record = make_record(random, kind, length_size).spell();
            if damaged && random.once_in(12) {
                random.damage(&mut record);
            }
            Track { kind, length_size, record, links: Vec::new() }
        })
        .collect()
}

fn make_references(random: &mut Random, mut tracks: Vec<Track>) -> (Vec<(usize, usize)>, Vec<Track>) {
    let mut references = Vec::new();
    let count = if random.once_in(50) { 64 } else { random.between(1, 3 * tracks.len()) };
    for _ in 0..count {
        // Mostly from the later tracks to the first.
        let from = if random.once_in(3) { random.below(tracks.len()) } else { tracks.len() - 1 };
        let to = if random.once_in(3) { random.below(tracks.len()) } else { 0 };
        if from != to && tracks[from].length_size == tracks[to].length_size {
            references.push((from, to));
            tracks[from].links.push(to);
        }
    }
    (references, tracks)
}

fn make_samples(random: &mut Random, tracks: &[Track], damaged: bool) -> Vec<Entry> {
    let mut entries = Vec::new();
    let most = if random.once_in(200) { 150 } else { 5 };
    let base = random.pick(&[0, 0, 0, 1 << 40, u64::MAX - 400]);
    for (index, track) in tracks.iter().enumerate() {
        let mut time = base + random.pick(&[0, 0, 0, 0, 1, 3]);
        let count = if random.once_in(6) { 0 } else { random.between(1, most) };
        for _ in 0..count {
            let manner = Manner {
                kind: track.kind,
                length_size: track.length_size,
                most_units: if track.length_size == 1 { 6 } else { 10 },
                linked: !track.links.is_empty() && random.below(4) != 0,
                faults: damaged && random.once_in(3),
            };
            entries.push(Entry { track: index, time, sample: make_sample(random, &manner) });
            time += random.pick(&[1, 1, 2]);
        }
    }
    entries
}

/// Fills in the fields of every extractor.
fn aim_all(random: &mut Random, tracks: &[Track], entries: &mut [Entry], damaged: bool) {
    for own in 0..entries.len() {
        for index in 0..entries[own].sample.extractors.len() {
            let at = entries[own].sample.extractors[index];
            let track = &tracks[entries[own].track];
            let mut fields = aim(random, track, entries, own);
            if damaged && random.once_in(10) {
                spoil(random, &mut fields);
            }
            let size = track.length_size;
            let bytes = &mut entries[own].sample.bytes;
            if at + 6 + 2 * size <= bytes.len() {
                bytes[at + 4] = fields.0;
                bytes[at + 5] = fields.1 as u8;
                patch(bytes, at + 6, fields.2, size);
                patch(bytes, at + 6 + size, fields.3, size);
            }
        }
    }
}

/// track_ref_index, sample_offset, data_offset, data_length
type Aim = (u8, i8, u64, u64);

/// Changes one field.
fn spoil(random: &mut Random, aim: &mut Aim) {
    let far = random.pick(&[1, 1, 2, 3, u64::MAX, 200, 1 << 15, 0xFFFF_FFF0]);
    match random.below(5) {
        0 => aim.0 = random.pick(&[0, aim.0.wrapping_add(1), 255]),
        1 => aim.1 = random.byte() as i8,
        2 => aim.2 = aim.2.wrapping_add(far),
        _ => aim.3 = aim.3.wrapping_add(far),
    }
}

/// Aims at units that are there; gives up (a field that is refused) where there are none.
fn aim(random: &mut Random, track: &Track, entries: &[Entry], own: usize) -> Aim {
    if track.links.is_empty() {
        return (0, 0, 0, 0);
    }
    let link = random.below(track.links.len());
    let linked: Vec<&Entry> = entries.iter().filter(|entry| entry.track == track.links[link]).collect();
    let before = linked.iter().filter(|entry| entry.time <= entries[own].time).count();
    if before == 0 {
        return (link as u8 + 1, random.below(2) as i8, 0, 0);
    }
    let steps = random.pick(&[0, 0, 0, 0, -1, 1, -2]);
    let named = (before as isize - 1 + steps).clamp(0, linked.len() as isize - 1);
    let offset = named - (before as isize - 1);
    let sample = &linked[named as usize].sample;
    let from_included = !sample.included.is_empty() && random.once_in(2);
    let (start, length) = if from_included { included_span(random, sample) } else { span(random, sample) };
    let limit = if track.length_size == 1 { 255 } else { usize::MAX };
    let (data_offset, data_length) = if start.max(length) > limit { (0, 0) } else { (start, length) };
    (link as u8 + 1, offset.clamp(-128, 127) as i8, data_offset as u64, data_length as u64)
}

/// One unit or several of a sample, mostly without extractors among them. Now and then the end is in an aggregator.
fn span(random: &mut Random, sample: &MadeSample) -> (usize, usize) {
    let units = sample.extracting.len();
    if units == 0 {
        return (0, 0);
    }
    let mut first = random.below(units);
    for _ in 0..4 {
        if sample.extracting[first] {
            first = random.below(units);
        }
    }
    let mut last = first + 1;
    while last < units && (!sample.extracting[last] || random.once_in(20)) && random.once_in(2) {
        last += 1;
    }
    let start = sample.borders[first];
    let mut end = sample.borders[last];
    if random.once_in(20) {
        end = border_after(random, sample, start);
    }
    (start, if random.once_in(2) { 0 } else { end - start })
}

/// From a unit that an aggregator includes: that unit; several, mostly up to a border of the same aggregator, its end
/// too. Now and then up to any border after it, or beside one. Now and then no unit starts there.
fn included_span(random: &mut Random, sample: &MadeSample) -> (usize, usize) {
    let borders = &sample.included[random.below(sample.included.len())];
    let last = borders.len() - 1;
    let first = random.below(last);
    let start = borders[first];
    let end = match random.below(12) {
        0..=2 => start,
        3..=5 => borders[random.between(first + 1, last)],
        6 | 7 => borders[last],
        8 | 9 => border_after(random, sample, start),
        10 => borders[random.between(first + 1, last)] + random.pick(&[0, 2]) - 1,
        _ => return (start + random.between(1, borders[last] - start), random.pick(&[0, 1, borders[last] - start])),
    };
    (start, end - start)
}

/// Any border after `start`, of a top-level or an included unit.
fn border_after(random: &mut Random, sample: &MadeSample, start: usize) -> usize {
    let borders = sample.borders.iter().chain(sample.included.iter().flatten());
    let after: Vec<usize> = borders.copied().filter(|&border| border > start).collect();
    random.pick(&after)
}

/// The bundle's bytes and where its four sections start, and its end.
pub fn lay_out(tracks: &[Track], references: &[(usize, usize)], entries: &[Entry]) -> (Vec<u8>, [usize; 5]) {
    let mut sections = [0; 5];
    let mut bytes = vec![tracks.len() as u8];
    for track in tracks {
        bytes.push(track.kind);
        put(&mut bytes, track.record.len() as u64, 2);
        bytes.extend_from_slice(&track.record);
    }
    sections[1] = bytes.len();
    bytes.push(references.len() as u8);
    for (from, to) in references {
        bytes.extend([*from as u8 + 1, *to as u8 + 1]);
    }
    sections[2] = bytes.len();
    put(&mut bytes, entries.len() as u64, 2);
    for entry in entries {
        bytes.push(entry.track as u8 + 1);
        put(&mut bytes, entry.time, 8);
        put(&mut bytes, entry.sample.bytes.len() as u64, 4);
    }
    sections[3] = bytes.len();
    let sum: usize = entries.iter().map(|entry| entry.sample.bytes.len()).sum();
    put(&mut bytes, sum as u64, 4);
    for entry in entries {
        bytes.extend_from_slice(&entry.sample.bytes);
    }
    sections[4] = bytes.len();
    (bytes, sections)
}

/// Changes bytes of one section, or cuts the bundle, or adds to it.
fn damage_sections(random: &mut Random, bytes: &mut Vec<u8>, sections: &[usize; 5]) {
    match random.below(8) {
        0 => random.damage(bytes),
        1 => bytes.truncate(random.below(bytes.len())),
        2 => {
            // A count, by its first or only byte.
            let at = sections[random.below(4)];
            bytes[at] = random.pick(&[0, 1, 2, 16, 17, 64, 65, 255]);
        }
        choice => {
            let section = choice % 4;
            for _ in 0..random.between(1, 2) {
                random.change_byte(&mut bytes[sections[section]..sections[section + 1]]);
            }
        }
    }
}
