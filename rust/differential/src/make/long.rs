//! Bundles with long linked tracks, to find base samples in: few samples with extractors, at times before, among and
//! after those of the linked tracks.

use std::ops::RangeInclusive;

use super::bundle::{lay_out, Entry, Track};
use super::record::make_record;
use super::sample::MadeSample;
use super::{put, AVC, SVC};
use crate::random::Random;

/// A bundle, and the numbers of its samples with extractors.
pub struct Long {
    pub bytes: Vec<u8>,
    pub own: RangeInclusive<u64>,
}

const MOST_SAMPLES: usize = 700;
const LONGEST_STEP: u64 = 3;

/// Where times start: also before the limits of 32 and 63 bits, and so that the last is near the greatest.
const STARTS: [u64; 6] =
    [0, 1, 1000, (1 << 32) - 300, (1 << 63) - 300, u64::MAX - (MOST_SAMPLES as u64 + 1) * LONGEST_STEP];

/// A good bundle: a track with extractors among linked tracks of none to some hundred samples.
pub fn make_long(random: &mut Random) -> Long {
    let tracks = random.pick(&[2, 2, 2, 3]);
    let own = random.below(tracks);
    let length_size = random.pick(&[1, 2, 4]);
    let start = random.pick(&STARTS);
    let mut times: Vec<Vec<u64>> = (1..tracks).map(|_| linked_times(random, start)).collect();
    let near = own_times(random, &times);
    times.insert(own, near);
    let others: Vec<usize> = (0..tracks).filter(|&track| track != own).collect();
    let links: Vec<usize> = (0..random.between(1, 4)).map(|_| random.pick(&others)).collect();
    let mut entries = Vec::new();
    for (track, of_track) in times.iter().enumerate() {
        for &time in of_track {
            let bytes = if track == own {
                extractors(random, length_size, &links, &times, time)
            } else {
                plain(random, length_size)
            };
            entries.push(Entry { track, time, sample: MadeSample { bytes, ..MadeSample::default() } });
        }
    }
    let references: Vec<(usize, usize)> = links.iter().map(|&to| (own, to)).collect();
    let tracks: Vec<Track> = (0..tracks).map(|track| make_track(random, track == own, length_size)).collect();
    let before: usize = times[..own].iter().map(Vec::len).sum();
    let own = before as u64 + 1..=(before + times[own].len()) as u64;
    Long { bytes: lay_out(&tracks, &references, &entries).0, own }
}

fn make_track(random: &mut Random, own: bool, length_size: usize) -> Track {
    let kind = if own { SVC } else { AVC };
    let record = make_record(random, kind, length_size).spell();
    Track { kind, length_size, record, links: Vec::new() }
}

fn linked_times(random: &mut Random, start: u64) -> Vec<u64> {
    let count = match random.below(8) {
        0 => random.below(4),
        1 | 2 => random.between(4, 40),
        3 => (1 << random.between(3, 9)) + random.below(3) - 1,
        _ => random.between(41, MOST_SAMPLES),
    };
    let mut time = start + random.below(3) as u64;
    let mut times = Vec::new();
    for _ in 0..count {
        times.push(time);
        time += random.between(1, LONGEST_STEP as usize) as u64;
    }
    times
}

/// Times near those of the linked tracks, in order.
fn own_times(random: &mut Random, linked: &[Vec<u64>]) -> Vec<u64> {
    let near = |random: &mut Random| {
        let times = &linked[random.below(linked.len())];
        let (Some(first), Some(last)) = (times.first(), times.last()) else { return random.below(3000) as u64 };
        let beside = random.between(1, 3) as u64;
        match random.below(10) {
            0 => first.saturating_sub(beside),
            1 => last.saturating_add(beside),
            2 => random.pick(&[0, u64::MAX, *first, *last]),
            3..=6 => random.pick(times),
            _ => random.pick(times) + 1,
        }
    };
    let mut times: Vec<u64> = (0..random.between(1, 6)).map(|_| near(random)).collect();
    times.sort();
    times.dedup();
    times
}

/// One unit of two bytes, now and then none.
fn plain(random: &mut Random, length_size: usize) -> Vec<u8> {
    let mut bytes = Vec::new();
    if !random.once_in(20) {
        put(&mut bytes, 2, length_size);
        bytes.extend([0x65, random.byte()]);
    }
    bytes
}

/// Some extractors that copy the first unit of the sample named.
fn extractors(random: &mut Random, length_size: usize, links: &[usize], times: &[Vec<u64>], own: u64) -> Vec<u8> {
    let mut bytes = Vec::new();
    for _ in 0..random.between(1, 4) {
        let link = random.below(links.len());
        let index = if random.once_in(40) { random.pick(&[0, links.len() + 1, 255]) } else { link + 1 };
        put(&mut bytes, 6 + 2 * length_size as u64, length_size);
        bytes.extend([0x7F, 0x80, 0, 3, index as u8, sample_offset(random, &times[links[link]], own) as u8]);
        put(&mut bytes, 0, length_size);
        put(&mut bytes, 0, length_size);
    }
    bytes
}

/// None, a few, to either end or one past it, or any.
fn sample_offset(random: &mut Random, times: &[u64], own: u64) -> i8 {
    let before = times.iter().filter(|&&time| time <= own).count() as isize;
    let steps = match random.below(8) {
        0..=2 => 0,
        3 => random.between(0, 6) as isize - 3,
        4 => 1 - before - random.below(2) as isize,
        5 => times.len() as isize - before + random.below(2) as isize,
        _ => random.byte() as i8 as isize,
    };
    steps.clamp(-128, 127) as i8
}
