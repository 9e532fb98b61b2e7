//! Fixed cases, the same in every run: document 01's bench bundle and its neighbours, bundles at the limits, and every
//! start and length of a copy.

use crate::make::fields::MadeFields;
use crate::make::{patch, put, AVC, SVC};

/// B0: an AVC track with one unit, an SVC track with one extractor that copies it.
pub const B0: [u8; 68] = [
    0x02, 0x00, 0x00, 0x07, 0x01, 0x42, 0x00, 0x1E, 0xFC, 0xE0, 0x00, 0x01, 0x00, 0x07, 0x01, 0x53, 0x00, 0x1E, 0xFC,
    0x00, 0x00, 0x01, 0x02, 0x01, 0x00, 0x02, 0x01, 0, 0, 0, 0, 0, 0, 0, 0, 0, 0, 0, 3, 0x02, 0, 0, 0, 0, 0, 0, 0, 0,
    0, 0, 0, 9, 0, 0, 0, 0x0C, 0x02, 0x65, 0x88, 0x08, 0x7F, 0x80, 0x00, 0x03, 0x01, 0x00, 0x00, 0x00,
];
const HEAD: usize = 56;

/// The most bytes that a bundle may have.
const LONGEST: usize = 16_777_216;

/// B0 with these bytes of its two samples.
fn with_samples(first: &[u8], second: &[u8]) -> Vec<u8> {
    let mut bundle = B0[..HEAD].to_vec();
    patch(&mut bundle, 35, first.len() as u64, 4);
    patch(&mut bundle, 48, second.len() as u64, 4);
    patch(&mut bundle, 52, (first.len() + second.len()) as u64, 4);
    [&bundle, first, second].concat()
}

/// An extractor of L = 1 with these fields.
fn extractor(index: u8, offset: u8, data_offset: u8, data_length: u8) -> Vec<u8> {
    vec![0x08, 0x7F, 0x80, 0x00, 0x03, index, offset, data_offset, data_length]
}

/// Samples of L = 1, good and not, for either place in B0.
pub fn samples() -> Vec<Vec<u8>> {
    let plain: Vec<u8> = vec![0x02, 0x65, 0x88];
    let covering = |additional: u8| vec![0x05, 0x7E, 0x80, 0x00, 0x03, additional, 0x02, 0x65, 0x88];
    let mut nested = vec![0x0B, 0x7E, 0x80, 0x00, 0x03, 0x00, 0x05, 0x7E, 0x80, 0x00, 0x03, 0x00];
    let mut samples = vec![
        vec![],
        plain.clone(),
        [&plain[..], &plain, &plain].concat(),
        vec![0x00],
        vec![0x02, 0x65],
        vec![0x01, 0xE5],
        vec![0x03, 0x7F, 0x80, 0x00],
        vec![0x03, 0x74, 0x80, 0x00],
        vec![0x04, 0x7E, 0x80, 0x00, 0x03],
        vec![0x07, 0x7F, 0x80, 0x00, 0x03, 0x01, 0x00, 0x00],
        vec![0x08, 0x7E, 0x80, 0x00, 0x03, 0x00, 0x02, 0x65, 0x88],
        vec![0x08, 0x7E, 0x80, 0x00, 0x03, 0x00, 0x02, 0x67, 0x88],
        vec![0x08, 0x7E, 0x80, 0x00, 0x03, 0x00, 0x03, 0x67, 0x88],
        vec![0x06, 0x7E, 0x80, 0x00, 0x03, 0x00, 0x00],
        covering(3),
        covering(2),
        covering(4),
        [covering(0), plain.clone()].concat(),
        [covering(9), covering(0)].concat(),
        nested.clone(),
        [vec![0x0E, 0x7E, 0x80, 0x00, 0x03, 0x00], extractor(1, 0, 0, 0)].concat(),
        [vec![0x05, 0x7E, 0x80, 0x00, 0x03, 0x09], extractor(1, 0, 0, 0)].concat(),
        [vec![0x08, 0x7E, 0x80, 0x00, 0x03, 0x00, 0x02, 0x67, 0x88], extractor(1, 0, 0, 0), plain.clone()].concat(),
    ];
    nested[6] = 0x04;
    samples.push(nested);
    for index in [0, 1, 2] {
        samples.push(extractor(index, 0, 0, 0));
    }
    for offset in [1, 0xFF, 0x7F, 0x80] {
        samples.push(extractor(1, offset, 0, 0));
    }
    for data_offset in [0, 1, 3, 6, 9] {
        for data_length in [0, 2, 3, 4, 6, 9, 255] {
            samples.push([extractor(1, 0, data_offset, data_length), extractor(1, 0, 0, 0)].concat());
        }
    }
    samples
}

/// A bundle with L = 2 and more in it: sets in the records, a trailer, an aggregator that covers a unit, one that
/// includes an extractor.
fn b2() -> Vec<u8> {
    let first: &[&[u8]] = &[&[0, 2, 0x65, 0x88], &[0, 5, 0x74, 0x80, 0, 3, 9]];
    let second: &[&[u8]] = &[&[0, 6, 0x7E, 0x80, 0, 3, 0, 4], &[0, 2, 0x41, 0x9A], &[0, 1, 0x09]];
    let third: &[&[u8]] = &[&[0, 10, 0x7F, 0x80, 0, 3, 1, 0, 0, 0, 0, 0], &[0, 3, 0x06, 1, 2]];
    let fourth: &[&[u8]] = &[
        &[0, 18, 0x7E, 0x80, 0, 3, 0, 12],
        &[0, 10, 0x7F, 0x80, 0, 3, 1, 0xFF, 0, 0, 0, 11],
        &[0, 10, 0x7F, 0x80, 0, 3, 1, 0, 0, 8, 0, 7],
    ];
    let samples: Vec<Vec<u8>> = [first, second, third, fourth].iter().map(|parts| parts.concat()).collect();
    let mut bundle = vec![2, AVC, 0, 17];
    bundle.extend([1, 100, 0, 30, 0xFD, 0xE1, 0, 1, 0x67, 1, 0, 1, 0x68, 0xFD, 0xF8, 0xF8, 0]);
    bundle.extend([SVC, 0, 13, 1, 83, 0, 30, 0xFD, 1, 0, 1, 0x6F, 1, 0, 1, 0x68, 1, 2, 1, 0, 4]);
    for ((track, time), sample) in [(1, 0), (1, 4), (2, 4), (2, 5)].into_iter().zip(&samples) {
        bundle.push(track);
        put(&mut bundle, time, 8);
        put(&mut bundle, sample.len() as u64, 4);
    }
    let bytes = samples.concat();
    put(&mut bundle, bytes.len() as u64, 4);
    [bundle, bytes].concat()
}

/// The bytes cut at every length, a byte longer, and with every byte set to some other values.
pub fn neighbours(base: &[u8]) -> Vec<Vec<u8>> {
    let mut all: Vec<Vec<u8>> = (0..=base.len()).map(|length| base[..length].to_vec()).collect();
    all.push([base, &[0]].concat());
    for at in 0..base.len() {
        for value in [0, 1, 2, 3, 4, 7, 8, 9, 0x11, 0x41, 0x7F, 0x80, 0xFE, 0xFF] {
            let mut other = base.to_vec();
            other[at] = value;
            all.push(other);
        }
    }
    all
}

/// B0 with profile 100 in its AVC track: the trailer of its record is absent.
fn high_profile(bundle: &[u8]) -> Vec<u8> {
    let mut bundle = bundle.to_vec();
    bundle[5] = 100;
    bundle
}

/// B0 with these profiles in its AVC track, and none to all bytes of a trailer, and one more.
fn trailer_cut() -> Vec<Vec<u8>> {
    let mut bundles = Vec::new();
    for profile in [66, 99, 100, 101, 110, 122, 144, 244] {
        for length in 0..=5 {
            let mut bundle = B0[..11].to_vec();
            bundle[3] += length as u8;
            bundle[5] = profile;
            bundle.extend(&[0xFD, 0xF8, 0xF8, 0, 0][..length]);
            bundle.extend(&B0[11..]);
            bundles.push(bundle);
        }
    }
    bundles
}

/// B0 with every unit of one to four of these bytes in its first sample, for a byte stream. The second has a unit before
/// an extractor that copies it.
pub fn with_zeros() -> Vec<Vec<u8>> {
    let values = [0, 1, 2, 3, 4, 0x65];
    let mut units = vec![vec![]];
    let mut bundles = Vec::new();
    for _ in 1..=4 {
        units = units.iter().flat_map(|unit| values.map(|value| [&unit[..], &[value]].concat())).collect();
        for unit in &units {
            let first = [&[unit.len() as u8], &unit[..]].concat();
            bundles.push(with_samples(&first, &[&[0x02, 0x65, 0x88], &extractor(1, 0, 0, 0)[..]].concat()));
        }
    }
    bundles
}

/// A number in this many bytes.
fn number(value: usize, size: usize) -> Vec<u8> {
    let mut bytes = Vec::new();
    put(&mut bytes, value as u64, size);
    bytes
}

/// A unit of these parts after its length.
fn unit(parts: &[&[u8]], length_size: usize) -> Vec<u8> {
    let unit = parts.concat();
    [number(unit.len(), length_size), unit].concat()
}

/// Units of an AVC track. An aggregator that includes two units, the second of which holds bytes that look like a unit,
/// and covers the next; that one; an aggregator that includes nothing; one that includes an extractor between two units;
/// a unit of another type with the bytes of an aggregator; and one more that includes nothing.
fn aggregators(length_size: usize) -> Vec<u8> {
    let unit = |parts: &[&[u8]]| unit(parts, length_size);
    let additional = |bytes: usize| number(bytes, length_size);
    let plain = unit(&[&[0x68, 0xEE]]);
    let extractor = unit(&[&[0x7F, 0x80, 0, 3, 1, 0], &number(0, 2 * length_size)]);
    let header = [0x7E, 0x80, 0, 3];
    let nothing = unit(&[&header, &additional(0)]);
    [
        unit(&[&header, &additional(length_size + 1), &plain, &unit(&[&[0x06], &plain])]),
        unit(&[&[0x09]]),
        nothing.clone(),
        unit(&[&header, &additional(0), &plain, &extractor, &unit(&[&[0x0C]])]),
        unit(&[&[0x74, 0x80, 0, 3], &additional(0), &plain]),
        nothing,
    ]
    .concat()
}

/// B0 with this length size and aggregators in its first sample. The second is an extractor, with every data_offset in
/// the first or just past it, and every data_length up to there; and the greatest of L bytes, whose sum may wrap.
pub fn with_every_start(length_size: usize) -> Vec<Vec<u8>> {
    let first = aggregators(length_size);
    let (most, limit) = (first.len() + 1, 1 << (8 * length_size));
    let mut bundles = Vec::new();
    for offset in 0..=most {
        for length in (0..=most).chain(limit - most..limit) {
            let (offset, length) = (number(offset, length_size), number(length, length_size));
            let second = unit(&[&[0x7F, 0x80, 0, 3, 1, 0], &offset, &length], length_size);
            let mut bundle = with_samples(&first, &second);
            bundle[8] |= length_size as u8 - 1;
            bundle[18] |= length_size as u8 - 1;
            bundles.push(bundle);
        }
    }
    bundles
}

/// All small fixed bundles.
pub fn bundles() -> Vec<Vec<u8>> {
    let mut bundles = neighbours(&B0);
    bundles.extend(neighbours(&high_profile(&B0)));
    bundles.extend(trailer_cut());
    bundles.extend(neighbours(&b2()));
    let samples = samples();
    for first in &samples {
        for second in &samples {
            bundles.push(with_samples(first, second));
        }
    }
    bundles.extend(limits());
    bundles
}

/// Three records, AVC with a trailer and with it absent, and SVC, and their neighbours; each with its kind. AVC records
/// of every profile, with none to all bytes of a trailer, and one more.
pub fn records() -> Vec<(u8, Vec<u8>)> {
    let avc = [1, 100, 0, 30, 0xFF, 0xE1, 0, 1, 0x67, 1, 0, 2, 0x68, 9, 0xFD, 0xF8, 0xF8, 1, 0, 1, 0x6D];
    let svc = [1, 83, 0, 30, 0xFC, 2, 0, 1, 0x67, 0, 2, 0x6F, 9, 1, 0, 1, 0x68];
    let mut all = neighbours(&avc);
    all.extend(neighbours(&avc[..14]));
    for profile in 0..=255 {
        for length in 14..=avc.len() {
            let mut record = avc[..length].to_vec();
            record[1] = profile;
            all.push(record);
        }
    }
    let svc = neighbours(&svc).into_iter().map(|record| (SVC, record));
    all.into_iter().map(|record| (AVC, record)).chain(svc).collect()
}

/// What those three records are written from, and the same with each number changed.
pub fn fields() -> Vec<(u8, MadeFields)> {
    let avc = MadeFields {
        numbers: vec![100, 0, 30, 0, 4, 1, 0, 0, 1, 0, 0, 2, 1, 0, 0, 1, 0, 0],
        sequence: vec![0, 1, 0x67],
        picture: vec![0, 2, 0x68, 9],
        extension: vec![0, 1, 0x6D],
    };
    let svc = MadeFields {
        numbers: vec![83, 0, 30, 1, 1, 2, 0, 0, 1, 0, 0, 0, 0, 0, 0, 0, 0, 0],
        sequence: vec![0, 1, 0x67, 0, 2, 0x6F, 9],
        picture: vec![0, 1, 0x68],
        extension: vec![],
    };
    let mut absent = MadeFields { extension: vec![], ..avc.clone() };
    absent.numbers[11] = 1;
    let mut all = Vec::new();
    for profile in 0..300 {
        for trailer in 0..4 {
            for base in [&avc, &absent] {
                let mut other = base.clone();
                (other.numbers[0], other.numbers[11]) = (profile, trailer);
                all.push((AVC, other));
            }
        }
    }
    for (kind, base) in [(AVC, avc), (AVC, absent), (SVC, svc)] {
        for at in 0..base.numbers.len() {
            let number = base.numbers[at];
            for value in [0, 1, 2, 3, 4, 5, 8, 32, 66, 100, 128, 255, 256, number + 256, number + (1 << 32), u64::MAX] {
                let mut other = base.clone();
                other.numbers[at] = value;
                all.push((kind, other));
            }
            let mut short = base.clone();
            short.numbers.truncate(at);
            all.push((kind, short));
        }
        for sets in [vec![], vec![0, 0], vec![0], vec![0, 2, 0x6D], vec![0, 1, 0xED], vec![0, 1, 0x6D, 0, 1, 0x6D]] {
            all.push((kind, MadeFields { sequence: sets.clone(), ..base.clone() }));
            all.push((kind, MadeFields { picture: sets.clone(), ..base.clone() }));
            all.push((kind, MadeFields { extension: sets, ..base.clone() }));
        }
    }
    all
}

/// Counts at their limits and just past them.
fn limits() -> Vec<Vec<u8>> {
    let track = &B0[1..11];
    let tracks = |count: usize| [vec![count as u8], track.repeat(count), vec![0, 0, 0, 0, 0, 0, 0]].concat();
    let references =
        |count: usize| [&[2][..], track, track, &[count as u8], &[2, 1].repeat(count), &[0, 0, 0, 0, 0, 0]].concat();
    let samples = |count: usize| {
        let mut bundle = [&[1][..], track, &[0]].concat();
        put(&mut bundle, count as u64, 2);
        for time in 0..count {
            bundle.push(1);
            put(&mut bundle, time as u64, 8);
            put(&mut bundle, (time % 3 != 0) as u64 * 2, 4);
        }
        let bytes = [1, 0x61].repeat(count - count.div_ceil(3));
        put(&mut bundle, bytes.len() as u64, 4);
        [bundle, bytes].concat()
    };
    // Lengths whose sum is 2^32 and looks like 0 in 32 bits.
    let mut wrapping = [&[1][..], track, &[0, 0, 2]].concat();
    for time in 0..2 {
        wrapping.push(1);
        put(&mut wrapping, time, 8);
        put(&mut wrapping, 1 << 31, 4);
    }
    put(&mut wrapping, 0, 4);
    vec![tracks(16), tracks(17), references(64), references(65), samples(4096), samples(4097), wrapping]
}

/// A good bundle of the most bytes, the same with a unit that ends in 00, and one that is a byte too long: one unit with
/// L = 4.
pub fn longest() -> [Vec<u8>; 3] {
    let mut bundle = [&[1][..], &B0[1..8], &[0xFF, 0xE0, 0], &[0, 0, 1, 1, 0, 0, 0, 0, 0, 0, 0, 0]].concat();
    let length = LONGEST - bundle.len() - 8;
    put(&mut bundle, length as u64, 4);
    put(&mut bundle, length as u64, 4);
    put(&mut bundle, length as u64 - 4, 4);
    bundle.resize(LONGEST, 0x61);
    let mut ending = bundle.clone();
    ending[LONGEST - 1] = 0;
    let mut longer = bundle.clone();
    longer.push(0);
    [bundle, ending, longer]
}
