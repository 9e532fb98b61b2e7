//! All samples of a bundle written as byte streams, with the library and the peer in turn: `bench streams [ROUNDS]`.
//!
//! Bundles of large units and of small ones, 16 MiB with 64 samples, then a quarter and a sixteenth of both, in four and
//! sixteen times the rounds. The best of the rounds counts. All streams are compared before.

use std::time::Duration;

use puddockle::SampleNumber;

use crate::bundle::Random;
use crate::contents::head;
use crate::{settings, timed, MIB};

const SIZES: [(usize, usize, usize); 3] = [(16 * MIB, 64, 1), (4 * MIB, 16, 4), (MIB, 4, 16)];
/// Bytes of a length in the bundle.
const LENGTH_SIZE: usize = 4;
const UNITS: [(&str, usize); 2] = [("large", 1 << 16), ("small", 16)];

/// The best times of the library and the peer.
type Times = [Duration; 2];

pub fn run(rounds: usize) {
    println!("streams, all samples, best of {rounds} rounds at 16 MiB, in turn, one thread");
    settings();
    println!("   bytes  samples   units  unit bytes  library ms     peer ms  library/peer");
    for (name, unit) in UNITS {
        let mut all = Vec::new();
        for (size, samples, times) in SIZES {
            let (bundle, units) = make(size, samples, unit);
            let best = measure(&bundle, samples, rounds * times);
            let [library, peer] = best.map(|time| time.as_secs_f64() * 1000.0);
            println!(
                "{size:8}  {samples:7}  {units:6}  {unit:10}  {library:10.2}  {peer:10.2}  {:12.2}",
                library / peer
            );
            all.push(best);
        }
        for (larger, smaller) in all.iter().zip(&all[1..]) {
            let growth = |which: usize| larger[which].as_secs_f64() / smaller[which].as_secs_f64();
            println!(
                "{name} units, four times the size takes: library {:.2}, peer {:.2} times the time",
                growth(0),
                growth(1)
            );
        }
    }
}

fn measure(bundle: &[u8], samples: usize, rounds: usize) -> Times {
    let mut out = [vec![0xEE; bundle.len()], vec![0xEE; bundle.len()]];
    let library = |n: u64, out: &mut [u8]| puddockle::stream(bundle, SampleNumber(n), out).expect("accepted");
    let peer = |n: u64, out: &mut [u8]| peer::stream::stream(bundle, n, out).expect("accepted");
    let numbers = 1..=samples as u64;
    for n in numbers.clone() {
        let count = library(n, &mut out[0]);
        assert_eq!(count, peer(n, &mut out[1]), "sample {n}");
        assert!(count > 0 && out[0] == out[1], "sample {n}: the streams differ");
    }
    let mut best = [Duration::MAX; 2];
    for _ in 0..rounds.max(1) {
        let (time, total) = timed(|| numbers.clone().map(|n| library(n, &mut out[0])).sum::<usize>());
        best[0] = best[0].min(time);
        let (time, expected) = timed(|| numbers.clone().map(|n| peer(n, &mut out[1])).sum::<usize>());
        best[1] = best[1].min(time);
        assert_eq!(total, expected);
    }
    best
}

/// A bundle of exactly `size` bytes: an AVC track with `samples` samples, all of units of about `unit` bytes. And how
/// many units that is.
fn make(size: usize, samples: usize, unit: usize) -> (Vec<u8>, usize) {
    let total = size - head(LENGTH_SIZE, &[0], &[], &vec![(1, 0); samples]).len();
    let lengths: Vec<usize> = (0..samples).map(|index| total / samples + (index < total % samples) as usize).collect();
    let mut bundle = head(LENGTH_SIZE, &[0], &[], &lengths.iter().map(|&length| (1, length)).collect::<Vec<_>>());
    let (mut random, mut units) = (Random(1), 0);
    for length in lengths {
        // Even parts: the first units have a byte more where bytes are left over.
        let count = (length + unit / 2) / (LENGTH_SIZE + unit);
        let bytes = length - count * LENGTH_SIZE;
        for index in 0..count {
            put_unit(&mut bundle, bytes / count + (index < bytes % count) as usize, &mut random);
        }
        units += count;
    }
    assert_eq!(bundle.len(), size);
    (bundle, units)
}

/// A slice of random bytes that can stand in a byte stream, after its length.
fn put_unit(bundle: &mut Vec<u8>, length: usize, random: &mut Random) {
    bundle.extend((length as u32).to_be_bytes());
    put_random(bundle, length, random);
}

/// A slice of random bytes, one or more, that can stand in a byte stream.
pub fn put_random(bytes: &mut Vec<u8>, length: usize, random: &mut Random) {
    bytes.push(0x61);
    for _ in 1..length {
        let byte = random.below(256) as u8;
        // After two zeros an encoder has 03.
        bytes.push(if bytes.ends_with(&[0, 0]) { byte.max(3) } else { byte });
    }
    let last = bytes.len() - 1;
    bytes[last] |= 0x80;
}
