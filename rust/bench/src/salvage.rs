//! Damaged samples salvaged, with the library and the peer in turn: `bench salvage [ROUNDS]`.
//!
//! Samples of several kinds, a quarter of a MiB to 16 MiB, the smaller ones in more rounds; then one sample of document
//! 02's bundle, which many extractors name. The best of the rounds counts. All answers and what is written are compared
//! before. Every slice is as long as it can need to be.

use std::time::Duration;

use puddockle::{SampleNumber, CHANGE};

use crate::bundle;
use crate::{settings, timed, MIB};

const FULL: usize = 16 * MIB;
const SIZES: [usize; 4] = [FULL / 64, FULL / 16, FULL / 4, FULL];

/// The kind of the samples' track.
const SVC: u32 = 1;

/// Tiny units that an aggregator covers, where it covers many.
const COVERED: usize = 1000;

/// A kind of sample.
struct Kind {
    name: &'static str,
    length_size: usize,
    /// A sample of so many bytes, or just under.
    make: fn(usize) -> Vec<u8>,
}

const KINDS: [Kind; 9] = [
    Kind { name: "good, units of 1 byte", length_size: 1, make: |size| unit(1, &[9]).repeat(size / 2) },
    Kind { name: "good, units of 1 byte", length_size: 4, make: |size| unit(4, &[9]).repeat(size / 5) },
    Kind { name: "aggregators, no border", length_size: 1, make: |size| aggregator(1, 1, &[]).repeat(size / 6) },
    Kind { name: "aggregators, to the end", length_size: 4, make: to_the_end },
    Kind { name: "short extractors", length_size: 1, make: |size| unit(1, &EXTRACTOR).repeat(size / 5) },
    Kind { name: "covered, the last is bad", length_size: 4, make: |size| covering(COVERED).repeat(size / 5020) },
    Kind { name: "all covered, the last bad", length_size: 4, make: |size| covering((size - 20) / 5) },
    Kind { name: "included, the last is bad", length_size: 4, make: included },
    Kind {
        name: "good, then an empty unit",
        length_size: 1,
        make: |size| [unit(1, &[9]).repeat(size / 2 - 1), vec![0, 0]].concat(),
    },
];

/// Headers of an aggregator and of an extractor, which is a short extractor by itself.
const AGGREGATOR: [u8; 4] = [0x7E, 0x80, 0, 3];
const EXTRACTOR: [u8; 4] = [0x7F, 0x80, 0, 3];

fn number(number: usize, length_size: usize) -> Vec<u8> {
    (number as u32).to_be_bytes()[4 - length_size..].to_vec()
}

/// A unit after its length.
fn unit(length_size: usize, bytes: &[u8]) -> Vec<u8> {
    [&number(bytes.len(), length_size), bytes].concat()
}

/// An aggregator after its length.
fn aggregator(length_size: usize, additional: usize, included: &[u8]) -> Vec<u8> {
    unit(length_size, &[&AGGREGATOR, &number(additional, length_size)[..], included].concat())
}

/// Aggregators that include nothing, each with additional_bytes up to the sample's end.
fn to_the_end(size: usize) -> Vec<u8> {
    let count = size / 12;
    (0..count).flat_map(|index| aggregator(4, 12 * (count - 1 - index), &[])).collect()
}

/// An aggregator, so many units of a byte that it covers, and a short extractor that it covers too: 20 bytes and 5 a unit.
fn covering(units: usize) -> Vec<u8> {
    [aggregator(4, 5 * units + 8, &[]), unit(4, &[9]).repeat(units), unit(4, &EXTRACTOR)].concat()
}

/// One aggregator of units of a byte, the last one empty.
fn included(size: usize) -> Vec<u8> {
    aggregator(4, 0, &[unit(4, &[9]).repeat((size - 16) / 5), unit(4, &[])].concat())
}

/// Bytes of the new sample, of the change list, of the naming list.
type Counts = [usize; 3];

/// The library, or the peer: what is written goes to three slices.
type Side<'a> = &'a dyn Fn(&mut [Vec<u8>; 3]) -> Counts;

pub fn run(rounds: usize) {
    println!("salvage, best of {rounds} rounds at 16 MiB, in turn, one thread");
    settings();
    println!(
        "sample                     L     bytes  new sample   changes   names  library ms  growth     peer ms  growth  \
         library/peer"
    );
    let mut greatest = 0.0f64;
    for kind in &KINDS {
        let mut before = None;
        for size in SIZES {
            let sample = (kind.make)(size);
            let measured = measure_sample(kind.length_size, &sample, rounds.max(1) * FULL / size);
            greatest = greatest.max(print(kind.name, kind.length_size, size, &measured, &before));
            before = Some(measured);
        }
    }
    let mut before = None;
    // Document 02's bundle is not made smaller than 1 MiB.
    for &size in &SIZES[1..] {
        let measured = measure_bundle(size, rounds.max(1) * FULL / size);
        greatest = greatest.max(print("one of document 02's", 2, size, &measured, &before));
        before = Some(measured);
    }
    println!("greatest growth of the library for four times the size: {greatest:.2}");
}

/// The best times in milliseconds of the library and the peer, and what both wrote.
struct Measured {
    best: [f64; 2],
    counts: Counts,
}

/// Prints a line, and answers the library's growth.
fn print(name: &str, length_size: usize, size: usize, measured: &Measured, before: &Option<Measured>) -> f64 {
    let [library, peer] = measured.best;
    let [sample, changes, names] = measured.counts;
    let growth = [0, 1].map(|side| before.as_ref().map_or(0.0, |before| measured.best[side] / before.best[side]));
    println!(
        "{name:25}  {length_size}  {size:8}  {sample:10}  {:8}  {:6}  {library:10.4}  {:>6}  {peer:10.4}  {:>6}  {:12.2}",
        changes / CHANGE,
        names / puddockle::NAMES_ENTRY,
        shown(growth[0]),
        shown(growth[1]),
        library / peer
    );
    growth[0]
}

fn shown(growth: f64) -> String {
    if growth == 0.0 {
        "-".to_string()
    } else {
        format!("{growth:.2}")
    }
}

fn measure_sample(length_size: usize, sample: &[u8], rounds: usize) -> Measured {
    let rooms = [sample.len(), sample.len() + CHANGE - 1, 0];
    let library = |[out, changes, _]: &mut [Vec<u8>; 3]| {
        let made = puddockle::salvage_sample(SVC, length_size as u32, sample, out, changes).expect("accepted");
        [made.sample.len(), made.changes.bytes.len(), 0]
    };
    let peer = |[out, changes, _]: &mut [Vec<u8>; 3]| {
        let [count, changes] =
            peer::salvage::salvage_sample(SVC, length_size as u32, sample, out, changes).expect("accepted");
        [count, changes, 0]
    };
    measure(rooms, &library, &peer, rounds)
}

/// The first of the three samples that all others name, its middle unit damaged.
fn measure_bundle(size: usize, rounds: usize) -> Measured {
    let mut bundle = bundle::make(size, size / 4096);
    let span = peer::calls::sample(&bundle, 1).values;
    let [start, length] = [span[2] as usize, span[3] as usize];
    bundle[start + length / 2 + 2] |= 0x80;
    let rooms = [length, CHANGE * length, bundle.len()];
    let library = |[out, changes, names]: &mut [Vec<u8>; 3]| {
        let made = puddockle::salvage(&bundle, SampleNumber(1), out, changes, names).expect("accepted");
        [made.sample.len(), made.changes.bytes.len(), made.names.bytes.len()]
    };
    let peer = |[out, changes, names]: &mut [Vec<u8>; 3]| {
        peer::salvage::salvage(&bundle, 1, out, changes, names).expect("accepted")
    };
    measure(rooms, &library, &peer, rounds)
}

fn measure(rooms: [usize; 3], library: Side, peer: Side, rounds: usize) -> Measured {
    let mut written = [rooms.map(|room| vec![0xEE; room]), rooms.map(|room| vec![0xEE; room])];
    let counts = peer(&mut written[1]);
    assert_eq!(library(&mut written[0]), counts);
    assert!(written[0] == written[1], "what is written differs");
    let mut best = [Duration::MAX; 2];
    for _ in 0..rounds {
        for (side, call) in [library, peer].into_iter().enumerate() {
            let (time, given) = timed(|| call(&mut written[side]));
            best[side] = best[side].min(time);
            assert_eq!(given, counts);
        }
    }
    Measured { best: best.map(|time| time.as_secs_f64() * 1000.0), counts }
}
