//! Byte streams read into samples, with the library and the peer in turn: `bench unstream [ROUNDS]`.
//!
//! Streams of several kinds, 16 MiB, then a quarter and a sixteenth, in four and sixteen times the rounds. The best of the
//! rounds counts. All answers and samples are compared before.

use std::time::Duration;

use crate::bundle::Random;
use crate::streams::put_random;
use crate::{settings, timed, MIB};

const SIZES: [(usize, usize); 3] = [(16 * MIB, 1), (4 * MIB, 4), (MIB, 16)];
const START_CODE: [u8; 4] = [0, 0, 0, 1];

/// A kind of stream.
struct Kind {
    name: &'static str,
    /// A stream of so many bytes.
    make: fn(usize) -> Vec<u8>,
    length_sizes: &'static [u32],
}

/// Large units are the longest that fit length size 2.
const KINDS: [Kind; 9] = [
    Kind { name: "units of 65,535 bytes", make: |size| units(size, 65535), length_sizes: &[4, 2] },
    Kind { name: "units of 16 bytes", make: |size| units(size, 16), length_sizes: &[4, 2] },
    Kind { name: "units of 1 byte", make: |size| [0, 0, 1, 0x65].repeat(size / 4), length_sizes: &[4, 2] },
    Kind { name: "one unit", make: |size| units(size, size - START_CODE.len()), length_sizes: &[4] },
    Kind { name: "one unit of 00 01", make: |size| after(&[0, 0, 1, 0x65], &[0, 1], size), length_sizes: &[4] },
    Kind { name: "one unit, then zeros", make: |size| after(&[0, 0, 1, 0x65], &[0], size), length_sizes: &[4] },
    Kind { name: "one unit of 00 00 02", make: |size| after(&[0, 0, 1], &[0, 0, 2], size), length_sizes: &[4, 2] },
    Kind { name: "zeros only", make: |size| vec![0; size], length_sizes: &[4] },
    Kind { name: "start codes only", make: |size| [0, 0, 1].repeat(size / 3), length_sizes: &[4] },
];

/// A number and a place, or the length of the sample.
type Answer = Result<usize, (u32, u64)>;

/// The best times of the library and the peer.
type Times = [Duration; 2];

pub fn run(rounds: usize) {
    println!("unstream, best of {rounds} rounds at 16 MiB, in turn, one thread");
    settings();
    println!("                        L     bytes  answer            library ms     peer ms  library/peer");
    for Kind { name, make, length_sizes } in KINDS {
        for &length_size in length_sizes {
            let mut all = Vec::new();
            for (size, times) in SIZES {
                let (best, answer) = measure(length_size, &make(size), rounds * times);
                let [library, peer] = best.map(|time| time.as_secs_f64() * 1000.0);
                let answer = match answer {
                    Ok(count) => format!("OK {count}"),
                    Err((number, place)) => format!("refused {number} at {place}"),
                };
                println!(
                    "{name:22}  {length_size}  {size:8}  {answer:16}  {library:10.4}  {peer:10.4}  {:12.2}",
                    library / peer
                );
                all.push(best);
            }
            for (larger, smaller) in all.iter().zip(&all[1..]) {
                let growth = |which: usize| larger[which].as_secs_f64() / smaller[which].as_secs_f64();
                println!(
                    "{name:22}  {length_size}  four times the size takes: library {:.2}, peer {:.2} times the time",
                    growth(0),
                    growth(1)
                );
            }
        }
    }
}

fn measure(length_size: u32, stream: &[u8], rounds: usize) -> (Times, Answer) {
    let room = stream.len() + stream.len() / 4;
    let mut out = [vec![0xEE; room], vec![0xEE; room]];
    let library = |out: &mut [u8]| -> Answer {
        puddockle::from_stream(length_size, stream, out).map_err(|no| (no.number, no.place))
    };
    let peer = |out: &mut [u8]| -> Answer {
        peer::from_stream::from_stream(length_size, stream, out).map_err(|no| (no.number as u32, no.place as u64))
    };
    let answer = peer(&mut out[1]);
    assert_eq!(library(&mut out[0]), answer);
    assert!(out[0] == out[1], "the samples differ");
    let mut best = [Duration::MAX; 2];
    for _ in 0..rounds.max(1) {
        let (time, given) = timed(|| library(&mut out[0]));
        best[0] = best[0].min(time);
        let (time, expected) = timed(|| peer(&mut out[1]));
        best[1] = best[1].min(time);
        assert!(given == answer && expected == answer);
    }
    (best, answer)
}

/// A stream of exactly `size` bytes: these in front, and then those again and again.
fn after(front: &[u8], again: &[u8], size: usize) -> Vec<u8> {
    let mut stream = [front, &again.repeat(size / again.len())].concat();
    stream.truncate(size);
    stream
}

/// A stream of exactly `size` bytes: units of `unit` random bytes, each after a start code of four bytes, the last one
/// shorter, and zeros where none is left for it.
fn units(size: usize, unit: usize) -> Vec<u8> {
    let (mut stream, mut random) = (Vec::with_capacity(size), Random(1));
    while stream.len() + START_CODE.len() < size {
        stream.extend(START_CODE);
        let length = unit.min(size - stream.len());
        put_random(&mut stream, length, &mut random);
    }
    stream.resize(size, 0);
    stream
}
