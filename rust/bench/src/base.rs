//! Base samples found in a long track, with the library and the peer in turn: `bench base [ROUNDS]`.
//!
//! One AVC track with the most samples that a linked track can have, each of one small unit, and one SVC sample of as
//! many extractors as fit, which all name the last of them: 16 MiB, then a quarter. The naming list of that sample, then
//! the audit. The best of the rounds counts. All lists and lines are compared.

use std::time::Duration;

use puddockle::{SampleNumber, LINE, NAMES_ENTRY};

use crate::audit::{passed, Made};
use crate::{settings, timed, MIB};

const SIZES: [usize; 2] = [16 * MIB, 4 * MIB];
/// A bundle has at most 4,096 samples, and one is in the other track.
const LINKED: usize = 4095;

/// With L = 1: a unit and an extractor, each after its length.
const UNIT: [u8; 3] = [2, 0x65, 0x88];
const EXTRACTOR: [u8; 9] = [8, 0x7F, 0x80, 0, 3, 1, 0, 0, 0];

/// The best times of the library and the peer.
type Times = [Duration; 2];

pub fn run(rounds: usize) {
    println!("base, best of {rounds} rounds, in turn, one thread; {LINKED} samples in the linked track, L = 1");
    settings();
    println!("call      bytes  extractors  library ms     peer ms  library/peer");
    for size in SIZES {
        let Made { bundle, extractors, .. } = make(size);
        let print = |call: &str, best: Times| {
            let [library, peer] = best.map(|time| time.as_secs_f64() * 1000.0);
            println!("{call}  {size:8}  {extractors:10}  {library:10.2}  {peer:10.2}  {:12.2}", library / peer);
        };
        print("names", names(&bundle, extractors, rounds));
        print("audit", audit(&bundle, rounds));
    }
}

/// The naming list of the last linked sample, in which all extractors stand.
fn names(bundle: &[u8], extractors: usize, rounds: usize) -> Times {
    let room = extractors * NAMES_ENTRY;
    measure(
        room,
        rounds,
        |out| {
            assert_eq!(puddockle::names(bundle, SampleNumber(LINKED as u64), out).expect("accepted").bytes.len(), room);
        },
        |out| {
            assert_eq!(peer::names::names(bundle, LINKED as u64, out).expect("accepted"), room);
        },
    )
}

fn audit(bundle: &[u8], rounds: usize) -> Times {
    let samples = LINKED + 1;
    measure(
        samples * LINE,
        rounds,
        |out| {
            assert_eq!(puddockle::audit(bundle, out).expect("accepted").tally.passed, samples as u64);
        },
        |out| {
            assert_eq!(peer::audit::audit(bundle, out).expect("accepted").1.passed, samples as u64);
        },
    )
}

/// Both calls in turn, each with room of its own, which is written to before; what they write is compared.
fn measure(room: usize, rounds: usize, library: impl Fn(&mut [u8]), peer: impl Fn(&mut [u8])) -> Times {
    let mut out = [vec![0; room], vec![0; room]];
    let mut best = [Duration::MAX; 2];
    for _ in 0..rounds.max(1) {
        out.iter_mut().for_each(|out| out.fill(0xEE));
        best[0] = best[0].min(timed(|| library(&mut out[0])).0);
        best[1] = best[1].min(timed(|| peer(&mut out[1])).0);
        assert!(out[0] == out[1], "what is written differs");
    }
    best
}

/// A bundle of exactly `size` bytes. Times rise from 0 in the linked track; the own time is that of its last sample. What
/// is left after the extractors is one unit.
pub fn make(size: usize) -> Made {
    let mut bundle = vec![2];
    bundle.extend([0, 0, 7, 1, 66, 0, 30, 0xFC, 0xE0, 0]);
    bundle.extend([1, 0, 7, 1, 83, 0, 30, 0xFC, 0, 0]);
    bundle.extend([1, 2, 1]);
    bundle.extend((LINKED as u16 + 1).to_be_bytes());
    let head = bundle.len() + (LINKED + 1) * 13 + 4;
    let own = size - head - LINKED * UNIT.len();
    let linked = (0..LINKED).map(|time| (1, time, UNIT.len()));
    for (track, time, length) in linked.chain([(2, LINKED - 1, own)]) {
        bundle.push(track);
        bundle.extend((time as u64).to_be_bytes());
        bundle.extend((length as u32).to_be_bytes());
    }
    bundle.extend((size as u32 - head as u32).to_be_bytes());
    bundle.extend(UNIT.repeat(LINKED));
    // A unit of at least one byte after its length takes what is left.
    let left = match own % EXTRACTOR.len() {
        1 => 1 + EXTRACTOR.len(),
        left => left,
    };
    let extractors = (own - left) / EXTRACTOR.len();
    bundle.extend(EXTRACTOR.repeat(extractors));
    if left > 0 {
        bundle.push(left as u8 - 1);
        bundle.resize(size, 0x65);
    }
    assert_eq!(bundle.len(), size);
    let mut lines = passed(1).repeat(LINKED);
    lines.extend(passed((extractors + (left > 0) as usize) as u64));
    Made { bundle, extractors, lines }
}
