//! All samples of document 02's bundle resolved, and the naming lists of the three named ones, with the library and the
//! peer in turn: `bench resolve [ROUNDS]`.
//!
//! 16 MiB with 4,096 samples, then a quarter and a sixteenth of both, in four and sixteen times the rounds. The best of
//! the rounds counts. All that is written is compared before.

use std::ops::RangeInclusive;
use std::time::Duration;

use puddockle::{SampleNumber, NAMES_ENTRY};

use crate::{bundle, settings, timed, MIB};

const SIZES: [(usize, usize, usize); 3] = [(16 * MIB, 4096, 1), (4 * MIB, 1024, 4), (MIB, 256, 16)];

/// Writes what belongs to a sample by its number; answers how many bytes that is.
type Call = fn(&[u8], u64, &mut [u8]) -> usize;

/// The calls of the library and the peer.
const RESOLVE: [Call; 2] = [
    |bundle, number, out| puddockle::resolve(bundle, SampleNumber(number), out).expect("accepted"),
    |bundle, number, out| peer::resolve::resolve(bundle, number, out).expect("accepted"),
];
const NAMES: [Call; 2] = [
    |bundle, number, out| puddockle::names(bundle, SampleNumber(number), out).expect("accepted").bytes.len(),
    |bundle, number, out| peer::names::names(bundle, number, out).expect("accepted"),
];

pub fn run(rounds: usize) {
    println!("resolve, all samples, and names of three, best of {rounds} rounds at 16 MiB, in turn, one thread");
    settings();
    println!("call        bytes  samples  bytes written  library ms  growth     peer ms  library/peer");
    for (name, sides) in [("resolve", RESOLVE), ("names", NAMES)] {
        let mut before = None;
        for (size, samples, times) in SIZES.into_iter().rev() {
            let bundle = bundle::make(size, samples);
            let numbers = if name == "names" { 1..=3 } else { 1..=samples as u64 };
            let room = (samples * bundle::EXTRACTORS * NAMES_ENTRY).max(MIB);
            let (written, best) = measure(&bundle, sides, numbers, room, rounds.max(1) * times);
            let [library, peer] = best.map(|time| time.as_secs_f64() * 1000.0);
            let growth = before.map_or("-".to_string(), |before| format!("{:.2}", library / before));
            println!(
                "{name:7}  {size:8}  {samples:7}  {written:13}  {library:10.2}  {growth:>6}  {peer:10.2}  {:12.2}",
                library / peer
            );
            before = Some(library);
        }
    }
}

/// How many bytes are written for these samples, and the best times.
fn measure(
    bundle: &[u8],
    sides: [Call; 2],
    numbers: RangeInclusive<u64>,
    room: usize,
    rounds: usize,
) -> (usize, [Duration; 2]) {
    let mut out = [vec![0xEE; room], vec![0xEE; room]];
    let mut written = 0;
    for number in numbers.clone() {
        let [library, peer] = [0, 1].map(|side| sides[side](bundle, number, &mut out[side]));
        assert_eq!(library, peer, "sample {number}");
        assert!(library > 0 && out[0] == out[1], "sample {number}: what is written differs");
        written += library;
    }
    let mut best = [Duration::MAX; 2];
    for _ in 0..rounds {
        for side in [0, 1] {
            let all = || numbers.clone().map(|number| sides[side](bundle, number, &mut out[side])).sum::<usize>();
            let (time, given) = timed(all);
            best[side] = best[side].min(time);
            assert_eq!(given, written);
        }
    }
    (written, best)
}
