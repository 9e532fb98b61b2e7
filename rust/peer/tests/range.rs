//! Document 02's request [6], on real recordings, good and damaged: a range is what its samples resolve to one by one,
//! joined, and their lines of the audit. And cases by hand.

mod common;

use std::fs;

use peer::audit::{audit, LINE};
use peer::bundle::Bundle;
use peer::range::range;
use peer::refusal::*;
use peer::resolve::resolve;

const CANARY: u8 = 0xEE;

/// More room than any recording needs.
const ROOM_FOR_ALL: usize = 1 << 20;

/// The units and the lines that are written; on a refusal nothing is.
fn call(bytes: &[u8], first: u64, last: u64, rooms: [usize; 2]) -> Result<[Vec<u8>; 2], Refusal> {
    let mut buffers = rooms.map(|room| vec![CANARY; room]);
    let [out, lines] = &mut buffers;
    let answer = range(bytes, first, last, out, lines);
    for (buffer, count) in buffers.iter_mut().zip(answer.unwrap_or_default()) {
        assert!(buffer[count..].iter().all(|&byte| byte == CANARY));
        buffer.truncate(count);
    }
    answer.map(|_| buffers)
}

/// Every range that starts at the first sample, that ends at the last, and of one sample; each in exact rooms, and in
/// rooms a byte too small.
#[test]
fn recordings() {
    let directory = common::directory("PUDDOCKLE_RECORDINGS", "recordings");
    let (mut compared, mut refused) = (0, 0);
    for path in [common::files(&directory, "bin"), common::files(&directory.join("damaged"), "bin")].concat() {
        let bytes = fs::read(&path).unwrap();
        let samples = match Bundle::read(&bytes) {
            Ok(bundle) => bundle.sample_count(),
            Err(no) => {
                assert_eq!(call(&bytes, 0, 0, [0, 0]), Err(no));
                continue;
            }
        };
        let mut lines = vec![0; samples * LINE];
        audit(&bytes, &mut lines).unwrap();
        let resolved: Vec<Vec<u8>> = (1..=samples).map(|number| resolved(&bytes, number as u64)).collect();
        for (first, last) in (1..=samples).flat_map(|number| [(1, number), (number, number), (number, samples)]) {
            let expected = [resolved[first - 1..last].concat(), lines[(first - 1) * LINE..last * LINE].to_vec()];
            let [room, lines_room] = [expected[0].len(), expected[1].len()];
            let call = |rooms| call(&bytes, first as u64, last as u64, rooms);
            assert!(call([room, lines_room]) == Ok(expected), "{} {first} {last}", path.display());
            assert_eq!(call([room, lines_room - 1]), refuse(ROOM, 0));
            if room > 0 {
                assert_eq!(call([room - 1, lines_room]), refuse(ROOM, 0));
            }
            compared += 1;
        }
        refused += lines.chunks(LINE).filter(|line| line[0] != 0).count();
    }
    println!("{compared} ranges, {refused} samples refused");
    assert!(compared > 0 && refused > 0);
}

/// What a sample resolves to; nothing where it is refused.
fn resolved(bytes: &[u8], number: u64) -> Vec<u8> {
    let mut out = vec![0; ROOM_FOR_ALL];
    let count = resolve(bytes, number, &mut out).unwrap_or(0);
    out[..count].to_vec()
}

/// A track with L = 1 and five samples: a unit, one of length 0 (16), no bytes, an extractor without a reference (23)
/// after a unit, and two units.
fn five() -> Vec<u8> {
    let samples: [&[u8]; 5] =
        [&[2, 0x65, 0x88], &[0], &[], &[1, 9, 8, 0x7F, 0x80, 0, 3, 1, 0, 0, 0], &[1, 6, 2, 0x41, 0x9A]];
    let mut bundle = vec![1, 0, 0, 7, 1, 0x42, 0, 0x1E, 0xFC, 0xE0, 0, 0, 0, samples.len() as u8];
    for (sample, time) in samples.iter().zip(0..) {
        bundle.extend([1, 0, 0, 0, 0, 0, 0, 0, time, 0, 0, 0, sample.len() as u8]);
    }
    bundle.extend([0, 0, 0, samples.concat().len() as u8]);
    [bundle, samples.concat()].concat()
}

#[test]
fn by_hand() {
    let parts: [&[u8]; 5] = [&[0, 0, 0, 2, 0x65, 0x88], &[], &[], &[], &[0, 0, 0, 1, 6, 0, 0, 0, 2, 0x41, 0x9A]];
    let lines = [(0, 0, 1), (16, 0, 0), (0, 0, 0), (23, 2, 0), (0, 0, 2)]
        .map(|(refusal, place, units)| [refusal, 0, 0, 0, place, 0, 0, 0, 0, 0, 0, 0, units]);
    for first in 1..=5 {
        for last in first..=5 {
            let expected = [parts[first - 1..last].concat(), lines[first - 1..last].concat()];
            assert_eq!(call(&five(), first as u64, last as u64, [64, 70]), Ok(expected), "{first} {last}");
        }
    }
}

/// The bundle, then the numbers, then the rooms.
#[test]
fn refusals() {
    let bundle = five();
    let large = [(1, u64::MAX), (1, 1 << 32 | 5), (1 << 32 | 1, 5), (1 << 32 | 1, 1 << 32 | 5)];
    for (first, last) in [(0, 1), (0, 0), (1, 6), (6, 6), (2, 1), (5, 4), (1, 0)].into_iter().chain(large) {
        for rooms in [[64, 70], [0, 0]] {
            assert_eq!(call(&bundle, first, last, rooms), refuse(NUMBER, 0), "{first} {last}");
            assert_eq!(call(&bundle[..13], first, last, rooms), refuse(BUNDLE_CUT, 12), "{first} {last}");
        }
    }
    for rooms in [[16, 65], [17, 64], [0, 65], [17, 0]] {
        assert_eq!(call(&bundle, 1, 5, rooms), refuse(ROOM, 0), "{rooms:?}");
    }
    assert!(call(&bundle, 1, 5, [17, 65]).is_ok());
    assert_eq!(call(&bundle, 2, 4, [0, 38]), refuse(ROOM, 0));
    assert!(call(&bundle, 2, 4, [0, 39]).is_ok());
}
