//! Document 02's request [11]: every sample of every recording, damaged ones too, whole and cut at many lengths, and
//! cases by hand.

#[path = "../../peer/tests/common/mod.rs"]
mod common;

use std::alloc::{alloc_zeroed, dealloc, Layout};
use std::fs;
use std::ptr::NonNull;
use std::slice::from_raw_parts;

use puddockle::*;

const CANARY: u8 = 0xEE;

fn refused<T>(number: u32) -> Result<T, Refusal> {
    Err(Refusal { number, place: 0 })
}

/// The room that always serves for a list of changes.
fn list_room(sample: &[u8]) -> usize {
    sample.len() + CHANGE - 1
}

/// The new sample and its changes, in exactly the room that always serves. Nothing past the counts is changed.
fn salvaged(kind: Kind, length_size: LengthSize, old: &[u8]) -> (Vec<u8>, Vec<Change>) {
    let mut out = vec![CANARY; old.len()];
    let mut changes = vec![CANARY; list_room(old)];
    let found = salvage_sample(kind as u32, length_size as u32, old, &mut out, &mut changes).unwrap();
    let (count, list) = (found.sample.len(), found.changes.entries().collect::<Vec<_>>());
    assert!(out[count..].iter().chain(&changes[list.len() * CHANGE..]).all(|&byte| byte == CANARY));
    out.truncate(count);
    (out, list)
}

/// What the list makes of the old sample. A dropped unit goes up to its end or, where that is past the sample's or the
/// unit has a top-level fault, up to the sample's.
fn applied(kind: Kind, length_size: LengthSize, old: &[u8], changes: &[Change]) -> Vec<u8> {
    let size = length_size as usize;
    let (mut new, mut at) = (Vec::new(), 0);
    for (index, change) in changes.iter().enumerate() {
        let place = change.place as usize;
        new.extend(&old[at..place]);
        at = match change.kind {
            ChangeKind::Drop => {
                let rest = &old[place..];
                let is_last = index + 1 == changes.len();
                let fault = if is_last { check_sample(kind, length_size, rest).unwrap_err() } else { NO_FAULT };
                match fault {
                    Refusal { number: 14..=18, place: 0 } => old.len(),
                    _ => place + size + big_endian(&rest[..size]),
                }
            }
            ChangeKind::Zeroing => {
                let additional = place + size + 4;
                new.extend(&old[place..additional]);
                new.resize(new.len() + size, 0);
                additional + size
            }
        };
    }
    new.extend(&old[at..]);
    new
}

const NO_FAULT: Refusal = Refusal { number: 0, place: 0 };

fn big_endian(bytes: &[u8]) -> usize {
    bytes.iter().fold(0, |number, &byte| number << 8 | byte as usize)
}

/// The promises for one sample: the new one is well formed; the list is empty exactly if the old one was, which is then
/// unchanged; its places rise; it gives the new sample; twice equals once. Returns the changes.
fn holds(kind: Kind, length_size: LengthSize, old: &[u8]) -> Vec<Change> {
    let (new, changes) = salvaged(kind, length_size, old);
    assert_eq!(check_sample(kind, length_size, &new), Ok(()));
    let formed = check_sample(kind, length_size, old).is_ok();
    assert_eq!(changes.is_empty(), formed);
    assert!(!formed || new == old);
    assert!(changes.windows(2).all(|two| two[0].place < two[1].place));
    assert!(changes.iter().all(|change| (change.place as usize) < old.len()));
    assert!(applied(kind, length_size, old, &changes) == new);
    assert_eq!(salvaged(kind, length_size, &new), (new, vec![]));
    changes
}

/// The recordings that are accepted as bundles.
fn bundles() -> Vec<Vec<u8>> {
    let directory = common::directory("PUDDOCKLE_RECORDINGS", "recordings");
    let files = [common::files(&directory, "bin"), common::files(&directory.join("damaged"), "bin")].concat();
    files.iter().map(|path| fs::read(path).unwrap()).filter(|bundle| check_bundle(bundle).is_ok()).collect()
}

/// The samples of a bundle, each with the kind and length size of its track.
fn samples(bundle: &[u8]) -> Vec<(Kind, LengthSize, &[u8])> {
    let samples = (1..=counts(bundle).unwrap().samples).map(|n| sample(bundle, SampleNumber(n)).unwrap());
    let one = |sample: Sample<'_>| {
        let track = track(bundle, sample.track).unwrap();
        (track.kind, read_record(track.kind, track.record).unwrap().length_size, sample.start, sample.bytes.len())
    };
    samples.map(one).map(|(kind, size, start, length)| (kind, size, &bundle[start..][..length])).collect()
}

/// In the bundle and outside it the answer is the same; the naming list is that of the old sample; and each of the three
/// with one byte less than it needs is 29, and all are untouched.
#[test]
fn recordings() {
    let (mut compared, mut changed) = (0, 0);
    for bundle in bundles() {
        for ((kind, length_size, old), number) in samples(&bundle).into_iter().zip((1..).map(SampleNumber)) {
            let changes = holds(kind, length_size, old);
            let (new, _) = salvaged(kind, length_size, old);
            let mut rooms = [old.len(), list_room(old), bundle.len()].map(|room| vec![CANARY; room]);
            let [out, list, named] = &mut rooms;
            let found = salvage(&bundle, number, out, list, named).unwrap();
            assert!(found.sample == new && found.changes.entries().eq(changes.iter().copied()));
            let mut expected = vec![0; bundle.len()];
            assert_eq!(found.names.bytes, names(&bundle, number, &mut expected).unwrap().bytes);
            let needed = [new.len(), changes.len() * CHANGE, found.names.bytes.len()];
            for (room, count) in rooms.iter().zip(needed) {
                assert!(room[count..].iter().all(|&byte| byte == CANARY));
            }
            for short in (0..3).filter(|&short| needed[short] > 0) {
                let mut rooms = needed.map(|room| vec![CANARY; room]);
                rooms[short].pop();
                let [out, list, names] = &mut rooms;
                assert_eq!(salvage(&bundle, number, out, list, names).err(), refused::<()>(29).err());
                assert!(rooms.iter().flatten().all(|&byte| byte == CANARY));
            }
            compared += 1;
            changed += usize::from(!changes.is_empty());
        }
    }
    assert!(compared > 1000 && changed > 10, "{compared} {changed}");
    println!("{compared} samples, {changed} changed");
}

/// Samples cut at every length up to 300 and at some more, and with a byte damaged.
#[test]
fn cut_and_damaged() {
    let (mut compared, mut changed) = (0, 0);
    let mut seed = 11u64;
    for bundle in bundles() {
        for (kind, length_size, old) in samples(&bundle).into_iter().step_by(17) {
            let lengths = (0..old.len().min(300)).chain((300..old.len()).step_by(41));
            for length in lengths {
                compared += 1;
                changed += usize::from(!holds(kind, length_size, &old[..length]).is_empty());
            }
            for _ in 0..if old.is_empty() { 0 } else { 100 } {
                let mut damaged = old.to_vec();
                seed = seed.wrapping_mul(6364136223846793005).wrapping_add(1442695040888963407);
                // Headers and lengths stand at the front of units: half of the damage goes there.
                let most = if seed >> 63 == 0 { old.len() } else { old.len().min(40) };
                damaged[(seed >> 33) as usize % most] = (seed >> 20) as u8;
                compared += 1;
                changed += usize::from(!holds(kind, length_size, &damaged).is_empty());
            }
        }
    }
    assert!(compared > 10_000 && changed > 5000, "{compared} {changed}");
    println!("{compared} samples, {changed} changed");
}

#[test]
fn by_hand() {
    let drop = |place| Change { kind: ChangeKind::Drop, place };
    let zeroing = |place| Change { kind: ChangeKind::Zeroing, place };
    let (avc, svc) = (Kind::Avc, Kind::Svc);
    let aggregator =
        |additional, included: &[u8]| [&[5 + included.len() as u8, 0x7E, 0x80, 0, 3, additional], included].concat();
    let picture: &[u8] = &[2, 0x65, 0x88];
    let short: &[u8] = &[5, 0x7F, 0x80, 0, 3, 1];
    for (kind, old, new, changes) in [
        (avc, vec![], vec![], vec![]),
        (avc, vec![0], vec![], vec![drop(0)]),
        (avc, [picture, &[9]].concat(), picture.to_vec(), vec![drop(3)]),
        // A 22 at top level and included; a 20, which is none in an SVC track.
        (avc, [short, picture].concat(), picture.to_vec(), vec![drop(0)]),
        (svc, [&aggregator(0, short), picture].concat(), picture.to_vec(), vec![drop(0)]),
        (avc, [&aggregator(0, picture), picture].concat(), picture.to_vec(), vec![drop(0)]),
        (svc, [&aggregator(0, picture), picture].concat(), [&aggregator(0, picture), picture].concat(), vec![]),
        // Covered: up to the sample's end, as it would be without the fault; past it; a dropped unit.
        (svc, [&aggregator(3, &[]), picture, &[0]].concat(), [&aggregator(3, &[]), picture].concat(), vec![drop(9)]),
        (
            svc,
            [&aggregator(4, &[]), picture, &[0]].concat(),
            [&aggregator(0, &[]), picture].concat(),
            vec![zeroing(0), drop(9)],
        ),
        (
            svc,
            [&aggregator(9, &[]), picture, short, picture].concat(),
            [&aggregator(0, &[]), picture, picture].concat(),
            vec![zeroing(0), drop(9)],
        ),
        // It covers an aggregator that is dropped: a drop, and the one that covers is zeroed.
        (svc, [aggregator(12, &[]), aggregator(7, short)].concat(), aggregator(0, &[]), vec![zeroing(0), drop(6)]),
        // Dropped itself, so not listed as a zeroing.
        (svc, aggregator(200, short), vec![], vec![drop(0)]),
    ] {
        assert_eq!(salvaged(kind, LengthSize::One, &old), (new, changes.clone()), "{old:?}");
        assert_eq!(holds(kind, LengthSize::One, &old), changes);
    }
}

/// Units that are all dropped, and a rest: with lengths of 1 byte as many changes as the room that always serves has place for.
#[test]
fn the_most_changes() {
    for length_size in [LengthSize::One, LengthSize::Two, LengthSize::Four] {
        let size = length_size as usize;
        let short = [&4u32.to_be_bytes()[4 - size..], &[0x7F, 0x80, 0, 3]].concat();
        let old = [&short.repeat(1000)[..], &[9]].concat();
        let (new, changes) = salvaged(Kind::Svc, length_size, &old);
        assert_eq!((new.len(), changes.len()), (0, 1001));
    }
}

/// Zeros whose memory is not used before it is written; none where so much cannot be had.
struct Zeros(NonNull<u8>, Layout);

impl Zeros {
    fn new(length: usize) -> Option<Zeros> {
        let layout = Layout::array::<u8>(length).unwrap();
        // SAFETY: the length is not 0.
        NonNull::new(unsafe { alloc_zeroed(layout) }).map(|bytes| Zeros(bytes, layout))
    }

    fn bytes(&self) -> &[u8] {
        // SAFETY: so many bytes, all zero, are ours until they are dropped.
        unsafe { from_raw_parts(self.0.as_ptr(), self.1.size()) }
    }
}

impl Drop for Zeros {
    fn drop(&mut self) {
        // SAFETY: they come from `alloc_zeroed` with this layout.
        unsafe { dealloc(self.0.as_ptr(), self.1) }
    }
}

/// A place fits 4 bytes where the sample has at most 2^32 bytes. Here the first unit has length 0, so all is dropped.
#[test]
fn the_longest_sample() {
    let Some(zeros) = Zeros::new((1 << 32) + 1) else {
        println!("no memory for 4 GiB: not run");
        return;
    };
    let call = |length: usize, changes: &mut [u8]| {
        let found = salvage_sample(0, 1, &zeros.bytes()[..length], &mut [], changes);
        found.map(|found| (found.sample.len(), found.changes.entries().collect::<Vec<_>>()))
    };
    let changes = &mut [CANARY; 10];
    assert_eq!(call(1 << 32, changes), Ok((0, vec![Change { kind: ChangeKind::Drop, place: 0 }])));
    *changes = [CANARY; 10];
    assert_eq!(call((1 << 32) + 1, changes), refused(29));
    assert_eq!(*changes, [CANARY; 10]);
}

/// 4, then 11, then 29; numbers that are too large are not cut.
#[test]
fn refusals() {
    let old = [2, 0x65, 0x88, 0];
    let call = |kind: u32, length_size: u32, [room, list_room]: [usize; 2]| {
        let (mut out, mut changes) = (vec![CANARY; room], vec![CANARY; list_room]);
        let answer = salvage_sample(kind, length_size, &old, &mut out, &mut changes).map(|_| ());
        assert!(answer.is_ok() || out.iter().chain(&changes).all(|&byte| byte == CANARY));
        answer
    };
    for kind in [0, 1, 2, 256, 257, 1 << 31, u32::MAX] {
        for length_size in [0, 1, 2, 3, 4, 5, 255, 256, 257, 258, 260, 1 << 31, u32::MAX] {
            for rooms in [[0, 0], [4, 10], [0, 10], [4, 0]] {
                let answer = call(kind, length_size, rooms).map_err(|no| (no.number, no.place));
                match (kind, length_size, rooms) {
                    (2.., ..) => assert_eq!(answer, Err((4, 0))),
                    (_, 0 | 3 | 5.., _) => assert_eq!(answer, Err((11, 0))),
                    (_, 1, [4, 10]) => assert_eq!(answer, Ok(())),
                    (_, 1, _) => assert_eq!(answer, Err((29, 0))),
                    // With L = 2 and 4 the first unit is longer than what is left: all is dropped.
                    (_, _, [_, room]) => assert_eq!(answer, if room == 10 { Ok(()) } else { Err((29, 0)) }),
                }
            }
        }
    }
    assert_eq!(call(0, 1, [3, 5]), Ok(()));
    assert_eq!(call(0, 1, [2, 5]), refused(29));
    assert_eq!(call(0, 1, [3, 4]), refused(29));
    let bundle = [1, 0, 0, 7, 1, 0x42, 0, 0x1E, 0xFC, 0xE0, 0, 0, 0, 0, 0, 0, 0, 0];
    assert_eq!(salvage(&bundle, SampleNumber(0), &mut [], &mut [], &mut []).err(), refused::<()>(30).err());
    assert_eq!(salvage(&bundle, SampleNumber(1), &mut [], &mut [], &mut []).err(), refused::<()>(30).err());
    let no = salvage(&bundle[..17], SampleNumber(1), &mut [], &mut [], &mut []).unwrap_err();
    assert_eq!((no.number, no.place), (2, 14));
}
