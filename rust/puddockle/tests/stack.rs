//! Every call on a bundle in a thread with no more stack than include/puddockle.h says that it uses, on a bundle with the
//! most tracks, references, samples and bytes.

use std::thread;

use puddockle::*;

/// Bytes of stack for calls that judge samples, and for the others.
const JUDGING_STACK: usize = 450_000;
const OTHER_STACK: usize = 160_000;

/// The number of samples in each track.
const EACH: usize = SAMPLES_MOST / TRACKS_MOST;

/// The last sample, and the one that its extractors name, at the same time in track 4.
const LAST: SampleNumber = SampleNumber(SAMPLES_MOST as u64);
const NAMED: SampleNumber = SampleNumber(4 * EACH as u64);

/// With L = 4 an extractor that goes by the last of the references and copies the first unit.
const EXTRACTOR: [u8; 18] = [0, 0, 0, 14, 0x7F, 0x80, 0, 3, REFERENCES_MOST as u8, 0, 0, 0, 0, 0, 0, 0, 0, 0];
/// The front of an aggregator that includes one of those.
const AGGREGATOR: [u8; 12] = [0, 0, 0, 26, 0x7E, 0x80, 0, 3, 0, 0, 0, 0];
/// Where the extractors of a sample stand, and their end.
const PLACES: [usize; 3] = [AGGREGATOR.len(), 30, 48];

/// One unit in each sample. In the last track, all of whose references lead to the others, two extractors are before it,
/// one in an aggregator.
fn bundle() -> Vec<u8> {
    let last = TRACKS_MOST as u8;
    let mut bundle = [vec![last], [1, 0, 7, 1, 83, 0, 30, 0xFF, 0, 0].repeat(TRACKS_MOST)].concat();
    bundle.push(REFERENCES_MOST as u8);
    bundle.extend((0..REFERENCES_MOST as u8).flat_map(|index| [last, 1 + index % (last - 1)]));
    bundle.extend((SAMPLES_MOST as u16).to_be_bytes());
    let total = BUNDLE_MOST - bundle.len() - 13 * SAMPLES_MOST - 4;
    let length = |index: usize| total / SAMPLES_MOST + usize::from(index < total % SAMPLES_MOST);
    for index in 0..SAMPLES_MOST {
        bundle.push(1 + (index / EACH) as u8);
        bundle.extend((index as u64 % EACH as u64).to_be_bytes());
        bundle.extend((length(index) as u32).to_be_bytes());
    }
    bundle.extend((total as u32).to_be_bytes());
    for index in 0..SAMPLES_MOST {
        let mut left = length(index);
        if index / EACH == TRACKS_MOST - 1 {
            bundle.extend([&AGGREGATOR[..], &EXTRACTOR, &EXTRACTOR].concat());
            left -= PLACES[2];
        }
        bundle.extend((left as u32 - 4).to_be_bytes());
        bundle.resize(bundle.len() + left - 4, 0x61);
    }
    assert_eq!(bundle.len(), BUNDLE_MOST);
    bundle
}

fn judging_calls(bundle: &[u8]) {
    let own = sample(bundle, LAST).unwrap().bytes;
    let copied = &sample(bundle, NAMED).unwrap().bytes[4..];
    let delivered = [copied, copied, &own[PLACES[2] + 4..]];
    let mut lines = vec![0; LINES_MOST];
    let audited = audit(bundle, &mut lines).unwrap();
    assert_eq!(audited.tally, Tally { passed: SAMPLES_MOST as u64, empty: 0, refused: 0 });
    assert_eq!(audited.lines().last().unwrap().units, 3);
    let mut spans = vec![0; 3 * SPAN];
    assert!(units(bundle, LAST, &mut spans).unwrap().iter().eq(delivered));
    assert_eq!(unit(bundle, LAST, UnitNumber(3)), Ok(delivered[2]));
    let mut out = vec![0; delivered.iter().map(|unit| 4 + unit.len()).sum()];
    assert_eq!(resolve(bundle, LAST, &mut out), Ok(out.len()));
    let (mut all, mut all_lines) = (vec![0; 2 * BUNDLE_MOST], vec![0; LINES_MOST]);
    let one = range(bundle, LAST, LAST, &mut all, &mut all_lines).unwrap();
    assert!(one.units == out && one.lines().eq(audited.lines().last()));
    let whole = range(bundle, SampleNumber(1), LAST, &mut all, &mut all_lines).unwrap();
    assert!(whole.units.ends_with(&out) && whole.bytes == audited.bytes);
    assert_eq!(stream(bundle, LAST, &mut out), Ok(out.len()));
}

fn other_calls(bundle: &[u8]) {
    assert_eq!(check_bundle(bundle), Ok(()));
    let Counts { tracks, references, samples } = counts(bundle).unwrap();
    assert_eq!([tracks, references, samples], [TRACKS_MOST, REFERENCES_MOST, SAMPLES_MOST].map(|most| most as u64));
    assert_eq!(track(bundle, TrackNumber(tracks)).unwrap().kind, Kind::Svc);
    assert_eq!(reference(bundle, ReferenceNumber(references)).unwrap().to, TrackNumber(4));
    assert_eq!(sample(bundle, LAST).unwrap().track, TrackNumber(tracks));
    let entries = [PLACES[0], PLACES[1]].map(|place| NamesEntry { sample: LAST, place: place as u64 });
    let mut list = vec![0; 2 * NAMES_ENTRY];
    assert!(names(bundle, NAMED, &mut list).unwrap().entries().eq(entries));
    assert_eq!(named(bundle, LAST, PLACES[1] as u64), Ok(NAMED));
    let old = sample(bundle, NAMED).unwrap().bytes;
    let (mut out, mut changes) = (vec![0; old.len()], vec![0; old.len().div_ceil(5) * CHANGE]);
    let salvaged = salvage(bundle, NAMED, &mut out, &mut changes, &mut list).unwrap();
    assert!(salvaged.sample == old && salvaged.changes.bytes.is_empty() && salvaged.names.entries().eq(entries));
    // With a top bit set in its last unit: its two extractors, one of them in the aggregator, are left.
    let old = sample(bundle, LAST).unwrap();
    let mut damaged = bundle.to_vec();
    damaged[old.start + PLACES[2] + 4] = 0x80;
    let salvaged = salvage(&damaged, LAST, &mut out, &mut changes, &mut []).unwrap();
    assert_eq!(salvaged.sample, &old.bytes[..PLACES[2]]);
    assert!(salvaged.changes.entries().eq([Change { kind: ChangeKind::Drop, place: PLACES[2] as u64 }]));
}

#[test]
fn little_stack() {
    let bundle = bundle();
    for (stack, calls) in [(JUDGING_STACK, judging_calls as fn(&[u8])), (OTHER_STACK, other_calls)] {
        thread::scope(|scope| {
            let thread = thread::Builder::new().stack_size(stack).spawn_scoped(scope, || calls(&bundle));
            thread.unwrap().join().unwrap();
        });
    }
}
