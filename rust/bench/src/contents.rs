//! The calls on what is in a bundle: `bench contents [ROUNDS]`.
//!
//! One sample by its number, for all samples of a bundle; the lines of an audit where the samples' lengths must be
//! asked for; the units of a sample in one call, one by one, and written out. The best of the rounds counts.

use std::time::Duration;

use puddockle::*;

use crate::timed;

pub fn run(rounds: usize) {
    println!("contents, best of {rounds} rounds, one thread; library: libpuddockle.a as it was built");
    for samples in [1024, 2048, 4096] {
        let bundle = alternating(samples);
        let best = best_of(rounds, || {
            (1..=samples as u64).map(|n| sample(&bundle, SampleNumber(n)).expect("accepted").bytes.len()).sum::<usize>()
        });
        println!(
            "{samples} samples: each by its number {:.2} ms, {:.2} us a call",
            ms(best),
            us(best) / samples as f64
        );
        let mut lines = vec![0; LINES_MOST];
        let audited = audit(&bundle, &mut lines).expect("accepted");
        let best = best_of(rounds, || audited.lines().filter(|line| line.outcome == Outcome::Empty).count());
        println!("{samples} samples: lines read, half of them empty {:.2} ms", ms(best));
    }
    for units in [1000, 2000, 4000] {
        let bundle = delivering(units);
        deliver("own units", &bundle, SampleNumber(1), units, rounds);
        deliver("copied units", &bundle, SampleNumber(2), units, rounds);
    }
}

/// A sample delivered in three ways.
fn deliver(what: &str, bundle: &[u8], number: SampleNumber, count: usize, rounds: usize) {
    let mut spans = vec![0; SPAN * count];
    let together = best_of(rounds, || units(bundle, number, &mut spans).expect("accepted").len());
    let room = units(bundle, number, &mut spans).expect("accepted").spans().map(|span| 4 + span.length).sum();
    let mut out = vec![0u8; room];
    let written = best_of(rounds, || resolve(bundle, number, &mut out).expect("accepted"));
    let single = best_of(rounds.min(3), || {
        let one = |n| unit(bundle, number, UnitNumber(n)).expect("accepted").len();
        (1..=count as u64).map(one).sum::<usize>()
    });
    println!(
        "{count} {what}: units {:.3} ms, resolve {:.3} ms, unit by unit {:.2} ms, {:.0} times units",
        ms(together),
        ms(written),
        ms(single),
        single.as_secs_f64() / together.as_secs_f64()
    );
}

fn best_of<T>(rounds: usize, mut call: impl FnMut() -> T) -> Duration {
    (0..rounds.max(1)).map(|_| timed(&mut call).0).min().expect("a round")
}

fn ms(time: Duration) -> f64 {
    time.as_secs_f64() * 1000.0
}

fn us(time: Duration) -> f64 {
    time.as_secs_f64() * 1_000_000.0
}

/// One SVC track whose samples are empty and pass with nothing delivered, in turn: every line of its audit is zeros.
fn alternating(samples: usize) -> Vec<u8> {
    let nothing = [&[0, 0, 0, 8][..], &[0x7E, 0x80, 0, 3, 0, 0, 0, 0]].concat();
    let lengths: Vec<usize> = (0..samples).map(|index| index % 2 * nothing.len()).collect();
    let mut bundle = head(4, &[1], &[], &lengths.iter().map(|&length| (1, length)).collect::<Vec<_>>());
    for _ in 0..samples / 2 {
        bundle.extend(&nothing);
    }
    bundle
}

/// An AVC sample of so many units of 62 bytes, and an SVC sample with an extractor that copies them all.
fn delivering(units: usize) -> Vec<u8> {
    let mut unit = [0x55; 66];
    unit[..5].copy_from_slice(&[0, 0, 0, 62, 0x61]);
    let own = unit.repeat(units);
    let mut extractor = vec![0, 0, 0, 14, 0x7F, 0x80, 0, 3, 1, 0, 0, 0, 0, 0];
    extractor.extend((own.len() as u32).to_be_bytes());
    let mut bundle = head(4, &[0, 1], &[2, 1], &[(1, own.len()), (2, extractor.len())]);
    bundle.extend(own);
    bundle.extend(extractor);
    bundle
}

/// The sections before the sample bytes, and their count: tracks by kind, all with this length size, reference entries,
/// samples by track and length. Times rise from 0 in each track.
pub fn head(length_size: usize, kinds: &[u8], references: &[u8], samples: &[(u8, usize)]) -> Vec<u8> {
    let size = length_size as u8 - 1;
    let mut bundle = vec![kinds.len() as u8];
    for &kind in kinds {
        let (profile, sets) = if kind == 0 { (66, 0xE0) } else { (83, 0) };
        bundle.extend([kind, 0, 7, 1, profile, 0, 30, 0xFC | size, sets, 0]);
    }
    bundle.push(references.len() as u8 / 2);
    bundle.extend(references);
    bundle.extend((samples.len() as u16).to_be_bytes());
    let (mut last, mut time) = (0, 0u64);
    for &(track, length) in samples {
        time = if track == last { time + 1 } else { 0 };
        last = track;
        bundle.push(track);
        bundle.extend(time.to_be_bytes());
        bundle.extend((length as u32).to_be_bytes());
    }
    bundle.extend((samples.iter().map(|sample| sample.1).sum::<usize>() as u32).to_be_bytes());
    bundle
}
