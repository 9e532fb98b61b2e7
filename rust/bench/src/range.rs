//! Whole recordings by range, with the library in one call, with the library sample by sample, and with the peer, in
//! turn: `bench range [ROUNDS]`.
//!
//! Document 02's bundle, 16 MiB with 4,096 samples, a quarter and a sixteenth of both; then some of the hostile ones, also
//! of a 64th. Sample by sample is one audit for the lines and one resolve for each sample. What is answered and written
//! is compared each time. Where the room is too little, 29 is what is timed.
//!
//! What extractors copy is gone over once for each, also where it is aggregators that add no bytes: then the time grows
//! with the square of the size. That bundle comes last, in small sizes only, and not among the greatest figures.

use std::time::Duration;

use puddockle::{SampleNumber, LINE};

use crate::audit::{document, Made, FULL, SIZES};
use crate::turns::{in_turn, ratio, running, shown, Greatest, Times};
use crate::{hostile, settings, timed};

/// The room that is lent, in sizes of the bundle. Document 02's needs 2.4 of them.
const ROOM_TIMES: usize = 3;

/// Of the hostile bundles. What 'whole sample' delivers fits no such room.
const HOSTILE: [&str; 7] = [
    "last unit, L 4",
    "unit at 63,999, L 2",
    "whole sample",
    "last included unit",
    "base among 4,095 samples",
    "refused 26, last of many",
    "refused 25, one a sample",
];

/// The hostile bundle that takes time by the square of its size, and the sizes that do not take too long.
const SQUARE: &str = "empty aggregators copied";
const SQUARE_SIZES: [usize; 2] = [FULL / 256, FULL / 64];

/// The bytes of the units, or a refusal.
type Answer = Result<usize, u32>;

/// All samples of a bundle, so many, resolved into one buffer, and their lines.
type Side = fn(&[u8], u64, &mut [u8], &mut [u8]) -> Answer;

const SIDES: [Side; 3] = [
    |bundle, samples, out, lines| {
        let range = puddockle::range(bundle, SampleNumber(1), SampleNumber(samples), out, lines);
        range.map(|ranged| ranged.units.len()).map_err(|no| no.number)
    },
    one_by_one,
    |bundle, samples, out, lines| {
        let range = peer::range::range(bundle, 1, samples, out, lines);
        range.map(|[count, _]| count).map_err(|no| no.number as u32)
    },
];

fn one_by_one(bundle: &[u8], samples: u64, out: &mut [u8], lines: &mut [u8]) -> Answer {
    puddockle::audit(bundle, lines).map_err(|no| no.number)?;
    let mut at = 0;
    for number in 1..=samples {
        match puddockle::resolve(bundle, SampleNumber(number), &mut out[at..]) {
            Ok(count) => at += count,
            Err(no) if no.number == 29 => return Err(29),
            Err(_) => {}
        }
    }
    Ok(at)
}

pub fn run(rounds: usize) {
    println!("range, whole recordings, best of {rounds} rounds at 16 MiB, in turn, one thread");
    settings();
    println!(
        "bundle                           bytes  samples    written  range ms  growth  one by one ms  range/one by one  \
         \x20   peer ms  range/peer"
    );
    let mut greatest: [Greatest; 3] = Default::default();
    series("document 02", &SIZES[1..], document, rounds, &mut greatest);
    for (name, make) in hostile::KINDS.into_iter().filter(|(name, _)| HOSTILE.contains(name)) {
        series(name, &SIZES, make, rounds, &mut greatest);
    }
    let what = ["growth for four times the size", "range/one by one", "range/peer"];
    for (what, Greatest { figure, whence }) in what.iter().zip(greatest) {
        println!("greatest {what}: {figure:.2} ({whence})");
    }
    println!("by the square of the size, not among these:");
    for (name, make) in hostile::KINDS.into_iter().filter(|(name, _)| *name == SQUARE) {
        series(name, &SQUARE_SIZES, make, rounds, &mut Default::default());
    }
}

/// A bundle in all its sizes, a line for each.
fn series(name: &str, sizes: &[usize], make: fn(usize) -> Made, rounds: usize, greatest: &mut [Greatest; 3]) {
    let mut before: Vec<Times> = Vec::new();
    for &size in sizes {
        let made = make(size);
        let (best, answer) = measure(&made, running(&before), rounds.max(1) * FULL / size);
        let [range, one_by_one, peer] = best;
        let growth = ratio(range, before.last().and_then(|times| times[0]));
        let ratios = [growth, ratio(range, one_by_one), ratio(range, peer)];
        println!(
            "{name:28}  {size:8}  {:7}  {:>9}  {:>8}  {:>6}  {:>13}  {:>16}  {:>10}  {:>10}",
            made.lines.len() / LINE,
            answer.map_or_else(|no| format!("{no} at 0"), |count| count.to_string()),
            shown(range),
            shown(ratios[0]),
            shown(one_by_one),
            shown(ratios[1]),
            shown(peer),
            shown(ratios[2])
        );
        for (greatest, ratio) in greatest.iter_mut().zip(ratios) {
            greatest.note(ratio, name, size);
        }
        before.push(best);
    }
}

/// The sides in turn, and what all of them answer.
fn measure(made: &Made, running: [bool; 3], rounds: usize) -> (Times, Answer) {
    let samples = (made.lines.len() / LINE) as u64;
    let mut expected = vec![0; ROOM_TIMES * made.bundle.len()];
    let mut lines = vec![0; made.lines.len()];
    let answer = SIDES[0](&made.bundle, samples, &mut expected, &mut lines);
    expected.truncate(answer.unwrap_or(0));
    let mut out = vec![0; ROOM_TIMES * made.bundle.len()];
    let times = in_turn(running, rounds, |side| -> Duration {
        out.fill(0xEE);
        lines.fill(0xEE);
        let (time, given) = timed(|| SIDES[side](&made.bundle, samples, &mut out, &mut lines));
        assert_eq!(given, answer, "side {side}: another answer");
        if answer.is_ok() {
            assert!(out.starts_with(&expected), "side {side}: other units");
            assert!(lines == made.lines, "side {side}: other lines");
        }
        time
    });
    (times, answer)
}
