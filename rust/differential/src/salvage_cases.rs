//! What a sample that is salvaged has: names and numbers for the report. By the peer's checks.

use peer::form::{check_additional_bytes, check_extractor, check_included, check_unit};
use peer::kind::Kind;
use peer::length_size::LengthSize;
use peer::unit::*;

/// The number of the first top-level fault, 0 for none.
pub const FIRST_FAULTS: &str = "first faults";
/// The number of the first fault in each aggregator that is dropped.
pub const DROPPED_FOR: &str = "dropped for";
/// How the additional_bytes of each aggregator before the first top-level fault end.
pub const ADDITIONAL_BYTES: &str = "additional_bytes";
/// What all of the sample is like.
pub const SALVAGED: &str = "salvaged";

// additional_bytes, kept:
const ZERO: u32 = 0;
const TO_BORDER: u32 = 1;
const TO_FIRST_FAULT: u32 = 2;
// 21 does not arise, but a unit is dropped:
const OVER_DROPPED_UNIT: u32 = 3;
// 21:
const TO_NO_BORDER: u32 = 4;
const OVER_AGGREGATOR: u32 = 5;
const OVER_DROPPED_AGGREGATOR: u32 = 6;
const PAST_SAMPLE: u32 = 7;
const PAST_FIRST_FAULT: u32 = 8;
/// To where the lengths behind the first top-level fault lead, or to the old end.
const PAST_FIRST_FAULT_TO_BORDER: u32 = 9;
// The aggregator itself is dropped:
const GOOD_IN_DROPPED: u32 = 10;
const WRONG_IN_DROPPED: u32 = 11;

const UNCHANGED: u32 = 0;
const SHORT_EXTRACTOR: u32 = 1;
const LONG_EXTRACTOR: u32 = 2;
/// Of aggregators that cover something one is zeroed and one is not.
const ZEROED_AND_KEPT: u32 = 3;
/// A unit dropped, one zeroed, and a first top-level fault.
const EVERY_CHANGE: u32 = 4;
const NOTHING_LEFT: u32 = 5;
const NAMED_UNCHANGED: u32 = 6;
const NAMED_CHANGED: u32 = 7;

/// What is counted of a sample; `named` tells whether an extractor names it.
pub fn of(kind: Kind, size: LengthSize, sample: &[u8], named: bool) -> Vec<(&'static str, u32)> {
    let mut counted = Vec::new();
    let (front, fault) = before_first_fault(size, sample);
    counted.push((FIRST_FAULTS, fault));
    let (mut kept, mut dropped) = (0, 0);
    let (mut covering, mut zeroed) = (0, 0);
    for unit in top_level(front, size) {
        let before = dropped;
        match unit.unit_type(front) {
            AGGREGATOR => {
                if let Err(no) = check_included(kind, size, front, unit) {
                    counted.push((DROPPED_FOR, no.number as u32));
                    dropped += 1;
                }
                let end = additional_bytes(kind, size, front, sample, unit);
                counted.push((ADDITIONAL_BYTES, end));
                covering += matches!(end, TO_BORDER | TO_FIRST_FAULT) as usize;
                zeroed += (OVER_DROPPED_UNIT..=PAST_FIRST_FAULT_TO_BORDER).contains(&end) as usize;
            }
            EXTRACTOR if check_extractor(size, unit).is_err() => {
                let short = unit.length() < size.extractor_size();
                counted.push((SALVAGED, if short { SHORT_EXTRACTOR } else { LONG_EXTRACTOR }));
                dropped += 1;
            }
            _ => {}
        }
        kept += (dropped == before) as usize;
    }
    let unchanged = fault == 0 && dropped + zeroed == 0;
    let whole = [
        (UNCHANGED, unchanged),
        (ZEROED_AND_KEPT, zeroed > 0 && covering > 0),
        (EVERY_CHANGE, zeroed > 0 && dropped > 0 && fault != 0),
        (NOTHING_LEFT, kept == 0 && !sample.is_empty()),
        (NAMED_UNCHANGED, named && unchanged),
        (NAMED_CHANGED, named && !unchanged),
    ];
    counted.extend(whole.into_iter().filter(|&(_, holds)| holds).map(|(number, _)| (SALVAGED, number)));
    counted
}

/// The sample up to its first top-level fault, and the fault's number.
fn before_first_fault(size: LengthSize, sample: &[u8]) -> (&[u8], u32) {
    let mut at = 0;
    while at < sample.len() {
        match check_unit(size, sample, at, sample.len()) {
            Ok(unit) => at = unit.end,
            Err(no) => return (&sample[..at], no.number as u32),
        }
    }
    (sample, 0)
}

fn additional_bytes(kind: Kind, size: LengthSize, front: &[u8], sample: &[u8], unit: Unit) -> u32 {
    let end = covered_end(front, size, unit);
    let is_wrong = check_additional_bytes(size, front, unit).is_err();
    if check_included(kind, size, front, unit).is_err() {
        return if is_wrong { WRONG_IN_DROPPED } else { GOOD_IN_DROPPED };
    }
    let covered = || units_between(front, size, unit.end, end.min(front.len()));
    if !is_wrong {
        return match () {
            _ if end == unit.end => ZERO,
            _ if covered().any(|one| one.unit_type(front) == EXTRACTOR && check_extractor(size, one).is_err()) => {
                OVER_DROPPED_UNIT
            }
            _ if end == front.len() && end < sample.len() => TO_FIRST_FAULT,
            _ => TO_BORDER,
        };
    }
    match covered().find(|one| one.unit_type(front) == AGGREGATOR) {
        Some(one) if check_included(kind, size, front, one).is_err() => OVER_DROPPED_AGGREGATOR,
        Some(_) => OVER_AGGREGATOR,
        None if end > sample.len() => PAST_SAMPLE,
        None if end <= front.len() => TO_NO_BORDER,
        None if end == sample.len() || is_border_past(size, sample, front.len(), end) => PAST_FIRST_FAULT_TO_BORDER,
        None => PAST_FIRST_FAULT,
    }
}

/// Whether the lengths from `at` on lead to `end`.
fn is_border_past(size: LengthSize, sample: &[u8], mut at: usize, end: usize) -> bool {
    while at < end && at + size.bytes() <= sample.len() {
        at = unit_at(sample, size, at).end;
    }
    at == end
}
