//! A range of samples resolved, and their audit lines: two lent slices, compared whole.

use peer::calls::{self, Answer};
use puddockle::raw::puddockle_range;

use crate::buffer::{self, UNSET};
use crate::call::{outcome, pointer, pointer_mut, Outcome};
use crate::range_cases;

pub fn range(bundle: &[u8], first: u64, last: u64, rooms: [usize; 2]) -> Outcome {
    let mut expected = rooms.map(buffer::bytes);
    let mut written = expected.clone();
    let [out, lines] = expected.each_mut().map(|buffer| buffer.lent());
    let answer = calls::range(bundle, first, last, out, lines);
    let cases = match answer.number {
        0 => range_cases::accepted(bundle, first, &lines[..answer.values[0] as usize]),
        29 => range_cases::too_small(range_cases::needed(bundle, first, last), rooms),
        30 => range_cases::no_range(first, last, calls::counts(bundle).values[2]),
        _ => Vec::new(),
    };
    let mut given = Answer { place: UNSET, count: UNSET, values: [UNSET, 0, 0, 0], ..Answer::default() };
    let [out, lines] = written.each_mut().map(|buffer| buffer.lent());
    // SAFETY: slices and their own lengths, and numbers of our own.
    given.number = unsafe {
        puddockle_range(
            pointer(bundle),
            bundle.len(),
            first,
            last,
            pointer_mut(out),
            out.len(),
            pointer_mut(lines),
            lines.len(),
            &mut given.place,
            &mut given.count,
            &mut given.values[0],
        )
    };
    Outcome { cases, ..outcome(answer, given, &expected, &written) }
}
