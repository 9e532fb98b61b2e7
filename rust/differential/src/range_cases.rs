//! What a range that was asked for is like: names and numbers for the report. By the peer's checks.

use peer::bundle::Bundle;
use peer::deliver::deliver;
use peer::forms::Forms;
use peer::numbers::SampleNumber;

/// The refusals in the lines written.
pub const LINES: &str = "range lines";
/// What an accepted range has.
pub const RANGES: &str = "ranges";
/// Why a range is refused with 30 or 29.
pub const REFUSED: &str = "ranges refused";

/// Bytes of an audit line, and of the length before a unit.
const LINE: usize = 13;
const LENGTH_FIELD: usize = 4;

const ONE_SAMPLE: u32 = 0;
const SEVERAL_SAMPLES: u32 = 1;
/// All samples of a bundle, of several.
const ALL_SAMPLES: u32 = 2;
const NOTHING_DELIVERED: u32 = 3;
// Between samples that deliver something:
const EMPTY_BETWEEN: u32 = 4;
const REFUSED_BETWEEN: u32 = 5;
/// A refused sample has units before its fault.
const REFUSED_AFTER_UNITS: u32 = 6;

// 30:
const FIRST_IS_0: u32 = 0;
const LAST_PAST_END: u32 = 1;
const FIRST_PAST_LAST: u32 = 2;
// 29, the other room sufficing:
const A_BYTE_FOR_UNITS: u32 = 3;
const UNITS: u32 = 4;
const A_BYTE_FOR_LINES: u32 = 5;
const LINES_OF_SAMPLES: u32 = 6;
const BOTH: u32 = 7;

type Cases = Vec<(&'static str, u32)>;

/// How many bytes the units and the lines of a range have; 0 where there is no such range.
pub fn needed(bundle: &[u8], first: u64, last: u64) -> [usize; 2] {
    let Ok(bundle) = Bundle::read(bundle) else { return [0, 0] };
    if first == 0 || first > last || last > bundle.sample_count() as u64 {
        return [0, 0];
    }
    let mut forms = Forms::new(&bundle);
    let numbers = (first as usize..=last as usize).map(SampleNumber);
    let units = numbers.map(|number| delivered(&bundle, &mut forms, number)).filter(|&(_, _, good)| good);
    [units.map(|(_, bytes, _)| bytes).sum(), LINE * (last - first + 1) as usize]
}

/// The units that a sample delivers, with their lengths in bytes, and whether it does; else those before its fault.
fn delivered(bundle: &Bundle, forms: &mut Forms, number: SampleNumber) -> (usize, usize, bool) {
    let (mut units, mut bytes) = (0, 0);
    let result = deliver(bundle, forms, number, &mut |part| {
        units += 1;
        bytes += LENGTH_FIELD + part.length;
    });
    (units, bytes, result.is_ok())
}

/// Of an accepted range, by its lines.
pub fn accepted(bundle: &[u8], first: u64, lines: &[u8]) -> Cases {
    let lines: Vec<&[u8]> = lines.chunks_exact(LINE).collect();
    let bundle = Bundle::read(bundle).expect("accepted");
    let mut forms = Forms::new(&bundle);
    let number = |index: usize| SampleNumber(first as usize + index);
    let delivers = |line: &&[u8]| line[5..].iter().any(|&byte| byte != 0);
    let inner = match (lines.iter().position(delivers), lines.iter().rposition(delivers)) {
        (Some(first), Some(last)) => first..last,
        _ => 0..0,
    };
    let after_units = (0..lines.len()).any(|at| lines[at][0] != 0 && delivered(&bundle, &mut forms, number(at)).0 > 0);
    let several = lines.len() > 1;
    let cases = [
        (ONE_SAMPLE, !several),
        (SEVERAL_SAMPLES, several),
        (ALL_SAMPLES, several && lines.len() == bundle.sample_count()),
        (NOTHING_DELIVERED, !lines.iter().any(delivers)),
        (EMPTY_BETWEEN, inner.clone().any(|at| bundle.sample(number(at)).length == 0)),
        (REFUSED_BETWEEN, inner.clone().any(|at| lines[at][0] != 0)),
        (REFUSED_AFTER_UNITS, after_units),
    ];
    let cases = cases.into_iter().filter(|&(_, holds)| holds).map(|(case, _)| (RANGES, case));
    cases.chain(lines.iter().map(|line| (LINES, line[0] as u32))).collect()
}

/// Of a range that is refused with 29.
pub fn too_small(needed: [usize; 2], rooms: [usize; 2]) -> Cases {
    let [units, lines] = [0, 1].map(|at| needed[at].saturating_sub(rooms[at]));
    let case = match (units, lines) {
        (1, 0) => A_BYTE_FOR_UNITS,
        (_, 0) => UNITS,
        (0, 1) => A_BYTE_FOR_LINES,
        (0, _) => LINES_OF_SAMPLES,
        _ => BOTH,
    };
    vec![(REFUSED, case)]
}

/// Of a range that is refused with 30, in a bundle of so many samples.
pub fn no_range(first: u64, last: u64, samples: u64) -> Cases {
    let cases = [(FIRST_IS_0, first == 0), (LAST_PAST_END, last > samples), (FIRST_PAST_LAST, first > last)];
    // Only those that are refused for one reason.
    match cases.into_iter().filter(|&(_, holds)| holds).collect::<Vec<_>>()[..] {
        [(case, _)] => vec![(REFUSED, case)],
        _ => Vec::new(),
    }
}
