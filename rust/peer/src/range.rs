//! A range of samples resolved into one buffer, with an audit line for each: document 02's request [6].

use crate::audit::{write_line, State, LINE};
use crate::bundle::Bundle;
use crate::deliver::deliver;
use crate::forms::Forms;
use crate::numbers::SampleNumber;
use crate::refusal::*;
use crate::resolve::{write_units, LENGTH_FIELD};

/// Writes what samples `first` to `last` resolve to, one after the other, and their audit lines; answers how many bytes
/// each of the two has. A refused sample has its line and no bytes. Refused with 1 to 13, 30, 29.
pub fn range(bytes: &[u8], first: u64, last: u64, out: &mut [u8], lines: &mut [u8]) -> Result<[usize; 2], Refusal> {
    let bundle = Bundle::read(bytes)?;
    let (SampleNumber(first), SampleNumber(last)) = (bundle.number(first)?, bundle.number(last)?);
    if first > last {
        return refuse(NUMBER, 0);
    }
    let mut forms = Forms::new(&bundle);
    let numbers = (first..=last).map(SampleNumber);
    let judged: Vec<(State, usize)> = numbers.clone().map(|number| judge(&bundle, &mut forms, number)).collect();
    let needed = judged.iter().map(|(_, length)| length).sum();
    let lines_needed = judged.len() * LINE;
    if needed > out.len() || lines_needed > lines.len() {
        return refuse(ROOM, 0);
    }
    let mut at = 0;
    for ((number, (state, length)), line) in numbers.zip(&judged).zip(lines.chunks_exact_mut(LINE)) {
        write_line(state, line);
        if let State::Passed { .. } = state {
            write_units(&bundle, &mut forms, number, &mut out[at..at + length])?;
        }
        at += length;
    }
    Ok([needed, lines_needed])
}

/// What the audit says of a sample, and how many bytes it resolves to: none where it is refused.
fn judge(bundle: &Bundle, forms: &mut Forms, number: SampleNumber) -> (State, usize) {
    if bundle.sample(number).length == 0 {
        return (State::Empty, 0);
    }
    let (mut units, mut length) = (0, 0);
    let result = deliver(bundle, forms, number, &mut |part| {
        units += 1;
        length += LENGTH_FIELD + part.length;
    });
    match result {
        Ok(()) => (State::Passed { units }, length),
        Err(refusal) => (State::Refused(refusal), 0),
    }
}
