//! The audit: a line for each sample, and a tally.

use crate::bundle::Bundle;
use crate::deliver::deliver;
use crate::forms::Forms;
use crate::numbers::SampleNumber;
use crate::refusal::*;

/// Refusal in 1 byte, place in 4, units delivered in 8.
pub const LINE: usize = 13;

#[derive(Clone, Copy, Debug, PartialEq, Eq)]
pub enum State {
    Passed { units: u64 },
    Empty,
    Refused(Refusal),
}

#[derive(Clone, Copy, Debug, Default, PartialEq, Eq)]
pub struct Tally {
    pub passed: u64,
    pub empty: u64,
    pub refused: u64,
}

/// The state of every sample, in order. Every sample's form is checked once, before all else.
pub fn states(bundle: &Bundle) -> Vec<State> {
    states_with(bundle, Forms::all(bundle))
}

fn states_with(bundle: &Bundle, mut forms: Forms) -> Vec<State> {
    bundle.numbers().map(|number| state(bundle, &mut forms, number)).collect()
}

fn state(bundle: &Bundle, forms: &mut Forms, number: SampleNumber) -> State {
    if bundle.sample(number).length == 0 {
        return State::Empty;
    }
    let mut units = 0;
    match deliver(bundle, forms, number, &mut |_| units += 1) {
        Ok(()) => State::Passed { units },
        Err(refusal) => State::Refused(refusal),
    }
}

pub fn tally(states: &[State]) -> Tally {
    let mut tally = Tally::default();
    for state in states {
        match state {
            State::Passed { .. } => tally.passed += 1,
            State::Empty => tally.empty += 1,
            State::Refused(_) => tally.refused += 1,
        }
    }
    tally
}

/// Writes 13 bytes a sample and answers how many bytes that is, and the tally. Refused with 1 to 13, 29.
pub fn audit(bytes: &[u8], lines: &mut [u8]) -> Result<(usize, Tally), Refusal> {
    audit_with(bytes, lines, states)
}

/// The same answers; where every sample's top-level units start is kept, which takes 4 bytes a unit, so that of a named
/// sample at most one aggregator is walked to find data_offset.
pub fn audit_with_starts(bytes: &[u8], lines: &mut [u8]) -> Result<(usize, Tally), Refusal> {
    audit_with(bytes, lines, |bundle| states_with(bundle, Forms::all_with_starts(bundle)))
}

fn audit_with(
    bytes: &[u8],
    lines: &mut [u8],
    states: impl FnOnce(&Bundle) -> Vec<State>,
) -> Result<(usize, Tally), Refusal> {
    let bundle = Bundle::read(bytes)?;
    let count = bundle.sample_count() * LINE;
    if count > lines.len() {
        return refuse(ROOM, 0);
    }
    let states = states(&bundle);
    for (state, line) in states.iter().zip(lines.chunks_exact_mut(LINE)) {
        write_line(state, line);
    }
    Ok((count, tally(&states)))
}

/// Writes the line of a sample, which has [`LINE`] bytes.
pub fn write_line(state: &State, line: &mut [u8]) {
    let (number, place, units) = match *state {
        State::Passed { units } => (0, 0, units),
        State::Empty => (0, 0, 0),
        State::Refused(refusal) => (refusal.number, refusal.place, 0),
    };
    line[0] = number;
    line[1..5].copy_from_slice(&(place as u32).to_be_bytes());
    line[5..].copy_from_slice(&units.to_be_bytes());
}
