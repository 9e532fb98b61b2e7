//! What the program writes about the bundle on its standard input.

use crate::audit::{states, tally, State};
use crate::bundle::Bundle;

/// The longest bundle that the program takes.
pub const LONGEST_INPUT: usize = 65_536;

/// The program's whole output. The size is judged first.
pub fn text(input: &[u8]) -> String {
    if input.len() > LONGEST_INPUT {
        return "bundle too big for this program\n".to_string();
    }
    let bundle = match Bundle::read(input) {
        Ok(bundle) => bundle,
        Err(no) => return format!("bundle refused {} at {}\n", no.number, no.place),
    };
    let states = states(&bundle);
    let mut text = String::new();
    for (state, number) in states.iter().zip(1..) {
        text += &match state {
            State::Passed { units } => format!("{number} passed {units}\n"),
            State::Empty => format!("{number} empty\n"),
            State::Refused(no) => format!("{number} refused {} at {}\n", no.number, no.place),
        };
    }
    let tally = tally(&states);
    text + &format!("passed {} empty {} refused {}\n", tally.passed, tally.empty, tally.refused)
}
