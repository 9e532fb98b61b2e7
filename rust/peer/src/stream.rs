//! A sample as a byte stream of ISO/IEC 14496-10, Annex B: document 02's request [2].

use crate::bundle::Bundle;
use crate::deliver::deliver;
use crate::forms::Forms;
use crate::refusal::*;

/// Stands before each unit. It is as long as the length that stands there in the resolved output.
const START_CODE: [u8; 4] = [0, 0, 0, 1];

/// Writes each delivered unit after a start code and answers how many bytes that is.
/// Refused with 1 to 13, 30, 14 to 28, 32, 29.
pub fn stream(bytes: &[u8], sample: u64, out: &mut [u8]) -> Result<usize, Refusal> {
    let bundle = Bundle::read(bytes)?;
    let number = bundle.number(sample)?;
    let mut forms = Forms::new(&bundle);
    let mut needed = 0;
    let mut not_streamable = None;
    deliver(&bundle, &mut forms, number, &mut |part| {
        if not_streamable.is_none() && !is_streamable(&bytes[part.start..part.start + part.length]) {
            not_streamable = Some(needed);
        }
        needed += START_CODE.len() + part.length;
    })?;
    if let Some(place) = not_streamable {
        return refuse(UNIT_NOT_STREAMABLE, place);
    }
    if needed > out.len() {
        return refuse(ROOM, 0);
    }
    let mut at = 0;
    deliver(&bundle, &mut forms, number, &mut |part| {
        let (code, unit) = out[at..at + START_CODE.len() + part.length].split_at_mut(START_CODE.len());
        code.copy_from_slice(&START_CODE);
        unit.copy_from_slice(&bytes[part.start..part.start + part.length]);
        at += START_CODE.len() + part.length;
    })?;
    Ok(needed)
}

/// Whether a unit can stand in a byte stream: it does not end in 00 and holds none of 00 00 00, 00 00 01, 00 00 02.
fn is_streamable(unit: &[u8]) -> bool {
    !unit.ends_with(&[0]) && !unit.windows(3).any(|three| matches!(three, [0, 0, 0..=2]))
}
