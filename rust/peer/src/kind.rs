//! The kind of a track or record.

use crate::refusal::{refuse, Refusal, KIND};

#[derive(Clone, Copy, Debug, PartialEq, Eq)]
pub enum Kind {
    Avc,
    Svc,
}

impl Kind {
    /// The kind with this number: 0 AVC, 1 SVC, any other is refused with 4 at `place`.
    pub fn of_number(number: u32, place: usize) -> Result<Kind, Refusal> {
        match number {
            0 => Ok(Kind::Avc),
            1 => Ok(Kind::Svc),
            _ => refuse(KIND, place),
        }
    }
}
