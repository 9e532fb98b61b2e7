//! A bundle audited.

use crate::line::{zeros, AuditLines, Zeros};
use crate::raw::puddockle_audit;
use crate::{Refusal, SampleNumber, LINE, SAMPLES_MOST};

/// The most bytes that the lines of an audit may have.
pub const LINES_MOST: usize = SAMPLES_MOST * LINE;

/// How many samples passed, were empty, were refused.
#[derive(Clone, Copy, Debug, Default, PartialEq, Eq)]
pub struct Tally {
    /// Samples that have bytes and would resolve.
    pub passed: u64,
    /// Samples of length 0.
    pub empty: u64,
    /// Samples that would be refused.
    pub refused: u64,
}

/// An audit's lines and tally.
#[derive(Clone, Copy, Debug)]
pub struct Audit<'a> {
    /// The lines, [`LINE`] bytes a sample.
    pub bytes: &'a [u8],
    /// How many samples passed, were empty, were refused.
    pub tally: Tally,
    bundle: &'a [u8],
    zeros: Zeros,
}

impl<'a> Audit<'a> {
    /// A line for each sample, in order of number. Where a bundle has both empty samples and samples that pass with
    /// nothing delivered, [`sample`](crate::sample) is called for each of them, which takes time that grows with the
    /// square of the samples: 0.1 to 0.3 s for 4,096.
    pub fn lines(&self) -> AuditLines<'a> {
        AuditLines::new(self.bundle, SampleNumber(1), self.bytes, self.zeros)
    }
}

/// Audits a bundle: writes [`LINE`] bytes a sample to the front of `lines`. Refused with 1 to 13, 29; `lines` is then
/// untouched. A refused sample does not make the audit refuse.
///
/// The room that it needs is [`LINE`] times the samples of [`counts`](crate::counts), at most [`LINES_MOST`].
pub fn audit<'a>(bundle: &'a [u8], lines: &'a mut [u8]) -> Result<Audit<'a>, Refusal> {
    let (mut place, mut count) = (0, 0);
    let mut tally = Tally::default();
    // SAFETY: both slices are valid for their lengths, `lines` is lent to us alone, and the numbers are our own.
    let number = unsafe {
        puddockle_audit(
            bundle.as_ptr(),
            bundle.len(),
            lines.as_mut_ptr(),
            lines.len(),
            &mut place,
            &mut count,
            &mut tally.passed,
            &mut tally.empty,
            &mut tally.refused,
        )
    };
    Refusal::check(number, place)?;
    let bytes = &lines[..count as usize];
    // The lines of empty samples are all zero.
    let zeros = match tally.empty {
        0 => Zeros::Passed,
        empty if zeros(bytes) == empty => Zeros::Empty,
        _ => Zeros::Both,
    };
    Ok(Audit { bytes, tally, bundle, zeros })
}
