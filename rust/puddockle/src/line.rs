//! The lines of an audit, read from the bytes that the library wrote.

use core::slice::ChunksExact;

use crate::number::big_endian;
use crate::{sample, Refusal, SampleNumber};

/// The bytes of an audit line.
pub const LINE: usize = 13;

/// What an audit says of a sample.
#[derive(Clone, Copy, Debug, PartialEq, Eq)]
pub enum Outcome {
    /// It has bytes and no fault. It may deliver nothing.
    Passed,
    /// It has no bytes.
    Empty,
    /// It has a fault, 14 to 28.
    Refused(Refusal),
}

/// What an audit says of one sample, and how much it delivers.
#[derive(Clone, Copy, Debug, PartialEq, Eq)]
pub struct AuditLine {
    /// Passed, empty or refused.
    pub outcome: Outcome,
    /// The units delivered. Only a sample that passed delivers any.
    pub units: u64,
}

/// What the lines that are all zero mean: a sample without bytes, or one that passed and delivers nothing.
#[derive(Clone, Copy, Debug)]
pub(crate) enum Zeros {
    Passed,
    Empty,
    /// Some are the one and some the other: the sample's length tells.
    Both,
}

/// How many of these lines are all zero.
pub(crate) fn zeros(lines: &[u8]) -> u64 {
    lines.chunks_exact(LINE).filter(|line| is_zero(line)).count() as u64
}

fn is_zero(line: &[u8]) -> bool {
    line.iter().all(|&byte| byte == 0)
}

/// What lines say, in order of the samples' numbers: see [`Audit::lines`](crate::Audit::lines) and
/// [`Ranged::lines`](crate::Ranged::lines).
#[derive(Clone, Debug)]
pub struct AuditLines<'a> {
    bundle: &'a [u8],
    left: ChunksExact<'a, u8>,
    /// The sample of the first line that is left.
    next: SampleNumber,
    zeros: Zeros,
}

impl<'a> AuditLines<'a> {
    /// The lines of the samples of a bundle from `first` on.
    pub(crate) fn new(bundle: &'a [u8], first: SampleNumber, lines: &'a [u8], zeros: Zeros) -> AuditLines<'a> {
        AuditLines { bundle, left: lines.chunks_exact(LINE), next: first, zeros }
    }

    /// Whether a sample with a line of zeros has no bytes.
    fn has_no_bytes(&self, number: SampleNumber) -> bool {
        match self.zeros {
            Zeros::Passed => false,
            Zeros::Empty => true,
            Zeros::Both => sample(self.bundle, number).is_ok_and(|sample| sample.bytes.is_empty()),
        }
    }
}

impl Iterator for AuditLines<'_> {
    type Item = AuditLine;

    fn next(&mut self) -> Option<AuditLine> {
        let line = self.left.next()?;
        let number = self.next;
        self.next.0 += 1;
        let outcome = match Refusal::check(line[0] as u32, big_endian(&line[1..5])) {
            Err(refusal) => Outcome::Refused(refusal),
            Ok(()) if is_zero(line) && self.has_no_bytes(number) => Outcome::Empty,
            Ok(()) => Outcome::Passed,
        };
        Some(AuditLine { outcome, units: big_endian(&line[5..]) })
    }

    fn size_hint(&self) -> (usize, Option<usize>) {
        self.left.size_hint()
    }
}

impl ExactSizeIterator for AuditLines<'_> {}
