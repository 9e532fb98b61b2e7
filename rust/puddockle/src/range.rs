//! What a range of samples delivers, in one call.

use crate::line::{zeros, AuditLines, Zeros};
use crate::raw::puddockle_range;
use crate::{sample, Refusal, SampleNumber, LINE};

/// What [`range`] wrote.
#[derive(Clone, Copy, Debug)]
pub struct Ranged<'a> {
    /// The units of the samples, one sample after the other, each unit after its length in 4 bytes.
    pub units: &'a [u8],
    /// The lines, [`LINE`] bytes a sample.
    pub bytes: &'a [u8],
    bundle: &'a [u8],
    first: SampleNumber,
}

impl<'a> Ranged<'a> {
    /// A line for each sample, in order of number. Whether a sample with a line of zeros is empty its length tells:
    /// [`sample`] is called for each of them, but where the range has no bytes at all. That takes time that grows with
    /// the square of the samples: 0.1 to 0.3 s for 4,096.
    pub fn lines(&self) -> AuditLines<'a> {
        AuditLines::new(self.bundle, self.first, self.bytes, self.zeros())
    }

    /// No tally says how many are empty.
    fn zeros(&self) -> Zeros {
        let samples = (self.bytes.len() / LINE) as u64;
        // Samples stand one after the other: without bytes the last one ends where the first one starts.
        let has_no_bytes = || {
            let last = sample(self.bundle, SampleNumber(self.first.0 + samples - 1)).ok()?;
            Some(last.bytes.is_empty() && last.start == sample(self.bundle, self.first).ok()?.start)
        };
        match zeros(self.bytes) {
            0 => Zeros::Passed,
            zeros if zeros == samples && has_no_bytes() == Some(true) => Zeros::Empty,
            _ => Zeros::Both,
        }
    }
}

/// Writes the units that samples `first` to `last` deliver to the front of `out`, as [`resolve`](crate::resolve) does for
/// each, one sample after the other, and the audit line of each of them to the front of `lines`, [`LINE`](crate::LINE)
/// bytes a sample, as [`audit`](crate::audit) does.
///
/// Refused with 1 to 13, then 30 where `first` is 0, `last` is past the last sample or `first` is greater than `last`,
/// then 29 where one of the two slices lacks room; both are then untouched. A refused sample does not make it refuse: it
/// adds its line and no units. An empty one adds a line of zeros.
///
/// The lines need [`LINE`](crate::LINE) times `last - first + 1` bytes, the units what [`resolve`](crate::resolve) needs
/// for each sample that is not refused.
///
/// ```
/// use puddockle::{range, AuditLine, Outcome, Refusal, SampleNumber, LINE};
///
/// // As the first example of this crate, with a sample between the two: a unit of length 0, a fault (16).
/// let bundle = [
///     2, 0, 0, 7, 1, 0x42, 0, 0x1E, 0xFC, 0xE0, 0, 1, 0, 7, 1, 0x53, 0, 0x1E, 0xFC, 0, 0, 1, 2, 1, 0, 3,
///     1, 0, 0, 0, 0, 0, 0, 0, 0, 0, 0, 0, 3, 1, 0, 0, 0, 0, 0, 0, 0, 9, 0, 0, 0, 1, 2, 0, 0, 0, 0, 0, 0, 0, 0, 0, 0, 0, 9,
///     0, 0, 0, 13, 2, 0x65, 0x88, 0, 8, 0x7F, 0x80, 0, 3, 1, 0, 0, 0,
/// ];
/// let (mut out, mut lines) = ([0; 12], [0; 3 * LINE]);
/// let ranged = range(&bundle, SampleNumber(1), SampleNumber(3), &mut out, &mut lines).unwrap();
/// assert_eq!(ranged.units, [0, 0, 0, 2, 0x65, 0x88, 0, 0, 0, 2, 0x65, 0x88]);
/// let passed = AuditLine { outcome: Outcome::Passed, units: 1 };
/// let refused = AuditLine { outcome: Outcome::Refused(Refusal { number: 16, place: 0 }), units: 0 };
/// assert!(ranged.lines().eq([passed, refused, passed]));
///
/// let no = range(&bundle, SampleNumber(3), SampleNumber(2), &mut out, &mut lines).unwrap_err();
/// assert_eq!((no.number, no.place), (30, 0));
/// ```
pub fn range<'a>(
    bundle: &'a [u8],
    first: SampleNumber,
    last: SampleNumber,
    out: &'a mut [u8],
    lines: &'a mut [u8],
) -> Result<Ranged<'a>, Refusal> {
    let (mut place, mut count, mut lines_count) = (0, 0, 0);
    // SAFETY: the three slices are valid for their lengths, the last two are lent to us alone, and the numbers are our
    // own.
    let number = unsafe {
        puddockle_range(
            bundle.as_ptr(),
            bundle.len(),
            first.0,
            last.0,
            out.as_mut_ptr(),
            out.len(),
            lines.as_mut_ptr(),
            lines.len(),
            &mut place,
            &mut count,
            &mut lines_count,
        )
    };
    Refusal::check(number, place)?;
    Ok(Ranged { units: &out[..count as usize], bytes: &lines[..lines_count as usize], bundle, first })
}
