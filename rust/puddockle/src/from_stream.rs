//! A byte stream read into a sample.

use crate::raw::puddockle_from_stream;
use crate::Refusal;

/// Reads a byte stream (ISO/IEC 14496-10, Annex B) and writes its units, each after its length in `length_size` bytes,
/// to the front of `out`, and answers how many bytes that is. Refused with 11 where `length_size` is not 1, 2 or 4; then
/// with the first by place of 33 (a byte above `00` before the first start code, `00 00 02` or three zeros and a byte
/// above `01` in a unit, an empty unit) and 34 (a unit too long for `length_size`); then with 29. `out` is then
/// untouched.
///
/// A start code is `00 00 01`; zeros before it, and zeros at the end, belong to no unit. The room that it needs is never
/// more than the stream and a quarter of it; where `length_size` is 1 or 2, than the stream.
///
/// ```
/// use puddockle::{check_sample, from_stream, Kind, LengthSize};
///
/// // Two units, the first after a start code with a zero more before it, the second with a zero after it.
/// let stream = [0, 0, 0, 1, 0x67, 0x42, 0, 0, 1, 0x65, 0x88, 0];
/// let mut sample = [0; 15];
/// assert_eq!(from_stream(4, &stream, &mut sample), Ok(12));
/// assert_eq!(sample[..12], [0, 0, 0, 2, 0x67, 0x42, 0, 0, 0, 2, 0x65, 0x88]);
/// // The units are not judged there, but here.
/// assert_eq!(check_sample(Kind::Avc, LengthSize::Four, &sample[..12]), Ok(()));
///
/// // No unit has 00 00 02 in it. The place is an offset in the stream.
/// let no = from_stream(4, &[0, 0, 1, 0x65, 0, 0, 2], &mut sample).unwrap_err();
/// assert_eq!((no.number, no.place), (33, 6));
/// assert_eq!(no.to_string(), "refused 33 at 6: not a byte stream");
/// ```
pub fn from_stream(length_size: u32, stream: &[u8], out: &mut [u8]) -> Result<usize, Refusal> {
    let (mut place, mut count) = (0, 0);
    // SAFETY: both slices are valid for their lengths, `out` is lent to us alone, and the two numbers are our own.
    let number = unsafe {
        puddockle_from_stream(
            length_size,
            stream.as_ptr(),
            stream.len(),
            out.as_mut_ptr(),
            out.len(),
            &mut place,
            &mut count,
        )
    };
    Refusal::check(number, place)?;
    Ok(count as usize)
}
