//! Lent buffers that show every change.

/// Bytes (or numbers) beside the lent part, on either side.
const MARGIN: usize = 24;

/// A buffer whose middle is lent. All of it is filled beforehand, and all of it is compared.
#[derive(Clone, PartialEq, Debug)]
pub struct Buffer<T> {
    all: Vec<T>,
}

impl<T: Copy> Buffer<T> {
    /// A buffer that lends `room` elements; `fill` says what stands at each index.
    pub fn new(room: usize, fill: impl Fn(usize) -> T) -> Buffer<T> {
        Buffer { all: (0..room + 2 * MARGIN).map(fill).collect() }
    }

    /// The lent part.
    pub fn lent(&mut self) -> &mut [T] {
        let end = self.all.len() - MARGIN;
        &mut self.all[MARGIN..end]
    }
}

/// A buffer of bytes, no two neighbours alike.
pub fn bytes(room: usize) -> Buffer<u8> {
    Buffer::new(room, |index| (index * 37 + 0xA5) as u8)
}

/// A buffer of numbers.
pub fn numbers(room: usize) -> Buffer<u64> {
    Buffer::new(room, |index| 0xA5A5_5A5A_0000_0000 + index as u64)
}

/// What a number that a call sets holds before it.
pub const UNSET: u64 = 0xDEAD_BEEF_5A5A_A5A5;
