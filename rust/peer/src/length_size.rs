//! L, a track's length size in bytes, and the sizes that go with it.

#[derive(Clone, Copy, Debug, PartialEq, Eq)]
pub enum LengthSize {
    One,
    Two,
    Four,
}

/// The header of a unit of type 14, 20, 30 or 31.
pub const LONG_HEADER: usize = 4;

impl LengthSize {
    /// The length size of this many bytes, if there is one.
    pub fn of_bytes(bytes: u64) -> Option<LengthSize> {
        match bytes {
            1 => Some(LengthSize::One),
            2 => Some(LengthSize::Two),
            4 => Some(LengthSize::Four),
            _ => None,
        }
    }

    pub fn bytes(self) -> usize {
        match self {
            LengthSize::One => 1,
            LengthSize::Two => 2,
            LengthSize::Four => 4,
        }
    }

    /// Header, track_ref_index, sample_offset, data_offset and data_length.
    pub fn extractor_size(self) -> usize {
        LONG_HEADER + 2 + 2 * self.bytes()
    }

    /// Header and additional_bytes.
    pub fn least_aggregator_size(self) -> usize {
        LONG_HEADER + self.bytes()
    }

    /// The number of this size that starts at `at`; all its bytes are there.
    pub fn read(self, bytes: &[u8], at: usize) -> usize {
        match self {
            LengthSize::One => bytes[at] as usize,
            LengthSize::Two => u16::from_be_bytes([bytes[at], bytes[at + 1]]) as usize,
            LengthSize::Four => u32::from_be_bytes([bytes[at], bytes[at + 1], bytes[at + 2], bytes[at + 3]]) as usize,
        }
    }
}
