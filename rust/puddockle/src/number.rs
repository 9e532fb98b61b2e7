//! Numbers as bytes.

/// The number that big-endian bytes, at most 8 of them, say.
pub(crate) fn big_endian(bytes: &[u8]) -> u64 {
    bytes.iter().fold(0, |number, &byte| number << 8 | byte as u64)
}
