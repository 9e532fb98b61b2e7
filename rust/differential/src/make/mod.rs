//! Cases made at random, mostly good.

pub mod blocks;
pub mod bundle;
pub mod damaged;
pub mod fields;
pub mod long;
pub mod record;
pub mod sample;
pub mod stream;

/// The kinds, as numbers.
pub const AVC: u8 = 0;
pub const SVC: u8 = 1;

/// Appends a big-endian number of `size` bytes.
pub fn put(bytes: &mut Vec<u8>, number: u64, size: usize) {
    bytes.extend_from_slice(&number.to_be_bytes()[8 - size..]);
}

/// Overwrites a big-endian number of `size` bytes.
pub fn patch(bytes: &mut [u8], at: usize, number: u64, size: usize) {
    bytes[at..at + size].copy_from_slice(&number.to_be_bytes()[8 - size..]);
}
