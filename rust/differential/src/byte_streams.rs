//! A byte stream read into a sample, and one that was written read back.

use peer::calls::{self, Answer};
use puddockle::raw::*;

use crate::buffer::{self, Buffer, UNSET};
use crate::call::{outcome, pointer, pointer_mut, Outcome};
use crate::make::put;

/// Asks the library to read a stream into the lent part of a buffer.
fn read(length_size: u32, stream: &[u8], written: &mut Buffer<u8>) -> Answer {
    let mut given = Answer { place: UNSET, count: UNSET, ..Answer::default() };
    let (place, count) = (&mut given.place, &mut given.count);
    let out = written.lent();
    // SAFETY: slices and their own lengths, and numbers of our own.
    given.number = unsafe {
        let (bytes, size) = (pointer(stream), stream.len());
        puddockle_from_stream(length_size, bytes, size, pointer_mut(out), out.len(), place, count)
    };
    given
}

pub fn from_stream(length_size: u32, stream: &[u8], room: usize) -> Outcome {
    let mut expected = buffer::bytes(room);
    let mut written = expected.clone();
    let answer = calls::sample_from_stream(length_size, stream, expected.lent());
    let given = read(length_size, stream, &mut written);
    outcome(answer, given, &expected, &written)
}

/// The stream that the library writes of a sample, read by the library: the units that the peer delivers, each after its
/// length, or 34 for the first that is too long. `length` is that of the stream, which is written.
pub fn read_back(length_size: u32, bundle: &[u8], sample: u64, length: usize) -> Outcome {
    let mut resolved = vec![0; length];
    calls::resolve_sample(bundle, sample, &mut resolved);
    let (answer, units) = shorter_lengths(length_size as usize, &resolved);
    let mut expected = buffer::bytes(length);
    expected.lent()[..units.len()].copy_from_slice(&units);

    let mut stream = vec![0; length];
    let (mut place, mut count) = (UNSET, UNSET);
    // SAFETY: slices and their own lengths, and numbers of our own.
    unsafe {
        let (bytes, size) = (pointer(bundle), bundle.len());
        puddockle_stream(bytes, size, sample, pointer_mut(&mut stream), length, &mut place, &mut count);
    }
    let mut written = buffer::bytes(length);
    let given = read(length_size, &stream, &mut written);
    outcome(answer, given, &expected, &written)
}

/// Resolved output with other lengths: the answer, and what is written.
fn shorter_lengths(size: usize, mut resolved: &[u8]) -> (Answer, Vec<u8>) {
    let mut sample = Vec::new();
    let mut at = 0;
    while let Some((length, rest)) = resolved.split_first_chunk::<4>() {
        let length = u32::from_be_bytes(*length) as usize;
        if length as u64 >= 1 << (8 * size) {
            return (Answer { number: 34, place: at + 4, ..Answer::default() }, Vec::new());
        }
        put(&mut sample, length as u64, size);
        sample.extend_from_slice(&rest[..length]);
        resolved = &rest[length..];
        at += 4 + length as u64;
    }
    (Answer { count: sample.len() as u64, ..Answer::default() }, sample)
}
