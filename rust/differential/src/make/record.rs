//! Configuration records.

use super::{put, AVC};
use crate::random::Random;

const PROFILES: [u8; 9] = [66, 77, 88, 83, 86, 100, 110, 122, 144];

/// The sets of one kind: count and bytes.
pub struct MadeSets {
    pub count: usize,
    pub bytes: Vec<u8>,
}

/// The parts of a good record.
pub struct MadeRecord {
    pub kind: u8,
    pub profile: u8,
    pub compatibility: u8,
    pub level: u8,
    pub complete: bool,
    pub length_size: usize,
    pub sequence: MadeSets,
    pub picture: MadeSets,
    pub trailer: MadeTrailer,
}

pub enum MadeTrailer {
    /// None belongs there.
    None,
    /// One belongs there, and the record ends before it.
    Absent,
    /// chroma format, luma and chroma depth less 8, extension sets
    Present(u8, u8, u8, MadeSets),
}

pub fn make_record(random: &mut Random, kind: u8, length_size: usize) -> MadeRecord {
    let profile = if random.once_in(10) { random.byte() } else { random.pick(&PROFILES) };
    let (types, most): (&[u8], usize) = if kind == AVC { (&[7], 31) } else { (&[7, 15], 127) };
    let trailer = make_trailer(random, kind == AVC && matches!(profile, 100 | 110 | 122 | 144));
    MadeRecord {
        kind,
        profile,
        compatibility: random.byte(),
        level: random.byte(),
        complete: kind != AVC && random.once_in(2),
        length_size,
        sequence: make_sets(random, types, most),
        picture: make_sets(random, &[8], 255),
        trailer,
    }
}

/// A trailer, absent in two of five records to which one belongs.
fn make_trailer(random: &mut Random, belongs: bool) -> MadeTrailer {
    if !belongs {
        return MadeTrailer::None;
    }
    if random.below(5) < 2 {
        return MadeTrailer::Absent;
    }
    let (chroma, luma, depth) = (random.byte() & 3, random.byte() & 7, random.byte() & 7);
    MadeTrailer::Present(chroma, luma, depth, make_sets(random, &[13], 255))
}

fn make_sets(random: &mut Random, types: &[u8], most: usize) -> MadeSets {
    let count = if random.once_in(60) { most } else { random.below(4) };
    let mut bytes = Vec::new();
    for _ in 0..count {
        let length = if random.once_in(100) { 300 } else { random.between(1, 9) };
        put(&mut bytes, length as u64, 2);
        bytes.push(random.pick(types) | (random.byte() & 3) << 5);
        bytes.extend(random.bytes(length - 1));
    }
    MadeSets { count, bytes }
}

impl MadeRecord {
    /// The record's bytes.
    pub fn spell(&self) -> Vec<u8> {
        let size = self.length_size as u8 - 1;
        let mut bytes = vec![1, self.profile, self.compatibility, self.level];
        if self.kind == AVC {
            bytes.push(0xFC | size);
            bytes.push(0xE0 | self.sequence.count as u8);
        } else {
            bytes.push((self.complete as u8) << 7 | 0x7C | size);
            bytes.push(self.sequence.count as u8);
        }
        bytes.extend_from_slice(&self.sequence.bytes);
        bytes.push(self.picture.count as u8);
        bytes.extend_from_slice(&self.picture.bytes);
        if let MadeTrailer::Present(chroma, luma, depth, extension) = &self.trailer {
            bytes.extend([0xFC | chroma, 0xF8 | luma, 0xF8 | depth, extension.count as u8]);
            bytes.extend_from_slice(&extension.bytes);
        }
        bytes
    }
}

/// A record's bytes, good or damaged.
pub fn make_bytes(random: &mut Random, kind: u8) -> Vec<u8> {
    let length_size = random.pick(&[1, 2, 4, 4, 3]);
    let mut bytes = make_record(random, kind, length_size).spell();
    if random.once_in(2) {
        random.damage(&mut bytes);
    }
    if random.once_in(12) {
        // Some bytes of a trailer, after one or where it is absent.
        let length = random.between(1, 5);
        bytes.extend(&[0xFD, 0xF8, 0xF8, 0, 0][..length]);
    }
    if random.once_in(8) {
        // A byte that stands in the fixed part.
        let end = bytes.len().min(7);
        random.change_byte(&mut bytes[..end]);
    }
    bytes
}
