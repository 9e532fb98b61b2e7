//! What is lent to the writer: 18 numbers or not, and the sets.

use super::record::{make_record, MadeRecord, MadeTrailer};
use crate::random::Random;

#[derive(Clone)]
pub struct MadeFields {
    pub numbers: Vec<u64>,
    pub sequence: Vec<u8>,
    pub picture: Vec<u8>,
    pub extension: Vec<u8>,
}

/// The fields of a record of this kind, right or damaged.
pub fn make_fields(random: &mut Random, kind: u8) -> MadeFields {
    let length_size = random.pick(&[1, 2, 4]);
    let record = make_record(random, kind, length_size);
    let mut fields = of_record(random, record);
    match random.below(14) {
        0 => {
            let at = random.below(18);
            fields.numbers[at] = change_number(random, fields.numbers[at]);
        }
        1 => random.damage(&mut fields.sequence),
        2 => random.damage(&mut fields.picture),
        3 => random.damage(&mut fields.extension),
        4 => fields.numbers[11] = random.below(4) as u64,
        7 => fields.numbers[0] = random.pick(&[66, 83, 99, 100, 101, 110, 122, 144, 244, 356]),
        8 => fields.extension = vec![0, 1, 0x6D],
        5 => fields.numbers[4] = random.near(4),
        6 => fields.numbers.truncate(random.below(18)),
        _ => {}
    }
    fields
}

/// The 18 numbers. Starts and lengths are not looked at, so any will do; more than 18 are allowed.
fn of_record(random: &mut Random, record: MadeRecord) -> MadeFields {
    let mut numbers: Vec<u64> = (0..18).map(|_| random.next()).collect();
    let counts = [
        (0, record.profile as u64),
        (1, record.compatibility as u64),
        (2, record.level as u64),
        (3, record.complete as u64),
        (4, record.length_size as u64),
        (5, record.sequence.count as u64),
        (8, record.picture.count as u64),
        (
            11,
            match record.trailer {
                MadeTrailer::None => 0,
                MadeTrailer::Absent => 1,
                MadeTrailer::Present(..) => 2,
            },
        ),
    ];
    for (at, number) in counts {
        numbers[at] = number;
    }
    let mut extension = Vec::new();
    if let MadeTrailer::Present(chroma, luma, depth, sets) = record.trailer {
        numbers[12..16].copy_from_slice(&[chroma as u64, luma as u64, depth as u64, sets.count as u64]);
        extension = sets.bytes;
    } else if random.once_in(2) {
        numbers[12..18].fill(0);
    }
    if random.once_in(5) {
        numbers.push(random.next());
    }
    MadeFields { numbers, sequence: record.sequence.bytes, picture: record.picture.bytes, extension }
}

/// Another number: one more or less, or one that only looks the same in fewer bits.
fn change_number(random: &mut Random, number: u64) -> u64 {
    match random.below(5) {
        0 => number.wrapping_add(1),
        1 => number.wrapping_sub(1),
        2 => number.wrapping_add(1 << random.pick(&[5, 7, 8, 16, 32, 63])),
        3 => random.byte() as u64,
        _ => random.next(),
    }
}
