//! Rounds that salvage samples, good and damaged.

use peer::calls;
use peer::salvage;

use crate::call::Call;
use crate::make::damaged::{make_damaged, make_damaged_bundle};
use crate::make::{AVC, SVC};
use crate::random::Random;
use crate::rooms::{around, some_rooms};
use crate::rounds::{kind, length_size};

/// Bytes of an entry of the change list, and of the naming list.
const CHANGE: usize = 5;
const ENTRY: usize = 6;

/// A damaged sample by itself, or a bundle of some.
pub fn salvage_round(random: &mut Random, ask: &mut impl FnMut(Call)) {
    if random.once_in(2) {
        let kind = kind(random);
        let size = random.pick(&[1, 2, 4]);
        let sample = make_damaged(random, if kind & 1 == 0 { AVC } else { SVC }, size, true);
        let length_size = length_size(random, size as u32);
        salvage_one(random, kind, length_size, &sample, ask);
        let needed = needed_for_sample(kind, length_size, &sample);
        for rooms in around(needed) {
            ask(Call::SalvageSample { kind, length_size, sample: &sample, rooms });
        }
    } else {
        let bundle = make_damaged_bundle(random);
        let samples = calls::counts(&bundle).values[2];
        for sample in 1..=samples {
            salvage_bundle(random, &bundle, sample, ask);
            if random.once_in(4) {
                for rooms in around(needed_in_bundle(&bundle, sample)) {
                    ask(Call::Salvage { bundle: &bundle, sample, rooms });
                }
            }
        }
    }
}

/// One sample outside a bundle, in any rooms, and now and then what is made of it, which stays.
pub fn salvage_one(random: &mut Random, kind: u32, length_size: u32, sample: &[u8], ask: &mut impl FnMut(Call)) {
    let needed = needed_for_sample(kind, length_size, sample);
    let rooms = some_rooms(random, needed);
    ask(Call::SalvageSample { kind, length_size, sample, rooms });
    if random.once_in(4) {
        let mut new = vec![0; needed[0]];
        calls::salvage_sample(kind, length_size, sample, &mut new, &mut vec![0; needed[1]]);
        ask(Call::SalvageSample { kind, length_size, sample: &new, rooms: [new.len(), 0] });
    }
}

/// One sample of a bundle, in any rooms.
pub fn salvage_bundle(random: &mut Random, bundle: &[u8], sample: u64, ask: &mut impl FnMut(Call)) {
    let rooms = some_rooms(random, needed_in_bundle(bundle, sample));
    ask(Call::Salvage { bundle, sample, rooms });
}

/// One sample of a fixed bundle: in exact rooms, and each of them one byte short.
pub fn fixed_salvage(bundle: &[u8], sample: u64, ask: &mut impl FnMut(Call)) {
    for rooms in around(needed_in_bundle(bundle, sample)) {
        ask(Call::Salvage { bundle, sample, rooms });
    }
}

/// How long the new sample and the change list are; 0 where the call is refused.
fn needed_for_sample(kind: u32, length_size: u32, sample: &[u8]) -> [usize; 2] {
    let (mut out, mut changes) = (vec![0; sample.len()], vec![0; CHANGE * sample.len()]);
    salvage::salvage_sample(kind, length_size, sample, &mut out, &mut changes).unwrap_or_default()
}

/// The same in a bundle, and the naming list.
fn needed_in_bundle(bundle: &[u8], sample: u64) -> [usize; 3] {
    let length = calls::sample(bundle, sample).values[3] as usize;
    let (mut out, mut changes) = (vec![0; length], vec![0; CHANGE * length]);
    let mut names = vec![0; ENTRY * bundle.len()];
    salvage::salvage(bundle, sample, &mut out, &mut changes, &mut names).unwrap_or_default()
}
