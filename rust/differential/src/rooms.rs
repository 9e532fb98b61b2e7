//! How many bytes are lent for outputs.

use crate::random::Random;

/// A room for `needed` bytes: exact, one less, more, none.
pub fn room(random: &mut Random, needed: u64) -> usize {
    let needed = needed as usize;
    match random.below(8) {
        0 => needed.saturating_sub(1),
        1 => 0,
        2 => random.below(needed + 1),
        3 | 4 => needed,
        _ => needed + random.between(1, 40),
    }
}

/// Exact rooms, and each of them one byte short where it can be.
pub fn around<const N: usize>(needed: [usize; N]) -> impl Iterator<Item = [usize; N]> {
    let short = (0..N).filter(move |&at| needed[at] > 0).map(move |at| {
        let mut rooms = needed;
        rooms[at] -= 1;
        rooms
    });
    std::iter::once(needed).chain(short)
}

/// Any rooms, but in one of two cases all suffice.
pub fn some_rooms<const N: usize>(random: &mut Random, needed: [usize; N]) -> [usize; N] {
    let suffice = random.once_in(2);
    needed.map(|needed| match suffice {
        true => needed + random.pick(&[0, 0, 1, 7]),
        false => room(random, needed as u64),
    })
}
