//! Rounds that resolve ranges of samples.

use crate::call::Call;
use crate::random::Random;
use crate::range_cases::needed;
use crate::rooms::{around, some_rooms};

/// Room for more units than this is not lent: the range is then refused.
const MOST_ROOM: usize = 1 << 26;

/// A range of a bundle with so many samples, in any rooms; now and then in exact ones, and in each of them a byte less.
pub fn range_bundle(random: &mut Random, bundle: &[u8], samples: u64, ask: &mut impl FnMut(Call)) {
    let (first, last) = numbers(random, samples);
    let rooms = some_rooms(random, needed(bundle, first, last));
    ask(Call::Range { bundle, first, last, rooms });
    if random.once_in(4) {
        range_around(bundle, first, last, ask);
    }
}

/// Mostly a range that is there; the whole; the greater number first; any numbers.
fn numbers(random: &mut Random, samples: u64) -> (u64, u64) {
    let (one, other) = (random.near(samples), random.near(samples));
    match random.below(8) {
        0 => (one, other),
        1 => (one.max(other), one.min(other)),
        2 => (1, samples),
        _ => (one.min(other), one.max(other)),
    }
}

/// A range in exact rooms, and in each of them a byte less.
pub fn range_around(bundle: &[u8], first: u64, last: u64, ask: &mut impl FnMut(Call)) {
    let needed = needed(bundle, first, last);
    for rooms in around([needed[0].min(MOST_ROOM), needed[1]]) {
        ask(Call::Range { bundle, first, last, rooms });
    }
}

/// Ranges of a fixed bundle: the first samples, the last and all; numbers that there are not or that only look so, in no
/// room and in some; exact rooms, a byte less, more and none.
pub fn fixed_range(bundle: &[u8], samples: u64, ask: &mut impl FnMut(Call)) {
    for (first, last) in [(1, 1), (1, 2), (2, 2), (1, samples), (samples, samples)] {
        range_around(bundle, first, last, ask);
        let rooms = needed(bundle, first, last).map(|needed| needed.min(MOST_ROOM) + 3);
        ask(Call::Range { bundle, first, last, rooms });
        ask(Call::Range { bundle, first, last, rooms: [0, 0] });
    }
    let large = 1 << 32 | 1;
    let past = samples + 1;
    for (first, last) in [(0, 0), (0, 1), (1, 0), (2, 1), (1, past), (past, past), (past, samples), (samples, 1)]
        .into_iter()
        .chain([(large, large), (1, large), (large, 1), (1, u64::MAX), (u64::MAX, 0), (u64::MAX, u64::MAX)])
    {
        for rooms in [[64, 64], [0, 0]] {
            ask(Call::Range { bundle, first, last, rooms });
        }
    }
}
