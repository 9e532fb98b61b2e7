//! The base sample found by halving, and the rounds that this takes: request [5]. `link` finds it in another way.

use crate::bundle::Bundle;
use crate::refusal::Refusal;

/// What a search found, as an index into the times, and its rounds.
#[derive(Clone, Copy, Debug, PartialEq, Eq)]
pub struct Search {
    pub found: Option<usize>,
    pub rounds: usize,
}

/// Each round compares the middle time of those left, the earlier of two, till none is left: also after an equal time.
pub fn halve(times: &[u64], own: u64) -> Search {
    let (mut left, mut before, mut rounds) = (times, 0, 0);
    while !left.is_empty() {
        rounds += 1;
        let middle = (left.len() - 1) / 2;
        if left[middle] <= own {
            before += middle + 1;
            left = &left[middle + 1..];
        } else {
            left = &left[..middle];
        }
    }
    Search { found: before.checked_sub(1), rounds }
}

/// The last of the times that is at or before the own one, as document 01 says it: all are looked at, front to back.
pub fn scan(times: impl IntoIterator<Item = u64>, own: u64) -> Option<usize> {
    let mut found = None;
    for (index, time) in times.into_iter().enumerate() {
        if time <= own {
            found = Some(index);
        }
    }
    found
}

/// The search in a track for the time of a sample. If there is no such sample, the time is 0; no such track has no
/// samples. Refused with 1 to 13.
pub fn base(bytes: &[u8], sample: u64, track: u64) -> Result<Search, Refusal> {
    let bundle = Bundle::read(bytes)?;
    let own = bundle.number(sample).map_or(0, |number| bundle.sample(number).time);
    let times: Vec<u64> = match bundle.track_number(track) {
        Ok(number) => bundle.samples_of(number).0.iter().map(|sample| sample.time).collect(),
        Err(_) => Vec::new(),
    };
    Ok(halve(&times, own))
}
