//! The search by halving of request [5]: its rounds, and that it finds what a scan finds where times rise.

mod common;

use peer::base::{halve, scan, Search};

fn found(index: usize, rounds: usize) -> Search {
    Search { found: Some(index), rounds }
}

fn none(rounds: usize) -> Search {
    Search { found: None, rounds }
}

/// The binary digits of a number, 0 for 0.
fn digits(number: usize) -> usize {
    format!("{number:b}").trim_start_matches('0').len()
}

/// The times 1, 3, 5 and so on.
fn odd(count: usize) -> Vec<u64> {
    (0..count as u64).map(|index| 2 * index + 1).collect()
}

/// The given lines, which stand as comments before the requests made of them.
#[test]
fn given_lines() {
    let path = common::directory("PUDDOCKLE_VECTORS", "vectors").join("request_5.txt");
    let mut lines = 0;
    for line in common::text(&path).lines().filter_map(|line| line.strip_prefix("# base ")) {
        let (request, answer) = line.split_once(" = OK ").expect("an answer");
        let (times, own) = request.split_once(' ').expect("two words");
        let times: Vec<u64> = match times {
            "-" => Vec::new(),
            times => times.split(',').map(|time| time.parse().expect("a time")).collect(),
        };
        let (index, rounds) = answer.split_once(' ').expect("two words");
        let expected = Search { found: index.parse().ok(), rounds: rounds.parse().expect("rounds") };
        assert_eq!(halve(&times, own.parse().expect("a time")), expected, "{line}");
        lines += 1;
    }
    assert_eq!(lines, 120);
}

#[test]
fn rounds_of_02() {
    assert_eq!(halve(&[], 5), none(0));
    let rounds = |count: usize| {
        let times = odd(count);
        let all = (0..=2 * count as u64).map(|own| halve(&times, own).rounds);
        (all.clone().min().unwrap(), all.max().unwrap())
    };
    assert_eq!(rounds(4095), (12, 12));
    assert_eq!(rounds(4096), (12, 13));
    assert_eq!(halve(&odd(4096), u64::MAX), found(4095, 13));
    assert_eq!(halve(&odd(4096), 8188), found(4093, 12));
}

/// The binary digits are never passed. They are reached, where all times are at or before.
#[test]
fn rounds_reach_the_digits() {
    for count in 0..=300 {
        let times = odd(count);
        for own in 0..=2 * count as u64 {
            assert!(halve(&times, own).rounds <= digits(count), "{count} {own}");
        }
        assert_eq!(halve(&times, u64::MAX).rounds, digits(count), "{count}");
    }
    for count in (9..=16).flat_map(|power| [(1 << power) - 1, 1 << power, (1 << power) + 1]) {
        let times = odd(count);
        for own in (0..=2 * count as u64).step_by(97) {
            assert!(halve(&times, own).rounds <= digits(count), "{count} {own}");
        }
        assert_eq!(halve(&times, u64::MAX).rounds, digits(count), "{count}");
    }
}

/// Own times before all, equal to each, between and after all, with gaps of several sizes.
#[test]
fn finds_what_a_scan_finds() {
    let (mut state, mut compared) = (1u64, 0);
    for count in 0..=130 {
        for most in [1, 2, 5, 1 << 40] {
            let mut time = 0;
            let times: Vec<u64> = (0..count)
                .map(|_| {
                    state = state.wrapping_mul(6364136223846793005).wrapping_add(1442695040888963407);
                    time += 1 + (state >> 33) % most;
                    time
                })
                .collect();
            let beside = times.iter().flat_map(|&time| [time - 1, time, time + 1]);
            for own in beside.chain([0, u64::MAX]) {
                assert_eq!(halve(&times, own).found, scan(times.iter().copied(), own), "{times:?} {own}");
                compared += 1;
            }
        }
    }
    assert_eq!(compared, 4 * (3 * (130 * 131 / 2) + 2 * 131));
}

#[test]
fn goes_on_after_an_equal_time() {
    assert_eq!(halve(&[7], 7), found(0, 1));
    assert_eq!(halve(&[5, 7, 9], 7), found(1, 2));
    assert_eq!(halve(&[0, 1, 2, 3, 4, 5, 6], 3), found(3, 3));
    // An equal time that comes again, which no accepted bundle has.
    assert_eq!(halve(&[7, 7, 7], 7), found(2, 2));
}

/// Of two middle times the earlier is compared: here the other would take another number of rounds.
#[test]
fn compares_the_earlier_of_two() {
    assert_eq!(halve(&[5, 7], 0), none(1));
    assert_eq!(halve(&[5, 7], 9), found(1, 2));
    assert_eq!(halve(&[1, 2, 3, 4], 0), none(2));
    assert_eq!(halve(&[1, 2, 3, 4], 4), found(3, 3));
}

/// Any times have an answer. Where they do not rise it may be another than a scan's.
#[test]
fn times_that_do_not_rise() {
    assert_eq!(halve(&[3, 2, 1], 2), found(2, 2));
    assert_eq!(halve(&[1, 5, 2, 9], 2), found(0, 2));
    assert_eq!(scan([1, 5, 2, 9], 2), Some(2));
    assert_eq!(halve(&[9, 0, 9], 5), found(1, 2));
    assert_eq!(halve(&[0, 9, 0], 5), found(0, 2));
}
