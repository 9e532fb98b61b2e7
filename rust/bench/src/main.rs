//! Calls of the library timed, mostly beside the peer. The first word says which, the second how many rounds:
//!
//! | call | what is timed |
//! |---|---|
//! | `bench audit [ROUNDS]` | audits of document 02's bundle and of hostile ones; also without the word |
//! | `bench resolve [ROUNDS]` | every sample of document 02's bundle resolved, and the naming lists of those named |
//! | `bench range [ROUNDS]` | whole recordings by range, and sample by sample |
//! | `bench base [ROUNDS]` | base samples found in a long track |
//! | `bench contents [ROUNDS]` | what is in a bundle, and where units stand |
//! | `bench streams [ROUNDS]` | samples written as byte streams |
//! | `bench unstream [ROUNDS]` | byte streams read into samples |
//! | `bench salvage [ROUNDS]` | damaged samples salvaged |
//!
//! The best of the rounds counts. What library and peer answer and write is compared.

mod audit;
mod base;
mod bundle;
mod contents;
mod hostile;
mod range;
mod resolve;
mod salvage;
mod streams;
mod turns;
mod unstream;

use std::time::{Duration, Instant};

const MIB: usize = 1 << 20;
const ROUNDS: usize = 5;

fn main() {
    let mut words = std::env::args().skip(1).peekable();
    let call = words.next_if(|word| word.parse::<usize>().is_err());
    let rounds = words.next().map_or(ROUNDS, |word| word.parse().expect("a number of rounds"));
    match call.as_deref().unwrap_or("audit") {
        "audit" => audit::run(rounds),
        "resolve" => resolve::run(rounds),
        "range" => range::run(rounds),
        "base" => base::run(rounds),
        "contents" => contents::run(rounds),
        "streams" => streams::run(rounds),
        "unstream" => unstream::run(rounds),
        "salvage" => salvage::run(rounds),
        other => panic!("no call `{other}`: audit, resolve, range, base, contents, streams, unstream, salvage"),
    }
}

/// Prints how both sides were compiled. The library's level is what `rattle build --help` says of static libraries;
/// `rt lib`, by which tools/build builds it, gives it no other.
fn settings() {
    println!(
        "peer: {}, opt-level {}, debug {}, {}; library: libpuddockle.a as `rt lib` builds it, clang -O3",
        env!("BENCH_COMPILER"),
        env!("BENCH_OPT_LEVEL"),
        env!("BENCH_DEBUG"),
        env!("BENCH_TARGET")
    );
    if cfg!(debug_assertions) {
        println!("WARNING: not a release build, the peer's times mean nothing");
    }
}

fn timed<T>(call: impl FnOnce() -> T) -> (Duration, T) {
    let begin = Instant::now();
    let answer = call();
    (begin.elapsed(), answer)
}
