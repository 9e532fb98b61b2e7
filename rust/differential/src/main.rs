//! Compares the library with the peer: `differential [--seed S] [--cases N]`.
//!
//! Every run has the fixed cases, then rounds of random ones until N more calls were compared. Ends with status 1
//! at the first differences, or if a number was not reached by a call that can give it.

mod buffer;
mod byte_streams;
mod call;
mod contents;
mod fixed;
mod fixed_bases;
mod fixed_blocks;
mod fixed_damage;
mod fixed_ranges;
mod fixed_streams;
mod make;
mod places;
mod random;
mod range;
mod range_cases;
mod range_rounds;
mod report;
mod rooms;
mod rounds;
mod salvage;
mod salvage_cases;
mod salvage_rounds;
mod search;
mod text;

use std::process::exit;
use std::time::Instant;

use call::Call;
use random::Random;
use report::Report;

/// After so many differences the run ends.
const MOST_DIFFERENCES: usize = 5;

fn main() {
    let (seed, cases) = arguments();
    let begin = Instant::now();
    let mut run = Run { report: Report::default(), differences: 0, whence: String::new() };
    run.fixed();
    println!("{} fixed calls, then random ones with seed {seed}", run.report.cases);
    let mut round = 0;
    let last = run.report.cases + cases;
    while run.report.cases < last {
        run.whence = format!("seed {seed} round {round}");
        rounds::round(&mut Random::of_round(seed, round), &mut |call| run.ask(call));
        round += 1;
    }
    let missing = run.report.print();
    println!(
        "{} calls compared in {:.1} s, {} differ",
        run.report.cases,
        begin.elapsed().as_secs_f64(),
        run.differences
    );
    if !missing.is_empty() {
        println!("not reached: {}", missing.join(", "));
    }
    exit((run.differences > 0 || !missing.is_empty()) as i32);
}

/// The seed and the number of calls.
fn arguments() -> (u64, u64) {
    let (mut seed, mut cases) = (1, 100_000);
    let mut words = std::env::args().skip(1);
    while let Some(word) = words.next() {
        let number = words.next().and_then(|word| word.parse().ok());
        match (word.as_str(), number) {
            ("--seed", Some(number)) => seed = number,
            ("--cases", Some(number)) => cases = number,
            _ => {
                eprintln!("differential [--seed S] [--cases N]");
                exit(2);
            }
        }
    }
    (seed, cases)
}

struct Run {
    report: Report,
    differences: usize,
    /// Where the case comes from.
    whence: String,
}

impl Run {
    fn fixed(&mut self) {
        for (index, bundle) in fixed::bundles().iter().enumerate() {
            self.whence = format!("fixed bundle {index}");
            rounds::fixed_round(bundle, &mut |call| self.ask(call));
        }
        for (index, bundle) in fixed::with_zeros().iter().enumerate() {
            self.whence = format!("fixed bundle with zeros {index}");
            for (sample, room) in [(1, 8), (1, 7), (1, 0), (2, 14), (2, 13)] {
                self.ask(Call::Stream { bundle, sample, room });
            }
        }
        for length_size in [1, 2, 4] {
            for (index, bundle) in fixed::with_every_start(length_size).iter().enumerate() {
                self.whence = format!("fixed bundle with L = {length_size}, every start {index}");
                self.ask(Call::Resolve { bundle, sample: 2, room: 64 });
                self.ask(Call::Units { bundle, sample: 2, room: 12 });
                self.ask(Call::Audit { bundle, room: 26 });
            }
        }
        self.fixed_bases();
        self.fixed_blocks();
        self.fixed_streams();
        self.fixed_damage();
        self.fixed_ranges();
        for (index, bundle) in fixed::longest().iter().enumerate() {
            self.whence = format!("longest bundle {index}");
            self.ask(Call::CheckBundle { bundle });
            self.ask(Call::Audit { bundle, room: 13 });
            self.ask(Call::Resolve { bundle, sample: 1, room: bundle.len() });
            self.ask(Call::Resolve { bundle, sample: 1, room: 100 });
            for rooms in [[bundle.len(), 13], [100, 13]] {
                self.ask(Call::Range { bundle, first: 1, last: 1, rooms });
            }
            self.ask(Call::Stream { bundle, sample: 1, room: bundle.len() });
            self.ask(Call::Stream { bundle, sample: 1, room: 100 });
            // With L = 4 a plain sample resolves to itself.
            let length = peer::calls::sample(bundle, 1).values[3] as usize;
            rounds::stream_back(bundle, 1, length, &mut |call| self.ask(call));
            for rooms in [[length, 0, 0], [length.saturating_sub(1), 0, 0]] {
                self.ask(Call::Salvage { bundle, sample: 1, rooms });
            }
            self.ask(Call::Unit { bundle, sample: 1, unit: 1 });
            self.ask(Call::Names { bundle, sample: 1, room: 0 });
            self.ask(Call::Counts { bundle });
            self.ask(Call::Track { bundle, track: 1 });
            self.ask(Call::Reference { bundle, reference: 1 });
            self.ask(Call::Sample { bundle, sample: 1 });
            self.ask(Call::Units { bundle, sample: 1, room: 2 });
            self.ask(Call::Named { bundle, sample: 1, extractor: 0 });
        }
        for (kind, record) in fixed::records() {
            self.whence = "fixed record".to_string();
            for (kind, room) in [(kind as u32, 18), (1 - kind as u32, 18), (kind as u32, 17), (kind as u32 + 2, 18)] {
                self.ask(Call::ReadRecord { kind, record: &record, room });
            }
        }
        for (kind, fields) in fixed::fields() {
            self.whence = "fixed fields".to_string();
            for (kind, room) in [(kind as u32, 30), (kind as u32, 12), (1 - kind as u32, 30), (kind as u32 + 256, 30)] {
                self.ask(Call::WriteRecord { kind, fields: &fields, room });
            }
        }
        for sample in fixed::samples() {
            self.whence = format!("fixed sample {sample:02x?}");
            for (kind, length_size) in [(0, 1), (1, 1), (1, 2), (0, 4), (2, 1), (1, 3), (256, 1), (1, 257)] {
                self.ask(Call::CheckSample { kind, length_size, sample: &sample });
                self.ask(Call::SalvageSample { kind, length_size, sample: &sample, rooms: [64, 64] });
            }
        }
    }

    fn fixed_bases(&mut self) {
        for (bundles, offsets) in [fixed_bases::short(), fixed_bases::long()] {
            for (index, bundle) in bundles.iter().enumerate() {
                self.whence = format!("fixed bundle with a linked track {index}");
                let own = peer::calls::counts(bundle).values[2];
                for place in 0..offsets.len() as u64 {
                    self.ask(Call::Named { bundle, sample: own, extractor: fixed_bases::EXTRACTOR * place });
                }
                self.ask(Call::Resolve { bundle, sample: own, room: 6 * offsets.len() });
                self.ask(Call::Audit { bundle, room: 13 * own as usize });
                for sample in [1, own / 2 + 1, own - 1] {
                    self.ask(Call::Names { bundle, sample, room: 6 * offsets.len() });
                }
            }
        }
    }

    /// The audit has all samples; the other calls are made for the first ones and for some of the rest.
    fn fixed_blocks(&mut self) {
        for (bundles, step) in [(fixed_blocks::at_borders(), 97), (fixed_blocks::longest(), 499)] {
            for (index, bundle) in bundles.iter().enumerate() {
                self.whence = format!("fixed bundle with blocks {index} of {} bytes", bundle.len());
                let samples = peer::calls::counts(bundle).values[2];
                self.ask(Call::Audit { bundle, room: 13 * samples as usize });
                for sample in (1..=samples).filter(|&sample| sample <= 11 || sample % step == 0) {
                    rounds::fixed_sample_round(bundle, sample, &mut |call| self.ask(call));
                }
                for (first, last) in [(1, samples), (samples / 2, samples / 2 + 11)] {
                    range_rounds::range_around(bundle, first, last.min(samples), &mut |call| self.ask(call));
                }
            }
        }
    }

    fn fixed_streams(&mut self) {
        for streams in [fixed_streams::short(), fixed_streams::at_limits()] {
            for (index, stream) in streams.iter().enumerate() {
                self.whence = format!("fixed stream {index} of {} bytes", stream.len());
                rounds::fixed_stream(stream, &mut |call| self.ask(call));
            }
        }
        for (index, stream) in fixed_streams::long().iter().enumerate() {
            self.whence = format!("long stream {index}");
            for (length_size, room) in [(4, 5 << 22), (4, 1 << 24), (2, 100), (1, 0)] {
                self.ask(Call::FromStream { length_size, stream, room });
            }
        }
        for length_size in fixed_streams::LENGTH_SIZES {
            self.whence = "fixed length size".to_string();
            for stream in [&[][..], &[0, 0, 0], &[0, 0, 1, 0x65], &[0x65], &[0, 0, 1]] {
                self.ask(Call::FromStream { length_size, stream, room: 8 });
                self.ask(Call::FromStream { length_size, stream, room: 0 });
            }
        }
    }

    fn fixed_damage(&mut self) {
        for length_size in [1, 2, 4] {
            for (index, sample) in fixed_damage::samples(length_size).iter().enumerate() {
                self.whence = format!("fixed damaged sample {index} with L = {length_size}");
                let kind = index as u32 % 2;
                self.ask(Call::SalvageSample { kind, length_size: length_size as u32, sample, rooms: [256, 64] });
            }
        }
        let Some(longer) = fixed_damage::longest() else { return };
        self.whence = "longest sample".to_string();
        for sample in [&longer[..fixed_damage::LONGEST], &longer] {
            for (kind, length_size) in [(0, 1), (1, 2), (1, 4), (2, 4), (0, 3)] {
                for rooms in [[0, 10], [0, 9], [64, 64], [0, 0]] {
                    self.ask(Call::SalvageSample { kind, length_size, sample, rooms });
                }
            }
        }
    }

    /// Every range of up to twelve samples, and those from the first sample and to the last.
    fn fixed_ranges(&mut self) {
        let bundle = &fixed_ranges::bundle();
        let samples = peer::calls::counts(bundle).values[2];
        self.whence = "fixed bundle of all fixed samples".to_string();
        for first in 1..=samples {
            for last in first..=samples {
                if last - first < 12 || first == 1 || last == samples {
                    range_rounds::range_around(bundle, first, last, &mut |call| self.ask(call));
                }
            }
        }
    }

    fn ask(&mut self, call: Call) {
        let outcome = call.compare();
        self.report.note(&call, &outcome);
        if let Some(difference) = outcome.difference {
            println!("{}: {difference}\n  {}", self.whence, call.text());
            self.differences += 1;
            if self.differences == MOST_DIFFERENCES {
                println!("stopped after {MOST_DIFFERENCES} differences");
                exit(1);
            }
        }
    }
}
