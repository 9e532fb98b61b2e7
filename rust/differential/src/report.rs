//! What was reached: how often each call gave each number.

use std::collections::BTreeMap;

use crate::call::{Call, Outcome};
use crate::range_cases::{LINES, RANGES, REFUSED};
use crate::salvage_cases::{ADDITIONAL_BYTES, DROPPED_FOR, FIRST_FAULTS, SALVAGED};

/// The calls by name, with the numbers that documents 01 and 02 let each give (0: accepted). Then the numbers of audit
/// lines, and what accepted records say of their trailer: 0 none, 1 absent, 2 present. Then, of extractors asked about,
/// what the base is, as search.rs numbers it, and the rounds of a search by halving, as the peer counts them. Then what
/// salvaged samples have, as salvage_cases.rs numbers it: the first top-level fault, the first fault in a dropped
/// aggregator, how additional_bytes end, and the whole of it. Then the numbers in the lines of ranges and, as
/// range_cases.rs numbers it, what ranges have and why they are refused.
const CALLS: [(&str, &[(u32, u32)]); 33] = [
    ("read_record", &[(0, 0), (4, 4), (8, 13), (29, 29)]),
    ("write_record", &[(0, 0), (4, 4), (29, 29), (31, 31)]),
    ("check_sample", &[(0, 0), (4, 4), (11, 11), (14, 22)]),
    ("check_bundle", &[(0, 13)]),
    ("resolve", &[(0, 30)]),
    ("range", &[(0, 13), (29, 30)]),
    ("stream", &[(0, 30), (32, 32)]),
    ("from_stream", &[(0, 0), (11, 11), (29, 29), (33, 34)]),
    ("stream read back", &[(0, 0), (34, 34)]),
    ("salvage", &[(0, 13), (29, 30)]),
    ("salvage_sample", &[(0, 0), (4, 4), (11, 11), (29, 29)]),
    ("unit", &[(0, 28), (30, 30)]),
    ("names", &[(0, 13), (29, 30)]),
    ("audit", &[(0, 13), (29, 29)]),
    ("counts", &[(0, 13)]),
    ("track", &[(0, 13), (30, 30)]),
    ("reference", &[(0, 13), (30, 30)]),
    ("sample", &[(0, 13), (30, 30)]),
    ("units", &[(0, 30)]),
    ("named", &[(0, 24), (30, 30)]),
    ("audit lines", &[(0, 0), (14, 28)]),
    ("trailers read", &[(0, 2)]),
    ("trailers written", &[(0, 2)]),
    ("trailers in bundles", &[(0, 2)]),
    ("bases", &[(0, 4)]),
    ("rounds by the peer", &[(0, 12)]),
    (FIRST_FAULTS, &[(0, 0), (14, 18)]),
    (DROPPED_FOR, &[(14, 20), (22, 22)]),
    (ADDITIONAL_BYTES, &[(0, 11)]),
    (SALVAGED, &[(0, 7)]),
    (LINES, &[(0, 0), (14, 28)]),
    (RANGES, &[(0, 6)]),
    (REFUSED, &[(0, 7)]),
];

#[derive(Default)]
pub struct Report {
    pub cases: u64,
    counts: BTreeMap<(&'static str, u32), u64>,
    /// How many accepted calls wrote something.
    written: BTreeMap<&'static str, u64>,
}

impl Call<'_> {
    pub fn name(&self) -> &'static str {
        match self {
            Call::ReadRecord { .. } => "read_record",
            Call::WriteRecord { .. } => "write_record",
            Call::CheckSample { .. } => "check_sample",
            Call::CheckBundle { .. } => "check_bundle",
            Call::Resolve { .. } => "resolve",
            Call::Range { .. } => "range",
            Call::Stream { .. } => "stream",
            Call::FromStream { .. } => "from_stream",
            Call::ReadBack { .. } => "stream read back",
            Call::Salvage { .. } => "salvage",
            Call::SalvageSample { .. } => "salvage_sample",
            Call::Unit { .. } => "unit",
            Call::Names { .. } => "names",
            Call::Audit { .. } => "audit",
            Call::Counts { .. } => "counts",
            Call::Track { .. } => "track",
            Call::Reference { .. } => "reference",
            Call::Sample { .. } => "sample",
            Call::Units { .. } => "units",
            Call::Named { .. } => "named",
        }
    }
}

impl Report {
    pub fn note(&mut self, call: &Call, outcome: &Outcome) {
        self.cases += 1;
        *self.counts.entry((call.name(), outcome.answer.number)).or_default() += 1;
        if outcome.answer.count > 0 {
            *self.written.entry(call.name()).or_default() += 1;
        }
        let trailers = match call {
            Call::ReadRecord { .. } => "trailers read",
            Call::WriteRecord { .. } => "trailers written",
            _ => "trailers in bundles",
        };
        for &trailer in &outcome.trailers {
            *self.counts.entry((trailers, trailer as u32)).or_default() += 1;
        }
        if let Some(search) = &outcome.search {
            *self.counts.entry(("bases", search.base)).or_default() += 1;
            *self.counts.entry(("rounds by the peer", search.rounds)).or_default() += 1;
        }
        for &counted in &outcome.cases {
            *self.counts.entry(counted).or_default() += 1;
        }
        for line in outcome.lines.chunks_exact(13) {
            *self.counts.entry(("audit lines", line[0] as u32)).or_default() += 1;
        }
    }

    /// Prints the counts, and answers what was not reached though it can be.
    pub fn print(&self) -> Vec<String> {
        let mut missing = Vec::new();
        for (name, ranges) in CALLS {
            let numbers = ranges.iter().flat_map(|&(first, last)| first..=last);
            let counts: Vec<String> = numbers
                .map(|number| {
                    let count = self.counts.get(&(name, number)).copied().unwrap_or(0);
                    if count == 0 {
                        missing.push(format!("{name} {number}"));
                    }
                    format!("{number}:{count}")
                })
                .collect();
            let written = match self.written.get(name) {
                Some(count) => format!(", {count} wrote something"),
                None => String::new(),
            };
            println!("{name:>19}  {}{written}", counts.join(" "));
        }
        missing
    }
}
