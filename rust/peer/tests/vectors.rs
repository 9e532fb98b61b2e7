//! The peer on all requests with answers: every line of the vectors.

mod common;
#[path = "common/lines.rs"]
mod lines;

use lines::{Answer, Calls};
use peer::base::{base, Search};
use peer::calls;
use peer::record_writer::LentSets;

#[test]
fn every_line() {
    lines::run::<Peer>(&[]);
}

struct Peer;

impl From<calls::Answer> for Answer {
    fn from(answer: calls::Answer) -> Answer {
        let calls::Answer { number, place, count, start, length, tally, values } = answer;
        Answer { number, place, count, start, length, tally, values }
    }
}

impl Calls for Peer {
    fn read_record(kind: u32, bytes: &[u8], fields: &mut [u64]) -> Answer {
        calls::read_record(kind, bytes, fields).into()
    }

    fn write_record(kind: u32, fields: &[u64], [sequence, picture, extension]: [&[u8]; 3], out: &mut [u8]) -> Answer {
        calls::write_record(kind, fields, LentSets { sequence, picture, extension }, out).into()
    }

    fn check_sample(kind: u32, length_size: u32, sample: &[u8]) -> Answer {
        calls::check_sample(kind, length_size, sample).into()
    }

    fn check_bundle(bundle: &[u8]) -> Answer {
        calls::check_bundle(bundle).into()
    }

    fn resolve(bundle: &[u8], sample: u64, out: &mut [u8]) -> Answer {
        calls::resolve_sample(bundle, sample, out).into()
    }

    fn range(bundle: &[u8], first: u64, last: u64, out: &mut [u8], lines: &mut [u8]) -> Answer {
        calls::range(bundle, first, last, out, lines).into()
    }

    fn stream(bundle: &[u8], sample: u64, out: &mut [u8]) -> Answer {
        calls::stream_sample(bundle, sample, out).into()
    }

    fn from_stream(length_size: u32, stream: &[u8], out: &mut [u8]) -> Answer {
        calls::sample_from_stream(length_size, stream, out).into()
    }

    fn salvage(bundle: &[u8], sample: u64, out: &mut [u8], changes: &mut [u8], names: &mut [u8]) -> Answer {
        calls::salvage(bundle, sample, out, changes, names).into()
    }

    fn salvage_sample(kind: u32, length_size: u32, sample: &[u8], out: &mut [u8], changes: &mut [u8]) -> Answer {
        calls::salvage_sample(kind, length_size, sample, out, changes).into()
    }

    fn unit(bundle: &[u8], sample: u64, unit: u64) -> Answer {
        calls::one_unit(bundle, sample, unit).into()
    }

    fn names(bundle: &[u8], sample: u64, out: &mut [u8]) -> Answer {
        calls::naming_list(bundle, sample, out).into()
    }

    /// Both audits, which write the same.
    fn audit(bundle: &[u8], lines: &mut [u8]) -> Answer {
        let (mut plain, mut with_starts) = (lines.to_vec(), lines.to_vec());
        let answer = peer::audit::audit(bundle, &mut plain);
        assert_eq!(peer::audit::audit_with_starts(bundle, &mut with_starts), answer);
        assert_eq!(with_starts, plain);
        calls::audit_bundle(bundle, lines).into()
    }

    fn counts(bundle: &[u8]) -> Answer {
        calls::counts(bundle).into()
    }

    fn track(bundle: &[u8], track: u64) -> Answer {
        calls::track(bundle, track).into()
    }

    fn reference(bundle: &[u8], reference: u64) -> Answer {
        calls::reference(bundle, reference).into()
    }

    fn sample(bundle: &[u8], sample: u64) -> Answer {
        calls::sample(bundle, sample).into()
    }

    fn units(bundle: &[u8], sample: u64, spans: &mut [u64]) -> Answer {
        calls::all_units(bundle, sample, spans).into()
    }

    fn named(bundle: &[u8], sample: u64, extractor: u64) -> Answer {
        calls::sample_named(bundle, sample, extractor).into()
    }

    fn base(bundle: &[u8], sample: u64, track: u64) -> Option<Answer> {
        Some(match base(bundle, sample, track) {
            Ok(Search { found, rounds }) => {
                let number = found.map_or(0, |index| index as u64 + 1);
                Answer { values: [number, rounds as u64, 0, 0], ..Answer::default() }
            }
            Err(no) => Answer { number: no.number as u32, place: no.place as u64, ..Answer::default() },
        })
    }

    fn program(bundle: &[u8]) -> String {
        peer::program::text(bundle)
    }
}
