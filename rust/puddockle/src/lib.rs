//! Verified reading of inspection video: decoder configuration records, samples with extractors and aggregators, the
//! audit of a whole recording and what is sound in its damaged samples (ISO/IEC 14496-15:2010, 5.2.4.1 and Annexes A and
//! B), and byte streams written for decoders and read into samples (ISO/IEC 14496-10, Annex B).
//!
//! The work is done by a static library whose functions are proved; this crate wraps its C interface. It adds no
//! rules and keeps nothing. Every function takes any bytes whatever. It needs neither the standard library nor a heap:
//! buffers are lent, and each function says how much room it needs. The library is code for x86-64 Linux; a program
//! without the standard library must have `memcpy` and `memset`, which it calls.
//!
//! ```
//! use puddockle::{audit, counts, from_stream, resolve, stream, units, Outcome, SampleNumber, LINE, SPAN};
//!
//! // Two tracks, AVC and SVC; sample 1 has one NAL unit, and sample 2 has an extractor that copies it.
//! let bundle = [
//!     2, 0, 0, 7, 1, 0x42, 0, 0x1E, 0xFC, 0xE0, 0, 1, 0, 7, 1, 0x53, 0, 0x1E, 0xFC, 0, 0, 1, 2, 1, 0, 2,
//!     1, 0, 0, 0, 0, 0, 0, 0, 0, 0, 0, 0, 3, 2, 0, 0, 0, 0, 0, 0, 0, 0, 0, 0, 0, 9,
//!     0, 0, 0, 12, 2, 0x65, 0x88, 8, 0x7F, 0x80, 0, 3, 1, 0, 0, 0,
//! ];
//!
//! // Would every sample resolve? The lines need LINE bytes a sample.
//! let counts = counts(&bundle).unwrap();
//! assert_eq!((counts.tracks, counts.references, counts.samples), (2, 1, 2));
//! let mut lines = vec![0; counts.samples as usize * LINE];
//! let audit = audit(&bundle, &mut lines).unwrap();
//! assert_eq!((audit.tally.passed, audit.tally.empty, audit.tally.refused), (2, 0, 0));
//! let second = audit.lines().nth(1).unwrap();
//! assert_eq!((second.outcome, second.units), (Outcome::Passed, 1));
//!
//! // The units of sample 2, as parts of the bundle. They need SPAN numbers a unit, and the line says how many there are.
//! let mut spans = vec![0; second.units as usize * SPAN];
//! let units = units(&bundle, SampleNumber(2), &mut spans).unwrap();
//! assert_eq!(units.iter().collect::<Vec<_>>(), [&bundle[57..59]]);
//!
//! // The same as bytes, each unit after a 4-byte length.
//! let room = units.spans().map(|span| 4 + span.length).sum();
//! let mut out = vec![0; room];
//! assert_eq!(resolve(&bundle, SampleNumber(2), &mut out), Ok(room));
//! assert_eq!(out, [0, 0, 0, 2, 0x65, 0x88]);
//!
//! // And as a byte stream for a decoder, each unit after a start code: as many bytes.
//! assert_eq!(stream(&bundle, SampleNumber(2), &mut out), Ok(room));
//! assert_eq!(out, [0, 0, 0, 1, 0x65, 0x88]);
//!
//! // Such a stream read into a sample, here with lengths of 1 byte: the unit as it stands in sample 1.
//! let mut sample = [0; 3];
//! assert_eq!(from_stream(1, &out, &mut sample), Ok(3));
//! assert_eq!(sample, bundle[56..59]);
//!
//! // A refusal has a number, a place and a text.
//! let no = resolve(&bundle, SampleNumber(3), &mut out).unwrap_err();
//! assert_eq!((no.number, no.place), (30, 0));
//! assert_eq!(no.to_string(), "refused 30 at 0: nothing of that number, a range that ends before it starts, or no extractor at that place");
//! ```
//!
//! What is in a recording, and how its parts hang together:
//!
//! ```
//! use puddockle::{named, reference, sample, track, Kind, ReferenceNumber, SampleNumber, TrackNumber};
//! # let bundle = [
//! #     2, 0, 0, 7, 1, 0x42, 0, 0x1E, 0xFC, 0xE0, 0, 1, 0, 7, 1, 0x53, 0, 0x1E, 0xFC, 0, 0, 1, 2, 1, 0, 2,
//! #     1, 0, 0, 0, 0, 0, 0, 0, 0, 0, 0, 0, 3, 2, 0, 0, 0, 0, 0, 0, 0, 0, 0, 0, 0, 9,
//! #     0, 0, 0, 12, 2, 0x65, 0x88, 8, 0x7F, 0x80, 0, 3, 1, 0, 0, 0,
//! # ];
//!
//! let detail = track(&bundle, TrackNumber(2)).unwrap();
//! assert_eq!((detail.kind, detail.record), (Kind::Svc, &bundle[14..21]));
//! let borrows = reference(&bundle, ReferenceNumber(1)).unwrap();
//! assert_eq!((borrows.from, borrows.to), (TrackNumber(2), TrackNumber(1)));
//! let second = sample(&bundle, SampleNumber(2)).unwrap();
//! assert_eq!((second.track, second.time, second.bytes), (TrackNumber(2), 0, &bundle[59..68]));
//! // The extractor at byte 0 of sample 2 names sample 1.
//! assert_eq!(named(&bundle, SampleNumber(2), 0), Ok(SampleNumber(1)));
//! ```
//!
//! A record that was read can be written again from the same value:
//!
//! ```
//! use puddockle::{read_record, write_record, Kind, Trailer};
//!
//! let avcc = [1, 100, 0, 30, 0xFF, 0xE1, 0, 2, 0x67, 9, 0, 0xFD, 0xF8, 0xF8, 0];
//! let record = read_record(Kind::Avc, &avcc).unwrap();
//! assert_eq!(record.sequence.iter().collect::<Vec<_>>(), [&[0x67, 9]]);
//! assert!(matches!(record.trailer, Trailer::Present { chroma_format: 1, .. }));
//! // The room: 7 and the sets, and 4 for a trailer without sets.
//! let mut out = vec![0; 7 + record.sequence.bytes.len() + record.picture.bytes.len() + 4];
//! assert_eq!(write_record(Kind::Avc, &record, &mut out), Ok(avcc.len()));
//! assert_eq!(out, avcc);
//!
//! // Older recorders stop after the picture sets. That is kept, too.
//! let short = &avcc[..11];
//! let record = read_record(Kind::Avc, short).unwrap();
//! assert_eq!(record.trailer, Trailer::Absent);
//! assert_eq!(write_record(Kind::Avc, &record, &mut out), Ok(short.len()));
//! assert_eq!(&out[..short.len()], short);
//! ```

#![no_std]
#![warn(missing_docs)]

mod audit;
mod bundle;
mod from_stream;
mod line;
mod names;
mod number;
mod range;
pub mod raw;
mod record;
mod refusal;
mod salvage;
mod sample;
mod units;

pub use audit::{audit, Audit, Tally, LINES_MOST};
pub use bundle::{
    check_bundle, counts, reference, sample, track, Counts, Reference, ReferenceNumber, Sample, SampleNumber, Track,
    TrackNumber, BUNDLE_MOST, REFERENCES_MOST, SAMPLES_MOST, TRACKS_MOST,
};
pub use from_stream::from_stream;
pub use line::{AuditLine, AuditLines, Outcome, LINE};
pub use names::{named, names, NamesEntry, NamingList, NAMES_ENTRY};
pub use range::{range, Ranged};
pub use record::{read_record, write_record, Record, Sets, SetsIter, Trailer};
pub use refusal::Refusal;
pub use salvage::{salvage, salvage_sample, Change, ChangeKind, ChangeList, Salvaged, SalvagedSample, CHANGE};
pub use sample::{check_sample, Kind, LengthSize};
pub use units::{resolve, stream, unit, units, Span, UnitNumber, Units, SPAN};

/// The version of this crate, and of the library and the header that it belongs to.
pub const VERSION: &str = env!("CARGO_PKG_VERSION");
