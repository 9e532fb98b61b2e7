//! An independent implementation of document 01 and of document 02's requests [1] to [6] and [11], written from the
//! papers.
//!
//! The verified library is compared with it, answer by answer and in speed. Nothing here is shared with the
//! library. Layouts are those of ISO/IEC 14496-15:2010, 5.2.4.1 and Annexes A and B, and of ISO/IEC 14496-10, Annex B;
//! refusal numbers, places and their order are those of documents 01 and 02.
//!
//! | module | what it has |
//! |---|---|
//! | `refusal` | a number and a place, and the names of the numbers |
//! | `kind`, `length_size`, `numbers` | the small types |
//! | `record`, `record_writer` | configuration records read and written |
//! | `unit`, `form` | units of a sample, and the check of a sample's form |
//! | `bundle`, `contents`, `forms` | a bundle read; what is in it; its samples' forms, each checked once |
//! | `extractor`, `link`, `copy` | an extractor, the sample it names, what it copies |
//! | `base` | the base sample found by halving, and by a scan; resolving uses neither |
//! | `deliver`, `resolve` | the units that a sample delivers, written out, as parts, or one of them |
//! | `range` | what several samples deliver, written out, with an audit line for each |
//! | `stream` | the units that a sample delivers, written as a byte stream |
//! | `from_stream` | a byte stream read into a sample |
//! | `salvage` | a well-formed sample made of a damaged one |
//! | `names`, `audit`, `program` | the naming list and the sample named, the audit, the program's text |
//! | `calls` | every call of the C interface, on slices |

#![forbid(unsafe_code)]

pub mod audit;
pub mod base;
pub mod bundle;
pub mod calls;
pub mod contents;
pub mod copy;
pub mod deliver;
pub mod extractor;
pub mod form;
pub mod forms;
pub mod from_stream;
pub mod kind;
pub mod length_size;
pub mod link;
pub mod names;
pub mod numbers;
pub mod program;
pub mod range;
pub mod record;
pub mod record_writer;
pub mod refusal;
pub mod resolve;
pub mod salvage;
pub mod stream;
pub mod unit;
