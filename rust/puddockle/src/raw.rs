//! The C functions as they are: include/puddockle.h says what each takes, refuses and writes.
//!
//! # Safety
//!
//! Each is safe to call with pointers that are valid for their lengths (a pointer may be null where its length is 0).
//! The pointers to one number each must be valid, and what is written to must overlap nothing else. Any bytes and
//! numbers may be given.

/// How many numbers describe a record.
pub const FIELDS: usize = 18;

extern "C" {
    /// A record read as [`FIELDS`] numbers.
    pub fn puddockle_read_record(
        kind: u32,
        record: *const u8,
        record_len: usize,
        fields: *mut u64,
        fields_len: usize,
        place: *mut u64,
    ) -> u32;

    /// A record written from its numbers and sets.
    pub fn puddockle_write_record(
        kind: u32,
        fields: *const u64,
        fields_len: usize,
        sequence: *const u8,
        sequence_len: usize,
        picture: *const u8,
        picture_len: usize,
        extension: *const u8,
        extension_len: usize,
        out: *mut u8,
        out_len: usize,
        place: *mut u64,
        count: *mut u64,
    ) -> u32;

    /// The form of one sample checked, outside a bundle.
    pub fn puddockle_check_sample(
        kind: u32,
        length_size: u32,
        sample: *const u8,
        sample_len: usize,
        place: *mut u64,
    ) -> u32;

    /// A bundle checked.
    pub fn puddockle_check_bundle(bundle: *const u8, bundle_len: usize, place: *mut u64) -> u32;

    /// How many tracks, references and samples a bundle has.
    pub fn puddockle_counts(
        bundle: *const u8,
        bundle_len: usize,
        place: *mut u64,
        tracks: *mut u64,
        references: *mut u64,
        samples: *mut u64,
    ) -> u32;

    /// A track: its kind, and where its record lies in the bundle.
    pub fn puddockle_track(
        bundle: *const u8,
        bundle_len: usize,
        track: u64,
        place: *mut u64,
        kind: *mut u64,
        record_start: *mut u64,
        record_length: *mut u64,
    ) -> u32;

    /// A reference: from which track to which.
    pub fn puddockle_reference(
        bundle: *const u8,
        bundle_len: usize,
        reference: u64,
        place: *mut u64,
        from: *mut u64,
        to: *mut u64,
    ) -> u32;

    /// A sample: its track, its time, and where its bytes lie in the bundle.
    pub fn puddockle_sample(
        bundle: *const u8,
        bundle_len: usize,
        sample: u64,
        place: *mut u64,
        track: *mut u64,
        time: *mut u64,
        start: *mut u64,
        length: *mut u64,
    ) -> u32;

    /// What a sample delivers, written.
    pub fn puddockle_resolve(
        bundle: *const u8,
        bundle_len: usize,
        sample: u64,
        out: *mut u8,
        out_len: usize,
        place: *mut u64,
        count: *mut u64,
    ) -> u32;

    /// What a range of samples delivers, written, and their audit lines.
    pub fn puddockle_range(
        bundle: *const u8,
        bundle_len: usize,
        first: u64,
        last: u64,
        out: *mut u8,
        out_len: usize,
        lines: *mut u8,
        lines_len: usize,
        place: *mut u64,
        count: *mut u64,
        lines_count: *mut u64,
    ) -> u32;

    /// What a sample delivers, written as a byte stream.
    pub fn puddockle_stream(
        bundle: *const u8,
        bundle_len: usize,
        sample: u64,
        out: *mut u8,
        out_len: usize,
        place: *mut u64,
        count: *mut u64,
    ) -> u32;

    /// A byte stream read into a sample.
    pub fn puddockle_from_stream(
        length_size: u32,
        stream: *const u8,
        stream_len: usize,
        out: *mut u8,
        out_len: usize,
        place: *mut u64,
        count: *mut u64,
    ) -> u32;

    /// A sample salvaged, outside a bundle: the new sample and the list of changes.
    pub fn puddockle_salvage_sample(
        kind: u32,
        length_size: u32,
        sample: *const u8,
        sample_len: usize,
        out: *mut u8,
        out_len: usize,
        changes: *mut u8,
        changes_len: usize,
        place: *mut u64,
        count: *mut u64,
        changes_count: *mut u64,
    ) -> u32;

    /// A sample of a bundle salvaged: the new sample, the list of changes, and the extractors that name the old one.
    pub fn puddockle_salvage(
        bundle: *const u8,
        bundle_len: usize,
        sample: u64,
        out: *mut u8,
        out_len: usize,
        changes: *mut u8,
        changes_len: usize,
        names: *mut u8,
        names_len: usize,
        place: *mut u64,
        count: *mut u64,
        changes_count: *mut u64,
        names_count: *mut u64,
    ) -> u32;

    /// Where the units that a sample delivers lie in the bundle: two numbers a unit.
    pub fn puddockle_units(
        bundle: *const u8,
        bundle_len: usize,
        sample: u64,
        spans: *mut u64,
        spans_len: usize,
        place: *mut u64,
        count: *mut u64,
    ) -> u32;

    /// Where one delivered unit of a sample lies in the bundle.
    pub fn puddockle_unit(
        bundle: *const u8,
        bundle_len: usize,
        sample: u64,
        unit: u64,
        place: *mut u64,
        start: *mut u64,
        length: *mut u64,
    ) -> u32;

    /// The extractors that name a sample, listed.
    pub fn puddockle_names(
        bundle: *const u8,
        bundle_len: usize,
        sample: u64,
        out: *mut u8,
        out_len: usize,
        place: *mut u64,
        count: *mut u64,
    ) -> u32;

    /// The sample that an extractor names.
    pub fn puddockle_named(
        bundle: *const u8,
        bundle_len: usize,
        sample: u64,
        extractor: u64,
        place: *mut u64,
        named: *mut u64,
    ) -> u32;

    /// A bundle audited.
    pub fn puddockle_audit(
        bundle: *const u8,
        bundle_len: usize,
        lines: *mut u8,
        lines_len: usize,
        place: *mut u64,
        count: *mut u64,
        passed: *mut u64,
        empty: *mut u64,
        refused: *mut u64,
    ) -> u32;
}
