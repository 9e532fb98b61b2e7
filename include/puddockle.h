/*
 * Puddockle: verified reading of inspection video, for C.
 *
 * Decoder configuration records read and written, samples checked, resolved to plain NAL units, one by one or a range
 * of them, and written as a byte stream, a byte stream read into a sample, what is sound in a damaged sample salvaged,
 * what is in a recording (a bundle) told, the whole of it audited, the extractors that name a sample listed.
 * Layouts are those of ISO/IEC 14496-15:2010, 5.2.4.1 and Annexes A and B, and of ISO/IEC 14496-10, Annex B.
 * docs/FORMAT.md has all rules: the bundle, records, units, resolving, and what to do about each refusal.
 *
 * Link with libpuddockle.a:  cc -Iinclude program.c -Ltarget/staticlib -lpuddockle
 * The library is code for x86-64 Linux and for no other machine. Of the C library it needs memcpy and memset.
 *
 * How every function behaves
 *
 * - It returns 0 where the input is accepted, else the number of the refusal (see below).
 * - A byte slice is a pointer and a length in bytes; a slice of numbers is a pointer to uint64_t and a length in
 *   numbers. Either pointer may be NULL where the length is 0. Slices that are written to must not overlap others.
 * - Every other pointer points to one uint64_t, must not be NULL, and must not overlap anything else. All these
 *   numbers are set on every call: 0 where there is nothing to say, and on a refusal, but for *place.
 * - On a refusal every output slice is untouched and every count is 0. Where accepted, an output slice is written up to
 *   its count (puddockle_read_record: PUDDOCKLE_FIELDS) and not past it.
 * - Any bytes and any numbers may be given: nothing needs to be checked before a call. A number that is out of
 *   range is refused, never cut.
 * - Nothing is kept between calls, nothing is allocated, no pointer is held. Functions may be called from several
 *   threads at once on slices of their own. puddockle_audit, puddockle_range, puddockle_resolve, puddockle_stream,
 *   puddockle_units and puddockle_unit use up to 450 KB of stack, other calls on a bundle up to 160 KB.
 *
 * Numbers are big-endian wherever they stand in bytes. L is the length size: the number of bytes, 1, 2 or 4, of the
 * length before each NAL unit. Tracks, references, samples and delivered units are numbered from 1.
 *
 * How much room an output needs
 *
 *   puddockle_audit        PUDDOCKLE_LINE bytes a sample of puddockle_counts; at most PUDDOCKLE_LINES_MOST
 *   puddockle_units        PUDDOCKLE_SPAN numbers for each unit that the sample's audit line says
 *   puddockle_resolve      the sum of 4 and the length of each unit of puddockle_units
 *   puddockle_range        out: the sum of what puddockle_resolve needs for each sample that is not refused; or lend
 *                          more until it is not 29. lines: PUDDOCKLE_LINE * (last - first + 1) bytes, at most
 *                          PUDDOCKLE_LINES_MOST
 *   puddockle_stream       as puddockle_resolve
 *   puddockle_from_stream  never more bytes than stream_len + stream_len / 4; where L is 1 or 2, than stream_len
 *   puddockle_names        never more bytes than the bundle has
 *   puddockle_salvage,     out: never more bytes than the old sample has; changes: never more than it has, and 4;
 *   .._salvage_sample      names: never more than the bundle has
 *
 * How time grows
 *
 * The head of a bundle is its sections one to three (tracks with their records, references, sample entries), at most
 * 1.1 MB. puddockle_check_bundle goes over it once, every other call on a bundle twice: checked, then put in a table of
 * 134 KB on the stack. Of the sample bytes a call reads only what it is asked for. To judge a sample takes time as its
 * own bytes and as those of the samples that its extractors name, each of which is checked once in a call, whatever the
 * number of extractors: what is known of it is kept in 295 KB on the stack. For an extractor the sample named is not
 * gone over: less than two blocks of 1,280 bytes are, and its base is found, a fixed number of times in a call, with at
 * most 12 comparisons each. Each function says what it does of that.
 */
#ifndef PUDDOCKLE_H
#define PUDDOCKLE_H

#include <stddef.h>
#include <stdint.h>

#ifdef __cplusplus
extern "C" {
#endif

#define PUDDOCKLE_VERSION "0.1.0"
#define PUDDOCKLE_VERSION_MAJOR 0
#define PUDDOCKLE_VERSION_MINOR 1
#define PUDDOCKLE_VERSION_PATCH 0

/* What a function returns: 0, or a refusal. After each its place. Those of 1 to 13 are offsets in the bundle, those of
 * 14 to 28 offsets in the sample that was asked for or given, that of 32 an offset in what puddockle_resolve would
 * write, those of 33 and 34 offsets in the byte stream. */
enum {
    PUDDOCKLE_ACCEPTED = 0,

    /* the bundle */
    PUDDOCKLE_REFUSED_BUNDLE_TOO_LONG = 1,          /* longer than PUDDOCKLE_BUNDLE_MOST: 0 */
    PUDDOCKLE_REFUSED_BUNDLE_CUT = 2,               /* ends inside a count, an entry or the sample bytes: start of that
                                                       count or entry; for sample bytes the fourth count */
    PUDDOCKLE_REFUSED_COUNT_OUT_OF_LIMITS = 3,      /* the count */
    PUDDOCKLE_REFUSED_UNKNOWN_KIND = 4,             /* the track entry; 0 outside a bundle */
    PUDDOCKLE_REFUSED_BAD_REFERENCE = 5,            /* a track that is not there, the same track, or another L: the
                                                       reference entry */
    PUDDOCKLE_REFUSED_BAD_TRACK_OR_TIME = 6,        /* a track that is not there, or track number or time out of order:
                                                       the sample entry */
    PUDDOCKLE_REFUSED_BAD_BYTE_COUNT = 7,           /* count of sample bytes differs from the sum of the lengths, or
                                                       bytes follow: that count */

    /* a configuration record */
    PUDDOCKLE_REFUSED_RECORD_CUT = 8,               /* the track entry; 0 for a record alone */
    PUDDOCKLE_REFUSED_BAD_VERSION = 9,              /* not 1: as 8 */
    PUDDOCKLE_REFUSED_WRONG_FIXED_BITS = 10,        /* as 8 */
    PUDDOCKLE_REFUSED_BAD_LENGTH_SIZE = 11,         /* L is 3: as 8; given to puddockle_check_sample,
                                                       puddockle_from_stream or puddockle_salvage_sample and not 1, 2
                                                       or 4: 0 */
    PUDDOCKLE_REFUSED_BAD_SET = 12,                 /* empty, its top bit set, or a wrong type: as 8 */
    PUDDOCKLE_REFUSED_BYTES_AFTER_RECORD = 13,      /* as 8 */

    /* the units of a sample */
    PUDDOCKLE_REFUSED_LENGTH_FIELD_CUT = 14,        /* where it starts */
    PUDDOCKLE_REFUSED_UNIT_TOO_LONG = 15,           /* longer than what is left: its length field */
    PUDDOCKLE_REFUSED_EMPTY_UNIT = 16,              /* its length field */
    PUDDOCKLE_REFUSED_TOP_BIT_SET = 17,             /* of the unit's header: its length field */
    PUDDOCKLE_REFUSED_UNIT_TOO_SHORT = 18,          /* under 4 bytes (types 14, 20, 31) or under 4 + L (type 30): its
                                                       length field */
    PUDDOCKLE_REFUSED_NESTED_AGGREGATOR = 19,       /* an aggregator in an aggregator: its length field */
    PUDDOCKLE_REFUSED_SLICE_IN_AVC_AGGREGATOR = 20, /* type 1 to 5 included in an AVC track: its length field */
    PUDDOCKLE_REFUSED_BAD_ADDITIONAL_BYTES = 21,    /* they do not end on a unit border or cover an aggregator: the
                                                       aggregator's length field */
    PUDDOCKLE_REFUSED_BAD_EXTRACTOR_SIZE = 22,      /* not 6 + 2L bytes: its length field */

    /* what an extractor names and copies; the place is the extractor's length field */
    PUDDOCKLE_REFUSED_BAD_TRACK_REF_INDEX = 23,     /* 0 or past the last */
    PUDDOCKLE_REFUSED_NO_SAMPLE_NAMED = 24,
    PUDDOCKLE_REFUSED_NAMED_ILL_FORMED = 25,        /* the sample named is not well formed */
    PUDDOCKLE_REFUSED_BAD_DATA_OFFSET = 26,         /* not the start of a unit, top-level or included */
    PUDDOCKLE_REFUSED_BAD_DATA_LENGTH = 27,         /* does not end on a border: a top-level one or, from an
                                                       included unit, one of its aggregator's units */
    PUDDOCKLE_REFUSED_EXTRACTOR_COPIED = 28,        /* an extractor in the copy */

    /* what was asked for; the place is 0 */
    PUDDOCKLE_REFUSED_OUTPUT_TOO_LONG = 29,         /* longer than the slice lent for it; of a sample salvaged
                                                       alone, also more than 4,294,967,296 bytes */
    PUDDOCKLE_REFUSED_NO_SUCH_NUMBER = 30,          /* of a track, reference, sample or delivered unit: 0 or past the
                                                       last; the first of a range past its last; no extractor at that
                                                       place */
    PUDDOCKLE_REFUSED_FIELDS_FIT_NO_RECORD = 31,

    /* a delivered unit, for a byte stream */
    PUDDOCKLE_REFUSED_UNIT_NOT_STREAMABLE = 32,     /* it holds 00 00 00, 00 00 01 or 00 00 02, or ends in 00: its
                                                       4-byte length in what puddockle_resolve would write */

    /* a byte stream */
    PUDDOCKLE_REFUSED_BAD_BYTE_STREAM = 33,         /* a byte above 00 before the first start code: that byte; 00 00 02
                                                       in a unit: the 02; three or more zeros and a byte above 01 in a
                                                       unit: that byte; an empty unit: the 01 of its start code */
    PUDDOCKLE_REFUSED_UNIT_EXCEEDS_LENGTH_SIZE = 34 /* a unit of 256^L bytes or more: its first byte */
};

/* Kinds of tracks and records. */
enum {
    PUDDOCKLE_AVC = 0,
    PUDDOCKLE_SVC = 1
};

/* The most that a bundle may have. It has at least one track. */
enum {
    PUDDOCKLE_BUNDLE_MOST = 16777216, /* bytes */
    PUDDOCKLE_TRACKS_MOST = 16,
    PUDDOCKLE_REFERENCES_MOST = 64,
    PUDDOCKLE_SAMPLES_MOST = 4096
};

/* Sizes of what is written. */
enum {
    PUDDOCKLE_LINE = 13,       /* bytes of an audit line: refusal 1, place 4, units delivered 8 */
    PUDDOCKLE_LINES_MOST = PUDDOCKLE_SAMPLES_MOST * PUDDOCKLE_LINE, /* bytes of the lines of any audit: 53,248 */
    PUDDOCKLE_NAMES_ENTRY = 6, /* bytes of a naming list entry: sample number 2, place 4 */
    PUDDOCKLE_CHANGE = 5,      /* bytes of an entry of a change list: what was done 1, place 4 */
    PUDDOCKLE_SPAN = 2         /* numbers of a delivered unit: its start, its length */
};

/* What was done, in an entry of a change list. */
enum {
    PUDDOCKLE_CHANGE_DROP = 1,   /* the unit there is left out; at the first top-level fault, all from there on */
    PUDDOCKLE_CHANGE_ZEROING = 2 /* the additional_bytes of the aggregator there are 0 now */
};

/*
 * A record as numbers: which number stands where. PUDDOCKLE_FIELDS is how many there are.
 * START and LENGTH say which part of the record's bytes holds the sets of that kind, each set after its 2-byte length.
 */
enum {
    PUDDOCKLE_PROFILE = 0,
    PUDDOCKLE_COMPATIBILITY = 1,
    PUDDOCKLE_LEVEL = 2,
    PUDDOCKLE_COMPLETE_REPRESENTATION = 3, /* 0 or 1; 0 in an AVC record, which has no such bit */
    PUDDOCKLE_LENGTH_SIZE = 4,             /* L: 1, 2 or 4 */
    PUDDOCKLE_SEQUENCE_COUNT = 5,
    PUDDOCKLE_SEQUENCE_START = 6,
    PUDDOCKLE_SEQUENCE_LENGTH = 7,
    PUDDOCKLE_PICTURE_COUNT = 8,
    PUDDOCKLE_PICTURE_START = 9,
    PUDDOCKLE_PICTURE_LENGTH = 10,
    PUDDOCKLE_TRAILER = 11,                /* one of the three values below */
    PUDDOCKLE_CHROMA_FORMAT = 12,          /* 12 to 17 are 0 unless a trailer is present */
    PUDDOCKLE_LUMA_DEPTH_LESS_8 = 13,
    PUDDOCKLE_CHROMA_DEPTH_LESS_8 = 14,
    PUDDOCKLE_EXTENSION_COUNT = 15,
    PUDDOCKLE_EXTENSION_START = 16,
    PUDDOCKLE_EXTENSION_LENGTH = 17,
    PUDDOCKLE_FIELDS = 18
};

/* Values of PUDDOCKLE_TRAILER. */
enum {
    PUDDOCKLE_TRAILER_NONE = 0,   /* no trailer belongs there: an SVC record, or another profile than those below */
    PUDDOCKLE_TRAILER_ABSENT = 1, /* one belongs there, and the record ends before it, after its picture sets */
    PUDDOCKLE_TRAILER_PRESENT = 2 /* one belongs there, and is there: an AVC record of profile 100, 110, 122 or 144 */
};

/*
 * Reads a decoder configuration record: avcC (kind 0) or svcC (kind 1).
 *
 * record, record_len  the record, the whole of it and nothing more
 * fields, fields_len  where its numbers go: at least PUDDOCKLE_FIELDS
 *
 * Refusals, first that applies first: 4 (kind is not 0 or 1); then front to back 8, 9, 10, 11, 12, 13; then 29
 * (fields_len is less than PUDDOCKLE_FIELDS). *place is always 0.
 * Accepted: the first PUDDOCKLE_FIELDS numbers are written and none after them. A kind of sets with count 0 starts
 * where its first set would stand; numbers 12 to 17 are 0 unless a trailer is present. An AVC record of profile 100,
 * 110, 122 or 144 that ends after its picture sets has PUDDOCKLE_TRAILER_ABSENT; with one byte more the whole trailer
 * must follow. Refused: none is written.
 * Time: linear in the record.
 */
uint32_t puddockle_read_record(uint32_t kind,
                               const uint8_t *record, size_t record_len,
                               uint64_t *fields, size_t fields_len,
                               uint64_t *place);

/*
 * Writes a decoder configuration record.
 *
 * fields, fields_len        its numbers, laid out as puddockle_read_record gives them. Starts and lengths are not
 *                           looked at, nor are 12 to 15 unless the trailer is PUDDOCKLE_TRAILER_PRESENT. A number
 *                           after the first PUDDOCKLE_FIELDS is not looked at.
 * sequence, picture,        the sets of each kind, each set after its 2-byte length, nothing between; extension is
 * extension                 empty unless the trailer is PUDDOCKLE_TRAILER_PRESENT
 * out, out_len              where the record goes
 *
 * Refusals, first that applies first: 4 (kind is not 0 or 1); 31 (fields_len is less than PUDDOCKLE_FIELDS, a number
 * does not fit its bits, the sets are not exactly the count, a trailer is given or said to be absent where none
 * belongs, one that belongs there is neither given nor said to be absent, or the record would be refused by
 * puddockle_read_record); 29 (it is longer than out_len). *place is always 0. An absent trailer is written as nothing.
 * Accepted: *count bytes are written, which puddockle_read_record accepts: 7 and the sequence and picture sets; where a
 * trailer is present, also 4 and the extension sets. What was read and is written again with the sets where they stand
 * gives the same bytes. Refused: nothing is written, *count is 0.
 * Time: linear in the sets.
 */
uint32_t puddockle_write_record(uint32_t kind,
                                const uint64_t *fields, size_t fields_len,
                                const uint8_t *sequence, size_t sequence_len,
                                const uint8_t *picture, size_t picture_len,
                                const uint8_t *extension, size_t extension_len,
                                uint8_t *out, size_t out_len,
                                uint64_t *place, uint64_t *count);

/*
 * Checks the form of one sample, outside a bundle.
 *
 * kind, length_size   of the track that it belongs to
 * sample, sample_len  the sample: NAL units, each after its length in length_size bytes. No bytes are a good sample
 *
 * Refusals, first that applies first: 4 (kind is not 0 or 1) and 11 (length_size is not 1, 2 or 4), both at 0. Then
 * over all top-level units 14, 15, 16, 17, 18, unit by unit. Then over them again: for an aggregator its included
 * units (for each 14 to 18, 19, 20, 22) and then its 21; for an extractor 22. *place is an offset in the sample.
 * Where extractors lead is not judged here: that needs the bundle.
 * Time: linear in the sample.
 */
uint32_t puddockle_check_sample(uint32_t kind, uint32_t length_size,
                                const uint8_t *sample, size_t sample_len,
                                uint64_t *place);

/*
 * Checks a bundle: tracks with their records, references, sample entries, sample bytes. The samples' own form is
 * not judged; puddockle_audit does that.
 *
 * Refusals: 1; then front to back 2 to 13, a whole entry being there (2) before anything in it is judged. In the
 * last section 7 for the sum comes first, then 2, then 7 for bytes that follow. *place is an offset in the bundle.
 * Time: linear in the head of the bundle; the sample bytes are not read.
 */
uint32_t puddockle_check_bundle(const uint8_t *bundle, size_t bundle_len,
                                uint64_t *place);

/*
 * How many tracks, references and samples a bundle has.
 *
 * Refusals: 1 to 13 as puddockle_check_bundle. *place is an offset in the bundle.
 * Time: linear in the head of the bundle.
 */
uint32_t puddockle_counts(const uint8_t *bundle, size_t bundle_len,
                          uint64_t *place, uint64_t *tracks, uint64_t *references, uint64_t *samples);

/*
 * One track of a bundle.
 *
 * track  its number, from 1
 *
 * Refusals, first that applies first: 1 to 13 as puddockle_check_bundle; 30 (no track of that number). *place is an
 * offset in the bundle for 1 to 13, else 0.
 * Accepted: *kind is PUDDOCKLE_AVC or PUDDOCKLE_SVC, and its configuration record is the *record_length bytes from
 * bundle + *record_start on, which lie in the bundle and which puddockle_read_record accepts for that kind.
 * Time: linear in the head of the bundle.
 */
uint32_t puddockle_track(const uint8_t *bundle, size_t bundle_len,
                         uint64_t track,
                         uint64_t *place, uint64_t *kind, uint64_t *record_start, uint64_t *record_length);

/*
 * One reference of a bundle: extractors in samples of track *from may name samples of track *to.
 *
 * reference  its number, from 1, in the order of the entries; the nth of those with the same *from is that track's
 *            track_ref_index n
 *
 * Refusals, first that applies first: 1 to 13 as puddockle_check_bundle; 30 (no reference of that number). *place is
 * an offset in the bundle for 1 to 13, else 0.
 * Accepted: *from and *to are numbers of tracks that are there, from 1.
 * Time: linear in the head of the bundle.
 */
uint32_t puddockle_reference(const uint8_t *bundle, size_t bundle_len,
                             uint64_t reference,
                             uint64_t *place, uint64_t *from, uint64_t *to);

/*
 * One sample of a bundle, as it stands there. Its form is not judged.
 *
 * sample  its number, from 1
 *
 * Refusals, first that applies first: 1 to 13 as puddockle_check_bundle; 30 (no sample of that number). *place is an
 * offset in the bundle for 1 to 13, else 0.
 * Accepted: *track is the number of its track and *time its decode time; its bytes are the *length bytes from
 * bundle + *start on, which lie in the bundle. *length is 0 for an empty sample.
 * Time: linear in the head of the bundle, so over all samples it grows with the square of their number.
 */
uint32_t puddockle_sample(const uint8_t *bundle, size_t bundle_len,
                          uint64_t sample,
                          uint64_t *place, uint64_t *track, uint64_t *time, uint64_t *start, uint64_t *length);

/*
 * Resolves one sample of a bundle to plain NAL units: aggregators opened, extractors replaced by what they copy.
 *
 * sample        its number, from 1
 * out, out_len  where the units go, each after its length in 4 bytes
 *
 * Refusals, first that applies first: 1 to 13 as puddockle_check_bundle; 30 (no sample of that number); 14 to 22 as
 * puddockle_check_sample for this sample; then for each extractor in the order of delivery 23, 24, 25, 26, 27, 28;
 * then 29. *place is an offset in the bundle for 1 to 13 and in the sample for 14 to 28, else 0.
 * Accepted: *count bytes are written (0 where nothing is delivered). Refused: nothing is written, *count is 0.
 * Time: the head of the bundle, the sample judged (see above), and the units delivered, which are gone over once, with
 * the aggregators among those that an extractor copies.
 */
uint32_t puddockle_resolve(const uint8_t *bundle, size_t bundle_len,
                           uint64_t sample,
                           uint8_t *out, size_t out_len,
                           uint64_t *place, uint64_t *count);

/*
 * Resolves samples first to last of a bundle into one slice, with an audit line for each.
 *
 * first, last       their numbers, from 1; both samples belong to the range
 * out, out_len      where the units go, each after its length in 4 bytes: what puddockle_resolve writes for each
 *                   sample, one after the other, and nothing else
 * lines, lines_len  where the lines go, PUDDOCKLE_LINE bytes a sample: those of puddockle_audit from first to last
 *
 * Refusals, first that applies first: 1 to 13 as puddockle_check_bundle; 30 (first is 0, last is past the last sample,
 * or first is greater than last); 29 (out_len or lines_len is too small). *place is an offset in the bundle for 1 to
 * 13, else 0. Never 14 to 28: a refused sample adds its line, with its refusal and place, and no units. An empty one
 * adds a line of zeros.
 * Accepted: *count bytes of units (0 where nothing is delivered) and *lines_count bytes of lines are written. Refused:
 * nothing is written, both counts are 0.
 * Time: the head of the bundle, each sample of the range judged (see above), and the units delivered, which are gone
 * over once, with the aggregators among those that an extractor copies.
 */
uint32_t puddockle_range(const uint8_t *bundle, size_t bundle_len,
                         uint64_t first, uint64_t last,
                         uint8_t *out, size_t out_len,
                         uint8_t *lines, size_t lines_len,
                         uint64_t *place, uint64_t *count, uint64_t *lines_count);

/*
 * Writes the units that a sample of a bundle delivers as a byte stream (ISO/IEC 14496-10, Annex B), for a decoder.
 *
 * sample        its number, from 1
 * out, out_len  where the stream goes: 00 00 00 01 before each unit that puddockle_resolve would write
 *
 * Refusals, first that applies first: 1 to 13, 30 and 14 to 28 as puddockle_resolve; 32 for the first unit that holds
 * 00 00 00, 00 00 01 or 00 00 02 or ends in 00; then 29. *place is as there for 1 to 28 and 30; for 32 it is the offset
 * of the unit's 4-byte length in what puddockle_resolve would write, which is where its start code would stand in the
 * stream; else 0. Only the bytes of a unit itself are searched: 00 00 03 may stand in it, and it may begin with 00.
 * Accepted: *count bytes are written, as many as puddockle_resolve writes (0 where nothing is delivered), and the
 * stream has exactly the units delivered. Refused: nothing is written, *count is 0.
 * Time: as puddockle_resolve, and the units delivered gone over once more, with their bytes, before 29 is judged.
 */
uint32_t puddockle_stream(const uint8_t *bundle, size_t bundle_len,
                          uint64_t sample,
                          uint8_t *out, size_t out_len,
                          uint64_t *place, uint64_t *count);

/*
 * Reads a byte stream (ISO/IEC 14496-10, Annex B) and writes its units as a sample.
 *
 * length_size         L of the sample
 * stream, stream_len  the stream: zeros, then units, each after a start code, which is 00 00 01. Zeros before a start
 *                     code belong to no unit: a unit runs from just after its start code up to the zeros before the
 *                     next start code or the end. No bytes, or zeros only, are a stream without units
 * out, out_len        where the sample goes: the units, each after its length in L bytes
 *
 * Refusals, first that applies first: 11 (length_size is not 1, 2 or 4), at 0. Then the first of 33 and 34 by its
 * place, an offset in the stream: 33 for a byte above 00 before the first start code, at that byte (the 01 of a start
 * code is none); for 00 00 02 in a unit, at the 02; for three or more zeros and a byte above 01 in a unit, at that
 * byte; for a unit without bytes, or with zeros alone up to the next start code or the end, at the 01 of its start
 * code; 34 for a unit of 256^L bytes or more, at its first byte, so before any 33 inside it. Then 29, at 0. Units are
 * not judged further: puddockle_check_sample does that.
 * Accepted: *count bytes are written (0 for a stream without units). What puddockle_stream wrote gives, with L 4, what
 * puddockle_resolve writes. Refused: nothing is written, *count is 0.
 * Time: linear in the stream.
 */
uint32_t puddockle_from_stream(uint32_t length_size,
                               const uint8_t *stream, size_t stream_len,
                               uint8_t *out, size_t out_len,
                               uint64_t *place, uint64_t *count);

/*
 * Salvages a sample outside a bundle: writes what is sound in a damaged sample as a well-formed one.
 *
 * kind, length_size     of the track that it belongs to
 * sample, sample_len    the old sample
 * out, out_len          where the new sample goes
 * changes, changes_len  where the change list goes: for each change, by rising place, PUDDOCKLE_CHANGE_DROP or
 *                       PUDDOCKLE_CHANGE_ZEROING in 1 byte, and in 4 bytes the offset of the unit's length field in the
 *                       old sample
 *
 * Kept are the top-level units before the first top-level fault (14 to 18), but those with an inside fault 14 to 20, or
 * a 22. In a kept aggregator additional_bytes become 0 where 21 arises, judged as if the sample ended at that first
 * fault, or where a unit that they cover was dropped. The bytes from that fault on are one drop, at its place: so the
 * last drop is all from there on exactly if puddockle_check_sample, with the same kind and length_size, refuses the old
 * sample at that place with 14 to 18; every other drop is one unit.
 * Refusals, first that applies first: 4 (kind is not 0 or 1); 11 (length_size is not 1, 2 or 4); 29 (out_len or
 * changes_len is too small; or the sample has more than 4,294,967,296 bytes, a well-formed one too, since its places
 * would not fit the list). *place is always 0. Never 14 to 22.
 * Accepted: *count bytes of the new sample are written, which puddockle_check_sample accepts, and *changes_count bytes
 * of the list: none exactly if puddockle_check_sample accepts the old sample, and then the new one is the same. A new
 * sample that is salvaged again comes back as it is. Refused: nothing is written, both counts are 0.
 * Time: linear in the sample.
 */
uint32_t puddockle_salvage_sample(uint32_t kind, uint32_t length_size,
                                  const uint8_t *sample, size_t sample_len,
                                  uint8_t *out, size_t out_len,
                                  uint8_t *changes, size_t changes_len,
                                  uint64_t *place, uint64_t *count, uint64_t *changes_count);

/*
 * Salvages one sample of a bundle, and lists the extractors that name it: their offsets into it may be stale now. No
 * extractor is rewritten, and the bundle is not changed.
 *
 * sample                its number, from 1
 * out, out_len          where the new sample goes
 * changes, changes_len  where the change list goes, as in puddockle_salvage_sample
 * names, names_len      where the naming list of the old sample goes, as in puddockle_names
 *
 * Refusals, first that applies first: 1 to 13 as puddockle_check_bundle; 30 (no sample of that number); 29 (out_len,
 * changes_len or names_len is too small). *place is an offset in the bundle for 1 to 13, else 0. Never 14 to 28.
 * Accepted: *count and *changes_count bytes are written as puddockle_salvage_sample does with the kind and L of the
 * sample's track, and *names_count bytes as puddockle_names does. Refused: nothing is written, all counts are 0.
 * Time: linear in the bundle, as puddockle_names. Where the naming list is not wanted, puddockle_salvage_sample on the
 * sample's bytes is linear in these alone.
 */
uint32_t puddockle_salvage(const uint8_t *bundle, size_t bundle_len,
                           uint64_t sample,
                           uint8_t *out, size_t out_len,
                           uint8_t *changes, size_t changes_len,
                           uint8_t *names, size_t names_len,
                           uint64_t *place, uint64_t *count, uint64_t *changes_count, uint64_t *names_count);

/*
 * Finds all delivered units of a sample, without a copy.
 *
 * sample            its number, from 1
 * spans, spans_len  where the units' starts and lengths go, PUDDOCKLE_SPAN numbers a unit; spans_len is in numbers
 *
 * Refusals as puddockle_resolve, first that applies first: 1 to 13; 30 (no sample of that number); 14 to 28 of the
 * sample; 29 (spans_len is less than two numbers a unit). Places as there; 29 and 30 are at 0.
 * Accepted: *count numbers are written, for each unit in the order of delivery its start and its length: its bytes are
 * the length bytes from bundle + start on, which lie in the bundle. Joined, each after its length in 4 bytes, they are
 * what puddockle_resolve writes. Refused: no number is written, *count is 0.
 * Time: as puddockle_resolve, without the bytes written.
 */
uint32_t puddockle_units(const uint8_t *bundle, size_t bundle_len,
                         uint64_t sample,
                         uint64_t *spans, size_t spans_len,
                         uint64_t *place, uint64_t *count);

/*
 * Finds one delivered unit of a sample, without a copy.
 *
 * sample  the sample's number, from 1
 * unit    the unit's number among those that puddockle_resolve would write, from 1
 *
 * Refusals, first that applies first: 1 to 13; 30 (no sample of that number); 14 to 28 of the whole sample; 30 (no
 * unit of that number). Places as in puddockle_resolve; 30 is at 0.
 * Accepted: the unit's bytes are the *length bytes from bundle + *start on. They stand in the sample itself or in
 * the sample that an extractor names. Refused: *start and *length are 0.
 * Time: the head of the bundle, the sample judged (see above), and the units delivered before the one asked for, which
 * are gone over. So over all units it grows with the square of their number: for more than a few units use puddockle_units.
 */
uint32_t puddockle_unit(const uint8_t *bundle, size_t bundle_len,
                        uint64_t sample, uint64_t unit,
                        uint64_t *place, uint64_t *start, uint64_t *length);

/*
 * Lists the extractors that name a sample: those whose copy may change when its bytes do.
 *
 * sample        its number, from 1
 * out, out_len  where the list goes: for each extractor its sample's number in 2 bytes and its place in that sample
 *               in 4, by sample and then place
 *
 * An extractor is listed where its own sample is well formed and neither 23 nor 24 holds for it, whatever 25 to 28
 * say and whatever the sample asked for holds.
 * Refusals, first that applies first: 1 to 13; 30 (no sample of that number); 29. *place is an offset in the bundle
 * for 1 to 13, else 0.
 * Accepted: *count bytes are written, PUDDOCKLE_NAMES_ENTRY for each. Refused: nothing is written, *count is 0.
 * Time: linear in the bundle.
 */
uint32_t puddockle_names(const uint8_t *bundle, size_t bundle_len,
                         uint64_t sample,
                         uint8_t *out, size_t out_len,
                         uint64_t *place, uint64_t *count);

/*
 * Which sample an extractor names: the other way round.
 *
 * sample     the number of the extractor's own sample, from 1
 * extractor  its place: the offset of its length field in that sample. It may stand at top level or in an aggregator
 *
 * Refusals, first that applies first: 1 to 13; 30 (no sample of that number); 14 to 22 of the sample; 30 (no extractor
 * stands at that place); 23, 24 of this extractor, at its place. Other extractors of the sample, and 25 to 28 of this
 * one, are not judged. *place is an offset in the bundle for 1 to 13 and in the sample for 14 to 24; 30 is at 0.
 * Accepted: *named is the number of the sample named; puddockle_names of that sample lists this extractor.
 * Time: the head of the bundle, and linear in the sample's own bytes.
 */
uint32_t puddockle_named(const uint8_t *bundle, size_t bundle_len,
                         uint64_t sample, uint64_t extractor,
                         uint64_t *place, uint64_t *named);

/*
 * Audits a bundle: would each of its samples resolve?
 *
 * lines, lines_len        where the lines go, PUDDOCKLE_LINE bytes a sample in order of number: the refusal 14 to 28
 *                         or 0 in 1 byte, its place in 4, the number of units delivered in 8. A passed sample has
 *                         refusal and place 0; a refused one has 0 units; an empty one is all zeros.
 * passed, empty, refused  how many samples resolve, have length 0, and are refused; they add to the sample count
 *
 * Refusals, first that applies first: 1 to 13 as puddockle_check_bundle; 29. *place is an offset in the bundle for
 * 1 to 13, else 0. A refused sample does not make the audit refuse.
 * Accepted: *count bytes are written, PUDDOCKLE_LINE for each sample. Refused: nothing is written, *count and the
 * three tallies are 0.
 * Time: linear in the bundle, whatever it holds: every sample is checked once and judged once (see above).
 */
uint32_t puddockle_audit(const uint8_t *bundle, size_t bundle_len,
                         uint8_t *lines, size_t lines_len,
                         uint64_t *place, uint64_t *count,
                         uint64_t *passed, uint64_t *empty, uint64_t *refused);

#ifdef __cplusplus
}
#endif

#endif
