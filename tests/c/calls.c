/*
 * Calls every function of puddockle.h on the bench bundle B0 of document 01, and on inputs that are refused.
 *
 *   tools/build library
 *   cc -std=c99 -Wall -Wextra -Werror -Iinclude tests/c/calls.c -Ltarget/staticlib -lpuddockle -o target/calls
 *   target/calls
 *
 * Prints one line for each difference, then how many checks there were. Exit code 0 means that all held.
 */
#include <stdio.h>
#include <string.h>
#include "puddockle.h"

static unsigned checks, failures;

static void same(const char *what, uint64_t found, uint64_t expected, int line)
{
    checks++;
    if (found == expected)
        return;
    failures++;
    printf("line %d: %s is %llu, expected %llu\n", line, what, (unsigned long long)found, (unsigned long long)expected);
}

#define SAME(found, expected) same(#found, (found), (expected), __LINE__)

/* Fill for what must not be written, and for what must always be set. */
#define FILL 0xA5
#define UNSET UINT64_C(0xA5A5A5A5A5A5A5A5)

static int untouched(const void *start, size_t length)
{
    const uint8_t *bytes = start;
    for (size_t i = 0; i < length; i++)
        if (bytes[i] != FILL)
            return 0;
    return 1;
}

static const uint8_t B0[68] = {
    0x02,
    0x00, 0x00, 0x07, 0x01, 0x42, 0x00, 0x1E, 0xFC, 0xE0, 0x00,
    0x01, 0x00, 0x07, 0x01, 0x53, 0x00, 0x1E, 0xFC, 0x00, 0x00,
    0x01, 0x02, 0x01,
    0x00, 0x02,
    0x01, 0, 0, 0, 0, 0, 0, 0, 0, 0, 0, 0, 0x03,
    0x02, 0, 0, 0, 0, 0, 0, 0, 0, 0, 0, 0, 0x09,
    0x00, 0x00, 0x00, 0x0C,
    0x02, 0x65, 0x88, 0x08, 0x7F, 0x80, 0x00, 0x03, 0x01, 0x00, 0x00, 0x00,
};

static void read_records(void)
{
    /* M10 with its trailer, and a set of each kind */
    static const uint8_t high[] = {
        0x01, 0x64, 0x00, 0x1E, 0xFF, 0xE1, 0x00, 0x02, 0x67, 0x64, 0x01, 0x00, 0x01, 0x68,
        0xFD, 0xF9, 0xFA, 0x01, 0x00, 0x01, 0x6D,
    };
    static const uint64_t high_numbers[PUDDOCKLE_FIELDS] = { 100, 0, 30, 0, 4, 1, 6, 4, 1, 11, 3, 2, 1, 1, 2, 1, 18, 3 };
    static const uint64_t svc_numbers[PUDDOCKLE_FIELDS] = { 83, 0, 30, 1, 1, 0, 6, 0, 0, 7, 0, 0, 0, 0, 0, 0, 0, 0 };
    uint64_t fields[PUDDOCKLE_FIELDS + 2], place;

    memset(fields, FILL, sizeof fields);
    place = UNSET;
    SAME(puddockle_read_record(0, high, sizeof high, fields, PUDDOCKLE_FIELDS + 2, &place), 0);
    SAME(place, 0);
    SAME(memcmp(fields, high_numbers, sizeof high_numbers), 0);
    SAME(untouched(fields + PUDDOCKLE_FIELDS, 2 * sizeof *fields), 1);

    memset(fields, FILL, sizeof fields);
    place = UNSET;
    SAME(puddockle_read_record(1, B0 + 14, 7, fields, PUDDOCKLE_FIELDS, &place), 0);
    SAME(place, 0);
    SAME(memcmp(fields, svc_numbers, sizeof svc_numbers), 0);

    /* refused: kind, cut short, length size 3 (M11), bytes after, too few numbers; 29 comes last */
    static const uint8_t three[] = { 0x01, 0x42, 0x00, 0x1E, 0xFE, 0xE0, 0x00 };
    memset(fields, FILL, sizeof fields);
    place = UNSET;
    SAME(puddockle_read_record(2, high, sizeof high, fields, 0, &place), 4);
    SAME(place, 0);
    place = UNSET;
    SAME(puddockle_read_record(0x10000, high, sizeof high, fields, PUDDOCKLE_FIELDS, &place), 4);
    SAME(puddockle_read_record(0, NULL, 0, fields, 0, &place), 8);
    SAME(place, 0);
    SAME(puddockle_read_record(0, high, 15, fields, PUDDOCKLE_FIELDS, &place), 8);
    SAME(puddockle_read_record(0, three, sizeof three, fields, PUDDOCKLE_FIELDS, &place), 11);
    SAME(puddockle_read_record(1, B0 + 14, 8, fields, PUDDOCKLE_FIELDS - 1, &place), 13);
    place = UNSET;
    SAME(puddockle_read_record(0, high, sizeof high, fields, PUDDOCKLE_FIELDS - 1, &place), 29);
    SAME(place, 0);
    SAME(puddockle_read_record(0, high, sizeof high, NULL, 0, &place), 29);
    SAME(untouched(fields, sizeof fields), 1);

    /* written again: the same bytes */
    uint8_t out[sizeof high + 3];
    uint64_t count = UNSET;
    memset(out, FILL, sizeof out);
    place = UNSET;
    SAME(puddockle_read_record(0, high, sizeof high, fields, PUDDOCKLE_FIELDS, &place), 0);
    SAME(puddockle_write_record(0, fields, PUDDOCKLE_FIELDS,
                                high + fields[PUDDOCKLE_SEQUENCE_START], fields[PUDDOCKLE_SEQUENCE_LENGTH],
                                high + fields[PUDDOCKLE_PICTURE_START], fields[PUDDOCKLE_PICTURE_LENGTH],
                                high + fields[PUDDOCKLE_EXTENSION_START], fields[PUDDOCKLE_EXTENSION_LENGTH],
                                out, sizeof out, &place, &count), 0);
    SAME(place, 0);
    SAME(count, sizeof high);
    SAME(memcmp(out, high, sizeof high), 0);
    SAME(untouched(out + sizeof high, 3), 1);
}

/* What writing the SVC record of B0, or an AVC record of no sets, answers with one number changed. */
static uint32_t write_changed(uint32_t kind, unsigned index, uint64_t value, uint8_t *out, size_t out_len, uint64_t *place, uint64_t *count)
{
    uint64_t fields[PUDDOCKLE_FIELDS] = { 83, 0, 30, kind == 1, 1, 0, 6, 0, 0, 7, 0, 0, 0, 0, 0, 0, 0, 0 };
    fields[index] = value;
    *place = *count = UNSET;
    return puddockle_write_record(kind, fields, PUDDOCKLE_FIELDS, NULL, 0, NULL, 0, NULL, 0, out, out_len, place, count);
}

static void write_records(void)
{
    uint8_t out[16];
    uint64_t place, count;

    /* starts, lengths and, without a trailer, its values are not looked at */
    for (unsigned i = 0; i < PUDDOCKLE_FIELDS; i++) {
        int looked_at = !(i == 6 || i == 7 || i == 9 || i == 10 || i >= 12);
        memset(out, FILL, sizeof out);
        SAME(write_changed(1, i, UINT64_C(1) << 32, out, sizeof out, &place, &count), looked_at ? 31 : 0);
        SAME(place, 0);
        SAME(count, looked_at ? 0 : 7);
        SAME(looked_at ? untouched(out, sizeof out) : memcmp(out, B0 + 14, 7) == 0 && untouched(out + 7, sizeof out - 7), 1);
    }
    /* complete_representation: its bit; more than 1, or given in an AVC record: refused */
    SAME(write_changed(1, PUDDOCKLE_COMPLETE_REPRESENTATION, 1, out, sizeof out, &place, &count), 0);
    SAME(out[4], 0xFC);
    SAME(write_changed(1, PUDDOCKLE_COMPLETE_REPRESENTATION, 0, out, sizeof out, &place, &count), 0);
    SAME(out[4], 0x7C);
    memset(out, FILL, sizeof out);
    SAME(write_changed(1, PUDDOCKLE_COMPLETE_REPRESENTATION, 2, out, sizeof out, &place, &count), 31);
    SAME(write_changed(0, PUDDOCKLE_COMPLETE_REPRESENTATION, 1, out, sizeof out, &place, &count), 31);
    SAME(write_changed(1, PUDDOCKLE_LENGTH_SIZE, 0, out, sizeof out, &place, &count), 31);
    SAME(write_changed(1, PUDDOCKLE_LENGTH_SIZE, 3, out, sizeof out, &place, &count), 31);
    SAME(write_changed(1, PUDDOCKLE_TRAILER, PUDDOCKLE_TRAILER_ABSENT, out, sizeof out, &place, &count), 31);
    SAME(write_changed(1, PUDDOCKLE_TRAILER, PUDDOCKLE_TRAILER_PRESENT, out, sizeof out, &place, &count), 31);
    SAME(write_changed(0, PUDDOCKLE_TRAILER, PUDDOCKLE_TRAILER_PRESENT, out, sizeof out, &place, &count), 31);
    SAME(write_changed(0, PUDDOCKLE_PROFILE, 100, out, sizeof out, &place, &count), 31);
    SAME(untouched(out, sizeof out), 1);
    SAME(write_changed(0, PUDDOCKLE_PROFILE, 66, out, sizeof out, &place, &count), 0);
    SAME(count, 7);
    SAME(memcmp(out, B0 + 4, 7), 0);
    memset(out, FILL, sizeof out);
    /* 4, then 31, then 29 */
    SAME(write_changed(2, PUDDOCKLE_TRAILER, 1, out, 0, &place, &count), 4);
    SAME(write_changed(1, PUDDOCKLE_TRAILER, 1, out, 0, &place, &count), 31);
    SAME(write_changed(1, PUDDOCKLE_TRAILER, 0, out, 6, &place, &count), 29);
    SAME(place, 0);
    SAME(count, 0);
    uint64_t few[PUDDOCKLE_FIELDS - 1] = { 83, 0, 30, 1, 1 };
    place = count = UNSET;
    SAME(puddockle_write_record(1, few, PUDDOCKLE_FIELDS - 1, NULL, 0, NULL, 0, NULL, 0, out, sizeof out, &place, &count), 31);
    SAME(place, 0);
    SAME(count, 0);
    SAME(untouched(out, sizeof out), 1);
}

/* M10: its first half ends after the picture sets, and has its trailer absent. */
static const uint8_t M10[11] = { 0x01, 0x64, 0x00, 0x1E, 0xFF, 0xE0, 0x00, 0xFD, 0xF8, 0xF8, 0x00 };
static const uint64_t M10_NUMBERS[PUDDOCKLE_FIELDS] = { 100, 0, 30, 0, 4, 0, 6, 0, 0, 7, 0, PUDDOCKLE_TRAILER_ABSENT };

/* Reading these bytes is refused with this number, and nothing is written. */
static void read_refused(const uint8_t *record, size_t length, size_t room, uint32_t number, int line)
{
    uint64_t fields[PUDDOCKLE_FIELDS + 2], place = UNSET;
    memset(fields, FILL, sizeof fields);
    same("number", puddockle_read_record(0, record, length, fields, room, &place), number, line);
    same("place", place, 0, line);
    same("untouched", untouched(fields, sizeof fields), 1, line);
}

/* Writing M10's first half, one number set to this value (LEVEL to 30 changes nothing) and so many bytes of extension sets lent, is refused
 * with this number, and nothing is written. */
static void write_refused(uint32_t kind, unsigned index, uint64_t value, size_t extension_len, size_t room, uint32_t number, int line)
{
    static const uint8_t extension[3] = { 0x00, 0x01, 0x6D };
    uint64_t fields[PUDDOCKLE_FIELDS], place = UNSET, count = UNSET;
    uint8_t out[16];
    memcpy(fields, M10_NUMBERS, sizeof fields);
    fields[index] = value;
    memset(out, FILL, sizeof out);
    same("number", puddockle_write_record(kind, fields, PUDDOCKLE_FIELDS, NULL, 0, NULL, 0, extension, extension_len, out, room, &place, &count),
         number, line);
    same("place", place, 0, line);
    same("count", count, 0, line);
    same("untouched", untouched(out, sizeof out), 1, line);
}

static void trailer_absent(void)
{
    static const uint8_t profiles[] = { 100, 110, 122, 144 };
    uint64_t fields[PUDDOCKLE_FIELDS + 2], place, count;
    uint8_t record[12], out[16];

    /* read, and written again, in all four profiles */
    for (size_t i = 0; i < sizeof profiles; i++) {
        uint64_t expected[PUDDOCKLE_FIELDS];
        memcpy(record, M10, sizeof M10);
        memcpy(expected, M10_NUMBERS, sizeof expected);
        record[1] = profiles[i];
        expected[PUDDOCKLE_PROFILE] = profiles[i];
        memset(fields, FILL, sizeof fields);
        place = UNSET;
        SAME(puddockle_read_record(0, record, 7, fields, PUDDOCKLE_FIELDS + 2, &place), 0);
        SAME(place, 0);
        SAME(memcmp(fields, expected, sizeof expected), 0);
        SAME(untouched(fields + PUDDOCKLE_FIELDS, 2 * sizeof *fields), 1);
        memset(out, FILL, sizeof out);
        place = count = UNSET;
        SAME(puddockle_write_record(0, fields, PUDDOCKLE_FIELDS, record + 6, 0, record + 7, 0, record, 0, out, sizeof out, &place, &count), 0);
        SAME(place, 0);
        SAME(count, 7);
        SAME(memcmp(out, record, 7), 0);
        SAME(untouched(out + 7, sizeof out - 7), 1);
        /* one to three trailer bytes ask for the whole trailer */
        for (size_t length = 8; length < 11; length++)
            read_refused(record, length, PUDDOCKLE_FIELDS + 2, 8, __LINE__);
        place = UNSET;
        SAME(puddockle_read_record(0, record, 11, fields, PUDDOCKLE_FIELDS, &place), 0);
        SAME(fields[PUDDOCKLE_TRAILER], PUDDOCKLE_TRAILER_PRESENT);
    }
    /* too few numbers; the picture sets' count is not there; wrong fixed bits in the only trailer byte; a byte after the trailer */
    read_refused(M10, 7, PUDDOCKLE_FIELDS - 1, 29, __LINE__);
    read_refused(M10, 6, PUDDOCKLE_FIELDS, 8, __LINE__);
    memcpy(record, M10, sizeof M10);
    record[7] = 0x7D;
    read_refused(record, 8, PUDDOCKLE_FIELDS, 10, __LINE__);
    record[7] = 0xFD;
    record[11] = 0;
    read_refused(record, 12, PUDDOCKLE_FIELDS, 13, __LINE__);

    /* not written: neither a trailer nor absent where one belongs; a trailer number that there is not; absent where none belongs, in an AVC and in
     * an SVC record; extension sets beside absent */
    write_refused(0, PUDDOCKLE_TRAILER, PUDDOCKLE_TRAILER_NONE, 0, sizeof out, 31, __LINE__);
    write_refused(0, PUDDOCKLE_TRAILER, 3, 0, sizeof out, 31, __LINE__);
    write_refused(0, PUDDOCKLE_TRAILER, (UINT64_C(1) << 32) + 1, 0, sizeof out, 31, __LINE__);
    write_refused(0, PUDDOCKLE_PROFILE, 66, 0, sizeof out, 31, __LINE__);
    write_refused(0, PUDDOCKLE_PROFILE, 244, 0, sizeof out, 31, __LINE__);
    write_refused(0, PUDDOCKLE_PROFILE, 256 + 100, 0, sizeof out, 31, __LINE__);
    write_refused(1, PUDDOCKLE_LEVEL, 30, 0, sizeof out, 31, __LINE__);
    write_refused(0, PUDDOCKLE_LEVEL, 30, 3, sizeof out, 31, __LINE__);
    /* 4, then 31, then 29 */
    write_refused(2, PUDDOCKLE_TRAILER, PUDDOCKLE_TRAILER_NONE, 0, 6, 4, __LINE__);
    write_refused(0, PUDDOCKLE_TRAILER, PUDDOCKLE_TRAILER_NONE, 0, 6, 31, __LINE__);
    write_refused(0, PUDDOCKLE_LEVEL, 30, 0, 6, 29, __LINE__);

    /* values of a trailer that is absent are not looked at */
    for (unsigned i = PUDDOCKLE_CHROMA_FORMAT; i < PUDDOCKLE_FIELDS; i++) {
        memcpy(fields, M10_NUMBERS, sizeof M10_NUMBERS);
        fields[i] = UINT64_MAX;
        memset(out, FILL, sizeof out);
        place = count = UNSET;
        SAME(puddockle_write_record(0, fields, PUDDOCKLE_FIELDS, NULL, 0, NULL, 0, NULL, 0, out, 7, &place, &count), 0);
        SAME(count, 7);
        SAME(memcmp(out, M10, 7), 0);
        SAME(untouched(out + 7, sizeof out - 7), 1);
    }

    /* B0 with profile 100: as B0; with one trailer byte in its first record: 8 at the track entry */
    uint8_t bundle[sizeof B0 + 1];
    memcpy(bundle, B0, sizeof B0);
    bundle[5] = 100;
    place = UNSET;
    SAME(puddockle_check_bundle(bundle, sizeof B0, &place), 0);
    SAME(place, 0);
    memset(out, FILL, sizeof out);
    place = count = UNSET;
    SAME(puddockle_resolve(bundle, sizeof B0, 2, out, sizeof out, &place, &count), 0);
    SAME(count, 6);
    SAME(memcmp(out + 4, B0 + 57, 2), 0);
    SAME(untouched(out + 6, sizeof out - 6), 1);
    memmove(bundle + 12, bundle + 11, sizeof B0 - 11);
    bundle[3] = 8;
    bundle[11] = 0xFD;
    place = UNSET;
    SAME(puddockle_check_bundle(bundle, sizeof bundle, &place), 8);
    SAME(place, 1);
    memset(out, FILL, sizeof out);
    place = count = UNSET;
    SAME(puddockle_resolve(bundle, sizeof bundle, 2, out, sizeof out, &place, &count), 8);
    SAME(place, 1);
    SAME(count, 0);
    SAME(untouched(out, sizeof out), 1);
}

static void check_samples(void)
{
    /* M7: well formed in an SVC track, 20 at 6 in an AVC track; M12 */
    static const uint8_t m7[] = { 0x08, 0x7E, 0x80, 0x00, 0x03, 0x00, 0x02, 0x65, 0x88 };
    static const uint8_t short_unit[] = { 0x01, 0x65, 0x02, 0x65 };
    uint64_t place = UNSET;
    SAME(puddockle_check_sample(1, 1, m7, sizeof m7, &place), 0);
    SAME(place, 0);
    SAME(puddockle_check_sample(0, 1, m7, sizeof m7, &place), 20);
    SAME(place, 6);
    SAME(puddockle_check_sample(0, 1, short_unit, sizeof short_unit, &place), 15);
    SAME(place, 2);
    SAME(puddockle_check_sample(0, 2, NULL, 0, &place), 0);
    SAME(place, 0);
    place = UNSET;
    SAME(puddockle_check_sample(256, 3, m7, sizeof m7, &place), 4);
    SAME(place, 0);
    place = UNSET;
    SAME(puddockle_check_sample(1, 257, m7, sizeof m7, &place), 11);
    SAME(place, 0);
}

static void call_bundle(void)
{
    uint8_t out[32];
    uint64_t place = UNSET, count, start, length, passed, empty, refused;

    SAME(puddockle_check_bundle(B0, sizeof B0, &place), 0);
    SAME(place, 0);
    SAME(puddockle_check_bundle(B0, 15, &place), 2);
    SAME(place, 11);
    SAME(puddockle_check_bundle(NULL, 0, &place), 2);
    SAME(place, 0);

    /* sample 2 resolves to sample 1's unit */
    static const uint8_t resolved[] = { 0x00, 0x00, 0x00, 0x02, 0x65, 0x88 };
    for (uint64_t sample = 1; sample <= 2; sample++) {
        memset(out, FILL, sizeof out);
        place = count = UNSET;
        SAME(puddockle_resolve(B0, sizeof B0, sample, out, sizeof out, &place, &count), 0);
        SAME(place, 0);
        SAME(count, 6);
        SAME(memcmp(out, resolved, 6), 0);
        SAME(untouched(out + 6, sizeof out - 6), 1);

        place = start = length = UNSET;
        SAME(puddockle_unit(B0, sizeof B0, sample, 1, &place, &start, &length), 0);
        SAME(place, 0);
        SAME(start, 57);
        SAME(length, 2);
    }
    memset(out, FILL, sizeof out);
    place = count = UNSET;
    SAME(puddockle_resolve(B0, sizeof B0, 2, out, 5, &place, &count), 29);
    SAME(place, 0);
    SAME(count, 0);
    place = count = UNSET;
    SAME(puddockle_resolve(B0, sizeof B0, UINT64_C(0x100000001), out, sizeof out, &place, &count), 30);
    SAME(place, 0);
    SAME(count, 0);
    place = count = UNSET;
    SAME(puddockle_resolve(B0, 15, 0, out, sizeof out, &place, &count), 2);
    SAME(place, 11);
    SAME(count, 0);
    SAME(untouched(out, sizeof out), 1);

    /* units 0 and 2, samples 0 and 3, numbers past 32 bits */
    static const uint64_t none[][2] = { { 2, 0 }, { 2, 2 }, { 0, 1 }, { 3, 1 }, { 2, UINT64_C(0x100000001) }, { UINT64_MAX, UINT64_MAX } };
    for (size_t i = 0; i < sizeof none / sizeof *none; i++) {
        place = start = length = UNSET;
        SAME(puddockle_unit(B0, sizeof B0, none[i][0], none[i][1], &place, &start, &length), 30);
        SAME(place, 0);
        SAME(start, 0);
        SAME(length, 0);
    }

    /* sample 2's extractor names sample 1 */
    static const uint8_t namers[] = { 0x00, 0x02, 0x00, 0x00, 0x00, 0x00 };
    memset(out, FILL, sizeof out);
    place = count = UNSET;
    SAME(puddockle_names(B0, sizeof B0, 1, out, sizeof out, &place, &count), 0);
    SAME(place, 0);
    SAME(count, PUDDOCKLE_NAMES_ENTRY);
    SAME(memcmp(out, namers, sizeof namers), 0);
    SAME(untouched(out + 6, sizeof out - 6), 1);
    place = count = UNSET;
    SAME(puddockle_names(B0, sizeof B0, 2, NULL, 0, &place, &count), 0);
    SAME(place, 0);
    SAME(count, 0);
    memset(out, FILL, sizeof out);
    place = count = UNSET;
    SAME(puddockle_names(B0, sizeof B0, 3, out, sizeof out, &place, &count), 30);
    SAME(count, 0);
    place = count = UNSET;
    SAME(puddockle_names(B0, sizeof B0, 1, out, 5, &place, &count), 29);
    SAME(place, 0);
    SAME(count, 0);
    SAME(untouched(out, sizeof out), 1);

    /* both samples pass with one unit */
    static const uint8_t lines[2 * PUDDOCKLE_LINE] = { [12] = 1, [25] = 1 };
    place = count = passed = empty = refused = UNSET;
    SAME(puddockle_audit(B0, sizeof B0, out, sizeof out, &place, &count, &passed, &empty, &refused), 0);
    SAME(place, 0);
    SAME(count, sizeof lines);
    SAME(passed, 2);
    SAME(empty, 0);
    SAME(refused, 0);
    SAME(memcmp(out, lines, sizeof lines), 0);
    SAME(untouched(out + sizeof lines, sizeof out - sizeof lines), 1);
    memset(out, FILL, sizeof out);
    place = count = passed = empty = refused = UNSET;
    SAME(puddockle_audit(B0, sizeof B0, out, sizeof lines - 1, &place, &count, &passed, &empty, &refused), 29);
    SAME(place, 0);
    SAME(count, 0);
    SAME(passed, 0);
    SAME(empty, 0);
    SAME(refused, 0);
    place = count = passed = empty = refused = UNSET;
    SAME(puddockle_audit(B0, 15, out, sizeof out, &place, &count, &passed, &empty, &refused), 2);
    SAME(place, 11);
    SAME(count, 0);
    SAME(passed, 0);
    SAME(empty, 0);
    SAME(refused, 0);
    SAME(untouched(out, sizeof out), 1);

    /* M4: data_offset 1 is 26 at 0 */
    uint8_t bundle[sizeof B0];
    memcpy(bundle, B0, sizeof B0);
    bundle[66] = 1;
    place = count = passed = empty = refused = UNSET;
    SAME(puddockle_audit(bundle, sizeof bundle, out, sizeof out, &place, &count, &passed, &empty, &refused), 0);
    SAME(passed, 1);
    SAME(empty, 0);
    SAME(refused, 1);
    SAME(count, sizeof lines);
    SAME(out[13], 26);
    place = count = UNSET;
    SAME(puddockle_resolve(bundle, sizeof bundle, 2, out, sizeof out, &place, &count), 26);
    SAME(place, 0);
    SAME(count, 0);
    place = start = length = UNSET;
    SAME(puddockle_unit(bundle, sizeof bundle, 2, 1, &place, &start, &length), 26);
    SAME(place, 0);
    SAME(start, 0);
    SAME(length, 0);
}

/* Each constant of the header that document 01 settles. */
static void constants(void)
{
    SAME(PUDDOCKLE_ACCEPTED, 0);
    SAME(PUDDOCKLE_REFUSED_BUNDLE_TOO_LONG, 1);
    SAME(PUDDOCKLE_REFUSED_BUNDLE_CUT, 2);
    SAME(PUDDOCKLE_REFUSED_COUNT_OUT_OF_LIMITS, 3);
    SAME(PUDDOCKLE_REFUSED_UNKNOWN_KIND, 4);
    SAME(PUDDOCKLE_REFUSED_BAD_REFERENCE, 5);
    SAME(PUDDOCKLE_REFUSED_BAD_TRACK_OR_TIME, 6);
    SAME(PUDDOCKLE_REFUSED_BAD_BYTE_COUNT, 7);
    SAME(PUDDOCKLE_REFUSED_RECORD_CUT, 8);
    SAME(PUDDOCKLE_REFUSED_BAD_VERSION, 9);
    SAME(PUDDOCKLE_REFUSED_WRONG_FIXED_BITS, 10);
    SAME(PUDDOCKLE_REFUSED_BAD_LENGTH_SIZE, 11);
    SAME(PUDDOCKLE_REFUSED_BAD_SET, 12);
    SAME(PUDDOCKLE_REFUSED_BYTES_AFTER_RECORD, 13);
    SAME(PUDDOCKLE_REFUSED_LENGTH_FIELD_CUT, 14);
    SAME(PUDDOCKLE_REFUSED_UNIT_TOO_LONG, 15);
    SAME(PUDDOCKLE_REFUSED_EMPTY_UNIT, 16);
    SAME(PUDDOCKLE_REFUSED_TOP_BIT_SET, 17);
    SAME(PUDDOCKLE_REFUSED_UNIT_TOO_SHORT, 18);
    SAME(PUDDOCKLE_REFUSED_NESTED_AGGREGATOR, 19);
    SAME(PUDDOCKLE_REFUSED_SLICE_IN_AVC_AGGREGATOR, 20);
    SAME(PUDDOCKLE_REFUSED_BAD_ADDITIONAL_BYTES, 21);
    SAME(PUDDOCKLE_REFUSED_BAD_EXTRACTOR_SIZE, 22);
    SAME(PUDDOCKLE_REFUSED_BAD_TRACK_REF_INDEX, 23);
    SAME(PUDDOCKLE_REFUSED_NO_SAMPLE_NAMED, 24);
    SAME(PUDDOCKLE_REFUSED_NAMED_ILL_FORMED, 25);
    SAME(PUDDOCKLE_REFUSED_BAD_DATA_OFFSET, 26);
    SAME(PUDDOCKLE_REFUSED_BAD_DATA_LENGTH, 27);
    SAME(PUDDOCKLE_REFUSED_EXTRACTOR_COPIED, 28);
    SAME(PUDDOCKLE_REFUSED_OUTPUT_TOO_LONG, 29);
    SAME(PUDDOCKLE_REFUSED_NO_SUCH_NUMBER, 30);
    SAME(PUDDOCKLE_REFUSED_FIELDS_FIT_NO_RECORD, 31);
    SAME(PUDDOCKLE_REFUSED_UNIT_NOT_STREAMABLE, 32);
    SAME(PUDDOCKLE_REFUSED_BAD_BYTE_STREAM, 33);
    SAME(PUDDOCKLE_REFUSED_UNIT_EXCEEDS_LENGTH_SIZE, 34);
    SAME(PUDDOCKLE_AVC, 0);
    SAME(PUDDOCKLE_SVC, 1);
    SAME(PUDDOCKLE_BUNDLE_MOST, 16777216);
    SAME(PUDDOCKLE_TRACKS_MOST, 16);
    SAME(PUDDOCKLE_REFERENCES_MOST, 64);
    SAME(PUDDOCKLE_SAMPLES_MOST, 4096);
    SAME(PUDDOCKLE_LINE, 13);
    SAME(PUDDOCKLE_LINES_MOST, 53248);
    SAME(PUDDOCKLE_NAMES_ENTRY, 6);
    SAME(PUDDOCKLE_SPAN, 2);
    SAME(PUDDOCKLE_CHANGE, 5);
    SAME(PUDDOCKLE_CHANGE_DROP, 1);
    SAME(PUDDOCKLE_CHANGE_ZEROING, 2);
    SAME(PUDDOCKLE_FIELDS, 18);
    char version[32];
    snprintf(version, sizeof version, "%d.%d.%d", PUDDOCKLE_VERSION_MAJOR, PUDDOCKLE_VERSION_MINOR, PUDDOCKLE_VERSION_PATCH);
    SAME(strcmp(version, PUDDOCKLE_VERSION), 0);
}

/* A byte longer than any bundle. */
static uint8_t too_long[PUDDOCKLE_BUNDLE_MOST + 1];

/* Numbers that no track, reference or sample of B0 has. */
static const uint64_t NO_NUMBER[] = { 0, 3, 257, UINT64_C(0x100000001), UINT64_C(1) << 63, UINT64_MAX };

static void counts_of_bundle(void)
{
    uint64_t place, tracks, references, samples;
    place = tracks = references = samples = UNSET;
    SAME(puddockle_counts(B0, sizeof B0, &place, &tracks, &references, &samples), 0);
    SAME(place, 0);
    SAME(tracks, 2);
    SAME(references, 1);
    SAME(samples, 2);
    /* cut, empty, a byte too long */
    const struct { const uint8_t *bytes; size_t length; uint32_t number; uint64_t place; } refused[] = {
        { B0, 15, 2, 11 }, { NULL, 0, 2, 0 }, { B0, sizeof B0 - 1, 2, 52 }, { too_long, sizeof too_long, 1, 0 }, { too_long, 20, 3, 0 },
    };
    for (size_t i = 0; i < sizeof refused / sizeof *refused; i++) {
        place = tracks = references = samples = UNSET;
        SAME(puddockle_counts(refused[i].bytes, refused[i].length, &place, &tracks, &references, &samples), refused[i].number);
        SAME(place, refused[i].place);
        SAME(tracks, 0);
        SAME(references, 0);
        SAME(samples, 0);
    }
}

/* What a track, a reference or a sample gives: its refusal, and the numbers set, those that it does not set left UNSET. */
enum part { TRACK, REFERENCE, SAMPLE };
static uint32_t part(enum part part, size_t length, uint64_t number, uint64_t *place, uint64_t set[4])
{
    *place = set[0] = set[1] = set[2] = set[3] = UNSET;
    if (part == TRACK)
        return puddockle_track(B0, length, number, place, &set[0], &set[1], &set[2]);
    if (part == REFERENCE)
        return puddockle_reference(B0, length, number, place, &set[0], &set[1]);
    return puddockle_sample(B0, length, number, place, &set[0], &set[1], &set[2], &set[3]);
}

static void parts_of_bundle(void)
{
    static const unsigned numbers[] = { [TRACK] = 3, [REFERENCE] = 2, [SAMPLE] = 4 };
    static const struct { enum part part; uint64_t number, set[4]; } there[] = {
        { TRACK, 1, { PUDDOCKLE_AVC, 4, 7, UNSET } },  { TRACK, 2, { PUDDOCKLE_SVC, 14, 7, UNSET } },
        { REFERENCE, 1, { 2, 1, UNSET, UNSET } },
        { SAMPLE, 1, { 1, 0, 56, 3 } },                { SAMPLE, 2, { 2, 0, 59, 9 } },
    };
    uint64_t place, set[4];
    for (size_t i = 0; i < sizeof there / sizeof *there; i++) {
        SAME(part(there[i].part, sizeof B0, there[i].number, &place, set), 0);
        SAME(place, 0);
        SAME(memcmp(set, there[i].set, sizeof set), 0);
    }
    SAME(part(REFERENCE, sizeof B0, 2, &place, set), 30);
    for (enum part p = TRACK; p <= SAMPLE; p++) {
        for (size_t i = 0; i < sizeof NO_NUMBER / sizeof *NO_NUMBER; i++) {
            SAME(part(p, sizeof B0, NO_NUMBER[i], &place, set), 30);
            SAME(place, 0);
            for (unsigned at = 0; at < 4; at++)
                SAME(set[at], at < numbers[p] ? 0 : UNSET);
            /* the bundle is judged before the number */
            SAME(part(p, 15, NO_NUMBER[i], &place, set), 2);
            SAME(place, 11);
        }
        SAME(part(p, 15, 1, &place, set), 2);
        SAME(place, 11);
        for (unsigned at = 0; at < 4; at++)
            SAME(set[at], at < numbers[p] ? 0 : UNSET);
    }
}

/* B0 with other samples. Answers its length. */
static size_t with_samples(uint8_t *bundle, const uint8_t *first, size_t first_len, const uint8_t *second, size_t second_len)
{
    memcpy(bundle, B0, 56);
    bundle[38] = (uint8_t)first_len;
    bundle[51] = (uint8_t)second_len;
    bundle[55] = (uint8_t)(first_len + second_len);
    memcpy(bundle + 56, first, first_len);
    memcpy(bundle + 56 + first_len, second, second_len);
    return 56 + first_len + second_len;
}

/* Two units; an ill-formed sample. */
static const uint8_t TWO[] = { 0x02, 0x65, 0x88, 0x01, 0x09 };
static const uint8_t BAD[] = { 0x00 };
/* Extractors: the whole of a sample of 5 bytes; one by a reference that is there, two by others that are not (23), one by the first with a data_offset of 3;
 * by an offset that names none (24); by a wrong data_offset (26). One in an aggregator. One that is too short (22). */
static const uint8_t WHOLE[] = { 0x01, 0x06, 0x08, 0x7F, 0x80, 0x00, 0x03, 0x01, 0x00, 0x00, 0x05 };
static const uint8_t NO_REFERENCE[] = {
    0x08, 0x7F, 0x80, 0x00, 0x03, 0x01, 0x00, 0x00, 0x00, 0x08, 0x7F, 0x80, 0x00, 0x03, 0x02, 0x00, 0x00, 0x00,
    0x08, 0x7F, 0x80, 0x00, 0x03, 0x00, 0x00, 0x00, 0x00, 0x08, 0x7F, 0x80, 0x00, 0x03, 0x01, 0x00, 0x03, 0x00,
};
static const uint8_t NO_SAMPLE[] = { 0x01, 0x06, 0x08, 0x7F, 0x80, 0x00, 0x03, 0x01, 0xFF, 0x00, 0x00 };
static const uint8_t WRONG_OFFSET[] = { 0x08, 0x7F, 0x80, 0x00, 0x03, 0x01, 0x00, 0x01, 0x00 };
static const uint8_t INCLUDED[] = { 0x0E, 0x7E, 0x80, 0x00, 0x03, 0x00, 0x08, 0x7F, 0x80, 0x00, 0x03, 0x01, 0x00, 0x00, 0x00 };
static const uint8_t SHORT[] = { 0x07, 0x7F, 0x80, 0x00, 0x03, 0x01, 0x00, 0x00 };

#define SAMPLES(bundle, first, second) with_samples(bundle, first, sizeof first, second, sizeof second)

/* The units of sample `sample` in a room of so many numbers: a refusal at a place, and nothing is written. */
static void units_refused(const uint8_t *bundle, size_t length, uint64_t sample, size_t room, uint32_t number, uint64_t at, int line)
{
    uint64_t spans[8], place = UNSET, count = UNSET;
    memset(spans, FILL, sizeof spans);
    same("number", puddockle_units(bundle, length, sample, room ? spans : NULL, room, &place, &count), number, line);
    same("place", place, at, line);
    same("count", count, 0, line);
    same("untouched", untouched(spans, sizeof spans), 1, line);
}

static void units_of_samples(void)
{
    /* sample 2: its own unit, then sample 1's two */
    static const uint64_t expected[] = { 62, 1, 57, 2, 60, 1 };
    uint64_t spans[8], place, count;
    uint8_t bundle[128], out[32];
    size_t length = SAMPLES(bundle, TWO, WHOLE);
    for (size_t room = 6; room <= 8; room++) {
        memset(spans, FILL, sizeof spans);
        place = count = UNSET;
        SAME(puddockle_units(bundle, length, 2, spans, room, &place, &count), 0);
        SAME(place, 0);
        SAME(count, 6);
        SAME(memcmp(spans, expected, sizeof expected), 0);
        SAME(untouched(spans + 6, 2 * sizeof *spans), 1);
    }
    /* joined, each after its length, they are what resolves, and each is the unit of its number */
    size_t at = 0;
    uint8_t joined[32];
    for (size_t i = 0; i < 6; i += PUDDOCKLE_SPAN) {
        uint64_t start = UNSET, size = UNSET;
        SAME(puddockle_unit(bundle, length, 2, i / PUDDOCKLE_SPAN + 1, &place, &start, &size), 0);
        SAME(start, spans[i]);
        SAME(size, spans[i + 1]);
        memset(joined + at, 0, 3);
        joined[at + 3] = (uint8_t)spans[i + 1];
        memcpy(joined + at + 4, bundle + spans[i], spans[i + 1]);
        at += 4 + spans[i + 1];
    }
    SAME(puddockle_resolve(bundle, length, 2, out, sizeof out, &place, &count), 0);
    SAME(count, at);
    SAME(memcmp(out, joined, at), 0);
    /* 29 for every smaller room, none among them */
    for (size_t room = 0; room < 6; room++)
        units_refused(bundle, length, 2, room, 29, 0, __LINE__);
    /* the bundle before the number, that before the sample, that before the room */
    units_refused(bundle, 15, 0, 0, 2, 11, __LINE__);
    units_refused(too_long, sizeof too_long, 0, 0, 1, 0, __LINE__);
    for (size_t i = 0; i < sizeof NO_NUMBER / sizeof *NO_NUMBER; i++)
        units_refused(bundle, length, NO_NUMBER[i], 0, 30, 0, __LINE__);
    length = SAMPLES(bundle, TWO, BAD);
    units_refused(bundle, length, 3, 0, 30, 0, __LINE__);
    units_refused(bundle, length, 2, 0, 16, 0, __LINE__);
    length = SAMPLES(bundle, TWO, NO_REFERENCE);
    units_refused(bundle, length, 2, 0, 23, 9, __LINE__);
    length = SAMPLES(bundle, TWO, NO_SAMPLE);
    units_refused(bundle, length, 2, 0, 24, 2, __LINE__);
    length = SAMPLES(bundle, BAD, WHOLE);
    units_refused(bundle, length, 2, 8, 25, 2, __LINE__);
    length = SAMPLES(bundle, TWO, WRONG_OFFSET);
    units_refused(bundle, length, 2, 8, 26, 0, __LINE__);
    /* nothing is delivered by an empty sample, and no room is enough for that */
    length = with_samples(bundle, TWO, 0, TWO, sizeof TWO);
    place = count = UNSET;
    SAME(puddockle_units(bundle, length, 1, NULL, 0, &place, &count), 0);
    SAME(place, 0);
    SAME(count, 0);
}

/* The byte stream of a sample with so much room: a refusal at a place, and nothing is written. */
static void stream_refused(const uint8_t *bundle, size_t length, uint64_t sample, size_t room, uint32_t number, uint64_t at, int line)
{
    uint8_t out[64];
    uint64_t place = UNSET, count = UNSET;
    memset(out, FILL, sizeof out);
    same("number", puddockle_stream(bundle, length, sample, room ? out : NULL, room, &place, &count), number, line);
    same("place", place, at, line);
    same("count", count, 0, line);
    same("untouched", untouched(out, sizeof out), 1, line);
}

/* The byte stream of a sample is these bytes, in that much room and in more. */
static void stream_written(const uint8_t *bundle, size_t length, uint64_t sample, const uint8_t *expected, size_t size, int line)
{
    uint8_t out[64];
    for (size_t room = size; room <= size + 2; room++) {
        uint64_t place = UNSET, count = UNSET;
        memset(out, FILL, sizeof out);
        same("number", puddockle_stream(bundle, length, sample, room ? out : NULL, room, &place, &count), 0, line);
        same("place", place, 0, line);
        same("count", count, size, line);
        same("bytes", size > 0 && memcmp(out, expected, size) != 0, 0, line);
        same("untouched", untouched(out + size, sizeof out - size), 1, line);
    }
    for (size_t room = 0; room < size; room++)
        stream_refused(bundle, length, sample, room, 29, 0, line);
}

/* Units that end in 00; one that holds 00 00 01; good ones with zeros; B0's extractor; a unit that ends in 00 before an extractor by a reference
 * that is not there (23). */
static const uint8_t ENDING[] = { 0x02, 0x65, 0x88, 0x02, 0x65, 0x00, 0x01, 0x00 };
static const uint8_t START_CODE[] = { 0x05, 0x65, 0x00, 0x00, 0x01, 0x88 };
static const uint8_t ZEROS[] = { 0x05, 0x65, 0x00, 0x00, 0x03, 0x88, 0x03, 0x00, 0x00, 0x65, 0x02, 0x00, 0x01 };
static const uint8_t EXTRACTOR[] = { 0x08, 0x7F, 0x80, 0x00, 0x03, 0x01, 0x00, 0x00, 0x00 };
static const uint8_t ENDING_NO_REFERENCE[] = { 0x02, 0x65, 0x00, 0x08, 0x7F, 0x80, 0x00, 0x03, 0x02, 0x00, 0x00, 0x00 };

static void streams_of_samples(void)
{
    static const uint8_t own[] = { 0, 0, 0, 1, 0x65, 0x88 };
    static const uint8_t three[] = { 0, 0, 0, 1, 0x06, 0, 0, 0, 1, 0x65, 0x88, 0, 0, 0, 1, 0x09 };
    static const uint8_t zeros[] = { 0, 0, 0, 1, 0x65, 0, 0, 3, 0x88, 0, 0, 0, 1, 0, 0, 0x65, 0, 0, 0, 1, 0, 1 };
    uint8_t bundle[128];
    stream_written(B0, sizeof B0, 1, own, sizeof own, __LINE__);
    stream_written(B0, sizeof B0, 2, own, sizeof own, __LINE__);
    size_t length = SAMPLES(bundle, TWO, WHOLE);
    stream_written(bundle, length, 2, three, sizeof three, __LINE__);
    /* 00 00 03 and zeros at a unit's start are good; the units are not searched as one */
    length = SAMPLES(bundle, TWO, ZEROS);
    stream_written(bundle, length, 2, zeros, sizeof zeros, __LINE__);
    /* nothing is delivered, and no room is enough for that */
    length = with_samples(bundle, TWO, 0, TWO, sizeof TWO);
    stream_written(bundle, length, 1, NULL, 0, __LINE__);

    /* every third byte after two zeros, in the middle, at the end and at the front of a unit */
    for (unsigned third = 0; third < 256; third++) {
        const uint8_t byte = (uint8_t)third, units[][6] = {
            { 0x05, 0x65, 0x00, 0x00, byte, 0x88 }, { 0x05, 0x65, 0x65, 0x00, 0x00, byte }, { 0x05, 0x00, 0x00, byte, 0x65, 0x88 },
        };
        for (size_t i = 0; i < 3; i++) {
            uint8_t expected[9] = { 0, 0, 0, 1 };
            memcpy(expected + 4, units[i] + 1, 5);
            length = SAMPLES(bundle, TWO, units[i]);
            if (third <= 2)
                stream_refused(bundle, length, 2, 64, 32, 0, __LINE__);
            else
                stream_written(bundle, length, 2, expected, sizeof expected, __LINE__);
        }
    }
    /* the first unit that ends in 00, by its 4-byte length in what resolves, in either sample and in a copy; before 29 */
    for (size_t room = 0; room <= 64; room += 8) {
        length = SAMPLES(bundle, ENDING, TWO);
        stream_refused(bundle, length, 1, room, 32, 6, __LINE__);
        length = SAMPLES(bundle, TWO, ENDING);
        stream_refused(bundle, length, 2, room, 32, 6, __LINE__);
        length = with_samples(bundle, ENDING + 3, 5, WHOLE, sizeof WHOLE);
        stream_refused(bundle, length, 2, room, 32, 5, __LINE__);
        length = SAMPLES(bundle, TWO, START_CODE);
        stream_refused(bundle, length, 2, room, 32, 0, __LINE__);
    }
    /* a unit that is not delivered is not searched */
    length = SAMPLES(bundle, ENDING, EXTRACTOR);
    stream_written(bundle, length, 2, own, sizeof own, __LINE__);

    /* the bundle before the number, that before the sample, an extractor after the unit before the unit, all before the room */
    stream_refused(bundle, 15, 0, 0, 2, 11, __LINE__);
    stream_refused(NULL, 0, 1, 64, 2, 0, __LINE__);
    stream_refused(too_long, sizeof too_long, 0, 0, 1, 0, __LINE__);
    length = SAMPLES(bundle, ENDING, BAD);
    for (size_t i = 0; i < sizeof NO_NUMBER / sizeof *NO_NUMBER; i++)
        stream_refused(bundle, length, NO_NUMBER[i], 0, 30, 0, __LINE__);
    stream_refused(bundle, length, 2, 0, 16, 0, __LINE__);
    length = SAMPLES(bundle, TWO, ENDING_NO_REFERENCE);
    stream_refused(bundle, length, 2, 0, 23, 3, __LINE__);
    length = SAMPLES(bundle, BAD, WHOLE);
    stream_refused(bundle, length, 2, 64, 25, 2, __LINE__);
    length = SAMPLES(bundle, TWO, WRONG_OFFSET);
    stream_refused(bundle, length, 2, 64, 26, 0, __LINE__);
}

/* A byte stream read with so much room: a refusal at a place, and nothing is written. */
static void reading_refused(uint32_t size, const uint8_t *stream, size_t length, size_t room, uint32_t number, uint64_t at, int line)
{
    uint8_t out[64];
    uint64_t place = UNSET, count = UNSET;
    memset(out, FILL, sizeof out);
    same("number", puddockle_from_stream(size, stream, length, room ? out : NULL, room, &place, &count), number, line);
    same("place", place, at, line);
    same("count", count, 0, line);
    same("untouched", untouched(out, sizeof out), 1, line);
}

/* A byte stream is read as these bytes, in that much room and in more, and is too long for less. */
static void reading_written(uint32_t size, const uint8_t *stream, size_t length, const uint8_t *expected, size_t needed, int line)
{
    uint8_t out[64];
    for (size_t room = needed; room <= needed + 2; room++) {
        uint64_t place = UNSET, count = UNSET;
        memset(out, FILL, sizeof out);
        same("number", puddockle_from_stream(size, stream, length, room ? out : NULL, room, &place, &count), 0, line);
        same("place", place, 0, line);
        same("count", count, needed, line);
        same("bytes", needed > 0 && memcmp(out, expected, needed) != 0, 0, line);
        same("untouched", untouched(out + needed, sizeof out - needed), 1, line);
    }
    for (size_t room = 0; room < needed; room++)
        reading_refused(size, stream, length, room, 29, 0, line);
}

/* A byte stream without units, and what is refused with 33 whatever the length size and the room. */
static void no_units(const uint8_t *stream, size_t length, int line)
{
    for (uint32_t size = 1; size <= 4; size *= 2)
        reading_written(size, stream, length, NULL, 0, line);
}

static void not_a_stream(const uint8_t *stream, size_t length, uint64_t at, int line)
{
    for (uint32_t size = 1; size <= 4; size *= 2)
        for (size_t room = 0; room <= 64; room += 32)
            reading_refused(size, stream, length, room, 33, at, line);
}

#define NOT_A_STREAM(at, ...) not_a_stream((const uint8_t[]){ __VA_ARGS__ }, sizeof (const uint8_t[]){ __VA_ARGS__ }, at, __LINE__)

static void streams_read(void)
{
    /* start codes with zeros before them, zeros after units, 00 00 03, zeros and 00 01 at the front and the end of units */
    static const uint8_t stream[] = { 0, 0, 0, 0, 1, 0x65, 0, 0, 3, 0x88, 0, 0, 1, 0, 0, 0x61, 0, 1, 0, 0, 0, 0, 0, 1, 1, 0, 0, 1, 0, 2, 0, 0, 0 };
    static const uint8_t one[] = { 5, 0x65, 0, 0, 3, 0x88, 5, 0, 0, 0x61, 0, 1, 1, 1, 2, 0, 2 };
    static const uint8_t two[] = { 0, 5, 0x65, 0, 0, 3, 0x88, 0, 5, 0, 0, 0x61, 0, 1, 0, 1, 1, 0, 2, 0, 2 };
    static const uint8_t four[] = { 0, 0, 0, 5, 0x65, 0, 0, 3, 0x88, 0, 0, 0, 5, 0, 0, 0x61, 0, 1, 0, 0, 0, 1, 1, 0, 0, 0, 2, 0, 2 };
    static const uint8_t zeros[16];
    reading_written(1, stream, sizeof stream, one, sizeof one, __LINE__);
    reading_written(2, stream, sizeof stream, two, sizeof two, __LINE__);
    reading_written(4, stream, sizeof stream, four, sizeof four, __LINE__);
    for (size_t less = 1; less <= 3; less++)
        reading_written(1, stream, sizeof stream - less, one, sizeof one, __LINE__);
    no_units(NULL, 0, __LINE__);
    for (size_t length = 1; length <= sizeof zeros; length++)
        no_units(zeros, length, __LINE__);

    /* before the first start code; a 01 after fewer than two zeros ends none */
    NOT_A_STREAM(0, 0x65);
    NOT_A_STREAM(0, 1);
    NOT_A_STREAM(0, 1, 0, 0, 1, 0x65);
    NOT_A_STREAM(1, 0, 1, 0x65);
    NOT_A_STREAM(1, 0, 1, 0, 0, 1, 0x65);
    NOT_A_STREAM(3, 0, 0, 0, 2, 0, 0, 1, 0x65);
    /* in a unit: the first of them, also in a unit after another */
    NOT_A_STREAM(6, 0, 0, 1, 0, 0, 0, 5);
    NOT_A_STREAM(9, 0, 0, 1, 0x65, 0, 0, 0, 0, 0, 0x65);
    NOT_A_STREAM(6, 0, 0, 1, 0x65, 0, 0, 2, 0, 0, 0, 5);
    NOT_A_STREAM(7, 0, 0, 1, 0x65, 0, 0, 0, 5, 0, 0, 2);
    NOT_A_STREAM(10, 0, 0, 1, 0x65, 0, 0, 1, 0x61, 0, 0, 2, 0, 0, 1);
    /* empty units: the first of them */
    NOT_A_STREAM(2, 0, 0, 1);
    NOT_A_STREAM(2, 0, 0, 1, 0);
    NOT_A_STREAM(3, 0, 0, 0, 1, 0, 0, 0);
    NOT_A_STREAM(2, 0, 0, 1, 0, 0, 1, 0x65);
    NOT_A_STREAM(2, 0, 0, 1, 0, 0, 0, 1, 0x65, 0, 0, 2);
    NOT_A_STREAM(6, 0, 0, 1, 0x65, 0, 0, 1, 0, 0, 1, 0, 0, 1);
    NOT_A_STREAM(7, 0, 0, 1, 0x65, 0, 0, 0, 1);

    /* every byte after one, two and three zeros, in the middle and at the front of a unit */
    for (unsigned value = 0; value < 256; value++) {
        for (size_t count = 1; count <= 3; count++) {
            for (size_t front = 0; front <= 1; front++) {
                uint8_t bytes[16] = { 0, 0, 1, 0x65 }, unit[16] = { 0 };
                size_t at = 3 + front + count, length = at + 2, run = value == 0 ? count + 1 : count;
                memset(bytes + 3 + front, 0, count);
                bytes[at] = (uint8_t)value;
                bytes[at + 1] = 0x88;
                unit[0] = (uint8_t)(length - 3);
                memcpy(unit + 1, bytes + 3, length - 3);
                if (value == 1 && count >= 2 && front == 0)
                    not_a_stream(bytes, length, 2, __LINE__);
                else if (value == 1 && count >= 2)
                    reading_written(1, bytes, length, (const uint8_t[]){ 1, 0x65, 1, 0x88 }, 4, __LINE__);
                else if (run >= 3 || (run == 2 && value == 2))
                    not_a_stream(bytes, length, value == 0 ? at + 1 : at, __LINE__);
                else
                    reading_written(1, bytes, length, unit, length - 2, __LINE__);
            }
        }
    }

    /* units of every length up to 12 that end in 01 or 00 01, before another */
    for (size_t length = 1; length <= 12; length++) {
        for (size_t zero = 0; zero <= 1 && zero < length; zero++) {
            uint8_t bytes[20] = { 0, 0, 1 }, unit[20] = { (uint8_t)length };
            memset(bytes + 3, 0x65, length);
            bytes[2 + length] = 1;
            if (zero)
                bytes[1 + length] = 0;
            memcpy(bytes + 3 + length, "\0\0\1\x61", 4);
            memcpy(unit + 1, bytes + 3, length);
            memcpy(unit + 1 + length, "\1\x61", 2);
            reading_written(1, bytes, length + 7, unit, length + 3, __LINE__);
        }
    }

    /* other length sizes, before all */
    static const uint32_t SIZES[] = { 0, 3, 5, 6, 8, 255, 256, 257, 258, 260, 0x10001, 0x80000004, UINT32_MAX };
    for (size_t i = 0; i < sizeof SIZES / sizeof *SIZES; i++) {
        reading_refused(SIZES[i], stream, sizeof stream, 64, 11, 0, __LINE__);
        reading_refused(SIZES[i], stream + 5, sizeof stream - 5, 0, 11, 0, __LINE__);
        reading_refused(SIZES[i], NULL, 0, 0, 11, 0, __LINE__);
    }
}

/* A unit of `most` bytes fits length size `size`, and one of a byte more does not, whatever follows it. */
static void longest_units(uint32_t size, size_t most)
{
    static uint8_t stream[65536 + 32], out[65536 + 32];
    const uint64_t most_bytes = most;
    for (size_t zeros = 0; zeros <= 6; zeros++) {
        uint64_t place = UNSET, count = UNSET;
        memset(stream, 0, sizeof stream);
        memcpy(stream, "\0\0\1\x61\0\0\0\1", 8);
        memset(stream + 8, 0x65, most);
        memset(out, FILL, sizeof out);
        SAME(puddockle_from_stream(size, stream, 8 + most + zeros, out, 1 + 2 * size + most, &place, &count), 0);
        SAME(place, 0);
        SAME(count, 1 + 2 * size + most_bytes);
        SAME(out[size], 0x61);
        for (uint32_t i = 0; i < size; i++)
            SAME(out[size + 1 + i], 0xFF);
        SAME(memcmp(out + 1 + 2 * size, stream + 8, most), 0);
        SAME(untouched(out + 1 + 2 * size + most, sizeof out - 1 - 2 * size - most), 1);
        reading_refused(size, stream, 8 + most + zeros, 64, 29, 0, __LINE__);
        /* a byte more is 34, before a 33 after the unit or inside it */
        memcpy(stream + 8 + most, "\x65\0\0\2\0\0\1", 7);
        reading_refused(size, stream, 8 + most + 1 + zeros, 0, 34, 8, __LINE__);
        stream[10] = stream[11] = 0;
        stream[12] = 2;
        reading_refused(size, stream, 8 + most + 1, 64, 34, 8, __LINE__);
        reading_refused(size, stream, 8 + most, 64, 33, 12, __LINE__);
        reading_refused(4, stream, 8 + most + 1, 64, 33, 12, __LINE__);
        /* an empty unit before it comes first */
        stream[3] = 0;
        reading_refused(size, stream, 8 + most + 1, 64, 33, 2, __LINE__);
    }
}

/* What puddockle_stream wrote is read as what puddockle_resolve writes. */
static void streams_read_back(void)
{
    const struct { const uint8_t *sample; size_t length; } samples[] = {
        { TWO, sizeof TWO }, { WHOLE, sizeof WHOLE }, { ZEROS, sizeof ZEROS }, { EXTRACTOR, sizeof EXTRACTOR }, { TWO, 0 },
    };
    for (size_t i = 0; i < sizeof samples / sizeof *samples; i++) {
        uint8_t bundle[128], resolved[64], stream[64];
        uint64_t place, count = UNSET, streamed = UNSET;
        size_t length = with_samples(bundle, TWO, sizeof TWO, samples[i].sample, samples[i].length);
        SAME(puddockle_resolve(bundle, length, 2, resolved, sizeof resolved, &place, &count), 0);
        SAME(puddockle_stream(bundle, length, 2, stream, sizeof stream, &place, &streamed), 0);
        SAME(streamed, count);
        reading_written(4, stream, (size_t)streamed, resolved, (size_t)count, __LINE__);
    }
}

/* What the extractor at that place of sample `sample` names: the refusal and its place, or the number of the sample. */
static void name(const uint8_t *bundle, size_t length, uint64_t sample, uint64_t extractor, uint32_t number, uint64_t at, uint64_t expected, int line)
{
    uint64_t place = UNSET, named = UNSET;
    same("number", puddockle_named(bundle, length, sample, extractor, &place, &named), number, line);
    same("place", place, at, line);
    same("named", named, expected, line);
}

static void named_by_extractors(void)
{
    uint8_t bundle[128];
    size_t length;
    name(B0, sizeof B0, 2, 0, 0, 0, 1, __LINE__);
    /* no extractor: another unit's place, inside one, past the sample, a number that only looks like 0 */
    name(B0, sizeof B0, 1, 0, 30, 0, 0, __LINE__);
    static const uint64_t none[] = { 1, 5, 8, 9, 10, UINT64_C(1) << 32, UINT64_MAX };
    for (size_t i = 0; i < sizeof none / sizeof *none; i++)
        name(B0, sizeof B0, 2, none[i], 30, 0, 0, __LINE__);
    /* the bundle before the sample's number, that before the sample, that before the place */
    name(B0, 15, 0, 0, 2, 11, 0, __LINE__);
    name(too_long, sizeof too_long, 0, 0, 1, 0, 0, __LINE__);
    for (size_t i = 0; i < sizeof NO_NUMBER / sizeof *NO_NUMBER; i++)
        name(B0, sizeof B0, NO_NUMBER[i], 0, 30, 0, 0, __LINE__);
    length = SAMPLES(bundle, TWO, SHORT);
    name(bundle, length, 2, 0, 22, 0, 0, __LINE__);
    name(bundle, length, 2, 3, 22, 0, 0, __LINE__);
    name(bundle, length, 3, 0, 30, 0, 0, __LINE__);
    length = SAMPLES(bundle, TWO, BAD);
    name(bundle, length, 2, 9, 16, 0, 0, __LINE__);
    /* 23 and 24 at its own place; another extractor's 23 is not judged */
    length = SAMPLES(bundle, TWO, NO_REFERENCE);
    name(bundle, length, 2, 0, 0, 0, 1, __LINE__);
    name(bundle, length, 2, 9, 23, 9, 0, __LINE__);
    name(bundle, length, 2, 18, 23, 18, 0, __LINE__);
    name(bundle, length, 2, 27, 0, 0, 1, __LINE__);
    length = SAMPLES(bundle, TWO, NO_SAMPLE);
    name(bundle, length, 2, 0, 30, 0, 0, __LINE__);
    name(bundle, length, 2, 2, 24, 2, 0, __LINE__);
    /* included in an aggregator, whose own place is none */
    length = SAMPLES(bundle, TWO, INCLUDED);
    name(bundle, length, 2, 6, 0, 0, 1, __LINE__);
    name(bundle, length, 2, 0, 30, 0, 0, __LINE__);
    /* 25 and 26 are not judged */
    length = SAMPLES(bundle, BAD, WHOLE);
    name(bundle, length, 2, 2, 0, 0, 1, __LINE__);
    length = SAMPLES(bundle, TWO, WRONG_OFFSET);
    name(bundle, length, 2, 0, 0, 0, 1, __LINE__);
}

/* An aggregator of two units that covers a third; an aggregator of a unit and an extractor. */
static const uint8_t COVERING[] = { 0x0C, 0x7E, 0x80, 0x00, 0x03, 0x02, 0x02, 0x67, 0x88, 0x03, 0x06, 0x9A, 0x0F, 0x01, 0x09 };
static const uint8_t EXTRACTING[] = {
    0x11, 0x7E, 0x80, 0x00, 0x03, 0x00, 0x02, 0x67, 0x88, 0x08, 0x7F, 0x80, 0x00, 0x03, 0x01, 0x00, 0x00, 0x00,
};

/* Sample 2 is a unit and an extractor with this data_offset and data_length, on sample 1. Either it is refused with this number, or `copied` of the units
 * at these places of the bundle come after its own unit. */
static void copies(const uint8_t *first, size_t first_len, uint8_t offset, uint8_t length, uint32_t number, const uint64_t *spans, size_t copied, int line)
{
    const uint8_t second[] = { 0x01, 0x06, 0x08, 0x7F, 0x80, 0x00, 0x03, 0x01, 0x00, offset, length };
    uint8_t bundle[128], out[64], expected[64] = { 0, 0, 0, 1, 0x06 };
    uint64_t found[8], own[8] = { 57 + first_len, 1 }, place = UNSET, count = UNSET, passed, empty, refused;
    size_t bundle_len = with_samples(bundle, first, first_len, second, sizeof second), size = number ? 0 : 5, units = number ? 0 : 1 + copied;
    for (size_t i = 0; i < copied; i++) {
        memcpy(own + PUDDOCKLE_SPAN * (i + 1), spans + PUDDOCKLE_SPAN * i, PUDDOCKLE_SPAN * sizeof *own);
        memcpy(expected + size + 4, bundle + spans[PUDDOCKLE_SPAN * i], spans[PUDDOCKLE_SPAN * i + 1]);
        expected[size + 3] = (uint8_t)spans[PUDDOCKLE_SPAN * i + 1];
        size += 4 + spans[PUDDOCKLE_SPAN * i + 1];
    }
    memset(out, FILL, sizeof out);
    same("number", puddockle_resolve(bundle, bundle_len, 2, out, sizeof out, &place, &count), number, line);
    same("place", place, number ? 2 : 0, line);
    same("count", count, size, line);
    same("bytes", memcmp(out, expected, size), 0, line);
    same("untouched", untouched(out + size, sizeof out - size), 1, line);
    memset(found, FILL, sizeof found);
    place = count = UNSET;
    same("number", puddockle_units(bundle, bundle_len, 2, found, 8, &place, &count), number, line);
    same("place", place, number ? 2 : 0, line);
    same("count", count, PUDDOCKLE_SPAN * units, line);
    same("spans", memcmp(found, own, PUDDOCKLE_SPAN * units * sizeof *own), 0, line);
    same("untouched", untouched(found + PUDDOCKLE_SPAN * units, (8 - PUDDOCKLE_SPAN * units) * sizeof *found), 1, line);
    same("audit", puddockle_audit(bundle, bundle_len, out, sizeof out, &place, &count, &passed, &empty, &refused), 0, line);
    same("refusal", out[PUDDOCKLE_LINE], number, line);
    same("place", out[PUDDOCKLE_LINE + 4], number ? 2 : 0, line);
    same("units", out[2 * PUDDOCKLE_LINE - 1], units, line);
    /* which sample is named does not hang on the start */
    place = count = UNSET;
    same("named", puddockle_named(bundle, bundle_len, 2, 2, &place, &count), 0, line);
    same("named", count, 1, line);
}

/* Request [4]: starts at included units. */
static void included_starts(void)
{
    static const uint64_t spans[] = { 63, 2, 66, 3, 70, 1 };
    const uint64_t *second = spans + PUDDOCKLE_SPAN;
    /* one unit; several, up to the aggregator's end; what it covers comes with a top-level start alone */
    copies(COVERING, sizeof COVERING, 6, 0, 0, spans, 1, __LINE__);
    copies(COVERING, sizeof COVERING, 9, 0, 0, second, 1, __LINE__);
    copies(COVERING, sizeof COVERING, 6, 3, 0, spans, 1, __LINE__);
    copies(COVERING, sizeof COVERING, 6, 7, 0, spans, 2, __LINE__);
    copies(COVERING, sizeof COVERING, 9, 4, 0, second, 1, __LINE__);
    copies(COVERING, sizeof COVERING, 0, 0, 0, spans, 3, __LINE__);
    /* past the aggregator's end, beside a border; from a top-level start into the aggregator */
    copies(COVERING, sizeof COVERING, 6, 9, 27, NULL, 0, __LINE__);
    copies(COVERING, sizeof COVERING, 9, 6, 27, NULL, 0, __LINE__);
    copies(COVERING, sizeof COVERING, 6, 4, 27, NULL, 0, __LINE__);
    copies(COVERING, sizeof COVERING, 0, 9, 27, NULL, 0, __LINE__);
    /* in the aggregator's head, in an included unit, in the covered one, at the sample's end, past it */
    static const uint8_t no_start[] = { 1, 4, 5, 7, 8, 10, 12, 14, 15, 255 };
    for (size_t i = 0; i < sizeof no_start; i++) {
        copies(COVERING, sizeof COVERING, no_start[i], 0, 26, NULL, 0, __LINE__);
        copies(COVERING, sizeof COVERING, no_start[i], 1, 26, NULL, 0, __LINE__);
    }
    /* an extractor where it is copied; 27 before 28 */
    copies(EXTRACTING, sizeof EXTRACTING, 6, 0, 0, spans, 1, __LINE__);
    copies(EXTRACTING, sizeof EXTRACTING, 9, 0, 28, NULL, 0, __LINE__);
    copies(EXTRACTING, sizeof EXTRACTING, 9, 9, 28, NULL, 0, __LINE__);
    copies(EXTRACTING, sizeof EXTRACTING, 6, 12, 28, NULL, 0, __LINE__);
    copies(EXTRACTING, sizeof EXTRACTING, 9, 8, 27, NULL, 0, __LINE__);
    copies(EXTRACTING, sizeof EXTRACTING, 18, 0, 26, NULL, 0, __LINE__);
}

/* What salvaging lends and sets, filled before each call. `rooms` are those of the new sample, the change list and the naming list. */
struct salvaged {
    uint8_t out[64], changes[64], names[64];
    uint64_t place, count, changes_count, names_count;
};

static struct salvaged salvage(const uint8_t *bundle, size_t length, uint64_t sample, const size_t rooms[3], uint32_t number, int line)
{
    struct salvaged s;
    memset(&s, FILL, sizeof s);
    same("number", puddockle_salvage(bundle, length, sample, rooms[0] ? s.out : NULL, rooms[0], rooms[1] ? s.changes : NULL, rooms[1],
                                     rooms[2] ? s.names : NULL, rooms[2], &s.place, &s.count, &s.changes_count, &s.names_count),
         number, line);
    return s;
}

static struct salvaged salvage_sample(uint32_t kind, uint32_t size, const uint8_t *sample, size_t length, const size_t rooms[3], uint32_t number, int line)
{
    struct salvaged s;
    memset(&s, FILL, sizeof s);
    same("number", puddockle_salvage_sample(kind, size, sample, length, rooms[0] ? s.out : NULL, rooms[0], rooms[1] ? s.changes : NULL, rooms[1],
                                            &s.place, &s.count, &s.changes_count),
         number, line);
    s.names_count = 0;
    return s;
}

/* Refused at that place: all counts are 0, and nothing is written. */
static void not_salvaged(struct salvaged s, uint64_t place, int line)
{
    same("place", s.place, place, line);
    same("count", s.count, 0, line);
    same("changes_count", s.changes_count, 0, line);
    same("names_count", s.names_count, 0, line);
    same("untouched", untouched(s.out, sizeof s.out) && untouched(s.changes, sizeof s.changes) && untouched(s.names, sizeof s.names), 1, line);
}

/* Bytes that are expected: the new sample, the change list, the naming list. */
struct expected {
    const uint8_t *bytes[3];
    size_t lengths[3];
};

/* Accepted: these bytes are written, and no others. */
static void is_salvaged(const struct salvaged *s, const struct expected *e, int line)
{
    const uint8_t *written[] = { s->out, s->changes, s->names };
    const uint64_t counts[] = { s->count, s->changes_count, s->names_count };
    same("place", s->place, 0, line);
    for (int i = 0; i < 3; i++) {
        same("count", counts[i], e->lengths[i], line);
        same("bytes", e->lengths[i] > 0 && memcmp(written[i], e->bytes[i], e->lengths[i]) != 0, 0, line);
        same("untouched", untouched(written[i] + e->lengths[i], sizeof s->out - e->lengths[i]), 1, line);
    }
}

#define BYTES(...) (const uint8_t[]){ __VA_ARGS__ }, sizeof (const uint8_t[]){ __VA_ARGS__ }
#define NOTHING NULL, 0
#define DROP(place) PUDDOCKLE_CHANGE_DROP, 0, 0, 0, place
#define ZEROING(place) PUDDOCKLE_CHANGE_ZEROING, 0, 0, 0, place

/* A sample outside a bundle gives this new sample and this change list, in exact rooms and in more; each room that is smaller is 29. The new sample is
 * well formed, and stays as it is. */
static void salvages(uint32_t kind, uint32_t size, const uint8_t *sample, size_t length, const uint8_t *bytes, size_t count, const uint8_t *changes,
                     size_t changes_count, int line)
{
    const struct expected e = { { bytes, changes, NULL }, { count, changes_count, 0 } }, again = { { bytes, NULL, NULL }, { count, 0, 0 } };
    for (size_t more = 0; more <= 6; more += 3) {
        struct salvaged s = salvage_sample(kind, size, sample, length, (const size_t[]){ count + more, changes_count + more, 0 }, 0, line);
        is_salvaged(&s, &e, line);
    }
    for (size_t room = 0; room < count; room++)
        not_salvaged(salvage_sample(kind, size, sample, length, (const size_t[]){ room, 64, 0 }, 29, line), 0, line);
    for (size_t room = 0; room < changes_count; room++)
        not_salvaged(salvage_sample(kind, size, sample, length, (const size_t[]){ 64, room, 0 }, 29, line), 0, line);
    uint64_t place = UNSET;
    same("well formed", puddockle_check_sample(kind, size, bytes, count, &place), 0, line);
    struct salvaged s = salvage_sample(kind, size, bytes, count, (const size_t[]){ count, 0, 0 }, 0, line);
    is_salvaged(&s, &again, line);
}

static void samples_salvaged(void)
{
    static const uint8_t m7[] = { 0x08, 0x7E, 0x80, 0x00, 0x03, 0x00, 0x02, 0x65, 0x88 };
    /* well formed: as they are */
    salvages(1, 4, NOTHING, NOTHING, NOTHING, __LINE__);
    salvages(0, 1, TWO, sizeof TWO, TWO, sizeof TWO, NOTHING, __LINE__);
    salvages(1, 1, COVERING, sizeof COVERING, COVERING, sizeof COVERING, NOTHING, __LINE__);
    salvages(1, 1, WHOLE, sizeof WHOLE, WHOLE, sizeof WHOLE, NOTHING, __LINE__);
    salvages(1, 1, m7, sizeof m7, m7, sizeof m7, NOTHING, __LINE__);
    /* the first top-level fault, 14 to 18: one drop, whatever follows */
    salvages(0, 2, BYTES(0, 1, 9, 0), BYTES(0, 1, 9), BYTES(DROP(3)), __LINE__);
    salvages(0, 1, BYTES(1, 9, 2, 9), BYTES(1, 9), BYTES(DROP(2)), __LINE__);
    salvages(0, 4, BYTES(0, 0, 0, 1, 9, 0, 0, 0, 0, 0, 0, 0, 1, 9), BYTES(0, 0, 0, 1, 9), BYTES(DROP(5)), __LINE__);
    salvages(0, 1, BYTES(1, 9, 1, 0x89, 1, 9), BYTES(1, 9), BYTES(DROP(2)), __LINE__);
    salvages(0, 1, BYTES(1, 9, 3, 0x7F, 0x80, 0, 1, 9), BYTES(1, 9), BYTES(DROP(2)), __LINE__);
    salvages(0, 1, BYTES(0), NOTHING, BYTES(DROP(0)), __LINE__);
    /* inside an aggregator, and an extractor of a wrong size: the unit alone */
    salvages(0, 1, m7, sizeof m7, NOTHING, BYTES(DROP(0)), __LINE__);
    salvages(1, 1, BYTES(6, 0x7E, 0x80, 0, 3, 9, 0, 1, 9), BYTES(1, 9), BYTES(DROP(0)), __LINE__);
    salvages(1, 1, BYTES(11, 0x7E, 0x80, 0, 3, 0, 5, 0x7E, 0x80, 0, 3, 0, 1, 9), BYTES(1, 9), BYTES(DROP(0)), __LINE__);
    salvages(1, 1, SHORT, sizeof SHORT, NOTHING, BYTES(DROP(0)), __LINE__);
    salvages(1, 1, BYTES(1, 9, 9, 0x7F, 0x80, 0, 3, 1, 0, 0, 0, 0, 1, 9), BYTES(1, 9, 1, 9), BYTES(DROP(2)), __LINE__);
    /* additional_bytes: no border, an aggregator covered, past the sample, to the first top-level fault and past it, over a unit that is dropped */
    salvages(1, 1, BYTES(5, 0x7E, 0x80, 0, 3, 1, 1, 9), BYTES(5, 0x7E, 0x80, 0, 3, 0, 1, 9), BYTES(ZEROING(0)), __LINE__);
    salvages(1, 1, BYTES(5, 0x7E, 0x80, 0, 3, 6, 5, 0x7E, 0x80, 0, 3, 0), BYTES(5, 0x7E, 0x80, 0, 3, 0, 5, 0x7E, 0x80, 0, 3, 0), BYTES(ZEROING(0)), __LINE__);
    salvages(1, 2, BYTES(0, 6, 0x7E, 0x80, 0, 3, 1, 0), BYTES(0, 6, 0x7E, 0x80, 0, 3, 0, 0), BYTES(ZEROING(0)), __LINE__);
    salvages(1, 4, BYTES(0, 0, 0, 8, 0x7E, 0x80, 0, 3, 255, 255, 255, 244), BYTES(0, 0, 0, 8, 0x7E, 0x80, 0, 3, 0, 0, 0, 0), BYTES(ZEROING(0)), __LINE__);
    salvages(1, 1, BYTES(5, 0x7E, 0x80, 0, 3, 2, 1, 9, 0, 1, 9), BYTES(5, 0x7E, 0x80, 0, 3, 2, 1, 9), BYTES(DROP(8)), __LINE__);
    salvages(1, 1, BYTES(5, 0x7E, 0x80, 0, 3, 3, 1, 9, 0, 1, 9), BYTES(5, 0x7E, 0x80, 0, 3, 0, 1, 9), BYTES(ZEROING(0), DROP(8)), __LINE__);
    salvages(1, 1, BYTES(1, 9, 5, 0x7E, 0x80, 0, 3, 10, 1, 9, 7, 0x7F, 0x80, 0, 3, 1, 0, 0, 1, 9), BYTES(1, 9, 5, 0x7E, 0x80, 0, 3, 0, 1, 9, 1, 9),
             BYTES(ZEROING(2), DROP(10)), __LINE__);
    /* 4, then 11, then 29 */
    static const uint32_t KINDS[] = { 2, 3, 255, 256, 257, 0x10000, 0x80000001, UINT32_MAX };
    static const uint32_t SIZES[] = { 0, 3, 5, 6, 8, 255, 256, 257, 258, 260, 0x10001, 0x80000004, UINT32_MAX };
    const size_t none[3] = { 0 }, rooms[3] = { 64, 64, 64 };
    for (size_t i = 0; i < sizeof KINDS / sizeof *KINDS; i++) {
        not_salvaged(salvage_sample(KINDS[i], 3, TWO, sizeof TWO, none, 4, __LINE__), 0, __LINE__);
        not_salvaged(salvage_sample(KINDS[i], 1, TWO, sizeof TWO, rooms, 4, __LINE__), 0, __LINE__);
    }
    for (size_t i = 0; i < sizeof SIZES / sizeof *SIZES; i++) {
        not_salvaged(salvage_sample(1, SIZES[i], TWO, sizeof TWO, none, 11, __LINE__), 0, __LINE__);
        not_salvaged(salvage_sample(0, SIZES[i], NULL, 0, rooms, 11, __LINE__), 0, __LINE__);
    }
}

/* A sample of a bundle gives these three, in exact rooms and in more; each room that is smaller is 29. Each list alone is what its own call gives. */
static void salvages_in(const uint8_t *bundle, size_t length, uint64_t sample, const uint8_t *bytes, size_t count, const uint8_t *changes,
                        size_t changes_count, const uint8_t *names, size_t names_count, int line)
{
    const struct expected e = { { bytes, changes, names }, { count, changes_count, names_count } };
    for (size_t more = 0; more <= 6; more += 3) {
        struct salvaged s = salvage(bundle, length, sample, (const size_t[]){ count + more, changes_count + more, names_count + more }, 0, line);
        is_salvaged(&s, &e, line);
    }
    for (int i = 0; i < 3; i++) {
        for (size_t room = 0; room < e.lengths[i]; room++) {
            size_t rooms[3] = { 64, 64, 64 };
            rooms[i] = room;
            not_salvaged(salvage(bundle, length, sample, rooms, 29, line), 0, line);
        }
    }
    uint64_t kind, track, start, size, place, listed, unused[3];
    uint8_t out[64];
    same("sample", puddockle_sample(bundle, length, sample, &place, &track, unused, &start, &size), 0, line);
    same("track", puddockle_track(bundle, length, track, &place, &kind, unused + 1, unused + 2), 0, line);
    salvages((uint32_t)kind, 1, bundle + start, (size_t)size, bytes, count, changes, changes_count, line);
    same("names", puddockle_names(bundle, length, sample, out, sizeof out, &place, &listed), 0, line);
    same("names", listed == names_count && (names_count == 0 || memcmp(out, names, names_count) == 0), 1, line);
}

static void samples_salvaged_in_bundles(void)
{
    static const uint8_t m7[] = { 0x08, 0x7E, 0x80, 0x00, 0x03, 0x00, 0x02, 0x65, 0x88 };
    static const uint8_t damaged[] = { 0x05, 0x7E, 0x80, 0x00, 0x03, 0x09, 0x07, 0x7F, 0x80, 0x00, 0x03, 0x01, 0x00, 0x00, 0x01, 0x09, 0x00, 0x01, 0x09 };
    uint8_t bundle[128];
    salvages_in(B0, sizeof B0, 1, B0 + 56, 3, NOTHING, BYTES(0, 2, 0, 0, 0, 0), __LINE__);
    salvages_in(B0, sizeof B0, 2, B0 + 59, 9, NOTHING, NOTHING, __LINE__);
    /* damaged: what the others name stays named; in turn it names nothing */
    size_t length = SAMPLES(bundle, damaged, WHOLE);
    salvages_in(bundle, length, 1, BYTES(5, 0x7E, 0x80, 0, 3, 0, 1, 9), BYTES(ZEROING(0), DROP(6), DROP(16)), BYTES(0, 2, 0, 0, 0, 2), __LINE__);
    length = SAMPLES(bundle, TWO, NO_REFERENCE);
    salvages_in(bundle, length, 1, TWO, sizeof TWO, NOTHING, BYTES(0, 2, 0, 0, 0, 0, 0, 2, 0, 0, 0, 27), __LINE__);
    bundle[length] = 0;
    bundle[51]++;
    bundle[55]++;
    salvages_in(bundle, length + 1, 1, TWO, sizeof TWO, NOTHING, NOTHING, __LINE__);
    salvages_in(bundle, length + 1, 2, NO_REFERENCE, sizeof NO_REFERENCE, BYTES(DROP(sizeof NO_REFERENCE)), NOTHING, __LINE__);
    /* the kind is that of the sample's own track */
    length = SAMPLES(bundle, m7, m7);
    salvages_in(bundle, length, 1, NOTHING, BYTES(DROP(0)), NOTHING, __LINE__);
    salvages_in(bundle, length, 2, m7, sizeof m7, NOTHING, NOTHING, __LINE__);
    /* without bytes */
    length = with_samples(bundle, TWO, 0, WHOLE, sizeof WHOLE);
    salvages_in(bundle, length, 1, NOTHING, NOTHING, BYTES(0, 2, 0, 0, 0, 2), __LINE__);

    /* the bundle, then the number, then the rooms */
    const size_t none[3] = { 0 }, rooms[3] = { 64, 64, 64 };
    not_salvaged(salvage(B0, 15, 0, none, 2, __LINE__), 11, __LINE__);
    not_salvaged(salvage(B0, sizeof B0 - 1, 1, rooms, 2, __LINE__), 52, __LINE__);
    not_salvaged(salvage(NULL, 0, 1, rooms, 2, __LINE__), 0, __LINE__);
    not_salvaged(salvage(too_long, sizeof too_long, 0, none, 1, __LINE__), 0, __LINE__);
    for (size_t i = 0; i < sizeof NO_NUMBER / sizeof *NO_NUMBER; i++) {
        not_salvaged(salvage(B0, sizeof B0, NO_NUMBER[i], none, 30, __LINE__), 0, __LINE__);
        not_salvaged(salvage(B0, sizeof B0, NO_NUMBER[i], rooms, 30, __LINE__), 0, __LINE__);
    }
}

/* What a range lends and sets, filled before each call. */
struct ranged {
    uint8_t out[64], lines[64];
    uint64_t place, count, lines_count;
};

static struct ranged range(const uint8_t *bundle, size_t length, uint64_t first, uint64_t last, size_t room, size_t lines_room, uint32_t number, int line)
{
    struct ranged r;
    memset(&r, FILL, sizeof r);
    same("number", puddockle_range(bundle, length, first, last, room ? r.out : NULL, room, lines_room ? r.lines : NULL, lines_room, &r.place,
                                   &r.count, &r.lines_count),
         number, line);
    return r;
}

/* Refused at that place: both counts are 0, and nothing is written. */
static void no_range(struct ranged r, uint64_t place, int line)
{
    same("place", r.place, place, line);
    same("count", r.count, 0, line);
    same("lines_count", r.lines_count, 0, line);
    same("untouched", untouched(r.out, sizeof r.out) && untouched(r.lines, sizeof r.lines), 1, line);
}

/* Accepted: these bytes are written, and no others. */
static void is_range(const struct ranged *r, const uint8_t *bytes, size_t count, const uint8_t *lines, size_t lines_count, int line)
{
    same("place", r->place, 0, line);
    same("count", r->count, count, line);
    same("lines_count", r->lines_count, lines_count, line);
    same("bytes", count > 0 && memcmp(r->out, bytes, count) != 0, 0, line);
    same("lines", memcmp(r->lines, lines, lines_count), 0, line);
    same("untouched", untouched(r->out + count, sizeof r->out - count) && untouched(r->lines + lines_count, sizeof r->lines - lines_count), 1, line);
}

/* Samples `first` to `last` give these units and lines, in exact rooms and in more; each room that is smaller is 29. They are what the samples resolve to
 * one by one, and their lines of the audit. */
static void ranges(const uint8_t *bundle, size_t length, uint64_t first, uint64_t last, const uint8_t *bytes, size_t count, const uint8_t *lines,
                   size_t lines_count, int line)
{
    for (size_t more = 0; more <= 6; more += 3) {
        struct ranged r = range(bundle, length, first, last, count + more, lines_count + more, 0, line);
        is_range(&r, bytes, count, lines, lines_count, line);
    }
    for (size_t room = 0; room < count; room++)
        no_range(range(bundle, length, first, last, room, 64, 29, line), 0, line);
    for (size_t room = 0; room < lines_count; room++)
        no_range(range(bundle, length, first, last, 64, room, 29, line), 0, line);
    no_range(range(bundle, length, first, last, 0, 0, 29, line), 0, line);
    struct ranged r;
    uint64_t unused[3];
    size_t at = 0;
    for (uint64_t sample = first; sample <= last; sample++) {
        uint64_t place = UNSET, written = UNSET;
        uint32_t number = puddockle_resolve(bundle, length, sample, r.out + at, sizeof r.out - at, &place, &written);
        same("number", number, lines[(sample - first) * PUDDOCKLE_LINE], line);
        same("place", place, lines[(sample - first) * PUDDOCKLE_LINE + 4], line);
        at += written;
    }
    same("one by one", at == count && (count == 0 || memcmp(r.out, bytes, count) == 0), 1, line);
    same("audit", puddockle_audit(bundle, length, r.lines, sizeof r.lines, &r.place, &r.count, unused, unused + 1, unused + 2), 0, line);
    same("audit lines", memcmp(r.lines + (first - 1) * PUDDOCKLE_LINE, lines, lines_count), 0, line);
}

#define LINE(number, place, units) number, 0, 0, 0, place, 0, 0, 0, 0, 0, 0, 0, units
#define PASSED(units) LINE(0, 0, units)
#define REFUSED(number, place) LINE(number, place, 0)
#define EMPTY LINE(0, 0, 0)
#define UNIT(...) 0, 0, 0, sizeof (const uint8_t[]){ __VA_ARGS__ }, __VA_ARGS__

static void ranges_of_samples(void)
{
    uint8_t bundle[128];
    /* one sample, and both */
    ranges(B0, sizeof B0, 1, 1, BYTES(UNIT(0x65, 0x88)), BYTES(PASSED(1)), __LINE__);
    ranges(B0, sizeof B0, 2, 2, BYTES(UNIT(0x65, 0x88)), BYTES(PASSED(1)), __LINE__);
    ranges(B0, sizeof B0, 1, 2, BYTES(UNIT(0x65, 0x88), UNIT(0x65, 0x88)), BYTES(PASSED(1), PASSED(1)), __LINE__);
    size_t length = SAMPLES(bundle, TWO, WHOLE);
    ranges(bundle, length, 1, 2, BYTES(UNIT(0x65, 0x88), UNIT(0x09), UNIT(0x06), UNIT(0x65, 0x88), UNIT(0x09)), BYTES(PASSED(2), PASSED(3)), __LINE__);
    ranges(bundle, length, 2, 2, BYTES(UNIT(0x06), UNIT(0x65, 0x88), UNIT(0x09)), BYTES(PASSED(3)), __LINE__);
    /* a refused sample adds its line and no bytes, also where the fault comes after a unit */
    length = SAMPLES(bundle, TWO, BAD);
    ranges(bundle, length, 1, 2, BYTES(UNIT(0x65, 0x88), UNIT(0x09)), BYTES(PASSED(2), REFUSED(16, 0)), __LINE__);
    ranges(bundle, length, 2, 2, NOTHING, BYTES(REFUSED(16, 0)), __LINE__);
    length = SAMPLES(bundle, TWO, NO_REFERENCE);
    ranges(bundle, length, 1, 2, BYTES(UNIT(0x65, 0x88), UNIT(0x09)), BYTES(PASSED(2), REFUSED(23, 9)), __LINE__);
    length = SAMPLES(bundle, TWO, NO_SAMPLE);
    ranges(bundle, length, 1, 2, BYTES(UNIT(0x65, 0x88), UNIT(0x09)), BYTES(PASSED(2), REFUSED(24, 2)), __LINE__);
    length = SAMPLES(bundle, BAD, TWO);
    ranges(bundle, length, 1, 2, BYTES(UNIT(0x65, 0x88), UNIT(0x09)), BYTES(REFUSED(16, 0), PASSED(2)), __LINE__);
    length = SAMPLES(bundle, BAD, WHOLE);
    ranges(bundle, length, 1, 2, NOTHING, BYTES(REFUSED(16, 0), REFUSED(25, 2)), __LINE__);
    ranges(bundle, length, 2, 2, NOTHING, BYTES(REFUSED(25, 2)), __LINE__);
    /* an empty sample, and one that passes and delivers nothing, add a line of zeros */
    length = with_samples(bundle, TWO, 0, TWO, sizeof TWO);
    ranges(bundle, length, 1, 2, BYTES(UNIT(0x65, 0x88), UNIT(0x09)), BYTES(EMPTY, PASSED(2)), __LINE__);
    ranges(bundle, length, 1, 1, NOTHING, BYTES(EMPTY), __LINE__);
    static const uint8_t hollow[] = { 0x05, 0x7E, 0x80, 0x00, 0x03, 0x00 };
    length = SAMPLES(bundle, TWO, hollow);
    ranges(bundle, length, 1, 2, BYTES(UNIT(0x65, 0x88), UNIT(0x09)), BYTES(PASSED(2), PASSED(0)), __LINE__);

    /* the bundle, then the numbers, then the rooms */
    for (size_t room = 0; room <= 64; room += 64) {
        no_range(range(B0, 15, 0, 0, room, room, 2, __LINE__), 11, __LINE__);
        no_range(range(B0, sizeof B0 - 1, 1, 2, room, room, 2, __LINE__), 52, __LINE__);
        no_range(range(NULL, 0, 1, 1, room, room, 2, __LINE__), 0, __LINE__);
        no_range(range(too_long, sizeof too_long, 2, 1, room, room, 1, __LINE__), 0, __LINE__);
        no_range(range(B0, sizeof B0, 2, 1, room, room, 30, __LINE__), 0, __LINE__);
        for (size_t i = 0; i < sizeof NO_NUMBER / sizeof *NO_NUMBER; i++) {
            for (uint64_t sample = 1; sample <= 2; sample++) {
                no_range(range(B0, sizeof B0, NO_NUMBER[i], sample, room, room, 30, __LINE__), 0, __LINE__);
                no_range(range(B0, sizeof B0, sample, NO_NUMBER[i], room, room, 30, __LINE__), 0, __LINE__);
            }
            no_range(range(B0, sizeof B0, NO_NUMBER[i], NO_NUMBER[i], room, room, 30, __LINE__), 0, __LINE__);
            no_range(range(B0, sizeof B0, NO_NUMBER[0], NO_NUMBER[i], room, room, 30, __LINE__), 0, __LINE__);
        }
    }
}

int main(void)
{
    read_records();
    write_records();
    trailer_absent();
    check_samples();
    call_bundle();
    constants();
    counts_of_bundle();
    parts_of_bundle();
    units_of_samples();
    streams_of_samples();
    streams_read();
    longest_units(1, 255);
    longest_units(2, 65535);
    streams_read_back();
    named_by_extractors();
    included_starts();
    samples_salvaged();
    samples_salvaged_in_bundles();
    ranges_of_samples();
    printf("%u checks, %u failed\n", checks, failures);
    return failures != 0;
}
