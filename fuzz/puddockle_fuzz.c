/*
 * libFuzzer target over all functions of include/puddockle.h.
 *
 * Every slice is lent exactly, once with a forbidden page after it and once with one before it. After each call:
 * the number is one that the call may give, what is written ends at the count, nothing is written on a refusal, the
 * input is unchanged, both calls agree. Between calls: a record read and written again is the same bytes; a record is
 * accepted up to its trailer, and not with a part of it; the units of a resolved sample are those asked for one by one;
 * the audit's line agrees with resolving; range.c has ranges of samples, stream.c byte streams written, from_stream.c
 * read, salvage.c samples salvaged, contents.c the calls on the contents of a bundle.
 *
 * The answers themselves are fed back to the fuzzer as counters, since the library brings none of its own.
 */
#include <string.h>

#include "../include/puddockle.h"
#include "answer.h"
#include "build.h"
#include "contents.h"
#include "from_stream.h"
#include "input.h"
#include "lend.h"
#include "range.h"
#include "salvage.h"
#include "stream.h"

/* Room for what is built and for most outputs; an output that is longer gives 29. */
#define ROOM STREAM_MOST

/* Records read and written, by PUDDOCKLE_TRAILER. */
static uint64_t trailers[2][3];

static void print_all(void) {
    print_reached();
    for (int call = READ_RECORD; call <= WRITE_RECORD; call++)
        fprintf(stderr, "%14s  trailer none:%llu absent:%llu present:%llu\n", call_names[call],
                (unsigned long long)trailers[call][0], (unsigned long long)trailers[call][1],
                (unsigned long long)trailers[call][2]);
}

int LLVMFuzzerInitialize(int *argc, char ***argv) {
    (void)argc, (void)argv;
    lend_init();
    atexit(print_all);
    return 0;
}

/* A slice that is read. */
struct slice {
    const uint8_t *bytes;
    size_t length;
};

/* Records. */

static struct answer read_record(uint32_t kind, struct slice record, uint64_t *fields, size_t room) {
    struct answer a[2];
    for (int side = AT_END; side <= AT_START; side++) {
        a[side] = unset;
        const uint8_t *lent = lend_copy(IN_1, side, record.bytes, record.length);
        uint8_t *out = lend(OUT, side, room * 8);
        fill(out, room * 8);
        a[side].number = puddockle_read_record(kind, lent, record.length, (uint64_t *)out, room, &a[side].place);
        judge(READ_RECORD, &a[side], record.length);
        MUST(a[side].place == 0);
        MUST(untouched(out, a[side].number == 0 ? PUDDOCKLE_FIELDS * 8 : 0, room * 8));
        MUST(record.length == 0 || memcmp(lent, record.bytes, record.length) == 0);
        if (a[side].number == 0)
            memcpy(fields, out, PUDDOCKLE_FIELDS * 8);
    }
    MUST(memcmp(&a[0], &a[1], sizeof a[0]) == 0);
    return a[0];
}

static struct answer write_record(uint32_t kind, const uint64_t *fields, size_t field_count, const struct slice sets[3],
                                  uint8_t *written, size_t room) {
    struct answer a[2];
    for (int side = AT_END; side <= AT_START; side++) {
        a[side] = unset;
        const uint8_t *numbers = lend_copy(IN_1, side, (const uint8_t *)fields, field_count * 8);
        const uint8_t *sequence = lend_copy(IN_2, side, sets[0].bytes, sets[0].length);
        const uint8_t *picture = lend_copy(IN_3, side, sets[1].bytes, sets[1].length);
        const uint8_t *extension = lend_copy(IN_4, side, sets[2].bytes, sets[2].length);
        uint8_t *out = lend(OUT, side, room);
        fill(out, room);
        a[side].number = puddockle_write_record(kind, (const uint64_t *)numbers, field_count, sequence, sets[0].length,
                                                picture, sets[1].length, extension, sets[2].length, out, room,
                                                &a[side].place, &a[side].count);
        judge(WRITE_RECORD, &a[side], a[side].count);
        MUST(a[side].place == 0);
        judge_output(&a[side], out, room);
        if (a[side].count > 0)
            memcpy(written, out, a[side].count);
    }
    MUST(memcmp(&a[0], &a[1], sizeof a[0]) == 0);
    return a[0];
}

/* A record that was read with these numbers, written again: the same bytes, and one byte less is not enough. */
static void write_again(uint32_t kind, struct slice record, const uint64_t *fields) {
    static uint8_t written[ROOM];
    struct slice sets[3];
    for (int i = 0; i < 3; i++) {
        size_t at = i == 0 ? PUDDOCKLE_SEQUENCE_COUNT : i == 1 ? PUDDOCKLE_PICTURE_COUNT : PUDDOCKLE_EXTENSION_COUNT;
        MUST(fields[at + 1] <= record.length && fields[at + 2] <= record.length - fields[at + 1]);
        sets[i] = (struct slice){record.bytes + fields[at + 1], fields[at + 2]};
    }
    struct answer a = write_record(kind, fields, PUDDOCKLE_FIELDS, sets, written, record.length);
    MUST(a.number == 0 && a.count == record.length && memcmp(written, record.bytes, record.length) == 0);
    trailers[WRITE_RECORD][fields[PUDDOCKLE_TRAILER]]++;
    a = write_record(kind, fields, PUDDOCKLE_FIELDS, sets, written, record.length - 1);
    MUST(a.number == 29);
}

/* The start of a trailer of no sets. */
static const uint8_t no_sets[4] = {0xFD, 0xF8, 0xF8, 0x00};

/* A record that was read with these numbers, up to where a trailer starts and with none to all bytes of one. */
static void try_trailer(uint32_t kind, struct slice record, const uint64_t *fields) {
    static uint8_t bytes[ROOM];
    uint64_t again[PUDDOCKLE_FIELDS], said = fields[PUDDOCKLE_TRAILER];
    size_t start = fields[PUDDOCKLE_PICTURE_START] + fields[PUDDOCKLE_PICTURE_LENGTH];
    int belongs = kind == 0 && (fields[PUDDOCKLE_PROFILE] == 100 || fields[PUDDOCKLE_PROFILE] == 110 ||
                                fields[PUDDOCKLE_PROFILE] == 122 || fields[PUDDOCKLE_PROFILE] == 144);
    MUST(said <= PUDDOCKLE_TRAILER_PRESENT && (said != PUDDOCKLE_TRAILER_NONE) == belongs);
    MUST(start <= record.length && (start < record.length) == (said == PUDDOCKLE_TRAILER_PRESENT));
    for (size_t i = PUDDOCKLE_CHROMA_FORMAT; i < PUDDOCKLE_FIELDS; i++)
        MUST(said == PUDDOCKLE_TRAILER_PRESENT || fields[i] == 0);
    trailers[READ_RECORD][said]++;
    if (start + sizeof no_sets > sizeof bytes)
        return;
    memcpy(bytes, record.bytes, start);
    memcpy(bytes + start, no_sets, sizeof no_sets);
    for (size_t more = 0; more <= sizeof no_sets; more++) {
        struct slice other = {bytes, start + more};
        uint32_t number = read_record(kind, other, again, PUDDOCKLE_FIELDS).number;
        if (more > 0 && (more < sizeof no_sets || !belongs)) {
            MUST(number == (belongs ? 8 : 13));
            continue;
        }
        MUST(number == 0 && memcmp(again, fields, PUDDOCKLE_TRAILER * sizeof *fields) == 0);
        MUST(again[PUDDOCKLE_TRAILER] == (more > 0 ? PUDDOCKLE_TRAILER_PRESENT
                                          : belongs ? PUDDOCKLE_TRAILER_ABSENT
                                                    : PUDDOCKLE_TRAILER_NONE));
        write_again(kind, other, again);
    }
}

/* A record read; where it is accepted, written again and tried with other trailers. */
static void try_read_record(struct input *in) {
    uint64_t fields[PUDDOCKLE_FIELDS];
    uint32_t kind = (uint32_t)take_mostly_small(in) & ((take(in) & 1) ? 1 : UINT32_MAX);
    size_t room = take_below(in, 8) == 0 ? take_below(in, 24) : PUDDOCKLE_FIELDS;
    struct slice record = {in->bytes, in->left};
    if (read_record(kind, record, fields, room).number != 0)
        return;
    write_again(kind, record, fields);
    try_trailer(kind, record, fields);
}

/* Sets of these bytes, each after its 2-byte length: `count` of them, of 1 to 4 bytes. */
static struct slice build_sets(struct input *in, uint8_t type, unsigned count, uint8_t *out) {
    size_t at = 0;
    while (count-- > 0) {
        unsigned length = 1 + take_below(in, 4);
        out[at++] = 0;
        out[at++] = (uint8_t)length;
        out[at++] = type;
        for (unsigned i = 1; i < length; i++)
            out[at++] = take(in);
    }
    return (struct slice){out, at};
}

/* Fields that fit a record, or all but one do; where they are accepted, the record is read again. */
static void try_write_record(struct input *in) {
    static const uint8_t types[] = {0x67, 0x68, 0x6D}, profiles[] = {100, 110, 122, 144};
    static const size_t counts[] = {PUDDOCKLE_SEQUENCE_COUNT, PUDDOCKLE_PICTURE_COUNT, PUDDOCKLE_EXTENSION_COUNT};
    static uint8_t written[ROOM], lent[3][64];
    uint64_t fields[24] = {0}, again[PUDDOCKLE_FIELDS];
    uint8_t shape = take(in), spoil = take(in);
    uint32_t kind = spoil == 0xFF ? (uint32_t)take_number(in, 4) : shape & 1;
    uint64_t trailer = kind != 0 || !(shape & 2) ? PUDDOCKLE_TRAILER_NONE
                       : (shape & 0x20)          ? PUDDOCKLE_TRAILER_ABSENT
                                                 : PUDDOCKLE_TRAILER_PRESENT;
    fields[PUDDOCKLE_PROFILE] = trailer == PUDDOCKLE_TRAILER_NONE ? 66 : profiles[take_below(in, 4)];
    fields[PUDDOCKLE_LEVEL] = take(in);
    fields[PUDDOCKLE_COMPLETE_REPRESENTATION] = kind == 1 && (shape & 4);
    fields[PUDDOCKLE_LENGTH_SIZE] = 1u << (shape >> 3 & 3) % 3;
    fields[PUDDOCKLE_TRAILER] = trailer;
    struct slice sets[3];
    for (int i = 0; i < 3; i++) {
        fields[counts[i]] = i < 2 || trailer == PUDDOCKLE_TRAILER_PRESENT ? take_below(in, 5) : 0;
        sets[i] = build_sets(in, types[i], (unsigned)fields[counts[i]], lent[i]);
    }
    if (spoil < 24)
        fields[spoil] = (shape & 0x80) ? take_number(in, 8) : take(in);
    struct slice *spoilt = &sets[spoil % 3];
    if (spoil >= 24 && spoil < 27 && spoilt->length > 0)
        lent[spoil % 3][take(in) % spoilt->length] = take(in);
    if (spoil >= 27 && spoil < 30 && spoilt->length > 0)
        spoilt->length--;
    size_t count = spoil == 0xFE ? take_below(in, 24) : PUDDOCKLE_FIELDS + (shape >> 6 & 1);
    size_t room = spoil == 0xFD ? take(in) : ROOM;
    struct answer a = write_record(kind, fields, count, sets, written, room);
    MUST(a.number == 0 || spoil < 30 || spoil >= 0xFD);
    if (a.number == 0) {
        struct slice record = {written, a.count};
        MUST(read_record(kind, record, again, PUDDOCKLE_FIELDS).number == 0);
        MUST(again[PUDDOCKLE_PROFILE] == fields[PUDDOCKLE_PROFILE]);
        MUST(again[PUDDOCKLE_TRAILER] == fields[PUDDOCKLE_TRAILER]);
        write_again(kind, record, again);
        try_trailer(kind, record, again);
    }
}

/* One sample. */

static void try_check_sample(struct input *in) {
    static uint8_t built[ROOM];
    uint8_t shape = take(in);
    uint32_t kind = (shape & 0xF0) == 0 ? (uint32_t)take_number(in, 4) : shape & 1;
    uint32_t size = (shape & 0xF0) == 0x10 ? (uint32_t)take_number(in, 4) : 1u << (shape >> 1 & 3) % 3;
    struct slice sample = {in->bytes, in->left};
    if (shape & 8)
        sample = (struct slice){built, build_sample(in, size == 2 || size == 4 ? (int)size : 1, built, ROOM)};
    struct answer a[2];
    for (int side = AT_END; side <= AT_START; side++) {
        a[side] = unset;
        const uint8_t *lent = lend_copy(IN_1, side, sample.bytes, sample.length);
        a[side].number = puddockle_check_sample(kind, size, lent, sample.length, &a[side].place);
        judge(CHECK_SAMPLE, &a[side], a[side].place);
        MUST(a[side].number == 0 || a[side].number < 14 || a[side].place < sample.length);
    }
    MUST(memcmp(&a[0], &a[1], sizeof a[0]) == 0);
}

/* A bundle. */

static struct answer check_bundle(const uint8_t *bundle, size_t length) {
    struct answer a = unset;
    a.number = puddockle_check_bundle(bundle, length, &a.place);
    judge(CHECK_BUNDLE, &a, a.place);
    MUST(a.place <= length);
    return a;
}

static struct answer resolve(const uint8_t *bundle, size_t length, uint64_t sample, uint8_t *out, size_t room) {
    struct answer a = unset;
    fill(out, room);
    a.number = puddockle_resolve(bundle, length, sample, out, room, &a.place, &a.count);
    judge(RESOLVE, &a, a.count);
    judge_output(&a, out, room);
    return a;
}

static struct answer unit(const uint8_t *bundle, size_t length, uint64_t sample, uint64_t number) {
    struct answer a = unset;
    a.number = puddockle_unit(bundle, length, sample, number, &a.place, &a.start, &a.length);
    judge(UNIT, &a, a.length);
    MUST(a.start <= length && a.length <= length - a.start);
    MUST(a.number == 0 ? a.length > 0 : a.start == 0 && a.length == 0);
    return a;
}

static struct answer list(const uint8_t *bundle, size_t length, uint64_t sample, uint8_t *out, size_t room) {
    struct answer a = unset;
    fill(out, room);
    a.number = puddockle_names(bundle, length, sample, out, room, &a.place, &a.count);
    judge(NAMES, &a, a.count / PUDDOCKLE_NAMES_ENTRY);
    judge_output(&a, out, room);
    MUST(a.count % PUDDOCKLE_NAMES_ENTRY == 0);
    return a;
}

static struct answer audit(const uint8_t *bundle, size_t length, uint8_t *lines, size_t room) {
    struct answer a = unset;
    fill(lines, room);
    a.number = puddockle_audit(bundle, length, lines, room, &a.place, &a.count, &a.passed, &a.empty, &a.refused);
    judge(AUDIT, &a, a.passed);
    judge_output(&a, lines, room);
    MUST(a.passed + a.empty + a.refused == a.count / PUDDOCKLE_LINE && a.count % PUDDOCKLE_LINE == 0);
    for (size_t at = 0; at < a.count; at += PUDDOCKLE_LINE) {
        MUST(lines[at] == 0 || (lines[at] >= 14 && lines[at] <= 28));
        note_line(lines[at]);
    }
    return a;
}

/* The units of a resolved sample, one by one, are what was written; the audit counts them. */
static void compare_units(const uint8_t *bundle, size_t length, uint64_t sample, const uint8_t *out, uint64_t count,
                          uint64_t units) {
    uint64_t at = 0;
    for (uint64_t number = 1; number <= units && number <= 40; number++) {
        struct answer a = unit(bundle, length, sample, number);
        MUST(a.number == 0 && at + 4 + a.length <= count);
        uint64_t said = (uint64_t)out[at] << 24 | out[at + 1] << 16 | out[at + 2] << 8 | out[at + 3];
        MUST(said == a.length && memcmp(out + at + 4, bundle + a.start, a.length) == 0);
        at += 4 + a.length;
    }
    MUST(units > 40 || at == count);
    MUST(unit(bundle, length, sample, units + 1).number == 30);
    MUST(unit(bundle, length, sample, 0).number == 30);
}

/* All calls on one bundle; all[CALL] is what CALL answers. */
static void try_bundle(const uint8_t *bundle, size_t length, struct input *in, enum side side,
                       struct answer all[CALLS]) {
    static uint8_t lines[ROOM];
    all[CHECK_BUNDLE] = check_bundle(bundle, length);
    all[AUDIT] = audit(bundle, length, lines, sizeof lines);
    MUST(all[AUDIT].number == all[CHECK_BUNDLE].number && all[AUDIT].place == all[CHECK_BUNDLE].place);
    uint64_t sample = take_mostly_small(in), samples = all[AUDIT].count / PUDDOCKLE_LINE;
    uint8_t *out = lend(OUT, side, ROOM);
    all[RESOLVE] = resolve(bundle, length, sample, out, ROOM);
    if (all[CHECK_BUNDLE].number != 0) {
        MUST(all[RESOLVE].number == all[CHECK_BUNDLE].number && all[RESOLVE].place == all[CHECK_BUNDLE].place);
    } else if (sample == 0 || sample > samples) {
        MUST(all[RESOLVE].number == 30);
    } else {
        const uint8_t *line = lines + (sample - 1) * PUDDOCKLE_LINE;
        uint64_t place = (uint64_t)line[1] << 24 | line[2] << 16 | line[3] << 8 | line[4], units = 0;
        for (int i = 5; i < PUDDOCKLE_LINE; i++)
            units = units << 8 | line[i];
        MUST(all[RESOLVE].number == 29 || (all[RESOLVE].number == line[0] && all[RESOLVE].place == place));
        if (all[RESOLVE].number == 0)
            compare_units(bundle, length, sample, out, all[RESOLVE].count, units);
    }
    all[STREAM] = try_stream(bundle, length, sample, side, &all[RESOLVE], out);
    /* Exact rooms are enough, one byte less is not. */
    if (all[RESOLVE].number == 0 && all[RESOLVE].count > 0) {
        uint64_t count = all[RESOLVE].count;
        MUST(resolve(bundle, length, sample, lend(OUT, side, count), count).number == 0);
        MUST(resolve(bundle, length, sample, lend(OUT, side, count - 1), count - 1).number == 29);
    }
    all[NAMES] = list(bundle, length, sample, lend(OUT, side, ROOM), ROOM);
    if (all[NAMES].number == 0 && all[NAMES].count > 0) {
        uint64_t count = all[NAMES].count;
        MUST(list(bundle, length, sample, lend(OUT, side, count), count).number == 0);
        MUST(list(bundle, length, sample, lend(OUT, side, count - 1), count - 1).number == 29);
    }
    if (samples > 0) {
        size_t room = samples * PUDDOCKLE_LINE;
        MUST(audit(bundle, length, lend(OUT, side, room), room).number == 0);
        MUST(audit(bundle, length, lend(OUT, side, room - 1), room - 1).number == 29);
    }
    all[SALVAGE] = try_salvage(bundle, length, sample, side);
    MUST(all[SALVAGE].number == 29 || all[NAMES].number == 29 || all[SALVAGE].number == all[NAMES].number);
    uint64_t number = take_mostly_small(in);
    all[UNIT] = unit(bundle, length, sample, number);
    all[RANGE] = try_range(bundle, length, sample, number, side, &all[CHECK_BUNDLE], &all[AUDIT], lines);
    try_range(bundle, length, 1, samples, side, &all[CHECK_BUNDLE], &all[AUDIT], lines);
    try_contents(bundle, length, sample, number, side, all);
    /* Resolving and the list of units refuse alike, but for the room. */
    MUST(all[RESOLVE].number == 29 || all[UNITS].number == 29 ||
         (all[UNITS].number == all[RESOLVE].number && all[UNITS].place == all[RESOLVE].place));
}

static void try_both_sides(const uint8_t *bundle, size_t length, struct input in) {
    struct answer all[2][CALLS];
    memset(all, 0, sizeof all);
    for (int side = AT_END; side <= AT_START; side++) {
        struct input same = in;
        const uint8_t *lent = lend_copy(IN_1, side, bundle, length);
        try_bundle(lent, length, &same, side, all[side]);
        MUST(length == 0 || memcmp(lent, bundle, length) == 0);
    }
    MUST(memcmp(all[0], all[1], sizeof all[0]) == 0);
}

int LLVMFuzzerTestOneInput(const uint8_t *data, size_t size) {
    static uint8_t built[ROOM];
    struct input in = {data, size};
    switch (take_below(&in, 10)) {
    case 0:
        try_read_record(&in);
        break;
    case 1:
        try_write_record(&in);
        break;
    case 2:
        try_check_sample(&in);
        break;
    case 3: {
        /* The rest as it stands is the bundle; two bytes before it are the numbers asked for. */
        struct input numbers = {in.bytes, in.left < 2 ? in.left : 2};
        in.bytes += numbers.left;
        in.left -= numbers.left;
        try_both_sides(in.bytes, in.left, numbers);
        break;
    }
    case 4:
        try_from_stream(&in);
        break;
    case 5:
        try_salvage_sample(&in);
        break;
    default: {
        struct input numbers = {in.bytes, in.left < 2 ? in.left : 2};
        in.bytes += numbers.left;
        in.left -= numbers.left;
        uint8_t change = take(&in), value = take(&in);
        size_t length = build_bundle(&in, built, ROOM);
        /* Now and then one byte near the front is changed. */
        if (change < 0x40 && change < length)
            built[change] = value;
        try_both_sides(built, length, numbers);
    }
    }
    return 0;
}
