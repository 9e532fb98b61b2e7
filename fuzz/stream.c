#include "stream.h"

#include <string.h>

#include "../include/puddockle.h"
#include "from_stream.h"

/* The length before a unit in resolved output, and the start code before it in a stream. */
#define PREFIX 4

static struct answer stream(const uint8_t *bundle, size_t length, uint64_t sample, uint8_t *out, size_t room) {
    struct answer a = unset;
    fill(out, room);
    a.number = puddockle_stream(bundle, length, sample, out, room, &a.place, &a.count);
    judge(STREAM, &a, a.number == 32 ? a.place : a.count);
    judge_output(&a, out, room);
    return a;
}

static size_t unit_length(const uint8_t *prefix) {
    return (size_t)prefix[0] << 24 | (size_t)prefix[1] << 16 | (size_t)prefix[2] << 8 | prefix[3];
}

/* Whether a unit can stand in a byte stream. */
static int streamable(const uint8_t *unit, size_t length) {
    for (size_t i = 2; i < length; i++)
        if (unit[i - 2] == 0 && unit[i - 1] == 0 && unit[i] <= 2)
            return 0;
    return length > 0 && unit[length - 1] != 0;
}

/* Where the first unit that cannot stand in a stream has its length; `count` where there is none. */
static size_t first_not_streamable(const uint8_t *units, size_t count) {
    size_t at = 0;
    while (at < count && streamable(units + at + PREFIX, unit_length(units + at)))
        at += PREFIX + unit_length(units + at);
    return at;
}

/* The next 00 00 01 from `at` on, or `count`. */
static size_t next_start_code(const uint8_t *bytes, size_t at, size_t count) {
    while (at + 3 <= count && !(bytes[at] == 0 && bytes[at + 1] == 0 && bytes[at + 2] == 1))
        at++;
    return at + 3 <= count ? at : count;
}

/* The units of a byte stream, each after its length: from just after a start code up to the zeros before the next, or
   before the end. Answers how many bytes that is. */
static size_t read_stream(const uint8_t *bytes, size_t count, uint8_t *out) {
    size_t written = 0;
    for (size_t code = next_start_code(bytes, 0, count); code < count;) {
        size_t start = code + 3, next = next_start_code(bytes, start, count), end = next;
        while (end > start && bytes[end - 1] == 0)
            end--;
        MUST(written + PREFIX + (end - start) <= STREAM_MOST);
        for (int i = 0; i < PREFIX; i++)
            out[written++] = (uint8_t)((end - start) >> (8 * (PREFIX - 1 - i)));
        memcpy(out + written, bytes + start, end - start);
        written += end - start;
        code = next;
    }
    return written;
}

/* A stream that was written: the units that resolve stand in it and no others, each after four bytes. */
static void judge_stream(const uint8_t *bytes, const uint8_t *units, size_t count) {
    static uint8_t read[STREAM_MOST];
    for (size_t at = 0; at < count; at += PREFIX + unit_length(units + at))
        MUST(memcmp(bytes + at, "\0\0\0\1", PREFIX) == 0);
    MUST(read_stream(bytes, count, read) == count && memcmp(read, units, count) == 0);
}

struct answer try_stream(const uint8_t *bundle, size_t length, uint64_t sample, enum side side,
                         const struct answer *resolved, const uint8_t *units) {
    static uint8_t kept[STREAM_MOST], written[STREAM_MOST];
    if (resolved->number == 0 && resolved->count > 0)
        memcpy(kept, units, resolved->count); /* the units stand where the stream goes */
    uint8_t *out = lend(OUT, side, STREAM_MOST);
    struct answer a = stream(bundle, length, sample, out, STREAM_MOST);
    if (resolved->number == 29) {
        MUST(a.number == 29 || a.number == 32);
        return a;
    }
    if (resolved->number != 0) {
        MUST(a.number == resolved->number && a.place == resolved->place);
        return a;
    }
    size_t count = resolved->count, place = first_not_streamable(kept, count);
    if (place < count) {
        MUST(a.number == 32 && a.place == place);
        /* 32 comes before 29. */
        struct answer small = stream(bundle, length, sample, lend(OUT, side, 0), 0);
        MUST(small.number == 32 && small.place == place);
        return a;
    }
    MUST(a.number == 0 && a.count == count);
    judge_stream(out, kept, count);
    memcpy(written, out, count);
    read_back(written, kept, count);
    /* The exact room is enough, one byte less is not. */
    MUST(stream(bundle, length, sample, lend(OUT, side, count), count).number == 0);
    if (count > 0)
        MUST(stream(bundle, length, sample, lend(OUT, side, count - 1), count - 1).number == 29);
    return a;
}
