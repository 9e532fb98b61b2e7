#include "from_stream.h"

#include <string.h>

#include "../include/puddockle.h"

/* The most bytes of a stream, and of its sample: a unit of one byte takes 4 bytes in a stream, 5 at length size 4. */
#define STREAM_IN_MOST 100000
#define SAMPLE_MOST (STREAM_IN_MOST + STREAM_IN_MOST / 4)

/* What a stream gives in any room, and the sample, judged byte by byte: a border is the 01 of a start code, or the end. */
static struct answer expect(uint32_t length_size, const uint8_t *stream, size_t length, uint8_t *sample) {
    struct answer a = {0};
    size_t zeros = 0, start = 0, end = 0, fault = 0; /* no unit has started while start is 0 */
    if (length_size != 1 && length_size != 2 && length_size != 4)
        return (struct answer){.number = 11};
    for (size_t i = 0; i <= length; i++) {
        if (i < length && stream[i] == 0) {
            zeros++;
        } else if (i < length && !(stream[i] == 1 && zeros >= 2)) {
            if (start == 0)
                return (struct answer){.number = 33, .place = i};
            if (fault == 0 && (zeros > 2 || (zeros == 2 && stream[i] == 2)))
                fault = i;
            zeros = 0;
            end = i + 1;
        } else {
            size_t size = end - start;
            if (start > 0 && size == 0)
                return (struct answer){.number = 33, .place = start - 1};
            if (size >> (8 * length_size) > 0)
                return (struct answer){.number = 34, .place = start};
            if (fault > 0)
                return (struct answer){.number = 33, .place = fault};
            for (uint32_t k = length_size; start > 0 && k > 0; k--)
                sample[a.count++] = (uint8_t)(size >> (8 * (k - 1)));
            memcpy(sample + a.count, stream + start, size);
            a.count += size;
            start = end = i + 1;
            zeros = 0;
        }
    }
    return a;
}

/* One call, with this much room: what is expected in that room. */
static void ask(uint32_t length_size, const uint8_t *stream, size_t length, enum side side, size_t room,
                const struct answer *expected, const uint8_t *sample) {
    struct answer a = unset;
    const uint8_t *lent = lend_copy(IN_2, side, stream, length);
    uint8_t *out = lend(OUT, side, room);
    fill(out, room);
    a.number = puddockle_from_stream(length_size, lent, length, out, room, &a.place, &a.count);
    judge(FROM_STREAM, &a, a.number == 0 ? a.count : a.place);
    judge_output(&a, out, room);
    MUST(length == 0 || memcmp(lent, stream, length) == 0);
    if (expected->number == 0 && room < expected->count) {
        MUST(a.number == 29);
        return;
    }
    MUST(a.number == expected->number && a.place == expected->place && a.count == expected->count);
    MUST(a.count == 0 || memcmp(out, sample, a.count) == 0);
}

/* The stream read with room enough, exact room, a byte less and none. `sample` gets what is read. */
static struct answer try_stream_in(uint32_t length_size, const uint8_t *stream, size_t length, uint8_t *sample) {
    struct answer expected = expect(length_size, stream, length, sample);
    size_t count = expected.count, enough = length_size == 4 ? length + length / 4 : length;
    MUST(count <= enough);
    for (int side = AT_END; side <= AT_START; side++) {
        ask(length_size, stream, length, side, enough, &expected, sample);
        ask(length_size, stream, length, side, count, &expected, sample);
        if (count > 0)
            ask(length_size, stream, length, side, count - 1, &expected, sample);
        ask(length_size, stream, length, side, 0, &expected, sample);
    }
    return expected;
}

/* The units of a sample, each after zeros and a start code, and zeros at the end: read as the same sample. */
static void write_and_read(uint32_t length_size, const uint8_t *sample, size_t count, struct input *in) {
    static uint8_t stream[STREAM_IN_MOST], again[SAMPLE_MOST];
    size_t length = 0, at = 0;
    while (at < count) {
        size_t size = 0, zeros = 2 + take_below(in, 4);
        for (uint32_t k = 0; k < length_size; k++)
            size = size << 8 | sample[at++];
        if (length + zeros + 1 + size > STREAM_IN_MOST - 4)
            return;
        memset(stream + length, 0, zeros);
        stream[length + zeros] = 1;
        memcpy(stream + length + zeros + 1, sample + at, size);
        length += zeros + 1 + size;
        at += size;
    }
    for (unsigned zeros = take_below(in, 4); zeros > 0; zeros--)
        stream[length++] = 0;
    struct answer a = try_stream_in(length_size, stream, length, again);
    MUST(a.number == 0 && a.count == count && memcmp(again, sample, count) == 0);
}

/* Zeros, a byte that often ends a start code, and some bytes after it, now and then as many as a length size allows or
   some more; over and over. */
static size_t build_stream(struct input *in, uint8_t *stream) {
    static const uint8_t zeros[] = {0, 1, 2, 2, 2, 3, 3, 5}, bytes[] = {1, 1, 1, 2, 3, 0x65, 0x80, 0};
    size_t length = 0;
    for (unsigned parts = take_below(in, 24); parts > 0; parts--) {
        uint8_t shape = take(in);
        size_t before = zeros[shape & 7], run = 0;
        switch (shape >> 6) {
        case 1:
            run = take_below(in, 4);
            break;
        case 2:
            run = 250 + take_below(in, 10);
            break;
        case 3:
            run = take_below(in, 8) == 0 ? 65530 + take_below(in, 10) : 1;
        }
        if (length + before + 1 + run > STREAM_IN_MOST)
            break;
        memset(stream + length, 0, before);
        stream[length + before] = bytes[shape >> 3 & 7];
        memset(stream + length + before + 1, 0x88, run);
        length += before + 1 + run;
    }
    return length;
}

/* Bytes of few values. */
static size_t few_values(struct input *in, uint8_t *stream) {
    static const uint8_t values[] = {0, 0, 0, 1, 1, 2, 3, 0x80};
    size_t length = 0;
    while (in->left > 0 && length < STREAM_IN_MOST)
        stream[length++] = values[take_below(in, 8)];
    return length;
}

void try_from_stream(struct input *in) {
    static uint8_t built[STREAM_IN_MOST], sample[SAMPLE_MOST];
    uint8_t first = take(in), shape = take(in);
    uint32_t length_size = first < 0xF8 ? first % 6 : (uint32_t)take_number(in, 4);
    struct input numbers = {in->bytes, in->left < 8 ? in->left : 8};
    const uint8_t *stream = built;
    size_t length;
    switch (shape % 3) {
    case 0:
        stream = in->bytes;
        length = in->left < STREAM_IN_MOST ? in->left : STREAM_IN_MOST;
        break;
    case 1:
        length = few_values(in, built);
        break;
    default:
        length = build_stream(in, built);
    }
    struct answer a = try_stream_in(length_size, stream, length, sample);
    if (a.number == 0)
        write_and_read(length_size, sample, a.count, &numbers);
}

void read_back(const uint8_t *stream, const uint8_t *units, size_t count) {
    static uint8_t sample[SAMPLE_MOST];
    for (uint32_t length_size = 1; length_size <= 4; length_size *= 2) {
        struct answer a = try_stream_in(length_size, stream, count, sample);
        MUST(a.number == 0 || (a.number == 34 && length_size < 4));
        MUST(length_size < 4 || (a.count == count && memcmp(sample, units, count) == 0));
    }
}
