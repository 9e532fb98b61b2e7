#include "build.h"

/* Bytes being written. Past the room nothing is written, and `full` is set. */
struct output {
    uint8_t *bytes;
    size_t at, room;
    int full;
};

static void put(struct output *out, uint64_t number, int size) {
    if (out->at + (size_t)size > out->room) {
        out->full = 1;
        return;
    }
    for (int i = size - 1; i >= 0; i--)
        out->bytes[out->at++] = (uint8_t)(number >> (8 * i));
}

static void patch(struct output *out, size_t at, uint64_t number, int size) {
    for (int i = size - 1; i >= 0; i--)
        if (at < out->room)
            out->bytes[at++] = (uint8_t)(number >> (8 * i));
}

static void put_header(struct output *out, unsigned type) {
    put(out, 0x60 | type, 1);
    put(out, 0x800003, 3);
}

#define UNITS 16   /* a sample has fewer top-level units */
#define INCLUDED 4 /* an aggregator includes fewer units */

/* Where the units of a sample start, included ones too, and its end. */
struct borders {
    size_t at[UNITS * INCLUDED];
    unsigned count;
};

static void add_border(struct borders *borders, size_t at) {
    if (borders->count < sizeof borders->at / sizeof *borders->at)
        borders->at[borders->count++] = at;
}

static size_t take_border(struct input *in, const struct borders *borders) {
    return borders->at[take_below(in, borders->count)];
}

/* An extractor: index and offset small, data_offset one of `borders`, data_length 0 or up to another. */
static void put_extractor(struct input *in, int L, struct output *out, const struct borders *borders) {
    uint8_t shape = take(in);
    put(out, (shape & 0x80) ? take(in) : 1 + (shape & 1), 1);
    put(out, (shape & 0x40) ? take(in) : 0, 1);
    size_t from = take_border(in, borders), to = take_border(in, borders);
    put(out, (shape & 0x20) ? take_number(in, L) : from, L);
    put(out, (shape & 0x10) ? take_number(in, L) : to > from ? to - from : 0, L);
}

/* The bytes of a plain unit. Now and then two zeros and a small byte stand in a row, for byte streams. */
static void put_plain(struct input *in, struct output *out, uint8_t header) {
    uint8_t shape = take(in);
    unsigned length = shape % 10, zeros = shape < 0xC0 ? length : take_below(in, 10);
    for (unsigned i = 0; i < length; i++) {
        if (i == zeros || i == zeros + 1)
            put(out, 0, 1);
        else if (i == zeros + 2)
            put(out, take_below(in, 5), 1);
        else
            put(out, i == 0 ? header : take(in), 1);
    }
}

/* A sample being written: `borders` are those of another sample, `own` its own, `start` where it starts. */
struct sample {
    const struct borders *borders;
    struct borders own;
    size_t start;
};

/* A unit after its length. `depth` is 1 inside an aggregator. */
static void put_unit(struct input *in, int L, struct output *out, int depth, struct sample *sample) {
    uint8_t choice = take(in);
    size_t length_at = out->at;
    add_border(&sample->own, length_at - sample->start);
    put(out, 0, L);
    size_t start = out->at;
    if (choice < 0x50) {
        put_header(out, 31);
        put_extractor(in, L, out, sample->borders);
    } else if (choice < 0x80 && (depth == 0 || choice == 0x50)) {
        put_header(out, 30);
        put(out, (choice & 1) ? take(in) : 0, L);
        for (unsigned i = take_below(in, INCLUDED); i > 0 && depth == 0; i--)
            put_unit(in, L, out, 1, sample);
    } else {
        put_plain(in, out, choice & 0x7F);
    }
    /* Now and then the length is wrong. */
    size_t length = out->at - start + (choice == 0xFF ? 1 : 0);
    if (!out->full)
        patch(out, length_at, length, L);
}

/* A sample; `borders` are those of another sample, and become its own. */
static void put_sample(struct input *in, int L, struct output *out, struct borders *borders) {
    struct sample sample = {borders, {{0}, 0}, out->at};
    unsigned units = take_below(in, UNITS);
    for (unsigned i = 0; i < units; i++)
        put_unit(in, L, out, 0, &sample);
    add_border(&sample.own, out->at - sample.start);
    if (units > 0)
        *borders = sample.own;
}

size_t build_sample(struct input *in, int length_size, uint8_t *bytes, size_t room) {
    struct output out = {bytes, 0, room, 0};
    struct borders borders = {{0}, 1};
    put_sample(in, length_size, &out, &borders);
    return out.at;
}

#define TRACKS 4
#define SAMPLES 12

/* What follows the picture sets of an AVC record: nothing, since none belongs there; a trailer absent; one present. */
enum { NONE, ABSENT, PRESENT };

/* A track entry; its record has one sequence set and one picture set, or none. */
static void put_track(struct output *out, unsigned svc, int L, unsigned sets, unsigned trailer) {
    put(out, svc, 1);
    put(out, (sets ? 13 : 7) + (!svc && trailer == PRESENT ? 4 : 0), 2);
    put(out, svc ? 0x0153001E : trailer == NONE ? 0x0142001E : 0x0164001E, 4);
    put(out, 0xFC | (L - 1), 1);
    put(out, (svc ? 0 : 0xE0) | sets, 1);
    if (sets)
        put(out, 0x000167, 3);
    put(out, sets, 1);
    if (sets)
        put(out, 0x000168, 3);
    if (!svc && trailer == PRESENT)
        put(out, 0xFDF8F800, 4);
}

size_t build_bundle(struct input *in, uint8_t *bytes, size_t room) {
    static const int sizes[] = {1, 2, 4};
    struct output out = {bytes, 0, room, 0};
    int L = sizes[take_below(in, 3)];
    unsigned tracks = 1 + take_below(in, TRACKS);
    uint8_t kinds = take(in);
    put(&out, tracks, 1);
    for (unsigned t = 0; t < tracks; t++)
        put_track(&out, t > 0 && !(kinds >> t & 1), L, kinds >> 7, (kinds >> 4 & 3) % 3);
    unsigned references = tracks > 1 ? take_below(in, 5) : 0;
    put(&out, references, 1);
    for (unsigned r = 0; r < references; r++) {
        unsigned from = take_below(in, tracks), to = take_below(in, tracks);
        put(&out, 1 + from, 1);
        put(&out, 1 + (to == from ? (to + 1) % tracks : to), 1);
    }
    /* Sample bytes are built aside, since their lengths come first. */
    static uint8_t side[65536];
    struct output samples = {side, 0, sizeof side, 0};
    struct borders borders = {{0}, 1};
    size_t count_at = out.at;
    unsigned entries = 0;
    put(&out, 0, 2);
    for (unsigned t = 0; t < tracks; t++) {
        uint64_t time = take_below(in, 4);
        for (unsigned s = take_below(in, SAMPLES); s > 0; s--) {
            size_t start = samples.at;
            put_sample(in, L, &samples, &borders);
            put(&out, 1 + t, 1);
            put(&out, time, 8);
            put(&out, samples.at - start, 4);
            time += 1 + take_below(in, 3);
            entries++;
        }
    }
    patch(&out, count_at, entries, 2);
    put(&out, samples.at, 4);
    for (size_t i = 0; i < samples.at; i++)
        put(&out, side[i], 1);
    return out.at;
}
