#include "salvage.h"

#include <string.h>

#include "../include/puddockle.h"
#include "build.h"

/* A longer sample is not salvaged here. The change list is at most CHANGES_MOST bytes: an entry for every two. */
#define SAMPLE_MOST 32768
#define CHANGES_MOST (PUDDOCKLE_CHANGE * (SAMPLE_MOST / 2))

enum { PREFIX = 14, SLICE_EXTENSION = 20, AGGREGATOR = 30, EXTRACTOR = 31 };
#define LONG_HEADER 4

/* A sample, with the kind and length size of its track. */
struct sample {
    uint32_t kind, size;
    const uint8_t *bytes;
    size_t length;
};

/* The new sample and the change list. */
struct salvaged {
    uint8_t bytes[SAMPLE_MOST], changes[CHANGES_MOST];
    size_t count, changes_count;
};

static uint64_t number_at(const uint8_t *bytes, uint32_t size) {
    uint64_t number = 0;
    while (size-- > 0)
        number = number << 8 | *bytes++;
    return number;
}

static int same_bytes(const uint8_t *one, const uint8_t *other, size_t length) {
    return length == 0 || memcmp(one, other, length) == 0;
}

static void copy(uint8_t *to, const uint8_t *from, size_t length) {
    if (length > 0)
        memcpy(to, from, length);
}

static unsigned type_at(const struct sample *s, size_t at) {
    return s->bytes[at + s->size] & 31;
}

/* Where the top-level unit at this place ends; 0 where it has a fault, 14 to 18. */
static size_t unit_end(const struct sample *s, size_t at) {
    if (s->length - at < s->size)
        return 0;
    uint64_t length = number_at(s->bytes + at, s->size), least = 1;
    if (length == 0 || length > s->length - at - s->size || (s->bytes[at + s->size] & 0x80))
        return 0;
    switch (type_at(s, at)) {
    case AGGREGATOR:
        least = LONG_HEADER + s->size;
        break;
    case PREFIX:
    case SLICE_EXTENSION:
    case EXTRACTOR:
        least = LONG_HEADER;
    }
    return length < least ? 0 : at + s->size + length;
}

/* The first top-level fault, or the end. */
static size_t first_fault(const struct sample *s) {
    size_t at = 0, end;
    while (at < s->length && (end = unit_end(s, at)) > 0)
        at = end;
    return at;
}

/* What puddockle_check_sample says of a part of a sample. */
static struct answer check(const struct sample *s, const uint8_t *bytes, size_t length) {
    struct answer a = unset;
    a.number = puddockle_check_sample(s->kind, s->size, bytes, length, &a.place);
    return a;
}

/* What the change list says of a place, 0 for nothing; `index` is the next entry. */
static uint8_t change_at(const struct salvaged *new, size_t *index, size_t place) {
    const uint8_t *entry = new->changes + *index;
    if (*index == new->changes_count || number_at(entry + 1, 4) != place)
        return 0;
    *index += PUDDOCKLE_CHANGE;
    return entry[0];
}

/* Whether a unit from `start` up to `end` is dropped. */
static int drops_between(const struct salvaged *new, size_t start, size_t end) {
    for (size_t i = 0; i < new->changes_count; i += PUDDOCKLE_CHANGE) {
        uint64_t place = number_at(new->changes + i + 1, 4);
        if (new->changes[i] == PUDDOCKLE_CHANGE_DROP && place >= start && place < end)
            return 1;
    }
    return 0;
}

/* A unit before the first top-level fault is dropped exactly if it is not well formed by itself and without its
   additional_bytes; these become 0 exactly if they are wrong in the sample up to the fault, or reach a dropped unit. */
static void judge_unit(const struct sample *s, const struct salvaged *new, size_t at, size_t end, size_t fault,
                       uint8_t change) {
    static uint8_t alone[SAMPLE_MOST];
    size_t additional_at = s->size + LONG_HEADER;
    int aggregator = type_at(s, at) == AGGREGATOR;
    memcpy(alone, s->bytes + at, end - at);
    if (aggregator)
        memset(alone + additional_at, 0, s->size);
    MUST((check(s, alone, end - at).number != 0) == (change == PUDDOCKLE_CHANGE_DROP));
    if (change == PUDDOCKLE_CHANGE_DROP)
        return;
    int zeroed = 0;
    if (aggregator) {
        struct answer a = check(s, s->bytes + at, fault - at);
        uint64_t additional = number_at(s->bytes + at + additional_at, s->size);
        zeroed = (a.number == 21 && a.place == 0) || drops_between(new, end, end + additional);
    }
    MUST(zeroed == (change == PUDDOCKLE_CHANGE_ZEROING) && (zeroed || change == 0));
}

/* The change list, applied to the old sample, gives the new one. */
static void judge_changes(const struct sample *s, const struct salvaged *new) {
    size_t fault = first_fault(s), index = 0, made = 0;
    for (size_t at = 0, end; at < fault; at = end) {
        end = unit_end(s, at);
        uint8_t change = change_at(new, &index, at);
        judge_unit(s, new, at, end, fault, change);
        if (change == PUDDOCKLE_CHANGE_DROP)
            continue;
        static uint8_t unit[SAMPLE_MOST];
        memcpy(unit, s->bytes + at, end - at);
        if (change == PUDDOCKLE_CHANGE_ZEROING)
            memset(unit + s->size + LONG_HEADER, 0, s->size);
        MUST(new->count - made >= end - at && same_bytes(new->bytes + made, unit, end - at));
        made += end - at;
    }
    MUST(made == new->count);
    if (fault < s->length)
        MUST(change_at(new, &index, fault) == PUDDOCKLE_CHANGE_DROP);
    MUST(index == new->changes_count);
}

/* A list ends at its count, in whole entries, and nothing is written on a refusal. */
static void judge_list(const struct answer *a, uint64_t count, size_t entry, const uint8_t *list, size_t room) {
    MUST(count <= room && count % entry == 0);
    MUST(a->number == 0 || count == 0);
    MUST(untouched(list, count, room));
}

/* One call with these rooms; where it is accepted, `new` gets what was written. */
static struct answer salvage_sample(const struct sample *s, enum side side, size_t room, size_t list_room,
                                    struct salvaged *new) {
    struct answer a = unset;
    const uint8_t *lent = lend_copy(IN_2, side, s->bytes, s->length);
    uint8_t *out = lend(OUT, side, room), *changes = lend(OUT_2, side, list_room);
    fill(out, room);
    fill(changes, list_room);
    a.number = puddockle_salvage_sample(s->kind, s->size, lent, s->length, out, room, changes, list_room, &a.place,
                                        &a.count, &a.values[0]);
    judge(SALVAGE_SAMPLE, &a, a.values[0] / PUDDOCKLE_CHANGE);
    judge_output(&a, out, room);
    judge_list(&a, a.values[0], PUDDOCKLE_CHANGE, changes, list_room);
    MUST(same_bytes(lent, s->bytes, s->length));
    if (a.number == 0 && new) {
        new->count = a.count;
        new->changes_count = a.values[0];
        copy(new->bytes, out, new->count);
        copy(new->changes, changes, new->changes_count);
    }
    return a;
}

/* The most bytes of a change list, as the header says. */
static size_t most_changes(const struct sample *s) {
    return s->length + PUDDOCKLE_CHANGE - 1;
}

/* A sample that is not refused: what is made of it, judged; then exact rooms, each a byte less, and none. */
static void judge_sample(const struct sample *s, enum side side, struct salvaged *new) {
    static struct salvaged again;
    MUST(salvage_sample(s, side, s->length, most_changes(s), new).number == 0);
    judge_changes(s, new);
    MUST((new->changes_count == 0) == (check(s, s->bytes, s->length).number == 0));
    /* well formed, and it stays so */
    struct sample made = {s->kind, s->size, new->bytes, new->count};
    MUST(check(&made, made.bytes, made.length).number == 0);
    MUST(salvage_sample(&made, side, made.length, 0, &again).number == 0);
    MUST(again.count == new->count && same_bytes(again.bytes, new->bytes, new->count) && again.changes_count == 0);
    MUST(salvage_sample(s, side, new->count, new->changes_count, NULL).number == 0);
    if (new->count > 0)
        MUST(salvage_sample(s, side, new->count - 1, CHANGES_MOST, NULL).number == 29);
    if (new->changes_count > 0)
        MUST(salvage_sample(s, side, SAMPLE_MOST, new->changes_count - 1, NULL).number == 29);
    MUST(salvage_sample(s, side, 0, 0, NULL).number == (new->count + new->changes_count > 0 ? 29 : 0));
}

/* Some aggregators of a built sample get additional_bytes that end on one of the next borders, or beside it. */
static void cover(struct input *in, uint32_t size, uint8_t *bytes, size_t length) {
    struct sample s = {PUDDOCKLE_SVC, size, bytes, length};
    for (size_t at = 0, end; at < length && (end = unit_end(&s, at)) > 0; at = end) {
        if (type_at(&s, at) != AGGREGATOR)
            continue;
        uint8_t shape = take(in);
        size_t to = end, next;
        for (unsigned units = shape & 3; units > 0 && to < length && (next = unit_end(&s, to)) > 0; units--)
            to = next;
        uint64_t additional = to - end + ((shape & 0x1C) == 0 ? 1 : 0);
        for (uint32_t i = 0; shape < 0xC0 && i < size; i++)
            bytes[at + size + LONG_HEADER + i] = (uint8_t)(additional >> (8 * (size - 1 - i)));
    }
}

void try_salvage_sample(struct input *in) {
    static uint8_t built[SAMPLE_MOST];
    static struct salvaged new;
    uint8_t shape = take(in);
    struct sample s = {shape & 1, 1u << (shape >> 1 & 3) % 3, NULL, 0};
    if ((shape & 0xF0) == 0)
        s.kind = (uint32_t)take_number(in, 4);
    if ((shape & 0xF0) == 0x10)
        s.size = (uint32_t)take_number(in, 4);
    int known = s.kind <= 1 && (s.size == 1 || s.size == 2 || s.size == 4);
    s.bytes = in->bytes;
    s.length = in->left < SAMPLE_MOST ? in->left : SAMPLE_MOST;
    if ((shape & 8) && known) {
        struct input numbers = {in->bytes, in->left < 8 ? in->left : 8};
        uint8_t change = take(in), value = take(in);
        s.bytes = built;
        s.length = build_sample(in, (int)s.size, built, SAMPLE_MOST);
        cover(&numbers, s.size, built, s.length);
        /* Now and then one byte is changed. */
        if (change < 0x80 && change < s.length)
            built[change] = value;
    }
    for (int side = AT_END; side <= AT_START; side++) {
        if (known)
            judge_sample(&s, side, &new);
        else
            MUST(salvage_sample(&s, side, 64, 64, NULL).number == (s.kind > 1 ? 4 : 11));
    }
}

/* The sample of this number: its bytes, and the kind and length size of its track. */
static struct sample sample_of(const uint8_t *bundle, size_t length, uint64_t number) {
    uint64_t place, track, time, kind, start, size, fields[PUDDOCKLE_FIELDS];
    struct sample s;
    MUST(puddockle_sample(bundle, length, number, &place, &track, &time, &start, &size) == 0);
    s.bytes = bundle + start;
    s.length = size;
    MUST(puddockle_track(bundle, length, track, &place, &kind, &start, &size) == 0);
    s.kind = (uint32_t)kind;
    MUST(puddockle_read_record(s.kind, bundle + start, size, fields, PUDDOCKLE_FIELDS, &place) == 0);
    s.size = (uint32_t)fields[PUDDOCKLE_LENGTH_SIZE];
    return s;
}

static struct answer salvage(const uint8_t *bundle, size_t length, uint64_t number, enum side side,
                             const size_t rooms[3], uint8_t *lent[3]) {
    static const enum area areas[] = {OUT, OUT_2, OUT_3};
    struct answer a = unset;
    for (int i = 0; i < 3; i++) {
        lent[i] = lend(areas[i], side, rooms[i]);
        fill(lent[i], rooms[i]);
    }
    a.number = puddockle_salvage(bundle, length, number, lent[0], rooms[0], lent[1], rooms[1], lent[2], rooms[2],
                                 &a.place, &a.count, &a.values[0], &a.values[1]);
    judge(SALVAGE, &a, a.values[1] / PUDDOCKLE_NAMES_ENTRY);
    judge_output(&a, lent[0], rooms[0]);
    judge_list(&a, a.values[0], PUDDOCKLE_CHANGE, lent[1], rooms[1]);
    judge_list(&a, a.values[1], PUDDOCKLE_NAMES_ENTRY, lent[2], rooms[2]);
    return a;
}

struct answer try_salvage(const uint8_t *bundle, size_t length, uint64_t number, enum side side) {
    static struct salvaged new;
    static uint8_t names[AREA_SIZE];
    const size_t most[3] = {SAMPLE_MOST, CHANGES_MOST, length};
    uint8_t *lent[3];
    struct answer a = salvage(bundle, length, number, side, most, lent), list = unset;
    list.number = puddockle_names(bundle, length, number, names, length, &list.place, &list.count);
    if (a.number != 0) {
        MUST(a.number == 29 || (a.number == list.number && a.place == list.place));
        return a;
    }
    MUST(list.number == 0 && a.values[1] == list.count && same_bytes(lent[2], names, list.count));
    static uint8_t changes[CHANGES_MOST], out[SAMPLE_MOST];
    copy(out, lent[0], a.count);
    copy(changes, lent[1], a.values[0]);
    struct sample s = sample_of(bundle, length, number);
    judge_sample(&s, side, &new);
    MUST(a.count == new.count && same_bytes(out, new.bytes, new.count));
    MUST(a.values[0] == new.changes_count && same_bytes(changes, new.changes, new.changes_count));
    /* Exact rooms are enough, one byte less in any is not. */
    const size_t exact[3] = {a.count, a.values[0], a.values[1]};
    MUST(salvage(bundle, length, number, side, exact, lent).number == 0);
    for (int i = 0; i < 3; i++) {
        size_t rooms[3] = {exact[0], exact[1], exact[2]};
        if (rooms[i]-- > 0)
            MUST(salvage(bundle, length, number, side, rooms, lent).number == 29);
    }
    return a;
}
