#include "contents.h"

#include <string.h>

#include "../include/puddockle.h"

/* The most units that are compared one by one, and the most numbers that are lent for spans. */
#define MOST_UNITS 40
#define MOST_NUMBERS 8192

/* On a refusal all values that the call sets are 0; those past `set` are left alone. */
static void judge_values(enum call call, const struct answer *a, unsigned set) {
    judge(call, a, a->values[0]);
    for (unsigned i = 0; i < 4; i++)
        MUST(i < set ? a->number == 0 || a->values[i] == 0 : a->values[i] == UNSET);
}

/* A number from 1 to the last is accepted; else it is 30. */
static void judge_number(const struct answer *a, uint64_t number, uint64_t last) {
    MUST((a->number == 0) == (number >= 1 && number <= last));
    MUST(a->number == 0 || a->number == 30);
}

static void judge_part(uint64_t start, uint64_t size, size_t length) {
    MUST(start <= length && size <= length - start);
}

static struct answer counts(const uint8_t *bundle, size_t length) {
    struct answer a = unset;
    a.number = puddockle_counts(bundle, length, &a.place, &a.values[0], &a.values[1], &a.values[2]);
    judge_values(COUNTS, &a, 3);
    return a;
}

static struct answer track(const uint8_t *bundle, size_t length, uint64_t number) {
    struct answer a = unset;
    a.number = puddockle_track(bundle, length, number, &a.place, &a.values[0], &a.values[1], &a.values[2]);
    judge_values(TRACK, &a, 3);
    return a;
}

static struct answer reference(const uint8_t *bundle, size_t length, uint64_t number) {
    struct answer a = unset;
    a.number = puddockle_reference(bundle, length, number, &a.place, &a.values[0], &a.values[1]);
    judge_values(REFERENCE, &a, 2);
    return a;
}

static struct answer sample(const uint8_t *bundle, size_t length, uint64_t number) {
    struct answer a = unset;
    a.number = puddockle_sample(bundle, length, number, &a.place, &a.values[0], &a.values[1], &a.values[2],
                                &a.values[3]);
    judge_values(SAMPLE, &a, 4);
    return a;
}

static struct answer named(const uint8_t *bundle, size_t length, uint64_t number, uint64_t place) {
    struct answer a = unset;
    a.number = puddockle_named(bundle, length, number, place, &a.place, &a.values[0]);
    judge_values(NAMED, &a, 1);
    return a;
}

/* `room` numbers are lent. */
static struct answer units(const uint8_t *bundle, size_t length, uint64_t number, uint64_t **spans, size_t room,
                           enum side side) {
    struct answer a = unset;
    uint8_t *out = lend(OUT, side, room * 8);
    fill(out, room * 8);
    *spans = (uint64_t *)out;
    a.number = puddockle_units(bundle, length, number, *spans, room, &a.place, &a.count);
    judge(UNITS, &a, a.count);
    MUST(a.count <= room && a.count % PUDDOCKLE_SPAN == 0);
    MUST(a.number == 0 || a.count == 0);
    MUST(untouched(out, a.count * 8, room * 8));
    return a;
}

/* Tracks have records that are read, references join tracks, samples lie without gaps up to the end of the bundle. */
static void try_parts(const uint8_t *bundle, size_t length, const uint64_t count[3]) {
    uint64_t fields[PUDDOCKLE_FIELDS], place, end = UNSET;
    for (uint64_t n = 0; n <= count[0] + 1; n++) {
        struct answer a = track(bundle, length, n);
        judge_number(&a, n, count[0]);
        if (a.number != 0)
            continue;
        judge_part(a.values[1], a.values[2], length);
        MUST(a.values[0] <= PUDDOCKLE_SVC);
        MUST(puddockle_read_record((uint32_t)a.values[0], bundle + a.values[1], a.values[2], fields, PUDDOCKLE_FIELDS,
                                   &place) == 0);
    }
    for (uint64_t n = 0; n <= count[1] + 1; n++) {
        struct answer a = reference(bundle, length, n);
        judge_number(&a, n, count[1]);
        for (int i = 0; i < 2 && a.number == 0; i++)
            MUST(a.values[i] >= 1 && a.values[i] <= count[0] && a.values[0] != a.values[1]);
    }
    for (uint64_t n = 0; n <= count[2] + 1; n++) {
        struct answer a = sample(bundle, length, n);
        judge_number(&a, n, count[2]);
        if (a.number != 0)
            continue;
        judge_part(a.values[2], a.values[3], length);
        MUST(a.values[0] >= 1 && a.values[0] <= count[0]);
        MUST(end == UNSET || end == a.values[2]);
        end = a.values[2] + a.values[3];
        MUST(n < count[2] || end == length);
    }
}

/* The units of a sample: those that are found one by one, in exactly so much room, and not in less. */
static void try_units(const uint8_t *bundle, size_t length, uint64_t number, uint64_t count, enum side side) {
    uint64_t *spans, place, start, size;
    struct answer a = units(bundle, length, number, &spans, count, side);
    MUST(a.number == 0 && a.count == count);
    for (uint64_t at = 0; at < count && at / PUDDOCKLE_SPAN < MOST_UNITS; at += PUDDOCKLE_SPAN) {
        MUST(puddockle_unit(bundle, length, number, at / PUDDOCKLE_SPAN + 1, &place, &start, &size) == 0);
        MUST(spans[at] == start && spans[at + 1] == size);
    }
    MUST(puddockle_unit(bundle, length, number, count / PUDDOCKLE_SPAN + 1, &place, &start, &size) == 30);
    if (count > 0)
        MUST(units(bundle, length, number, &spans, count - 1, side).number == 29);
}

/* Whether the naming list of a sample has this extractor. */
static int lists(const uint8_t *list, uint64_t count, uint64_t number, uint64_t place) {
    for (uint64_t at = 0; at < count; at += PUDDOCKLE_NAMES_ENTRY) {
        const uint8_t *e = list + at;
        uint64_t found = (uint64_t)e[2] << 24 | e[3] << 16 | e[4] << 8 | e[5];
        if ((uint64_t)(e[0] << 8 | e[1]) == number && found == place)
            return 1;
    }
    return 0;
}

/* What each entry of a naming list names is its sample. */
static void try_names(const uint8_t *bundle, size_t length, uint64_t number) {
    static uint8_t list[AREA_SIZE];
    uint64_t place, count;
    MUST(puddockle_names(bundle, length, number, list, sizeof list, &place, &count) == 0);
    for (uint64_t at = 0; at < count; at += PUDDOCKLE_NAMES_ENTRY) {
        const uint8_t *e = list + at;
        uint64_t found = (uint64_t)e[2] << 24 | e[3] << 16 | e[4] << 8 | e[5];
        struct answer a = named(bundle, length, (uint64_t)(e[0] << 8 | e[1]), found);
        MUST(a.number == 0 && a.values[0] == number);
    }
}

void try_contents(const uint8_t *bundle, size_t length, uint64_t number, uint64_t place, enum side side,
                  struct answer all[CALLS]) {
    static uint8_t list[AREA_SIZE];
    const struct answer *checked = &all[CHECK_BUNDLE];
    uint64_t *spans, at, count;
    all[COUNTS] = counts(bundle, length);
    all[TRACK] = track(bundle, length, number);
    all[REFERENCE] = reference(bundle, length, number);
    all[SAMPLE] = sample(bundle, length, number);
    all[UNITS] = units(bundle, length, number, &spans, MOST_NUMBERS, side);
    all[NAMED] = named(bundle, length, number, place);
    MUST(all[COUNTS].number == checked->number && all[COUNTS].place == checked->place);
    if (checked->number != 0) {
        for (int call = TRACK; call <= NAMED; call++)
            MUST(all[call].number == checked->number && all[call].place == checked->place);
        return;
    }
    try_parts(bundle, length, all[COUNTS].values);
    for (int call = TRACK; call <= SAMPLE; call++)
        judge_number(&all[call], number, all[COUNTS].values[call - TRACK]);
    if (all[SAMPLE].number != 0) {
        MUST(all[UNITS].number == 30 && all[NAMED].number == 30);
        return;
    }
    if (all[UNITS].number == 0)
        try_units(bundle, length, number, all[UNITS].count, side);
    MUST(all[NAMED].number < 14 || all[NAMED].number > 22 ||
         (all[UNITS].number == all[NAMED].number && all[UNITS].place == all[NAMED].place));
    if (all[NAMED].number == 0) {
        MUST(puddockle_names(bundle, length, all[NAMED].values[0], list, sizeof list, &at, &count) == 0);
        MUST(lists(list, count, number, place));
    }
    if (all[NAMED].number == 23 || all[NAMED].number == 24)
        MUST(all[NAMED].place == place);
    try_names(bundle, length, number);
}
