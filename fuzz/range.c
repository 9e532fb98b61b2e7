#include "range.h"

#include <string.h>

#include "../include/puddockle.h"

/* Room for the units of a range. Those that are longer give 29. */
#define UNITS_MOST AREA_SIZE

/* A range that is asked for. */
struct range {
    const uint8_t *bundle;
    size_t length;
    uint64_t first, last;
    enum side side;
};

static int same_bytes(const uint8_t *one, const uint8_t *other, size_t length) {
    return length == 0 || memcmp(one, other, length) == 0;
}

/* One call with these rooms, for the units and for the lines; `lent` is what was written to. */
static struct answer range(const struct range *r, size_t room, size_t lines_room, uint8_t *lent[2]) {
    struct answer a = unset;
    lent[0] = lend(OUT, r->side, room);
    lent[1] = lend(OUT_2, r->side, lines_room);
    fill(lent[0], room);
    fill(lent[1], lines_room);
    a.number = puddockle_range(r->bundle, r->length, r->first, r->last, lent[0], room, lent[1], lines_room, &a.place,
                               &a.count, &a.values[0]);
    judge(RANGE, &a, a.values[0] / PUDDOCKLE_LINE);
    judge_output(&a, lent[0], room);
    MUST(a.values[0] <= lines_room && a.values[0] % PUDDOCKLE_LINE == 0);
    MUST(a.number == 0 || a.values[0] == 0);
    MUST(untouched(lent[1], a.values[0], lines_room));
    return a;
}

/* Refused with this number at this place, in any rooms. */
static struct answer refused(const struct range *r, uint32_t number, uint64_t place) {
    uint8_t *lent[2];
    struct answer a = range(r, 64, 64, lent), none = range(r, 0, 0, lent);
    MUST(a.number == number && a.place == place);
    MUST(none.number == number && none.place == place);
    return a;
}

/* What the samples resolve to one by one, joined: how many bytes that is. More than UNITS_MOST: too many. A refused
   sample gives the number and the place of its line. */
static size_t join(const struct range *r, const uint8_t *lines, uint8_t *joined) {
    size_t at = 0;
    for (uint64_t sample = r->first; sample <= r->last; sample++, lines += PUDDOCKLE_LINE) {
        uint64_t place = UNSET, count = UNSET;
        uint32_t number = puddockle_resolve(r->bundle, r->length, sample, joined + at, UNITS_MOST - at, &place, &count);
        if (number == 29)
            return UNITS_MOST + 1;
        uint64_t said = (uint64_t)lines[1] << 24 | lines[2] << 16 | lines[3] << 8 | lines[4];
        MUST(number == lines[0] && place == said && (number == 0 || count == 0));
        at += count;
    }
    return at;
}

struct answer try_range(const uint8_t *bundle, size_t length, uint64_t first, uint64_t last, enum side side,
                        const struct answer *checked, const struct answer *audited, const uint8_t *lines) {
    static uint8_t joined[UNITS_MOST];
    const struct range r = {bundle, length, first, last, side};
    uint8_t *lent[2];
    if (checked->number != 0)
        return refused(&r, checked->number, checked->place);
    if (first == 0 || first > last || last > audited->count / PUDDOCKLE_LINE)
        return refused(&r, 30, 0);
    lines += (first - 1) * PUDDOCKLE_LINE;
    size_t lines_count = (last - first + 1) * PUDDOCKLE_LINE, count = join(&r, lines, joined);
    struct answer a = range(&r, UNITS_MOST, lines_count + PUDDOCKLE_LINE, lent);
    if (count > UNITS_MOST) {
        MUST(a.number == 29);
        return a;
    }
    MUST(a.number == 0 && a.count == count && a.values[0] == lines_count);
    MUST(same_bytes(lent[0], joined, count) && same_bytes(lent[1], lines, lines_count));
    /* Exact rooms are enough, one byte less in either is not. */
    MUST(range(&r, count, lines_count, lent).number == 0);
    MUST(same_bytes(lent[0], joined, count) && same_bytes(lent[1], lines, lines_count));
    MUST(range(&r, count, lines_count - 1, lent).number == 29);
    if (count > 0)
        MUST(range(&r, count - 1, lines_count, lent).number == 29);
    MUST(range(&r, 0, 0, lent).number == 29);
    /* Numbers that are the same in 32 bits are not there. */
    const struct range large = {bundle, length, first + (UINT64_C(1) << 32), last + (UINT64_C(1) << 32), side};
    refused(&large, 30, 0);
    return a;
}
