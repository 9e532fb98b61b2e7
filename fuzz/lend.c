#include "lend.h"

#include <stdlib.h>
#include <string.h>
#include <sys/mman.h>

#define GUARD 4096

static uint8_t *areas[AREAS];
static uint8_t pattern[AREA_SIZE];

void lend_init(void) {
    for (int i = 0; i < AREAS; i++) {
        uint8_t *all = mmap(NULL, AREA_SIZE + 2 * GUARD, PROT_NONE, MAP_PRIVATE | MAP_ANONYMOUS, -1, 0);
        if (all == MAP_FAILED || mprotect(all + GUARD, AREA_SIZE, PROT_READ | PROT_WRITE) != 0)
            abort();
        areas[i] = all + GUARD;
    }
    for (size_t i = 0; i < AREA_SIZE; i++)
        pattern[i] = (uint8_t)(i * 37 + 0xA5);
}

uint8_t *lend(enum area area, enum side side, size_t length) {
    if (length > AREA_SIZE)
        abort();
    if (side == AT_END)
        return areas[area] + AREA_SIZE - length;
    return length == 0 ? NULL : areas[area];
}

const uint8_t *lend_copy(enum area area, enum side side, const uint8_t *bytes, size_t length) {
    uint8_t *lent = lend(area, side, length);
    if (length > 0)
        memcpy(lent, bytes, length);
    return lent;
}

void fill(uint8_t *bytes, size_t length) {
    if (length > 0)
        memcpy(bytes, pattern, length);
}

int untouched(const uint8_t *bytes, size_t from, size_t length) {
    return from >= length || memcmp(bytes + from, pattern + from, length - from) == 0;
}
