/* The fuzzer's bytes, taken from the front. Where none are left, zeros. */
#ifndef INPUT_H
#define INPUT_H

#include <stddef.h>
#include <stdint.h>

struct input {
    const uint8_t *bytes;
    size_t left;
};

static inline uint8_t take(struct input *in) {
    if (in->left == 0)
        return 0;
    in->left--;
    return *in->bytes++;
}

static inline unsigned take_below(struct input *in, unsigned limit) {
    return take(in) % limit;
}

static inline uint64_t take_number(struct input *in, int size) {
    uint64_t number = 0;
    while (size-- > 0)
        number = number << 8 | take(in);
    return number;
}

/* A number that is mostly small, else any. */
static inline uint64_t take_mostly_small(struct input *in) {
    uint8_t first = take(in);
    return first < 0xF0 ? first % 12 : take_number(in, 8);
}

#endif
