/* A bundle built from the fuzzer's bytes: its sections fit each other, so that its samples are reached. */
#ifndef BUILD_H
#define BUILD_H

#include <stddef.h>
#include <stdint.h>

#include "input.h"

/* Writes a bundle of at most `room` bytes to `out` and answers its length. */
size_t build_bundle(struct input *in, uint8_t *out, size_t room);

/* Writes a sample of this length size to `out` and answers its length. */
size_t build_sample(struct input *in, int length_size, uint8_t *out, size_t room);

#endif
