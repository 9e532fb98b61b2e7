/* A byte stream read into a sample. */
#ifndef FROM_STREAM_H
#define FROM_STREAM_H

#include "answer.h"
#include "input.h"
#include "lend.h"

/* Reads a stream made from the fuzzer's bytes, which is judged here; what was read, written as a stream again, is read
   as the same. */
void try_from_stream(struct input *in);

/* Reads a stream that puddockle_stream wrote: with length size 4 it gives `units`, which resolve; `count` is the length
   of both. */
void read_back(const uint8_t *stream, const uint8_t *units, size_t count);

#endif
