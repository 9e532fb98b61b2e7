/* The byte stream of a sample, compared with what resolves. */
#ifndef STREAM_H
#define STREAM_H

#include "answer.h"
#include "lend.h"

/* The most bytes of a stream. */
#define STREAM_MOST 8192

/* Asks for a sample's byte stream. `resolved` is what resolving it with STREAM_MOST bytes of room answered, `units` what
   that wrote. Where that was accepted, the units are judged here, and a reader of byte streams finds them in the stream. */
struct answer try_stream(const uint8_t *bundle, size_t length, uint64_t sample, enum side side,
                         const struct answer *resolved, const uint8_t *units);

#endif
