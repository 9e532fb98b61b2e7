/* A sample salvaged, by itself and in a bundle. */
#ifndef SALVAGE_H
#define SALVAGE_H

#include "answer.h"
#include "input.h"
#include "lend.h"

/* Salvages a sample made from the fuzzer's bytes. */
void try_salvage_sample(struct input *in);

/* Salvages one sample of a bundle: as by itself, and the naming list is that of puddockle_names. */
struct answer try_salvage(const uint8_t *bundle, size_t length, uint64_t number, enum side side);

#endif
