/* The calls on the contents of a bundle: counts, tracks, references, samples, units, what extractors name. */
#ifndef CONTENTS_H
#define CONTENTS_H

#include "answer.h"
#include "lend.h"

/*
 * All six calls on a bundle, for a number and a place that may be any, and for those that are there. They are held
 * against each other, what check_bundle answered, the record read, the units one by one, and the naming lists.
 * all[CHECK_BUNDLE] is there; all[COUNTS] to all[NAMED] are set.
 */
void try_contents(const uint8_t *bundle, size_t length, uint64_t number, uint64_t place, enum side side,
                  struct answer all[CALLS]);

#endif
