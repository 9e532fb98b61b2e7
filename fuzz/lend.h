/* Slices that end, or begin, at a page that may not be touched: a read or write beside them stops the program, also
   in a library that was not compiled with AddressSanitizer. */
#ifndef LEND_H
#define LEND_H

#include <stddef.h>
#include <stdint.h>

/* The most bytes that can be lent from one area. */
#define AREA_SIZE 131072

/* Areas, one for each slice of a call. */
enum area { IN_1, IN_2, IN_3, IN_4, OUT, OUT_2, OUT_3, AREAS };

enum side { AT_END, AT_START };

void lend_init(void);

/* `length` bytes of the area, at its end or its start. NULL where length is 0 and the side is AT_START. */
uint8_t *lend(enum area area, enum side side, size_t length);

/* The same, with these bytes in it. */
const uint8_t *lend_copy(enum area area, enum side side, const uint8_t *bytes, size_t length);

/* Fills what was lent with a pattern, and tells whether it still stands from `from` on. */
void fill(uint8_t *bytes, size_t length);
int untouched(const uint8_t *bytes, size_t from, size_t length);

#endif
