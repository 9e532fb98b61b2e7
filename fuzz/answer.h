/* What a call returned and set, and what holds of every answer. */
#ifndef ANSWER_H
#define ANSWER_H

#include <stddef.h>
#include <stdint.h>
#include <stdio.h>
#include <stdlib.h>

#define UNSET 0xDEADBEEF5A5AA5A5u

enum call {
    READ_RECORD, WRITE_RECORD, CHECK_SAMPLE, CHECK_BUNDLE, RESOLVE, STREAM, FROM_STREAM, UNIT, NAMES, AUDIT,
    COUNTS, TRACK, REFERENCE, SAMPLE, UNITS, NAMED, SALVAGE, SALVAGE_SAMPLE, RANGE, CALLS
};

#define MUST(condition)                                                       \
    do {                                                                      \
        if (!(condition)) {                                                   \
            fprintf(stderr, "%s:%d: %s\n", __FILE__, __LINE__, #condition);   \
            abort();                                                          \
        }                                                                     \
    } while (0)

/* The numbers of `values` are those that the calls on the contents of a bundle set, in their order; those of salvaging
   and of a range are the counts of their lists. */
struct answer {
    uint32_t number;
    uint64_t place, count, start, length, passed, empty, refused, values[4];
};

extern const struct answer unset;
extern const char *const call_names[CALLS];

/* The number is one that the call may give, and the place fits it. `detail` tells like answers apart for the fuzzer. */
void judge(enum call call, const struct answer *a, uint64_t detail);

/* The output ends at the count, and nothing is written on a refusal. */
void judge_output(const struct answer *a, const uint8_t *out, size_t room);

/* A refusal in an audit line, for the fuzzer. */
void note_line(uint8_t refusal);

/* How often each call gave each number. */
void print_reached(void);

#endif
