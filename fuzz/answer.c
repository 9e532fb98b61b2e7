#include "answer.h"

#include "lend.h"

const struct answer unset = {0,     UNSET, UNSET, UNSET, UNSET, UNSET, UNSET,
                             UNSET, {UNSET, UNSET, UNSET, UNSET}};

const char *const call_names[CALLS] = {"read_record", "write_record", "check_sample", "check_bundle", "resolve",
                                       "stream",      "from_stream",  "unit",         "names",        "audit",
                                       "counts",      "track",        "reference",    "sample",       "units",
                                       "named",       "salvage",      "salvage_sample", "range"};

/* One more than the largest number. */
#define NUMBERS 35

/* Bit n is set where the call may give number n. */
#define BITS(first, last) (((uint64_t)2 << (last)) - ((uint64_t)1 << (first)))
static const uint64_t allowed[CALLS] = {
    [READ_RECORD] = BITS(0, 0) | BITS(4, 4) | BITS(8, 13) | BITS(29, 29),
    [WRITE_RECORD] = BITS(0, 0) | BITS(4, 4) | BITS(29, 29) | BITS(31, 31),
    [CHECK_SAMPLE] = BITS(0, 0) | BITS(4, 4) | BITS(11, 11) | BITS(14, 22),
    [CHECK_BUNDLE] = BITS(0, 13),
    [RESOLVE] = BITS(0, 30),
    [STREAM] = BITS(0, 30) | BITS(32, 32),
    [FROM_STREAM] = BITS(0, 0) | BITS(11, 11) | BITS(29, 29) | BITS(33, 34),
    [UNIT] = BITS(0, 28) | BITS(30, 30),
    [NAMES] = BITS(0, 13) | BITS(29, 30),
    [AUDIT] = BITS(0, 13) | BITS(29, 29),
    [COUNTS] = BITS(0, 13),
    [TRACK] = BITS(0, 13) | BITS(30, 30),
    [REFERENCE] = BITS(0, 13) | BITS(30, 30),
    [SAMPLE] = BITS(0, 13) | BITS(30, 30),
    [UNITS] = BITS(0, 30),
    [NAMED] = BITS(0, 24) | BITS(30, 30),
    [SALVAGE] = BITS(0, 13) | BITS(29, 30),
    [SALVAGE_SAMPLE] = BITS(0, 0) | BITS(4, 4) | BITS(11, 11) | BITS(29, 29),
    [RANGE] = BITS(0, 13) | BITS(29, 30),
};

__attribute__((section("__libfuzzer_extra_counters"))) static uint8_t counters[CALLS * NUMBERS * 16];
static uint64_t reached[CALLS][NUMBERS];

void judge(enum call call, const struct answer *a, uint64_t detail) {
    MUST(a->number < NUMBERS && (allowed[call] >> a->number & 1));
    MUST(a->place != UNSET);
    MUST(a->number != 0 || a->place == 0);
    MUST(a->number < 29 || a->number >= 32 || a->place == 0);
    reached[call][a->number]++;
    counters[(call * NUMBERS + a->number) * 16 + detail % 16] = 1;
}

void judge_output(const struct answer *a, const uint8_t *out, size_t room) {
    MUST(a->count <= room);
    MUST(a->number == 0 || a->count == 0);
    MUST(untouched(out, a->count, room));
}

void note_line(uint8_t refusal) {
    counters[(AUDIT * NUMBERS + refusal) * 16 + 15] = 1;
}

void print_reached(void) {
    for (int call = 0; call < CALLS; call++) {
        fprintf(stderr, "%14s ", call_names[call]);
        for (int number = 0; number < NUMBERS; number++)
            if (allowed[call] >> number & 1)
                fprintf(stderr, " %d:%llu", number, (unsigned long long)reached[call][number]);
        fprintf(stderr, "\n");
    }
}
