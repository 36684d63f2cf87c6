/* Measuring one call: its instructions, as the plugin counts them, and the stack it touches. */
#ifndef MOEZELKRING_BENCH_MEASURE_H
#define MOEZELKRING_BENCH_MEASURE_H

#include <stddef.h>
#include <stdint.h>

#include "tables.h"

enum { IMAGE_BYTES = 768, CYCLE_BYTES = 24, SUMMARY_NUMBERS = 65 };

struct outcome { size_t number, at, cycles; };

/* One call: what is lent to it and what it answered. */
struct call {
    const struct bench_table *table;
    const uint8_t *words;
    size_t words_len;
    uint8_t image[IMAGE_BYTES], report[CYCLE_BYTES * BENCH_WORDS];
    uint32_t summary[SUMMARY_NUMBERS];
    struct outcome outcome;
};

typedef void engine_call(struct call *);

/* Ends the bench with exit 1. */
_Noreturn void fail(const char *what);

/* Takes the file into which the plugin writes, and measures an empty part. */
void begin_measuring(const char *counts);

/* The instructions of one call, with those of an empty marked part taken off. */
uint64_t instructions_of(engine_call *part, struct call *call);

/* The bytes of stack that one call touches, with those of an empty one taken off. */
size_t depth_of(engine_call *part, struct call *call);

static inline double ratio(double engine, double baseline)
{
    return engine / baseline;
}

#endif
