/* The tables and words of the bench: three nets that stay busy, and others of the same pattern. */
#ifndef MOEZELKRING_BENCH_TABLES_H
#define MOEZELKRING_BENCH_TABLES_H

#include <stddef.h>
#include <stdint.h>

enum { BENCH_TABLES = 3, OTHER_TABLES = 12, BENCH_WORDS = 512, BENCH_TABLE_BYTES = 8192 };

struct bench_table { uint8_t bytes[BENCH_TABLE_BYTES]; size_t length; };

/* Makes table 0 (25 records), 1 (150), 2 (1,024), or one of the others behind them. */
void make_bench_table(struct bench_table *table, int which);

/* Makes the condition words, the same for each table. */
void make_bench_words(uint8_t words[8 * BENCH_WORDS]);

#endif
