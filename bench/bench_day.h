/* The day's part of the bench: count, net change and add. */
#ifndef MOEZELKRING_BENCH_DAY_H
#define MOEZELKRING_BENCH_DAY_H

#include "measure.h"

/* The three calls by both; count reads the report, net change and add the summary. */
engine_call count_engine, count_baseline, change_engine, change_baseline, add_engine, add_baseline;

/* Counts the reports of the last run by both, which must agree here and in what follows, and leaves the summaries. */
void agree_on_day(struct call *engine, struct call *baseline);

#endif
