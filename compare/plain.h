/* The plain engine: documents 01 and 02 read slowly, line by line, to hold
   another engine against. Same calls and shapes as the library's header. */
#ifndef PLAIN_H
#define PLAIN_H

#include "page.h"

#include <stddef.h>
#include <stdint.h>

/* An answer: its number, the page's `where`, and the cycles done. */
typedef struct {
    size_t number;
    size_t at;
    size_t cycles;
} plain_answer;

/* A part of a report: where it begins and how long it is; 0, 0 if empty. */
typedef struct {
    size_t from;
    size_t length;
} plain_part;

/* A summary: cycles, then how often each transition fired. */
typedef struct {
    size_t number;
    size_t at;
    uint32_t counts[SUMMARY_NUMBERS];
} plain_summary;

/* What each place gained, or lost. */
typedef struct {
    size_t number;
    size_t at;
    int64_t change[PLACES];
} plain_change;

/* What the finished cycles went through, so that a comparison can say that
   it met the rules that are easy to miss. */
typedef struct {
    uint64_t cycles;            /* finished cycles */
    uint64_t several_fired;     /* two or more transitions fired */
    uint64_t residual_stopped;  /* a firable transition did not fire */
    uint64_t withdrawal_reset;  /* a reset order for one that did not fire */
    uint64_t past_b;            /* a sort 1 counter beyond b */
} plain_coverage;

/* Where plain_run adds up what it met; nowhere while this is null. */
extern plain_coverage *plain_covered;

plain_answer plain_check(const uint8_t *table, size_t table_len);
plain_answer plain_start(const uint8_t *table, size_t table_len,
                         uint8_t *image, size_t image_len);
plain_answer plain_run(const uint8_t *table, size_t table_len,
                       uint8_t *image, size_t image_len,
                       const uint8_t *words, size_t words_len,
                       uint8_t *report, size_t report_len);
plain_part plain_lookup(const uint8_t *report, size_t report_len, size_t cycle);
plain_summary plain_count(const uint8_t *table, size_t table_len,
                          const uint8_t *report, size_t report_len);
plain_summary plain_add(const uint32_t one[SUMMARY_NUMBERS],
                        const uint32_t other[SUMMARY_NUMBERS]);
plain_change plain_net_change(const uint8_t *table, size_t table_len,
                              const uint32_t summary[SUMMARY_NUMBERS]);

#endif
