/* The baseline: an engine without proofs, written for speed, that the bench
   holds beside the proved one. Same calls, same answers, same bytes.

   All bytes are lent by the caller. The table, the words, the summaries and the
   looked-up or counted report are only read. A refusal with numbers 1 to 12
   changes no byte; 13 leaves the image and the report as the last finished
   cycle left them; a refused summary or change is all zeros. */
#ifndef MOEZELKRING_BASELINE_H
#define MOEZELKRING_BASELINE_H

#include <stddef.h>
#include <stdint.h>

/* number 0 is acceptance; `at` is the place of the fault; cycles only from run. */
typedef struct { size_t number; size_t at; size_t cycles; } base_answer;

/* A part of a report: first byte and length; both 0 when the part is empty. */
typedef struct { size_t from; size_t length; } base_part;

/* A summary: cycles, then how often each transition fired. */
typedef struct { size_t number; size_t at; uint32_t counts[65]; } base_summary;

/* What each place gained, or lost. */
typedef struct { size_t number; size_t at; int64_t change[128]; } base_change;

/* Is the table well defined? Answers 0 to 9. */
base_answer base_check(const uint8_t *table, size_t table_len);

/* Writes the image of the fresh net. Answers 0 to 9 and 12. */
base_answer base_start(const uint8_t *table, size_t table_len,
                       uint8_t *image, size_t image_len);

/* One cycle for each word, 24 bytes of report for each cycle. Answers 0 to 13. */
base_answer base_run(const uint8_t *table, size_t table_len,
                     uint8_t *image, size_t image_len,
                     const uint8_t *words, size_t words_len,
                     uint8_t *report, size_t report_len);

/* The part of a report that belongs to a cycle, counted from 1. */
base_part base_lookup(const uint8_t *report, size_t report_len, size_t cycle);

/* What fired in a report, and how often. Answers 0 to 9 and 14. */
base_summary base_count(const uint8_t *table, size_t table_len,
                        const uint8_t *report, size_t report_len);

/* The sum of two summaries. Answers 0 and 15. */
base_summary base_add(const uint32_t one[65], const uint32_t other[65]);

/* What the transitions of a summary moved, place by place. Answers 0 to 9 and 15. */
base_change base_net_change(const uint8_t *table, size_t table_len, const uint32_t summary[65]);

#endif
