/* The calls of both engines on the same lent bytes. Whatever differs is
   printed with the case it came from, and ends the program with 1. */
#ifndef COMPARE_H
#define COMPARE_H

#include "dice.h"
#include "plain.h"

enum { GUARD = 64, ROOM = 13000, ANSWERS = 14, DAY_ANSWERS = 16 };

/* One lent part for each engine, guard bytes before and after, and what both
   held before the call. */
typedef struct {
    size_t guard, length;
    uint8_t before[ROOM], mk[ROOM], plain[ROOM];
} lent;

extern lent table, image, words, report;

/* The case at hand. A net made sound must be accepted. */
typedef struct {
    uint64_t seed, number;
    const char *kind;
    bool made_sound;
} which_case;

extern which_case at_hand;

/* How often each answer came, and what the runs and the days went through. */
typedef struct {
    uint64_t check[ANSWERS], start[ANSWERS], run[ANSWERS];
    bool word_counts[MOST_WORDS + 1];
    plain_coverage cycles;
    uint64_t count[DAY_ANSWERS], add[DAY_ANSWERS], net_change[DAY_ANSWERS];
    uint64_t wrong_length, wrong_record;  /* answer 14 of count */
    uint64_t above_cycles, past_limit;    /* answer 15 of add, for one alone */
    uint64_t held_to_images;              /* net changes of what a run did */
} what_was_met;

extern what_was_met met;

/* Lend these bytes, or chance bytes if there are none. */
void lend(dice *d, lent *l, const uint8_t *bytes, size_t length);

/* Lend the same bytes on as the last call left them. */
void lend_on(lent *l);

/* Each call on what is lent; start hands back the answer's number, run the
   answer. */
void compare_check(void);
size_t compare_start(void);
plain_answer compare_run(void);

/* Lookups in the report that the last run left. */
void compare_lookups(dice *d);

/* Count on the first so many bytes of the report, net change and add on these
   summaries. */
plain_summary compare_count(size_t length);
plain_change compare_net_change(const uint32_t summary[SUMMARY_NUMBERS]);
void compare_add(const uint32_t one[SUMMARY_NUMBERS],
                 const uint32_t other[SUMMARY_NUMBERS]);

/* Count and net change of what the last run finished: so many cycles, and the
   end marking less the start marking. */
void compare_day_of_run(size_t cycles);

/* For a difference: the case, at the head of its line; then, where it is said,
   the last answers, and the end of the program. */
void name_case(void);
_Noreturn void give_up(void);

/* Nothing was written at all to a part that was lent. */
void untouched(const lent *l, const char *call, const char *part);

/* An engine that breaks off leaves the case's number too. */
void watch_for_breaks(void);

#endif
