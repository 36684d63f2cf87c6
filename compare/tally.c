/* The tallies at the end. */
#include "tally.h"
#include "compare.h"

#include <inttypes.h>
#include <stdio.h>

enum { LEAST_ANSWERS = 100, LEAST_CYCLES = 1000 };

/* How often a call gave each answer. */
static void print_counts(const char *call, const uint64_t *counts,
                         unsigned answers)
{
    printf("%s answers:", call);
    for (unsigned i = 0; i < answers; i++)
        printf(" %u:%" PRIu64, i, counts[i]);
    printf("\n");
}

/* How many numbers of words were run to the end. */
static unsigned word_counts_met(void)
{
    unsigned counts = 0;
    for (unsigned i = 0; i <= MOST_WORDS; i++)
        counts += met.word_counts[i];
    return counts;
}

void print_tally(void)
{
    print_counts("check", met.check, ANSWERS);
    print_counts("start", met.start, ANSWERS);
    print_counts("run", met.run, ANSWERS);
    print_counts("count", met.count, DAY_ANSWERS);
    print_counts("net change", met.net_change, DAY_ANSWERS);
    print_counts("add", met.add, DAY_ANSWERS);
    printf("word counts met: %u of %u\n", word_counts_met(), MOST_WORDS + 1);
    printf("cycles finished: %" PRIu64 "\n", met.cycles.cycles);
    printf("  two or more fired: %" PRIu64 "\n", met.cycles.several_fired);
    printf("  a residual stopped a firable transition: %" PRIu64 "\n",
           met.cycles.residual_stopped);
    printf("  a withdrawal gave a reset order: %" PRIu64 "\n",
           met.cycles.withdrawal_reset);
    printf("  a sort 1 counter stood past b: %" PRIu64 "\n",
           met.cycles.past_b);
    printf("reports refused: %" PRIu64 " for their length, %" PRIu64
           " for a record\n", met.wrong_length, met.wrong_record);
    printf("sums refused: %" PRIu64 " for a count above its cycles alone, %"
           PRIu64 " for the limit alone\n", met.above_cycles, met.past_limit);
    printf("net changes that are a run's end marking less its start marking: %"
           PRIu64 "\n", met.held_to_images);
}

/* Did this come a hundred times? */
static bool often(const char *what, unsigned answer, uint64_t times)
{
    if (times < LEAST_ANSWERS)
        printf("too little: %s %u only %" PRIu64 " times\n", what, answer,
               times);
    return times >= LEAST_ANSWERS;
}

/* Each answer that run and the day's calls give, 14 and 15 for each cause. */
static bool answers_enough(void)
{
    bool enough = true;
    for (unsigned i = 0; i < ANSWERS; i++)
        enough &= often("run answered", i, met.run[i]);
    for (unsigned i = 0; i < 10; i++) {
        enough &= often("count answered", i, met.count[i]);
        enough &= often("net change answered", i, met.net_change[i]);
    }
    enough &= often("for its length count answered", 14, met.wrong_length);
    enough &= often("for a record count answered", 14, met.wrong_record);
    enough &= often("net change answered", 15, met.net_change[15]);
    enough &= often("add answered", 0, met.add[0]);
    enough &= often("for a count add answered", 15, met.above_cycles);
    enough &= often("for the limit add answered", 15, met.past_limit);
    return enough;
}

bool met_enough(void)
{
    bool enough = answers_enough();
    if (word_counts_met() != MOST_WORDS + 1) {
        printf("too little: not every number of words from 0 to 512\n");
        enough = false;
    }
    if (met.cycles.several_fired < LEAST_CYCLES
        || met.cycles.residual_stopped < LEAST_CYCLES
        || met.cycles.withdrawal_reset < LEAST_CYCLES
        || met.cycles.past_b < LEAST_CYCLES
        || met.held_to_images < LEAST_CYCLES) {
        printf("too little: a sort of cycle or of run came fewer than %d "
               "times\n", LEAST_CYCLES);
        enough = false;
    }
    return enough;
}
