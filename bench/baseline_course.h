/* What the baseline keeps from one cycle of a call to the next.

   A place knows the level its tokens stand at: between two neighbouring
   weights of its input arcs nothing changes for any transition, so a place
   whose tokens stay within their level costs nothing in the next cycle.
   Counters are not counted up: a timed transition knows since which cycle
   it has been enabled, and the edges of its interval wait in a calendar. */
#ifndef MOEZELKRING_BASELINE_COURSE_H
#define MOEZELKRING_BASELINE_COURSE_H

#include "baseline_net.h"

/* Two sets side by side: transitions that a place holds back, actions it makes active. */
typedef uint64_t two_sets __attribute__((vector_size(16)));

/* From `from` tokens up to but not `to`: the transitions whose basic or test
   arc finds too little, and what the place then does. */
struct level { uint32_t from, to; uint64_t lacking; two_sets effect; };

/* What a transition does at one place. */
struct step { uint16_t place, weight; };

/* What firing a transition takes to know, laid out when it first becomes
   firable. Its steps lie one behind the other: basic, test, post arcs. */
struct deed { const struct step *takes, *tests, *puts, *end; uint64_t functions, rivals; };

enum { MANY_WORDS = 8 };              /* from here on it pays to tabulate the conditions */
enum { STRIDE = 8 };                  /* effects are gathered by so many places at a time */
enum { DAYS = 2 * WORDS + 1 };        /* the days after the last word are written but never come */

struct course {
    uint32_t tokens[PLACES];
    struct net *net;
    uint64_t reset, window, enabled;           /* as they stand before the first cycle */
    uint64_t ranked, ready;                    /* has a rival above; has its steps laid out */
    size_t count, stride;
    size_t quads;                              /* groups of four conditions that are looked at */
    const struct level *level[PLACES];
    two_sets effect[PLACES];
    struct deed deed[TRANSITIONS];
    uint32_t lead[TRANSITIONS], span[TRANSITIONS];        /* cycles until the window opens, closes */
    uint16_t opens[TRANSITIONS], closes[TRANSITIONS];
    int32_t since[TRANSITIONS], since_before[TRANSITIONS];
    uint64_t calendar[DAYS];
    uint64_t unwilling[16][16];                /* who is stopped by each value of four conditions */
    uint8_t moved[RECORDS];                    /* places that left their level in this cycle */
    struct step steps[RECORDS], *free_step;
    struct level levels[RECORDS + PLACES];     /* one a record at most, and an overfull one a place */
    struct level *free_level;
};

/* Sets up the course of a call of `count` words, at least one. */
void base_begin(struct course *course, struct net *net, const uint8_t *image, size_t count);

/* The transitions that `tokens` on a place hold back, and those that lack tokens there. */
static inline uint64_t held_back(const struct net *net, size_t p, uint32_t tokens, uint64_t *lacking)
{
    uint64_t little = 0, much = 0;
    for (unsigned link = (unsigned)net->place[p].arcs; link; link = net->next_of_place[link]) {
        const uint8_t *arc = arc_at(net->table, link);
        uint64_t below = tokens < weight_of(arc);
        if (sort_of(arc) == INHIBITOR)
            much |= (below ^ 1) << (second_of(arc) & 63);
        else
            little |= below << (second_of(arc) & 63);
    }
    *lacking = little;
    return little | much;
}

/* The level at which `tokens` lie, looked for from a neighbour on. */
static inline const struct level *level_of(const struct level *level, uint32_t tokens)
{
    while (tokens < level->from)
        level--;
    while (tokens >= level->to)
        level++;
    return level;
}

#endif
