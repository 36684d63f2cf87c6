/* What the parts of the plain engine share: numbers and sets in bytes,
   and the net that a table describes.

   Compiled with -DPLANTED_FAULT=n it gets one rule wrong on purpose:
   1 the residual loses every higher transition, fired or not
   2 the residual knows only the written pairs, not their closure
   3 the residual is judged on basic arcs only
   4 a reset is judged by the new marking
   5 a counter starts again at 0 after a reset order
   6 tokens put back by those above can be spent in the same cycle
   7 an inhibitor arc settles a pair whatever its weight
   8 the counters of a cycle refused by 13 stay in the image
   9 a sort 2 counter counts on above a
   10 input arcs of different sorts do not count as the same arc
   11 a reset order once given stays
   12 lookup multiplies without minding how far a number reaches
   13 count counts the active actions, not the fired transitions
   14 count leaves out the last record
   15 answer 14 names the last such record
   16 answer 14 is given for a record before it is for the length
   17 net change gives back what was taken and takes what was put
   18 net change lets test arcs take
   19 net change never answers 15
   20 added cycles begin again at 0 above 4,294,967,295
   21 a count refused with 14 leaves what it counted */
#ifndef PLAIN_TABLE_H
#define PLAIN_TABLE_H

#include "plain.h"

#include <stdbool.h>

#ifndef PLANTED_FAULT
#define PLANTED_FAULT 0
#endif

/* ---- Numbers and sets in bytes ---- */

/* Numbers of several bytes have their lowest byte first. */
static inline uint64_t number_at(const uint8_t *bytes, unsigned length)
{
    uint64_t number = 0;
    for (unsigned i = 0; i < length; i++)
        number |= (uint64_t)bytes[i] << (8 * i);
    return number;
}

/* The same, written. */
static inline void put_number(uint8_t *bytes, unsigned length, uint64_t number)
{
    for (unsigned i = 0; i < length; i++)
        bytes[i] = (uint8_t)(number >> (8 * i));
}

/* The set with one member. */
static inline uint64_t only(unsigned member)
{
    return (uint64_t)1 << member;
}

/* Is this number in the set? */
static inline bool in(uint64_t set, unsigned member)
{
    return (set >> member & 1) != 0;
}

/* ---- The net that a table describes ---- */

/* An arc as its transition sees it. */
typedef struct {
    unsigned place, sort;
    int64_t weight;
} arc;

/* All that kinds 1 to 7 say, by place or by transition. */
typedef struct {
    bool has_place[PLACES], has_transition[TRANSITIONS];
    int64_t first_tokens[PLACES];
    unsigned timing[TRANSITIONS];                     /* sort of kind 2 */
    int64_t a[TRANSITIONS], b[TRANSITIONS];
    uint64_t wanted_true[TRANSITIONS], wanted_false[TRANSITIONS];
    uint64_t written_above[TRANSITIONS];              /* kind 5 as it stands */
    uint64_t above[TRANSITIONS];                      /* and closed */
    uint64_t actions[PLACES], functions[TRANSITIONS];
    bool place_has_arc[PLACES];
    size_t arcs_from[TRANSITIONS + 1];   /* arcs of t: from [t] up to [t + 1] */
    arc arcs[MOST_RECORDS];
} net;

/* An answer of check, start or run. */
static inline plain_answer answer(size_t number, size_t at, size_t cycles)
{
    return (plain_answer){ number, at, cycles };
}

/* Answers 1 to 9 in their order; on 0 the net has been read. */
plain_answer plain_read_net(net *n, const uint8_t *table, size_t table_len);

#endif
