/* Reports and summaries by chance. */
#include "day.h"

enum { LONGEST = MOST_REPORT + 2 * CYCLE_BYTES };

/* The set of the transitions that a net was made with. */
static uint64_t declared_in(const made_net *n)
{
    uint64_t declared = 0;
    for (unsigned t = 0; t < n->transitions; t++)
        declared |= (uint64_t)1 << n->transition[t];
    return declared;
}

/* ---- Reports ---- */

/* A length: few cycles, or about 512 of them, or one that is wrong. */
static size_t chance_length(dice *d)
{
    static const size_t too_long[4] = { 12289, 12311, 12312, LONGEST };
    const unsigned percent = below(d, 100);
    const size_t few = CYCLE_BYTES * below(d, 6);
    if (percent < 2)
        return MOST_REPORT - CYCLE_BYTES * below(d, 2);
    if (percent < 4)
        return too_long[below(d, 4)];
    return percent < 14 ? few + from_to(d, 1, CYCLE_BYTES - 1) : few;
}

/* A transition outside the set, if there is one, in the fired set of some
   record. */
static void fire_another(dice *d, uint64_t declared, uint8_t *bytes,
                         size_t records)
{
    const size_t r = below(d, (unsigned)records);
    unsigned t = below(d, TRANSITIONS);
    if (declared == ~(uint64_t)0)
        return;
    while (declared >> t & 1)
        t = (t + 1) % TRANSITIONS;
    bytes[CYCLE_BYTES * r + t / 8] |= (uint8_t)(1 << t % 8);
}

/* Chance bytes, so any actions and functions; but only transitions of the set
   have fired, except in a third of the reports. */
static size_t chance_report(dice *d, uint64_t declared, uint8_t bytes[LONGEST])
{
    const size_t length = chance_length(d), records = length / CYCLE_BYTES;
    const unsigned times = one_in(d, 3) ? from_to(d, 1, 3) : 0;
    fill(d, bytes, length);
    for (size_t r = 0; r < records; r++)
        for (unsigned i = 0; i < 8; i++)
            bytes[CYCLE_BYTES * r + i] &= (uint8_t)(declared >> 8 * i);
    for (unsigned i = 0; i < times && records != 0; i++)
        fire_another(d, declared, bytes, records);
    return length;
}

/* ---- Summaries ---- */

/* A number from 0 to the highest, that one included, and often it. */
static uint32_t up_to(dice *d, uint32_t highest)
{
    const uint64_t any = (roll(d) >> 32) * ((uint64_t)highest + 1) >> 32;
    return one_in(d, 4) ? highest : (uint32_t)any;
}

/* Cycles: as in one call, as in many, or next to what 32 bits hold. */
static uint32_t chance_cycles(dice *d)
{
    switch (below(d, 5)) {
    case 0:
        return UINT32_MAX - below(d, 3);
    case 1:
        return (uint32_t)roll(d);
    case 2:
        return below(d, 3);
    default:
        return below(d, MOST_WORDS + 1);
    }
}

/* A summary of so many cycles. Some count transitions outside the set; a
   quarter has one more often than the cycles, where there is such a number. */
static void chance_summary(dice *d, uint64_t declared, uint32_t cycles,
                           uint32_t numbers[SUMMARY_NUMBERS])
{
    const uint64_t counted = one_in(d, 3) ? roll(d) : declared;
    numbers[0] = cycles;
    for (unsigned t = 0; t < TRANSITIONS; t++)
        numbers[1 + t] = counted >> t & 1 ? up_to(d, cycles) : 0;
    if (cycles != UINT32_MAX && one_in(d, 4)) {
        const unsigned i = from_to(d, 1, TRANSITIONS);
        const uint32_t more = up_to(d, UINT32_MAX - cycles - 1);
        numbers[i] = cycles + 1 + (one_in(d, 2) ? 0 : more);
    }
}

/* ---- The day ---- */

void one_day(dice *d, const made_net *n, plain_answer ran)
{
    const uint64_t declared = declared_in(n);
    uint32_t one[SUMMARY_NUMBERS], other[SUMMARY_NUMBERS];
    chance_summary(d, declared, chance_cycles(d), one);
    if ((ran.number == 0 || ran.number == 13) && one_in(d, 2)) {
        compare_day_of_run(ran.cycles);
    } else {
        uint8_t bytes[LONGEST];
        const size_t length = chance_report(d, declared, bytes);
        lend(d, &report, bytes, length);
        compare_count(length);
        compare_net_change(one);
    }
    /* Half the others bring the cycles to the limit, or one past it. */
    const uint32_t cycles = one_in(d, 2) ? UINT32_MAX - one[0] + below(d, 2)
                                         : chance_cycles(d);
    chance_summary(d, declared, cycles, other);
    compare_add(one, other);
}
