/* The plain engine, third part: a count for the day, from document 02 (i). A
   summary's first number is its cycles, and number 1 + t is how often t fired.
   All numbers of an answer begin as 0, and a refusal leaves them so. */
#include "plain_table.h"

/* ---- Refusals 14 and 15 ---- */

/* Does the fired set of a record name a transition nobody declared? */
static bool fired_unknown(const net *n, const uint8_t *cycle_record)
{
    const uint64_t fired = number_at(cycle_record, 8);
    for (unsigned t = 0; t < TRANSITIONS; t++)
        if (in(fired, t) && !n->has_transition[t])
            return true;
    return false;
}

/* Answer 14: the first record that is wrong, but the length goes before. */
static plain_answer test_report(const net *n, const uint8_t *report, size_t len)
{
    plain_answer found = answer(0, 0, 0);
    for (size_t r = 0; r < len / CYCLE_BYTES; r++)
        if (fired_unknown(n, report + CYCLE_BYTES * r)
            && (found.number == 0 || PLANTED_FAULT == 15))
            found = answer(14, r, 0);
    if ((len % CYCLE_BYTES != 0 || len > MOST_REPORT)
        && (found.number == 0 || PLANTED_FAULT != 16))
        found = answer(14, 512, 0);
    return found;
}

/* Answer 15: has a summary a transition fired more often than its cycles? */
static bool fired_too_often(const uint32_t summary[SUMMARY_NUMBERS])
{
    for (unsigned t = 0; t < TRANSITIONS; t++)
        if (summary[1 + t] > summary[0])
            return true;
    return false;
}

/* ---- The three calls ---- */

/* Count: check, then 14, then a cycle for each record. */
plain_summary plain_count(const uint8_t *table, size_t table_len,
                          const uint8_t *report, size_t report_len)
{
    net n;
    plain_summary s = { 0, 0, { 0 } };
    plain_answer found = plain_read_net(&n, table, table_len);
    if (found.number == 0)
        found = test_report(&n, report, report_len);
    s.number = found.number;
    s.at = found.at;
    if (found.number != 0 && !(PLANTED_FAULT == 21 && found.number == 14))
        return s;
    const size_t cycles = report_len / CYCLE_BYTES;
    s.counts[0] = (uint32_t)cycles;
    for (size_t r = 0; r + (PLANTED_FAULT == 14) < cycles; r++) {
        const uint64_t fired =
            number_at(report + CYCLE_BYTES * r + (PLANTED_FAULT == 13 ? 8 : 0),
                      8);
        for (unsigned t = 0; t < TRANSITIONS; t++)
            if (in(fired, t))
                s.counts[1 + t] += 1;
    }
    return s;
}

/* Add: 15, then each number to its like. */
plain_summary plain_add(const uint32_t one[SUMMARY_NUMBERS],
                        const uint32_t other[SUMMARY_NUMBERS])
{
    plain_summary s = { 0, 0, { 0 } };
    const uint64_t cycles = (uint64_t)one[0] + other[0];
    if (fired_too_often(one) || fired_too_often(other)
        || (cycles > UINT32_MAX && PLANTED_FAULT != 20)) {
        s.number = 15;
        return s;
    }
    for (unsigned i = 0; i < SUMMARY_NUMBERS; i++)
        s.counts[i] = one[i] + other[i];
    return s;
}

/* Net change: check, then 15, then for each transition its arcs, as often as
   it fired. */
plain_change plain_net_change(const uint8_t *table, size_t table_len,
                              const uint32_t summary[SUMMARY_NUMBERS])
{
    net n;
    plain_change c = { 0, 0, { 0 } };
    const plain_answer found = plain_read_net(&n, table, table_len);
    c.number = found.number;
    c.at = found.at;
    if (found.number == 0 && fired_too_often(summary) && PLANTED_FAULT != 19)
        c.number = 15;
    if (c.number != 0)
        return c;
    for (unsigned t = 0; t < TRANSITIONS; t++) {
        for (size_t x = n.arcs_from[t]; x < n.arcs_from[t + 1]; x++) {
            const arc w = n.arcs[x];
            const int64_t moved = (int64_t)summary[1 + t] * w.weight;
            if (w.sort == (PLANTED_FAULT == 17 ? BASIC : POST))
                c.change[w.place] += moved;
            if (w.sort == (PLANTED_FAULT == 17 ? POST : BASIC)
                || (PLANTED_FAULT == 18 && w.sort == TEST))
                c.change[w.place] -= moved;
        }
    }
    return c;
}
