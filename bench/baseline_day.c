/* The baseline's count for the day. A report is asked as a whole, which one
   that is accepted passes; only one that fails is searched for its record. */
#include "baseline_net.h"

enum { CYCLE = 24, NUMBERS = 1 + TRANSITIONS };

/* 14 at a record, once some fired bit is known to name no transition. */
static size_t first_stray(const uint8_t *report, uint64_t declared)
{
    size_t record = 0;
    while (!(load64(report + CYCLE * record) & ~declared))
        record++;
    return record;
}

/* 15: does a summary have a transition fired more often than its cycles? */
static int fired_too_often(const uint32_t summary[NUMBERS])
{
    int wrong = 0;
    for (size_t i = 1; i < NUMBERS; i++)
        wrong |= summary[i] > summary[0];
    return wrong;
}

base_summary base_count(const uint8_t *table, size_t table_len, const uint8_t *report, size_t report_len)
{
    struct net net;
    base_answer answer = base_read(&net, table, table_len, 0);
    base_summary summary = { answer.number, answer.at, { 0 } };
    if (answer.number != 0)
        return summary;
    if (report_len % CYCLE != 0 || report_len > CYCLE * WORDS)
        return (base_summary){ 14, WORDS, { 0 } };
    uint64_t any = 0;
    for (size_t at = 0; at < report_len; at += CYCLE) {
        uint64_t fired = load64(report + at);
        any |= fired;
        for (; fired; fired &= fired - 1)
            summary.counts[1 + lowest(fired)]++;
    }
    if (any & ~net.declared)
        return (base_summary){ 14, first_stray(report, net.declared), { 0 } };
    summary.counts[0] = (uint32_t)(report_len / CYCLE);
    return summary;
}

base_summary base_add(const uint32_t one[NUMBERS], const uint32_t other[NUMBERS])
{
    if (other[0] > UINT32_MAX - one[0] || fired_too_often(one) || fired_too_often(other))
        return (base_summary){ 15, 0, { 0 } };
    base_summary sum;
    sum.number = sum.at = 0;
    for (size_t i = 0; i < NUMBERS; i++)
        sum.counts[i] = one[i] + other[i];
    return sum;
}

base_change base_net_change(const uint8_t *table, size_t table_len, const uint32_t summary[NUMBERS])
{
    struct net net;
    base_answer answer = base_read(&net, table, table_len, 0);
    base_change moved = { answer.number, answer.at, { 0 } };
    if (answer.number == 0 && fired_too_often(summary))
        moved.number = 15;
    if (moved.number != 0)
        return moved;
    for (size_t i = 0; i < net.records; i++) {
        const uint8_t *record = table + 8 * i;
        if (record[0] != 3)
            continue;
        int64_t tokens = (int64_t)summary[1 + second_of(record)] * weight_of(record);
        if (sort_of(record) == BASIC)
            moved.change[first_of(record)] -= tokens;
        else if (sort_of(record) == POST)
            moved.change[first_of(record)] += tokens;
    }
    return moved;
}
