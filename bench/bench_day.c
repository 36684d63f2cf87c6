/* The calls of the day, by the engine and by the baseline. What is counted is the call with its answer in place; the
   numbers are compared apart, in calls of their own. */
#include "bench_day.h"

#include <string.h>

#include "baseline.h"
#include "moezelkring.h"

void count_engine(struct call *call)
{
    mk_summary answer = mk_count(call->table->bytes, call->table->length, call->report, sizeof call->report);
    call->outcome = (struct outcome){ answer.number, answer.at, answer.counts[0] };
}

void count_baseline(struct call *call)
{
    base_summary answer = base_count(call->table->bytes, call->table->length, call->report, sizeof call->report);
    call->outcome = (struct outcome){ answer.number, answer.at, answer.counts[0] };
}

void change_engine(struct call *call)
{
    mk_change answer = mk_net_change(call->table->bytes, call->table->length, call->summary);
    call->outcome = (struct outcome){ answer.number, answer.at, 0 };
}

void change_baseline(struct call *call)
{
    base_change answer = base_net_change(call->table->bytes, call->table->length, call->summary);
    call->outcome = (struct outcome){ answer.number, answer.at, 0 };
}

void add_engine(struct call *call)
{
    mk_summary answer = mk_add(call->summary, call->summary);
    call->outcome = (struct outcome){ answer.number, answer.at, answer.counts[0] };
}

void add_baseline(struct call *call)
{
    base_summary answer = base_add(call->summary, call->summary);
    call->outcome = (struct outcome){ answer.number, answer.at, answer.counts[0] };
}

/* Both accepted, and the same numbers. */
static void agree(size_t number, const void *by_engine, size_t other, const void *by_baseline, size_t bytes)
{
    if (number != 0 || other != 0 || memcmp(by_engine, by_baseline, bytes) != 0)
        fail("a call of the day was refused, or its numbers differ");
}

void agree_on_day(struct call *engine, struct call *baseline)
{
    const struct bench_table *table = engine->table;
    mk_summary one = mk_count(table->bytes, table->length, engine->report, sizeof engine->report);
    base_summary other = base_count(table->bytes, table->length, baseline->report, sizeof baseline->report);
    agree(one.number, one.counts, other.number, other.counts, sizeof one.counts);
    memcpy(engine->summary, one.counts, sizeof engine->summary);
    memcpy(baseline->summary, other.counts, sizeof baseline->summary);
    one = mk_add(engine->summary, engine->summary);
    other = base_add(baseline->summary, baseline->summary);
    agree(one.number, one.counts, other.number, other.counts, sizeof one.counts);
    mk_change moved = mk_net_change(table->bytes, table->length, engine->summary);
    base_change moved_too = base_net_change(table->bytes, table->length, baseline->summary);
    agree(moved.number, moved.change, moved_too.number, moved_too.change, sizeof moved.change);
}
