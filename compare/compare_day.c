/* Comparing: count, add and net change. */
#include "compare.h"
#include "moezelkring.h"

#include <inttypes.h>
#include <stdio.h>
#include <string.h>

enum { GUARD_NUMBERS = GUARD / 4 };

/* ---- Lent summaries ---- */

/* A summary as the library gets it, guards before and after. */
typedef struct {
    uint32_t before[GUARD_NUMBERS], numbers[SUMMARY_NUMBERS];
    uint32_t after[GUARD_NUMBERS];
} lent_summary;

static lent_summary lend_summary(const uint32_t numbers[SUMMARY_NUMBERS])
{
    lent_summary l;
    memset(&l, 0xa5, sizeof l);
    memcpy(l.numbers, numbers, sizeof l.numbers);
    return l;
}

/* The summary and its guards are as they were lent. */
static void summary_untouched(const lent_summary *l, const char *call,
                              const uint32_t numbers[SUMMARY_NUMBERS])
{
    const lent_summary as_lent = lend_summary(numbers);
    if (memcmp(l, &as_lent, sizeof as_lent) == 0)
        return;
    name_case();
    printf("%s writes to a summary or beside it", call);
    give_up();
}

/* Does it have a transition fired more often than its cycles? */
static bool above_cycles(const uint32_t summary[SUMMARY_NUMBERS])
{
    for (unsigned i = 1; i < SUMMARY_NUMBERS; i++)
        if (summary[i] > summary[0])
            return true;
    return false;
}

/* ---- Answers ---- */

/* Name a call whose answers differ in number or where, as far as that. */
static void name_answers(const char *call, size_t number, size_t at,
                         size_t plain_number, size_t plain_at)
{
    name_case();
    printf("%s answers otherwise: library %zu where %zu, plain %zu where %zu",
           call, number, at, plain_number, plain_at);
}

/* Number, where and all 65 numbers are the same. */
static void same_summary(const char *call, const mk_summary *mk,
                         const plain_summary *plain,
                         uint64_t counts[DAY_ANSWERS])
{
    if (mk->number == plain->number && mk->at == plain->at
        && memcmp(mk->counts, plain->counts, sizeof plain->counts) == 0) {
        counts[plain->number] += 1;
        return;
    }
    name_answers(call, mk->number, mk->at, plain->number, plain->at);
    for (unsigned i = 0; i < SUMMARY_NUMBERS; i++) {
        if (mk->counts[i] != plain->counts[i]) {
            printf("; number %u is %" PRIu32 ", by the plain engine %" PRIu32,
                   i, mk->counts[i], plain->counts[i]);
            break;
        }
    }
    give_up();
}

/* The same of a net change and its 128 numbers. */
static void same_change(const mk_change *mk, const plain_change *plain)
{
    if (mk->number == plain->number && mk->at == plain->at
        && memcmp(mk->change, plain->change, sizeof plain->change) == 0) {
        met.net_change[plain->number] += 1;
        return;
    }
    name_answers("net change", mk->number, mk->at, plain->number, plain->at);
    for (unsigned p = 0; p < PLACES; p++) {
        if (mk->change[p] != plain->change[p]) {
            printf("; place %u has %" PRId64 ", by the plain engine %" PRId64,
                   p, mk->change[p], plain->change[p]);
            break;
        }
    }
    give_up();
}

/* ---- The calls, compared ---- */

plain_summary compare_count(size_t length)
{
    const plain_summary plain =
        plain_count(table.plain + table.guard, table.length,
                    report.plain + report.guard, length);
    const mk_summary mk = mk_count(table.mk + table.guard, table.length,
                                   report.mk + report.guard, length);
    same_summary("count", &mk, &plain, met.count);
    untouched(&table, "count", "table");
    untouched(&report, "count", "report");
    if (plain.number == 14) {
        met.wrong_length += plain.at == 512;
        met.wrong_record += plain.at != 512;
    }
    return plain;
}

plain_change compare_net_change(const uint32_t summary[SUMMARY_NUMBERS])
{
    lent_summary l = lend_summary(summary);
    const plain_change plain =
        plain_net_change(table.plain + table.guard, table.length, summary);
    const mk_change mk =
        mk_net_change(table.mk + table.guard, table.length, l.numbers);
    same_change(&mk, &plain);
    untouched(&table, "net change", "table");
    summary_untouched(&l, "net change", summary);
    return plain;
}

void compare_add(const uint32_t one[SUMMARY_NUMBERS],
                 const uint32_t other[SUMMARY_NUMBERS])
{
    lent_summary l = lend_summary(one), m = lend_summary(other);
    const plain_summary plain = plain_add(one, other);
    const mk_summary mk = mk_add(l.numbers, m.numbers);
    same_summary("add", &mk, &plain, met.add);
    summary_untouched(&l, "add", one);
    summary_untouched(&m, "add", other);
    if (plain.number == 15) {
        const bool above = above_cycles(one) || above_cycles(other);
        const bool past = (uint64_t)one[0] + other[0] > UINT32_MAX;
        met.above_cycles += above && !past;
        met.past_limit += past && !above;
    }
}

/* ---- What a run did ---- */

/* The tokens of a place in an image. */
static int64_t tokens(const uint8_t *image_bytes, unsigned p)
{
    return image_bytes[4 * p] + 256 * image_bytes[4 * p + 1];
}

void compare_day_of_run(size_t cycles)
{
    lend_on(&report);
    const plain_summary s = compare_count(CYCLE_BYTES * cycles);
    if (s.number != 0 || s.counts[0] != cycles) {
        name_case();
        printf("%zu cycles that run finished count as %" PRIu32 ", answer %zu",
               cycles, s.counts[0], s.number);
        give_up();
    }
    const plain_change c = compare_net_change(s.counts);
    for (unsigned p = 0; p < PLACES; p++) {
        const int64_t moved = tokens(image.plain + image.guard, p)
                            - tokens(image.before + image.guard, p);
        if (c.number == 0 && c.change[p] == moved)
            continue;
        name_case();
        printf("the run changed place %u by %" PRId64 ", net change is %" PRId64
               ", answer %zu", p, moved, c.change[p], c.number);
        give_up();
    }
    met.held_to_images += 1;
}
