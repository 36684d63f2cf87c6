/* Comparing: lent bytes with guards; check, start, run and lookup. */
#include "compare.h"
#include "moezelkring.h"

#include <inttypes.h>
#include <signal.h>
#include <stdio.h>
#include <stdlib.h>
#include <string.h>

lent table, image, words, report;
which_case at_hand;
what_was_met met;

/* The last pair of answers. */
static mk_answer mk_said;
static plain_answer plain_said;

void name_case(void)
{
    printf("case %" PRIu64 " seed %" PRIu64 " kind %s: ", at_hand.number,
           at_hand.seed, at_hand.kind);
}

/* Say which case it was, then end as the signal would. */
static void broken_off(int signal_number)
{
    name_case();
    printf("broken off by signal %d\n", signal_number);
    fflush(stdout);
    signal(signal_number, SIG_DFL);
    raise(signal_number);
}

void watch_for_breaks(void)
{
    signal(SIGSEGV, broken_off);
    signal(SIGABRT, broken_off);
    signal(SIGILL, broken_off);
    signal(SIGBUS, broken_off);
    signal(SIGFPE, broken_off);
}

/* ---- Lent bytes ---- */

/* A lent part with both its guards. */
static size_t whole(const lent *l)
{
    return l->guard + l->length + GUARD;
}

void lend(dice *d, lent *l, const uint8_t *bytes, size_t length)
{
    l->guard = GUARD + below(d, 8);
    l->length = length;
    if (bytes == NULL) {
        fill(d, l->before, whole(l));
    } else {
        fill(d, l->before, l->guard);
        memcpy(l->before + l->guard, bytes, length);
        fill(d, l->before + l->guard + length, GUARD);
    }
    memcpy(l->mk, l->before, whole(l));
    memcpy(l->plain, l->before, whole(l));
}

void lend_on(lent *l)
{
    memcpy(l->before, l->mk, whole(l));
}

/* The first byte in which the engines' parts differ, if there is one; bytes
   of the guard before a part have numbers below 0. */
static void name_byte(const lent *l, const char *part, const uint8_t *a,
                      const uint8_t *b, const char *who)
{
    for (size_t i = 0; i < whole(l); i++) {
        if (a[i] != b[i]) {
            printf("; %s of %zu bytes: byte %lld is %u, %s %u", part,
                   l->length, (long long)i - (long long)l->guard, a[i], who,
                   b[i]);
            return;
        }
    }
}

/* Print what the engines last answered and where their bytes part, and end. */
_Noreturn void give_up(void)
{
    printf("; last answers: library %zu where %zu cycles %zu, plain %zu where "
           "%zu cycles %zu", mk_said.number, mk_said.at, mk_said.cycles,
           plain_said.number, plain_said.at, plain_said.cycles);
    name_byte(&image, "image", image.mk, image.plain, "by the plain engine");
    name_byte(&report, "report", report.mk, report.plain,
              "by the plain engine");
    printf("\nFAILED\n");
    exit(1);
}

/* Both engines left the same bytes, and the guards are as they were. */
static void same_after(const lent *l, const char *call, const char *part)
{
    if (memcmp(l->mk, l->plain, whole(l)) != 0) {
        name_case();
        printf("%s leaves another %s", call, part);
        give_up();
    }
    const size_t end = l->guard + l->length;
    if (memcmp(l->mk, l->before, l->guard) != 0
        || memcmp(l->mk + end, l->before + end, GUARD) != 0) {
        name_case();
        printf("%s writes beside the %s", call, part);
        give_up();
    }
}

void untouched(const lent *l, const char *call, const char *part)
{
    if (memcmp(l->mk, l->before, whole(l)) == 0
        && memcmp(l->plain, l->before, whole(l)) == 0)
        return;
    name_case();
    printf("%s writes to what it should leave", call);
    name_byte(l, part, l->mk, l->before, "before the call");
    name_byte(l, part, l->plain, l->before, "before the plain call");
    give_up();
}

/* Number, where and cycles are the same. */
static void same_answer(const char *call, mk_answer mk, plain_answer plain,
                        uint64_t counts[ANSWERS])
{
    mk_said = mk;
    plain_said = plain;
    if (mk.number != plain.number || mk.at != plain.at
        || mk.cycles != plain.cycles || plain.number >= ANSWERS) {
        name_case();
        printf("%s answers otherwise", call);
        give_up();
    }
    counts[plain.number] += 1;
}

/* ---- The calls, compared ---- */

void compare_check(void)
{
    const plain_answer plain =
        plain_check(table.plain + table.guard, table.length);
    same_answer("check", mk_check(table.mk + table.guard, table.length), plain,
                met.check);
    untouched(&table, "check", "table");
    if (at_hand.made_sound && plain.number != 0) {
        name_case();
        printf("a net made sound is refused");
        give_up();
    }
}

size_t compare_start(void)
{
    const plain_answer plain =
        plain_start(table.plain + table.guard, table.length,
                    image.plain + image.guard, image.length);
    same_answer("start", mk_start(table.mk + table.guard, table.length,
                                  image.mk + image.guard, image.length),
                plain, met.start);
    same_after(&image, "start", "image");
    untouched(&table, "start", "table");
    if (plain.number != 0)
        untouched(&image, "start", "image");
    return plain.number;
}

plain_answer compare_run(void)
{
    const plain_answer plain =
        plain_run(table.plain + table.guard, table.length,
                  image.plain + image.guard, image.length,
                  words.plain + words.guard, words.length,
                  report.plain + report.guard, report.length);
    same_answer("run", mk_run(table.mk + table.guard, table.length,
                              image.mk + image.guard, image.length,
                              words.mk + words.guard, words.length,
                              report.mk + report.guard, report.length),
                plain, met.run);
    same_after(&image, "run", "image");
    same_after(&report, "run", "report");
    untouched(&table, "run", "table");
    untouched(&words, "run", "words");
    if (plain.number >= 1 && plain.number <= 12) {
        untouched(&image, "run", "image");
        untouched(&report, "run", "report");
    }
    if (plain.number == 0)
        met.word_counts[plain.cycles] = true;
    return plain;
}

/* One lookup, in the first so many bytes of the report. */
static void compare_lookup(size_t length, size_t cycle)
{
    const mk_part mk = mk_lookup(report.mk + report.guard, length, cycle);
    const plain_part plain =
        plain_lookup(report.plain + report.guard, length, cycle);
    if (mk.from == plain.from && mk.length == plain.length)
        return;
    name_case();
    printf("lookup of cycle %zu in %zu bytes gives %zu from %zu, the plain "
           "engine %zu from %zu", cycle, length, mk.length, mk.from,
           plain.length, plain.from);
    give_up();
}

/* Cycles at both ends of the report and far beyond, in reports of its length
   and shorter. */
void compare_lookups(dice *d)
{
    const size_t most = report.length;
    const size_t lengths[3] = { most, below(d, (unsigned)most + 1),
                                most / CYCLE_BYTES * CYCLE_BYTES };
    for (unsigned i = 0; i < 3; i++) {
        const size_t length = lengths[i] - (i == 2 && lengths[i] != 0
                                            && one_in(d, 2));
        const size_t held = length / CYCLE_BYTES;
        const size_t near = below(d, (unsigned)held + 2);
        const size_t anything = (size_t)roll(d);
        const size_t cycles[10] = {
            0, 1, held, held + 1, near, SIZE_MAX, SIZE_MAX / CYCLE_BYTES,
            SIZE_MAX / CYCLE_BYTES + 1, SIZE_MAX / CYCLE_BYTES + 1 + near,
            anything
        };
        for (unsigned k = 0; k < 10; k++)
            compare_lookup(length, cycles[k]);
    }
    same_after(&report, "lookup", "report");
}
