/* The plain engine on the page's own nets: N with its four lines and its day,
   and nets 1 to 12. Anything that comes out otherwise is printed, and the exit
   is 1. */
#include "page.h"
#include "plain.h"

#include <inttypes.h>
#include <stdio.h>
#include <string.h>

enum { MOST_CYCLES = 8 };

#define LOW_FIRST(n) (uint8_t)((n) & 255), (uint8_t)((n) >> 8)
#define REC(kind, one, two, sort, low, high) \
    kind, one, two, sort, LOW_FIRST(low), LOW_FIRST(high)
#define HOLDS(p, tokens) REC(PLACE, p, 0, 0, tokens, 0)
#define PLAIN_T(t) REC(TRANSITION, t, 0, UNTIMED, 0, 0)
#define WITHIN(t, a, b) REC(TRANSITION, t, 0, INTERVAL, a, b)
#define DRAWS(p, t, weight) REC(ARC, p, t, BASIC, weight, 0)
#define TESTS(p, t, weight) REC(ARC, p, t, TEST, weight, 0)
#define INHIBITS(p, t, weight) REC(ARC, p, t, INHIBITOR, weight, 0)
#define POSTS(p, t, weight) REC(ARC, p, t, POST, weight, 0)
#define WANTS(t, c) REC(CONDITION, t, c, WANTED_TRUE, 0, 0)
#define OVER(high, low) REC(PRIORITY, high, low, 0, 0, 0)
#define ACTS(p, k) REC(ACTION, p, k, 0, 0, 0)
#define CALLS(t, k) REC(FUNCTION, t, k, 0, 0, 0)

/* Net N without its priority. */
#define NET_N_UNSETTLED \
    HOLDS(0, 1), HOLDS(1, 1), HOLDS(2, 1), HOLDS(3, 0), HOLDS(4, 0), \
    PLAIN_T(0), PLAIN_T(1), WITHIN(2, 2, 3), PLAIN_T(3), \
    DRAWS(0, 0, 1), DRAWS(2, 0, 1), POSTS(3, 0, 1), \
    DRAWS(1, 1, 1), DRAWS(2, 1, 1), POSTS(4, 1, 1), \
    WANTS(2, 0), DRAWS(3, 2, 1), POSTS(2, 2, 1), CALLS(2, 0), \
    DRAWS(4, 3, 1), POSTS(2, 3, 1), ACTS(3, 0)

static int wrong;

/* Hold one number against what the page gives. */
static void expect(const char *name, const char *what, uint64_t got,
                   uint64_t wanted)
{
    if (got == wanted)
        return;
    printf("worked net %s: %s is %" PRIu64 ", the page gives %" PRIu64 "\n",
           name, what, got, wanted);
    wrong = 1;
}

/* Check a table and hold number and `where` against the page. */
static void checks(const char *name, const uint8_t *table, size_t length,
                   size_t number, size_t at)
{
    const plain_answer got = plain_check(table, length);
    expect(name, "the number", got.number, number);
    expect(name, "where", got.at, at);
    expect(name, "cycles", got.cycles, 0);
}

/* Eight bytes of a report as a set. */
static uint64_t set_at(const uint8_t *bytes)
{
    uint64_t set = 0;
    for (unsigned i = 0; i < 8; i++)
        set |= (uint64_t)bytes[i] << (8 * i);
    return set;
}

/* Start a net and run it over words below 256; image and report are left for
   the caller to look at. */
static plain_answer starts_and_runs(const char *name, const uint8_t *table,
                                    size_t length, const uint8_t *low_bytes,
                                    size_t count, uint8_t *image,
                                    uint8_t *report)
{
    uint8_t words[WORD_BYTES * MOST_CYCLES] = { 0 };
    for (size_t i = 0; i < count; i++)
        words[WORD_BYTES * i] = low_bytes[i];
    memset(image, 0xaa, IMAGE_BYTES);
    memset(report, 0xaa, CYCLE_BYTES * MOST_CYCLES);
    expect(name, "start",
           plain_start(table, length, image, IMAGE_BYTES).number, 0);
    return plain_run(table, length, image, IMAGE_BYTES, words,
                     WORD_BYTES * count, report, CYCLE_BYTES * MOST_CYCLES);
}

/* Run a net and hold the fired set of every cycle against the page. */
static void fires(const char *name, const uint8_t *table, size_t length,
                  const uint8_t *low_bytes, const uint8_t *fired, size_t count)
{
    uint8_t image[IMAGE_BYTES], report[CYCLE_BYTES * MOST_CYCLES];
    const plain_answer got = starts_and_runs(name, table, length, low_bytes,
                                             count, image, report);
    expect(name, "the number", got.number, 0);
    expect(name, "cycles", got.cycles, count);
    for (size_t i = 0; i < count; i++) {
        const plain_part part = plain_lookup(report, sizeof report, i + 1);
        expect(name, "the part's length", part.length, CYCLE_BYTES);
        expect(name, "fired", set_at(report + part.from), fired[i]);
    }
}

#define TABLE(...) ((const uint8_t[]){ __VA_ARGS__ }), \
                   sizeof((const uint8_t[]){ __VA_ARGS__ })
#define BYTES(...) ((const uint8_t[]){ __VA_ARGS__ })

/* Net N's lines as the program prints them. */
static void net_n_lines(void)
{
    static const uint8_t table[] = { NET_N_UNSETTLED, OVER(0, 1) };
    static const char lines[] =
        "1 0000000000000001 0000000000000000 0000000000000000\n"
        "2 0000000000000000 0000000000000001 0000000000000000\n"
        "3 0000000000000004 0000000000000001 0000000000000001\n"
        "end 0 0 3\n";
    uint8_t image[IMAGE_BYTES], report[CYCLE_BYTES * MOST_CYCLES];
    char printed[400];
    size_t used = 0;
    const plain_answer got = starts_and_runs("N", table, sizeof table,
                                             BYTES(0, 0, 1), 3, image, report);
    for (size_t i = 0; i < got.cycles; i++) {
        const uint8_t *sets = report + CYCLE_BYTES * i;
        used += (size_t)snprintf(printed + used, sizeof printed - used,
                                 "%zu %016" PRIx64 " %016" PRIx64
                                 " %016" PRIx64 "\n", i + 1, set_at(sets),
                                 set_at(sets + 8), set_at(sets + 16));
    }
    snprintf(printed + used, sizeof printed - used, "end %zu %zu %zu\n",
             got.number, got.at, got.cycles);
    if (strcmp(printed, lines) != 0) {
        printf("worked net N prints\n%s", printed);
        wrong = 1;
    }
}

/* Net 4: t2's counter after each of six cycles, and nothing in the seventh. */
static void net_4_counters(void)
{
    static const uint8_t table[] = { NET_N_UNSETTLED, OVER(0, 1) };
    static const uint8_t counters[] = { 0, 1, 2, 3, 4, 4 };
    uint8_t image[IMAGE_BYTES], report[CYCLE_BYTES];
    plain_start(table, sizeof table, image, IMAGE_BYTES);
    for (size_t i = 0; i < 7; i++) {
        const uint8_t word[WORD_BYTES] = { i == 6 };
        const plain_answer got = plain_run(table, sizeof table, image,
                                           IMAGE_BYTES, word, WORD_BYTES,
                                           report, CYCLE_BYTES);
        expect("4", "the number", got.number, 0);
        if (i < 6)
            expect("4", "t2's counter", image[4 * (PLACES + 2)], counters[i]);
        else
            expect("4", "fired in the seventh", set_at(report), 0);
    }
    fires("4", table, sizeof table, BYTES(0, 0, 0, 0, 0, 0, 1),
          BYTES(1, 0, 0, 0, 0, 0, 0), 7);
}

/* Nets 1 and 2, and the tables of 11 and 12: what check says. */
static void nets_checked(void)
{
    static const uint8_t zeros[8200];
    checks("1, empty", zeros, 0, 6, 0);
    checks("1, seven bytes", zeros, 7, 1, 0);
    checks("1, 8,200 bytes", zeros, 8200, 1, 0);
    checks("1, 8,192 bytes", zeros, 8192, 2, 0);
    checks("2", TABLE(NET_N_UNSETTLED), 9, 1);
    checks("11", TABLE(HOLDS(0, 1), HOLDS(1, 1), PLAIN_T(0), PLAIN_T(1),
                       PLAIN_T(2), DRAWS(0, 0, 1), DRAWS(0, 1, 1),
                       DRAWS(1, 1, 1), DRAWS(1, 2, 1), OVER(0, 1),
                       OVER(2, 1)), 0, 0);
#define NET_12(weight) \
    TABLE(HOLDS(0, 1), HOLDS(1, 1), PLAIN_T(0), PLAIN_T(1), DRAWS(0, 0, 1), \
          DRAWS(0, 1, 1), DRAWS(1, 0, 2), INHIBITS(1, 1, weight))
    checks("12, weight 2", NET_12(2), 0, 0);
    checks("12, weight 1", NET_12(1), 9, 1);
    checks("12, weight 3", NET_12(3), 9, 1);
}

/* Nets 3 and 5 to 10: what they fire. */
static void nets_fired(void)
{
    uint8_t image[IMAGE_BYTES], report[CYCLE_BYTES * MOST_CYCLES];
    static const uint8_t none[MOST_CYCLES];

    fires("3", TABLE(NET_N_UNSETTLED, OVER(0, 1)), BYTES(0, 0, 1, 0, 0),
          BYTES(1, 0, 4, 2, 8), 5);
    fires("5", TABLE(HOLDS(0, 1), WITHIN(0, 2, 2), DRAWS(0, 0, 1),
                     POSTS(0, 0, 1)), none, BYTES(0, 1, 0, 1), 4);
#define NET_6(tokens) \
    TABLE(HOLDS(0, tokens), PLAIN_T(0), WITHIN(1, 2, 2), DRAWS(0, 0, 1), \
          POSTS(0, 0, 1), TESTS(0, 1, 1))
    fires("6, one token", NET_6(1), none, BYTES(1, 1, 1), 3);
    fires("6, two tokens", NET_6(2), none, BYTES(1, 3, 1, 3), 4);
    fires("7", TABLE(HOLDS(0, 1), PLAIN_T(0), PLAIN_T(1), DRAWS(0, 0, 1),
                     TESTS(0, 1, 1)), none, BYTES(3), 1);
    fires("7, t0 above t1", TABLE(HOLDS(0, 1), PLAIN_T(0), PLAIN_T(1),
                                  DRAWS(0, 0, 1), TESTS(0, 1, 1), OVER(0, 1)),
          none, BYTES(1), 1);
#define NET_8(tokens) \
    TABLE(HOLDS(0, tokens), PLAIN_T(0), PLAIN_T(1), PLAIN_T(2), \
          DRAWS(0, 0, 1), DRAWS(0, 1, 1), DRAWS(0, 2, 1), OVER(0, 1), \
          OVER(1, 2), WANTS(1, 0))
    fires("8, word 0", NET_8(2), BYTES(0), BYTES(5), 1);
    fires("8, word 1", NET_8(2), BYTES(1), BYTES(3), 1);
    fires("8, one token, word 0", NET_8(1), BYTES(0), BYTES(1), 1);
    fires("8, one token, word 1", NET_8(1), BYTES(1), BYTES(1), 1);
    const plain_answer full =
        starts_and_runs("9", TABLE(HOLDS(0, 65535), PLAIN_T(0),
                                   POSTS(0, 0, 1)), none, 1, image, report);
    expect("9", "the number", full.number, 13);
    expect("9", "where", full.at, 0);
    expect("9", "cycles", full.cycles, 0);
    expect("9", "tokens left", image[0] + 256u * image[1], 65535);
    fires("9, with t1", TABLE(HOLDS(0, 65535), PLAIN_T(0), PLAIN_T(1),
                              POSTS(0, 0, 1), DRAWS(0, 1, 1)),
          none, BYTES(3), 1);
#define NET_10(tokens) \
    TABLE(HOLDS(0, tokens), HOLDS(1, 0), PLAIN_T(0), INHIBITS(0, 0, 1), \
          POSTS(1, 0, 1))
    fires("10, no token", NET_10(0), none, BYTES(1), 1);
    fires("10, one token", NET_10(1), none, BYTES(0), 1);
}

/* Hold the summary of N's five cycles, so many times over, to the fired sets
   1, 0, 4, 2, 8: each of the four transitions once. */
static void counts_as(const char *name, plain_summary got, uint32_t times)
{
    expect(name, "the number", got.number, 0);
    expect(name, "where", got.at, 0);
    for (unsigned i = 0; i < SUMMARY_NUMBERS; i++)
        expect(name, "a count", got.counts[i],
               i == 0 ? 5 * times : i <= 4 ? times : 0);
}

/* Hold a refused summary to its number and where, and to being all zeros. */
static void refuses(const char *name, plain_summary got, size_t number,
                    size_t at)
{
    expect(name, "the number", got.number, number);
    expect(name, "where", got.at, at);
    for (unsigned i = 0; i < SUMMARY_NUMBERS; i++)
        expect(name, "a count", got.counts[i], 0);
}

/* The day of net N, words 0, 0, 1, 0, 0. */
static void net_n_day(void)
{
    static const uint8_t table[] = { NET_N_UNSETTLED, OVER(0, 1) };
    uint8_t fresh[IMAGE_BYTES], image[IMAGE_BYTES];
    uint8_t report[CYCLE_BYTES * MOST_CYCLES];
    const size_t five = 5 * CYCLE_BYTES;
    starts_and_runs("N's day", table, sizeof table, BYTES(0, 0, 1, 0, 0), 5,
                    image, report);
    plain_start(table, sizeof table, fresh, IMAGE_BYTES);
    plain_summary s = plain_count(table, sizeof table, report, five);
    counts_as("N's day", s, 1);
    counts_as("N's day twice", plain_add(s.counts, s.counts), 2);
    plain_change c = plain_net_change(table, sizeof table, s.counts);
    expect("N's day", "net change's number", c.number, 0);
    for (unsigned p = 0; p < PLACES; p++)
        expect("N's day", "start marking and net change",
               fresh[4 * p] + (uint64_t)c.change[p], image[4 * p]);
    expect("N's day", "what place 0 lost", (uint64_t)-c.change[0], 1);

    report[CYCLE_BYTES * 3] |= 16;
    refuses("N's day, t4 fired", plain_count(table, sizeof table, report, five),
            14, 3);
    refuses("N's day, a byte more",
            plain_count(table, sizeof table, report, five + 1), 14, 512);
    refuses("N's day without priority",
            plain_count(table, sizeof table - 8, report, five), 9, 1);
    s.counts[0] = 0;
    refuses("N's day in no cycles", plain_add(s.counts, s.counts), 15, 0);
    c = plain_net_change(table, sizeof table, s.counts);
    expect("N's day in no cycles", "net change's number", c.number, 15);
    expect("N's day in no cycles", "net change", (uint64_t)c.change[0], 0);
    memset(s.counts, 0, sizeof s.counts);
    s.counts[0] = UINT32_MAX / 2 + 1;
    refuses("4,294,967,296 cycles", plain_add(s.counts, s.counts), 15, 0);
}

int main(void)
{
    net_n_lines();
    nets_checked();
    nets_fired();
    net_4_counters();
    net_n_day();
    if (!wrong)
        printf("worked nets: N, its day, and 1 to 12 as on the page\n");
    return wrong;
}
