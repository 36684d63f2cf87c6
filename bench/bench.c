/* Counts what the proved engine and the baseline execute for the same calls,
   and measures the stack they touch. Each pair of calls must agree byte for
   byte, else the bench ends with exit 1.

   bench COUNTS: COUNTS is the file into which the counting plugin writes. */
#include <stdio.h>
#include <string.h>

#include "baseline.h"
#include "bench_day.h"
#include "measure.h"
#include "moezelkring.h"

enum { POINTS = 3 };

/* The instructions of each call on one table: run without words, with one and with all, and the others. */
struct figures { uint64_t run[POINTS], check, count, change, add; };

static void run_engine(struct call *call)
{
    mk_answer answer = mk_run(call->table->bytes, call->table->length, call->image, IMAGE_BYTES,
                              call->words, call->words_len, call->report, sizeof call->report);
    call->outcome = (struct outcome){ answer.number, answer.at, answer.cycles };
}

static void run_baseline(struct call *call)
{
    base_answer answer = base_run(call->table->bytes, call->table->length, call->image, IMAGE_BYTES,
                                  call->words, call->words_len, call->report, sizeof call->report);
    call->outcome = (struct outcome){ answer.number, answer.at, answer.cycles };
}

static void check_engine(struct call *call)
{
    mk_answer answer = mk_check(call->table->bytes, call->table->length);
    call->outcome = (struct outcome){ answer.number, answer.at, answer.cycles };
}

static void check_baseline(struct call *call)
{
    base_answer answer = base_check(call->table->bytes, call->table->length);
    call->outcome = (struct outcome){ answer.number, answer.at, answer.cycles };
}

/* A call with a fresh image and a report full of old bytes. */
static void prepare(struct call *call, const struct bench_table *table, const uint8_t *words, size_t count)
{
    call->table = table;
    call->words = words;
    call->words_len = 8 * count;
    memset(call->image, 0xa5, sizeof call->image);
    memset(call->report, 0x5a, sizeof call->report);
    mk_answer by_engine = mk_start(table->bytes, table->length, call->image, IMAGE_BYTES);
    uint8_t image[IMAGE_BYTES];
    base_answer by_baseline = base_start(table->bytes, table->length, image, IMAGE_BYTES);
    if (by_engine.number != 0 || by_baseline.number != 0 || memcmp(image, call->image, IMAGE_BYTES) != 0)
        fail("start refused, or the two images differ");
}

/* Accepted by both, with all cycles, and the same bytes left behind. */
static void compare(const struct call *one, const struct call *other, size_t cycles)
{
    if (one->outcome.number != 0 || one->outcome.cycles != cycles)
        fail("a call was not accepted, or lost cycles");
    if (memcmp(&one->outcome, &other->outcome, sizeof one->outcome) != 0
        || memcmp(one->image, other->image, sizeof one->image) != 0
        || memcmp(one->report, other->report, sizeof one->report) != 0)
        fail("the engine and the baseline differ");
}

/* How many transitions fired in a cycle, on average over a report. */
static double fired_per_cycle(const struct call *call)
{
    unsigned fired = 0;
    for (size_t c = 0; c < call->outcome.cycles; c++)
        for (size_t k = 0; k < 8; k++)
            for (unsigned set = call->report[CYCLE_BYTES * c + k]; set; set &= set - 1)
                fired++;
    return fired / (double)call->outcome.cycles;
}

static const size_t words_at[POINTS] = { 0, 1, BENCH_WORDS };
static uint8_t words[8 * BENCH_WORDS];
static struct call engine, baseline;

/* The same call by both, as it is prepared. */
static void count_both(engine_call *by_engine, engine_call *by_baseline, uint64_t *one, uint64_t *other,
                       size_t cycles)
{
    *one = instructions_of(by_engine, &engine);
    *other = instructions_of(by_baseline, &baseline);
    compare(&engine, &baseline, cycles);
}

/* The points of a table: without words, with one and with all, each from a fresh image. */
static void count_points(const struct bench_table *table, uint64_t by_engine[POINTS],
                         uint64_t by_baseline[POINTS])
{
    for (int i = 0; i < POINTS; i++) {
        prepare(&engine, table, words, words_at[i]);
        prepare(&baseline, table, words, words_at[i]);
        count_both(run_engine, run_baseline, &by_engine[i], &by_baseline[i], words_at[i]);
    }
}

/* The ratios of the other tables, and of one word more from the image that all words left. */
static void print_others(void)
{
    static struct bench_table table;
    printf("\nOther tables, ratios of one call of run: no word, one, %d, and one more\n", BENCH_WORDS);
    printf("records     none     one     all    more\n");
    for (int k = BENCH_TABLES; k < BENCH_TABLES + OTHER_TABLES; k++) {
        uint64_t by_engine[POINTS + 1], by_baseline[POINTS + 1];
        make_bench_table(&table, k);
        count_points(&table, by_engine, by_baseline);
        engine.words_len = baseline.words_len = 8;
        count_both(run_engine, run_baseline, &by_engine[POINTS], &by_baseline[POINTS], 1);
        printf("%7zu  ", table.length / 8);
        for (int i = 0; i <= POINTS; i++)
            printf("%7.2f%s", ratio(by_engine[i], by_baseline[i]), i < POINTS ? " " : "\n");
    }
}

/* The end of a line: what one call costs both. */
static void print_both(double by_engine, double by_baseline, const char *end)
{
    printf("  %10.0f  %10.0f  %6.2f%s", by_engine, by_baseline, ratio(by_engine, by_baseline), end);
}

/* The same of a call that checks the table first, and then without the check. */
static void print_less_check(double by_engine, double by_baseline, const struct figures *one,
                             const struct figures *other)
{
    print_both(by_engine, by_baseline, "");
    print_both(by_engine - (double)one->check, by_baseline - (double)other->check, "\n");
}

/* The stack that one call touches in both. */
static void print_depth(const char *name, engine_call *by_engine, engine_call *by_baseline, size_t cycles)
{
    size_t one = depth_of(by_engine, &engine), other = depth_of(by_baseline, &baseline);
    compare(&engine, &baseline, cycles);
    printf("%7zu  %-6s  %10zu  %10zu\n", engine.table->length / 8, name, one, other);
}

static struct bench_table table[BENCH_TABLES];
static struct figures engine_cost[BENCH_TABLES], baseline_cost[BENCH_TABLES];
static double fired[BENCH_TABLES];

/* All calls on one of the tables. */
static void count_table(int k)
{
    make_bench_table(&table[k], k);
    count_points(&table[k], engine_cost[k].run, baseline_cost[k].run);
    fired[k] = fired_per_cycle(&baseline);
    count_both(check_engine, check_baseline, &engine_cost[k].check, &baseline_cost[k].check, 0);
    agree_on_day(&engine, &baseline);
    count_both(count_engine, count_baseline, &engine_cost[k].count, &baseline_cost[k].count, BENCH_WORDS);
    count_both(change_engine, change_baseline, &engine_cost[k].change, &baseline_cost[k].change, 0);
    count_both(add_engine, add_baseline, &engine_cost[k].add, &baseline_cost[k].add, 2 * BENCH_WORDS);
}

/* Instructions of run and of check. */
static void print_run_and_check(void)
{
    printf("Instructions of one call of run\n");
    printf("records  words      engine    baseline   ratio\n");
    for (int k = 0; k < BENCH_TABLES; k++)
        for (int i = 0; i < POINTS; i++) {
            printf("%7zu  %5zu", table[k].length / 8, words_at[i]);
            print_both(engine_cost[k].run[i], baseline_cost[k].run[i], "\n");
        }

    printf("\nInstructions of one cycle: what %d words cost above none, divided\n", BENCH_WORDS);
    printf("records  fired      engine    baseline   ratio\n");
    for (int k = 0; k < BENCH_TABLES; k++) {
        double cycle = (double)(engine_cost[k].run[2] - engine_cost[k].run[0]) / BENCH_WORDS;
        double same = (double)(baseline_cost[k].run[2] - baseline_cost[k].run[0]) / BENCH_WORDS;
        printf("%7zu  %5.1f  %10.1f  %10.1f  %6.2f\n", table[k].length / 8, fired[k], cycle, same,
               ratio(cycle, same));
    }

    printf("\nInstructions of one call of check\n");
    printf("records             engine    baseline   ratio\n");
    for (int k = 0; k < BENCH_TABLES; k++) {
        printf("%7zu       ", table[k].length / 8);
        print_both(engine_cost[k].check, baseline_cost[k].check, "\n");
    }
}

/* Instructions of the day's calls, on the report that all words wrote. */
static void print_day(void)
{
    printf("\nInstructions of one call of count, of %d cycles, and without its check\n", BENCH_WORDS);
    printf("records  fired      engine    baseline   ratio      engine    baseline   ratio\n");
    for (int k = 0; k < BENCH_TABLES; k++) {
        printf("%7zu  %5.1f", table[k].length / 8, fired[k]);
        print_less_check(engine_cost[k].count, baseline_cost[k].count, &engine_cost[k], &baseline_cost[k]);
    }

    printf("\nInstructions of one call of net change, and without its check\n");
    printf("records             engine    baseline   ratio      engine    baseline   ratio\n");
    for (int k = 0; k < BENCH_TABLES; k++) {
        printf("%7zu       ", table[k].length / 8);
        print_less_check(engine_cost[k].change, baseline_cost[k].change, &engine_cost[k], &baseline_cost[k]);
    }

    printf("\nInstructions of one call of add\n");
    printf("                    engine    baseline   ratio\n              ");
    print_both(engine_cost[0].add, baseline_cost[0].add, "\n");
}

/* Stack of each call. */
static void print_depths(void)
{
    printf("\nBytes of stack touched by one call\n");
    printf("records  call        engine    baseline\n");
    for (int k = 0; k < BENCH_TABLES; k++) {
        prepare(&engine, &table[k], words, BENCH_WORDS);
        prepare(&baseline, &table[k], words, BENCH_WORDS);
        print_depth("check", check_engine, check_baseline, 0);
        print_depth("run", run_engine, run_baseline, BENCH_WORDS);
        agree_on_day(&engine, &baseline);
        print_depth("count", count_engine, count_baseline, BENCH_WORDS);
        print_depth("change", change_engine, change_baseline, 0);
        print_depth("add", add_engine, add_baseline, 2 * BENCH_WORDS);
    }
}

int main(int count, char **arguments)
{
    if (count != 2)
        fail("usage: bench COUNTS, with the file that the plugin writes");
    begin_measuring(arguments[1]);
    make_bench_words(words);
    for (int k = 0; k < BENCH_TABLES; k++)
        count_table(k);
    print_run_and_check();
    print_day();
    print_depths();
    print_others();
    return 0;
}
