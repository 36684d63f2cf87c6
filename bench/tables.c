/* Nets that stay busy, made from one pattern.

   A cell is a group of transitions around two pools of tokens. From the
   first pool take t0, t1 and t2: t0 stands above t1, one condition parts t0
   from t2, and an inhibitor arc with the weight of a test arc parts t1 from
   t2. What they took comes back through t3 and t4, which are timed. The
   larger cells have a second pool with t5 above t6, and t7, timed, brings
   back; and reserves: places that all of these take from and give back to,
   test, or are inhibited by. Tokens only go round within their cell, so no
   place can grow full. */
#include "tables.h"

#include <string.h>

enum { UNTIMED, INTERVAL, OR_MORE };
enum { BASIC, TEST, INHIBITOR, POST };
enum { RESERVED = 20, CONDITIONS = 2 };             /* tokens of a reserve; conditions of a transition */
enum { POOL, OUT, SIDE, POOL2, OUT2, RESERVE };     /* places of a cell, counted from its first */

/* The same numbers on every machine. */
static uint64_t draw(uint64_t *state)
{
    *state += 0x9e3779b97f4a7c15;
    uint64_t x = *state;
    x = (x ^ (x >> 30)) * 0xbf58476d1ce4e5b9;
    x = (x ^ (x >> 27)) * 0x94d049bb133111eb;
    return x ^ (x >> 31);
}

static void record(struct bench_table *table, unsigned kind, unsigned first, unsigned second,
                   unsigned sort, unsigned low, unsigned high)
{
    uint8_t *at = table->bytes + table->length;
    at[0] = (uint8_t)kind;
    at[1] = (uint8_t)first;
    at[2] = (uint8_t)second;
    at[3] = (uint8_t)sort;
    at[4] = (uint8_t)low;
    at[5] = (uint8_t)(low >> 8);
    at[6] = (uint8_t)high;
    at[7] = (uint8_t)(high >> 8);
    table->length += 8;
}

static void place(struct bench_table *table, unsigned p, unsigned tokens)
{
    record(table, 1, p, 0, 0, tokens, 0);
}

static void transition(struct bench_table *table, unsigned t, unsigned sort, unsigned a, unsigned b)
{
    record(table, 2, t, 0, sort, a, b);
}

static void arc(struct bench_table *table, unsigned p, unsigned t, unsigned sort, unsigned weight)
{
    record(table, 3, p, t, sort, weight, 0);
}

/* Takes from one place and puts the same on another. */
static void carry(struct bench_table *table, unsigned t, unsigned from, unsigned to, unsigned weight)
{
    arc(table, from, t, BASIC, weight);
    arc(table, to, t, POST, weight);
}

/* The first pool: 3 places, 5 transitions, three conflicts, each settled in its own way. */
static void first_pool(struct bench_table *table, unsigned p, unsigned t, unsigned condition,
                       unsigned tokens)
{
    place(table, p + POOL, tokens);
    place(table, p + OUT, 0);
    place(table, p + SIDE, 0);
    transition(table, t, UNTIMED, 0, 0);
    transition(table, t + 1, UNTIMED, 0, 0);
    transition(table, t + 2, UNTIMED, 0, 0);
    transition(table, t + 3, INTERVAL, 1, 2);
    transition(table, t + 4, OR_MORE, 2, 0);
    carry(table, t, p + POOL, p + OUT, 1);
    carry(table, t + 1, p + POOL, p + OUT, 1);
    carry(table, t + 2, p + POOL, p + SIDE, 1);
    carry(table, t + 3, p + OUT, p + POOL, 1);
    carry(table, t + 4, p + SIDE, p + POOL, 1);
    arc(table, p + SIDE, t + 1, TEST, 1);
    arc(table, p + SIDE, t + 2, INHIBITOR, 1);
    record(table, 4, t, condition, 0, 0, 0);
    record(table, 4, t + 2, condition, 1, 0, 0);
    record(table, 5, t, t + 1, 0, 0, 0);
    record(table, 6, p + OUT, (p + OUT) % 64, 0, 0, 0);
    record(table, 7, t + 3, t + 3, 0, 0, 0);
}

/* The second pool: 2 places, 3 transitions, one conflict settled by priority. */
static void second_pool(struct bench_table *table, unsigned p, unsigned t, unsigned condition)
{
    place(table, p + POOL2, 6);
    place(table, p + OUT2, 0);
    transition(table, t + 5, INTERVAL, 1, 40);
    transition(table, t + 6, UNTIMED, 0, 0);
    transition(table, t + 7, INTERVAL, 2, 5);
    carry(table, t + 5, p + POOL2, p + OUT2, 1);
    carry(table, t + 6, p + POOL2, p + OUT2, 1);
    carry(table, t + 7, p + OUT2, p + POOL2, 2);
    record(table, 4, t + 5, condition, 0, 0, 0);
    record(table, 5, t + 5, t + 6, 0, 0, 0);
    record(table, 6, p + OUT2, (p + OUT2) % 64, 0, 0, 0);
    record(table, 7, t + 6, (t + 6) % 64, 0, 0, 0);
}

/* Reserves come in pairs: what leaves the first of a pair with one transition
   comes back to it with another. One left over is taken from and given back
   in the same cycle. */
static void reserves(struct bench_table *table, unsigned p, unsigned t, unsigned count)
{
    for (unsigned k = 0; k < count; k++)
        place(table, p + RESERVE + k, RESERVED);
    for (unsigned k = 0; k + 1 < count; k += 2) {
        unsigned from = p + RESERVE + k, to = from + 1, weight = 1 + k / 6;
        switch (k / 2 % 3) {
        case 0:
            carry(table, t, from, to, weight);
            carry(table, t + 1, from, to, weight);
            carry(table, t + 3, to, from, weight);
            break;
        case 1:
            carry(table, t + 2, from, to, weight);
            carry(table, t + 4, to, from, weight);
            break;
        default:
            carry(table, t + 5, from, to, weight);
            carry(table, t + 6, from, to, weight);
            carry(table, t + 7, to, from, 2 * weight);
        }
    }
    if (count % 2 != 0) {
        unsigned lent = p + RESERVE + count - 1;
        carry(table, t, lent, lent, 4);
        carry(table, t + 1, lent, lent, 3);
        carry(table, t + 2, lent, lent, 2);
    }
}

/* Priorities from the cell before, so that the closure has something to close. */
static void rank_cells(struct bench_table *table, unsigned t)
{
    record(table, 5, t - 8, t, 0, 0, 0);
    record(table, 5, t - 3, t + 5, 0, 0, 0);
    record(table, 5, t - 2, t + 2, 0, 0, 0);
    record(table, 5, t - 7, t + 6, 0, 0, 0);
}

/* How many input arcs, conditions, actions or functions these two have; with
   `second` 64, how many the first one has. */
static unsigned standing(const struct bench_table *table, unsigned kind, unsigned first, unsigned second)
{
    unsigned count = 0;
    for (size_t i = 0; i < table->length; i += 8) {
        const uint8_t *at = table->bytes + i;
        count += at[0] == kind && at[1] == first && (at[2] == second || second == 64)
            && (kind != 3 || at[3] != POST);
    }
    return count;
}

/* Fills a table up to `records`: tests and inhibitors across the cells,
   conditions, actions and functions. With all tokens at home every arc is
   content, and nothing but a few tests hinders those that bring tokens home,
   so a net cannot come to rest for good. */
static void fill_up(struct bench_table *table, size_t records, unsigned places, unsigned transitions,
                    uint64_t seed)
{
    unsigned cell = places * 8 / transitions;
    for (unsigned step = 0; table->length < 8 * records; step++) {
        uint64_t dice = draw(&seed);
        unsigned p = (unsigned)(dice % places), t = (unsigned)((dice >> 16) % transitions);
        unsigned small = (unsigned)(dice >> 32) % 8;
        int reserve = p % cell >= RESERVE, homeward = t % 8 == 3 || t % 8 == 4 || t % 8 == 7;
        switch (step % 8) {
        case 0: case 1: case 2: case 3:
            if (reserve && !standing(table, 3, p, t))
                arc(table, p, t, TEST, homeward ? 1 + small % 4 : RESERVED - small);
            break;
        case 4:
            if (reserve && !homeward && !standing(table, 3, p, t))
                arc(table, p, t, INHIBITOR, RESERVED + 2 + small % 6);
            break;
        case 5:
            if (!homeward && !standing(table, 4, t, p % 64) && standing(table, 4, t, 64) < CONDITIONS)
                record(table, 4, t, p % 64, small % 2, 0, 0);
            break;
        case 6:
            if (!standing(table, 6, p, t))
                record(table, 6, p, t, 0, 0, 0);
            break;
        default:
            if (!standing(table, 7, t, p % 64))
                record(table, 7, t, p % 64, 0, 0, 0);
        }
    }
}

/* Puts the records in a mixed order, as nothing promises another. */
static void mix(struct bench_table *table, uint64_t seed)
{
    for (size_t left = table->length / 8; left > 1; left--) {
        uint8_t *one = table->bytes + 8 * (left - 1), *other = table->bytes + 8 * (draw(&seed) % left);
        uint8_t kept[8];
        memcpy(kept, one, 8);
        memmove(one, other, 8);
        memcpy(other, kept, 8);
    }
}

void make_bench_table(struct bench_table *table, int which)
{
    static const struct { unsigned cells, places; size_t records; } size[BENCH_TABLES + OTHER_TABLES] = {
        { 1, 3, 25 }, { 2, 11, 150 }, { 8, 16, 1024 },
        { 1, 5, 40 }, { 1, 9, 70 }, { 1, 16, 100 }, { 2, 5, 60 }, { 2, 8, 100 }, { 3, 6, 120 },
        { 3, 12, 200 }, { 4, 10, 202 }, { 4, 16, 400 }, { 5, 12, 400 }, { 6, 16, 600 }, { 8, 10, 500 }
    };
    const unsigned cells = size[which].cells, places = size[which].places;
    table->length = 0;
    for (unsigned c = 0; c < cells; c++) {
        unsigned p = c * places, t = c * 8;
        first_pool(table, p, t, 5 * c, 4);
        if (which > 0) {
            second_pool(table, p, t, 5 * c + 2);
            reserves(table, p, t, places - RESERVE);
        }
        if (c > 0)
            rank_cells(table, t);
    }
    if (which > 0)
        fill_up(table, size[which].records, cells * places, cells * 8, 1 + (uint64_t)which);
    mix(table, 11 + (uint64_t)which);
}

void make_bench_words(uint8_t words[8 * BENCH_WORDS])
{
    uint64_t seed = 20;
    for (size_t i = 0; i < BENCH_WORDS; i++) {
        uint64_t word = draw(&seed);
        for (unsigned k = 0; k < 8; k++)
            words[8 * i + k] = (uint8_t)(word >> 8 * k);
    }
}
