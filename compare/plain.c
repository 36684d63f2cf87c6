/* The plain engine, second part: images, one cycle, and check, start, run and
   lookup. All numbers are wide, so that no sum can run over. */
#include "plain_table.h"

#include <string.h>

plain_coverage *plain_covered;

/* ---- State images ---- */

/* What an image holds: tokens, counters and reset orders. */
typedef struct {
    int64_t marking[PLACES];
    int64_t counter[TRANSITIONS];
    bool reset_order[TRANSITIONS];
} state;

/* Does the record of a place fit? */
static bool place_fits(const net *n, unsigned p, const uint8_t *bytes)
{
    return bytes[2] == 0 && bytes[3] == 0
        && (n->has_place[p] || number_at(bytes, 2) == 0);
}

/* Does the record of a transition fit? An undeclared one reads as untimed. */
static bool transition_fits(const net *n, unsigned t, const uint8_t *bytes)
{
    const int64_t counter = (int64_t)number_at(bytes, 2);
    if (bytes[2] > 1 || bytes[3] != 0)
        return false;
    if (n->timing[t] == INTERVAL)
        return counter <= n->b[t] + 1;
    if (n->timing[t] == OR_MORE)
        return counter <= n->a[t];
    return counter == 0 && bytes[2] == 0;
}

/* Answer 10: the length, then the first record that is wrong. */
static plain_answer test_image(const net *n, const uint8_t *image, size_t len)
{
    if (len != IMAGE_BYTES)
        return answer(10, 192, 0);
    for (unsigned p = 0; p < PLACES; p++)
        if (!place_fits(n, p, image + 4 * p))
            return answer(10, p, 0);
    for (unsigned t = 0; t < TRANSITIONS; t++)
        if (!transition_fits(n, t, image + 4 * (PLACES + t)))
            return answer(10, PLACES + t, 0);
    return answer(0, 0, 0);
}

/* An image that fits, as a state. */
static void read_image(state *s, const uint8_t *image)
{
    for (unsigned p = 0; p < PLACES; p++)
        s->marking[p] = (int64_t)number_at(image + 4 * p, 2);
    for (unsigned t = 0; t < TRANSITIONS; t++) {
        s->counter[t] = (int64_t)number_at(image + 4 * (PLACES + t), 2);
        s->reset_order[t] = image[4 * (PLACES + t) + 2] == 1;
    }
}

/* A state, as an image; the bytes without use become 0. */
static void write_image(const state *s, uint8_t *image)
{
    for (unsigned p = 0; p < PLACES; p++)
        put_number(image + 4 * p, 4, (uint64_t)s->marking[p] & 0xffff);
    for (unsigned t = 0; t < TRANSITIONS; t++) {
        uint8_t *bytes = image + 4 * (PLACES + t);
        put_number(bytes, 2, (uint64_t)s->counter[t]);
        bytes[2] = s->reset_order[t] ? 1 : 0;
        bytes[3] = 0;
    }
}

/* ---- One cycle ---- */

/* Enabled by a marking: basic and test arcs find their weight, inhibitor
   arcs find less. */
static bool enabled(const net *n, unsigned t, const int64_t marking[PLACES])
{
    for (size_t x = n->arcs_from[t]; x < n->arcs_from[t + 1]; x++) {
        const arc w = n->arcs[x];
        if ((w.sort == BASIC || w.sort == TEST) && marking[w.place] < w.weight)
            return false;
        if (w.sort == INHIBITOR && marking[w.place] >= w.weight)
            return false;
    }
    return true;
}

/* Take the basic weights of every member of a set out of a marking. */
static void withdraw(const net *n, uint64_t set, int64_t marking[PLACES])
{
    for (unsigned t = 0; t < TRANSITIONS; t++)
        for (size_t x = n->arcs_from[t];
             in(set, t) && x < n->arcs_from[t + 1]; x++)
            if (n->arcs[x].sort == BASIC)
                marking[n->arcs[x].place] -= n->arcs[x].weight;
}

/* Put the post weights of every member of a set into a marking. */
static void put_back(const net *n, uint64_t set, int64_t marking[PLACES])
{
    for (unsigned t = 0; t < TRANSITIONS; t++)
        for (size_t x = n->arcs_from[t];
             in(set, t) && x < n->arcs_from[t + 1]; x++)
            if (n->arcs[x].sort == POST)
                marking[n->arcs[x].place] += n->arcs[x].weight;
}

/* Falling edge, actions: those carried by a place with a token in M. */
static uint64_t active_actions(const net *n, const state *s)
{
    uint64_t active = 0;
    for (unsigned p = 0; p < PLACES; p++)
        if (s->marking[p] > 0)
            active |= n->actions[p];
    return active;
}

/* Falling edge, one counter of a timed transition. */
static int64_t next_counter(const net *n, unsigned t, const state *s)
{
    const int64_t counter = s->counter[t];
    if (!enabled(n, t, s->marking))
        return 0;
    if (s->reset_order[t])
        return PLANTED_FAULT == 5 ? 0 : 1;
    if (n->timing[t] == INTERVAL)
        return counter <= n->b[t] ? counter + 1 : counter;
    if (PLANTED_FAULT == 9)
        return counter < 65535 ? counter + 1 : counter;
    return counter < n->a[t] ? counter + 1 : counter;
}

/* Falling edge, all counters; untimed transitions have none. */
static void count_on(const net *n, state *s)
{
    for (unsigned t = 0; t < TRANSITIONS; t++)
        if (n->timing[t] != UNTIMED)
            s->counter[t] = next_counter(n, t, s);
}

/* Rising edge: enabled by M, conditions as wanted, and in its time. */
static bool firable(const net *n, unsigned t, const state *s, uint64_t word)
{
    if (!n->has_transition[t] || !enabled(n, t, s->marking))
        return false;
    if ((n->wanted_true[t] & ~word) != 0 || (n->wanted_false[t] & word) != 0)
        return false;
    if (n->timing[t] != UNTIMED && s->counter[t] < n->a[t])
        return false;
    return n->timing[t] != INTERVAL || s->counter[t] <= n->b[t];
}

/* All that are firable. */
static uint64_t firable_set(const net *n, const state *s, uint64_t word)
{
    uint64_t set = 0;
    for (unsigned t = 0; t < TRANSITIONS; t++)
        if (firable(n, t, s, word))
            set |= only(t);
    return set;
}

/* Is t enabled by the residual: M less what the fired above it withdraw? */
static bool residual_enables(const net *n, unsigned t, const state *s,
                             uint64_t fired)
{
    int64_t residual[PLACES];
    memcpy(residual, s->marking, sizeof residual);
    uint64_t before_t = n->above[t] & fired;
    if (PLANTED_FAULT == 1)
        before_t = n->above[t];
    if (PLANTED_FAULT == 2)
        before_t = n->written_above[t] & fired;
    withdraw(n, before_t, residual);
    if (PLANTED_FAULT == 6)
        put_back(n, before_t, residual);
    if (PLANTED_FAULT == 3) {
        for (size_t x = n->arcs_from[t]; x < n->arcs_from[t + 1]; x++)
            if (n->arcs[x].sort == BASIC
                && residual[n->arcs[x].place] < n->arcs[x].weight)
                return false;
        return true;
    }
    return enabled(n, t, residual);
}

/* Definition 6 has the fired set on both sides. We begin with the empty set
   and put the rule to it until the set comes back as it went in: then it
   meets the rule, and only one set does. Each round makes sure of those with
   one more standing above them, so 65 rounds are enough. */
static uint64_t fired_set(const net *n, const state *s, uint64_t can_fire)
{
    uint64_t fired = 0;
    for (unsigned round = 0; round <= TRANSITIONS; round++) {
        uint64_t meets = 0;
        for (unsigned t = 0; t < TRANSITIONS; t++)
            if (in(can_fire, t) && residual_enables(n, t, s, fired))
                meets |= only(t);
        if (meets == fired)
            break;
        fired = meets;
    }
    return fired;
}

/* The reset order of one timed transition: it fired, or a place it draws on
   or tests lost something to the fired and then held less than the arc asks,
   before anything was put back. */
static bool gets_reset_order(const net *n, unsigned t, uint64_t fired,
                             const int64_t before[PLACES],
                             const int64_t between[PLACES],
                             const int64_t after[PLACES])
{
    if (in(fired, t))
        return true;
    for (size_t x = n->arcs_from[t]; x < n->arcs_from[t + 1]; x++) {
        const arc w = n->arcs[x];
        const int64_t left = PLANTED_FAULT == 4 ? after[w.place]
                                                : between[w.place];
        if ((w.sort == BASIC || w.sort == TEST)
            && between[w.place] < before[w.place] && left < w.weight)
            return true;
    }
    return false;
}

/* The functions that the fired transitions carry. */
static uint64_t executed_functions(const net *n, uint64_t fired)
{
    uint64_t executed = 0;
    for (unsigned t = 0; t < TRANSITIONS; t++)
        if (in(fired, t))
            executed |= n->functions[t];
    return executed;
}

/* Add a finished cycle to what has been met. */
static void note_cycle(const net *n, const state *after, uint64_t can_fire,
                       uint64_t fired)
{
    bool withdrawal_reset = false, past_b = false;
    if (plain_covered == NULL)
        return;
    for (unsigned t = 0; t < TRANSITIONS; t++) {
        if (after->reset_order[t] && !in(fired, t))
            withdrawal_reset = true;
        if (n->timing[t] == INTERVAL && after->counter[t] > n->b[t])
            past_b = true;
    }
    plain_covered->cycles += 1;
    plain_covered->several_fired += (fired & (fired - 1)) != 0;
    plain_covered->residual_stopped += (can_fire & ~fired) != 0;
    plain_covered->withdrawal_reset += withdrawal_reset;
    plain_covered->past_b += past_b;
}

/* One cycle: falling edge, rising edge. On 13 neither the state nor the
   cycle's record is touched. */
static plain_answer one_cycle(const net *n, state *s, uint64_t word,
                              uint8_t *cycle_record)
{
    state next = *s;
    const uint64_t active = active_actions(n, s);
    count_on(n, &next);

    const uint64_t can_fire = firable_set(n, &next, word);
    const uint64_t fired = fired_set(n, &next, can_fire);
    int64_t between[PLACES];
    memcpy(between, s->marking, sizeof between);
    withdraw(n, fired, between);
    memcpy(next.marking, between, sizeof between);
    put_back(n, fired, next.marking);
    for (unsigned p = 0; p < PLACES; p++) {
        if (next.marking[p] > MOST_TOKENS) {
            if (PLANTED_FAULT == 8)
                memcpy(s->counter, next.counter, sizeof s->counter);
            return answer(13, p, 0);
        }
    }
    for (unsigned t = 0; t < TRANSITIONS; t++)
        if (n->timing[t] != UNTIMED)
            next.reset_order[t] =
                gets_reset_order(n, t, fired, s->marking, between,
                                 next.marking)
                || (PLANTED_FAULT == 11 && s->reset_order[t]);

    put_number(cycle_record, 8, fired);
    put_number(cycle_record + 8, 8, active);
    put_number(cycle_record + 16, 8, executed_functions(n, fired));
    note_cycle(n, &next, can_fire, fired);
    *s = next;
    return answer(0, 0, 0);
}

/* ---- Check, start, run and lookup ---- */

/* Check: answers 1 to 9. */
plain_answer plain_check(const uint8_t *table, size_t table_len)
{
    net n;
    return plain_read_net(&n, table, table_len);
}

/* Start: check, then 12, then first tokens, counters 0, no reset orders. */
plain_answer plain_start(const uint8_t *table, size_t table_len,
                         uint8_t *image, size_t image_len)
{
    net n;
    state s;
    const plain_answer found = plain_read_net(&n, table, table_len);
    if (found.number != 0)
        return found;
    if (image_len != IMAGE_BYTES)
        return answer(12, 0, 0);
    memset(&s, 0, sizeof s);
    memcpy(s.marking, n.first_tokens, sizeof s.marking);
    write_image(&s, image);
    return answer(0, 0, 0);
}

/* Run: check, then 10, 11, 12, then a cycle for each word until one is
   refused by 13. */
plain_answer plain_run(const uint8_t *table, size_t table_len,
                       uint8_t *image, size_t image_len,
                       const uint8_t *words, size_t words_len,
                       uint8_t *report, size_t report_len)
{
    net n;
    state s;
    plain_answer found = plain_read_net(&n, table, table_len);
    if (found.number == 0)
        found = test_image(&n, image, image_len);
    if (found.number != 0)
        return found;
    if (words_len % WORD_BYTES != 0 || words_len > WORD_BYTES * MOST_WORDS)
        return answer(11, 0, 0);
    const size_t cycles = words_len / WORD_BYTES;
    if (report_len < CYCLE_BYTES * cycles)
        return answer(12, 0, 0);

    read_image(&s, image);
    size_t done = 0;
    while (done < cycles && found.number == 0) {
        const uint64_t word = number_at(words + WORD_BYTES * done, WORD_BYTES);
        found = one_cycle(&n, &s, word, report + CYCLE_BYTES * done);
        if (found.number == 0)
            done++;
    }
    write_image(&s, image);
    return answer(found.number, found.at, done);
}

/* Lookup: cycles count from 1; the part must lie in the report whole. */
plain_part plain_lookup(const uint8_t *report, size_t report_len, size_t cycle)
{
    (void)report;
    const bool held = PLANTED_FAULT == 12
        ? CYCLE_BYTES * cycle <= report_len
        : cycle <= report_len / CYCLE_BYTES;
    if (cycle == 0 || !held)
        return (plain_part){ 0, 0 };
    return (plain_part){ CYCLE_BYTES * (cycle - 1), CYCLE_BYTES };
}
