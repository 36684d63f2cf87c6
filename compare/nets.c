/* Nets by chance: places, transitions and arcs first, then a settlement for
   each pair in conflict, then conditions, actions and functions. */
#include "nets.h"

#include <string.h>

enum { NO_ARC = 255 };

/* What stands in the net so far, by the order in which places and transitions
   were declared and not by their numbers. */
typedef struct {
    uint8_t input[PLACES][TRANSITIONS];      /* sort, or NO_ARC */
    uint16_t weight[PLACES][TRANSITIONS];    /* of the input arc */
    bool posts[PLACES][TRANSITIONS];
    uint64_t conditions[TRANSITIONS];        /* named at all */
    uint64_t over[TRANSITIONS];              /* written pairs */
    uint64_t actions[PLACES], functions[TRANSITIONS];
    unsigned order[TRANSITIONS];             /* highest first */
} draft;

void add_record(made_net *n, unsigned kind, unsigned one, unsigned two,
                unsigned sort, unsigned low, unsigned high)
{
    if (n->length + RECORD_BYTES > MOST_BYTES)
        return;
    const uint8_t bytes[RECORD_BYTES] = {
        (uint8_t)kind, (uint8_t)one, (uint8_t)two, (uint8_t)sort,
        (uint8_t)low, (uint8_t)(low >> 8), (uint8_t)high, (uint8_t)(high >> 8)
    };
    memcpy(n->table + n->length, bytes, RECORD_BYTES);
    n->length += RECORD_BYTES;
}

unsigned pick_tokens(dice *d, bool calm, bool brimful)
{
    if (brimful && !one_in(d, 3))
        return MOST_TOKENS - below(d, 20);
    if (!calm && one_in(d, 10))
        return one_in(d, 2) ? MOST_TOKENS - below(d, 4) : below(d, 65536);
    return one_in(d, 3) ? below(d, 6) : below(d, 3);
}

/* Weights are mostly small, so that things fire. */
static unsigned pick_weight(dice *d, bool calm)
{
    if (!calm && one_in(d, 24))
        return one_in(d, 3) ? 65535 - below(d, 3) : from_to(d, 1, 65535);
    return one_in(d, 3) ? from_to(d, 1, 4) : 1;
}

/* So many different numbers below a bound. */
static void pick_numbers(dice *d, unsigned *numbers, unsigned count,
                         unsigned bound)
{
    bool taken[PLACES] = { false };
    for (unsigned i = 0; i < count; i++) {
        unsigned number = below(d, bound);
        while (taken[number])
            number = (number + 1) % bound;
        taken[number] = true;
        numbers[i] = number;
    }
}

/* An interval, mostly short enough to be lived through. */
static void pick_interval(dice *d, made_net *n, unsigned t)
{
    n->timing[t] = below(d, 5) < 3 ? UNTIMED : from_to(d, INTERVAL, OR_MORE);
    n->a[t] = n->b[t] = 0;
    if (n->timing[t] == UNTIMED)
        return;
    n->a[t] = from_to(d, 1, 3);
    if (one_in(d, 16))
        n->a[t] = one_in(d, 2) ? from_to(d, 1, 65534) : 65533 + below(d, 2);
    if (n->timing[t] == OR_MORE) {
        n->a[t] += n->a[t] == 65534 && one_in(d, 2);
        return;
    }
    n->b[t] = n->a[t] + below(d, 3);
    if (n->b[t] > 65534 || one_in(d, 32))
        n->b[t] = 65534;
}

/* An input arc, unless there is one. */
static void add_input(draft *f, made_net *n, unsigned p, unsigned t,
                      unsigned sort, unsigned weight)
{
    if (f->input[p][t] != NO_ARC)
        return;
    f->input[p][t] = (uint8_t)sort;
    f->weight[p][t] = (uint16_t)weight;
    add_record(n, ARC, n->place[p], n->transition[t], sort, weight, 0);
}

/* A post arc, unless there is one. */
static void add_post(draft *f, made_net *n, unsigned p, unsigned t,
                     unsigned weight)
{
    if (f->posts[p][t])
        return;
    f->posts[p][t] = true;
    add_record(n, ARC, n->place[p], n->transition[t], POST, weight, 0);
}

/* Transition `high` above `low`, unless that is written already. */
static void add_priority(draft *f, made_net *n, unsigned high, unsigned low)
{
    if (f->over[high] >> low & 1)
        return;
    f->over[high] |= (uint64_t)1 << low;
    add_record(n, PRIORITY, n->transition[high], n->transition[low], 0, 0, 0);
}

/* A condition, unless the transition names it already. */
static bool add_condition(draft *f, made_net *n, unsigned t, unsigned c,
                          unsigned sort)
{
    if (f->conditions[t] >> c & 1)
        return false;
    f->conditions[t] |= (uint64_t)1 << c;
    add_record(n, CONDITION, n->transition[t], c, sort, 0, 0);
    return true;
}

/* Places with their first tokens, transitions, and a hidden order of those. */
static void declare(dice *d, manner how, draft *f, made_net *n)
{
    n->length = 0;
    n->places = from_to(d, 1, how.most_places);
    n->transitions = from_to(d, 1, how.most_transitions);
    pick_numbers(d, n->place, n->places, PLACES);
    pick_numbers(d, n->transition, n->transitions, TRANSITIONS);
    for (unsigned p = 0; p < n->places; p++) {
        memset(f->input[p], NO_ARC, sizeof f->input[p]);
        memset(f->posts[p], 0, sizeof f->posts[p]);
        f->actions[p] = 0;
        const unsigned tokens = pick_tokens(d, how.calm, how.brimful);
        add_record(n, PLACE, n->place[p], 0, 0,
                   how.ladder && !one_in(d, 8) ? 1 : tokens, 0);
    }
    for (unsigned t = 0; t < n->transitions; t++) {
        f->conditions[t] = f->over[t] = f->functions[t] = 0;
        pick_interval(d, n, t);
        add_record(n, TRANSITION, n->transition[t], 0, n->timing[t], n->a[t],
                   n->b[t]);
    }
    pick_numbers(d, f->order, n->transitions, n->transitions);
}

/* A ladder along the order: one that fires stops the next, and so lets the
   one after that fire, as far as the tokens go. */
static void draw_ladder(dice *d, draft *f, made_net *n)
{
    for (unsigned x = 0; x < n->transitions; x++) {
        const unsigned t = f->order[x];
        add_input(f, n, x % n->places, t, BASIC, 1);
        add_input(f, n, (x + 1) % n->places, t, one_in(d, 6) ? TEST : BASIC, 1);
    }
}

/* A place for an input arc: often one of the first two, where transitions
   then meet. */
static unsigned pick_place(dice *d, const made_net *n)
{
    return below(d, n->places > 2 && one_in(d, 2) ? 2 : n->places);
}

/* Arcs, at least one for each place and transition. */
static void draw_arcs(dice *d, manner how, draft *f, made_net *n)
{
    static const unsigned sorts[8] = { BASIC, BASIC, BASIC, BASIC, BASIC,
                                       TEST, TEST, INHIBITOR };
    for (unsigned t = 0; t < n->transitions; t++) {
        const unsigned inputs =
            how.ladder ? one_in(d, 8) : below(d, how.brimful ? 2 : 4);
        const unsigned posts = below(d, 3);
        for (unsigned i = 0; i < inputs; i++) {
            const unsigned p = pick_place(d, n), sort = sorts[below(d, 8)];
            add_input(f, n, p, t, sort, pick_weight(d, how.calm));
        }
        for (unsigned i = 0; i < posts || inputs + i == 0; i++) {
            const unsigned p = below(d, n->places);
            add_post(f, n, p, t, pick_weight(d, how.calm));
        }
    }
    for (unsigned p = 0; p < n->places; p++) {
        bool any = false;
        for (unsigned t = 0; t < n->transitions && !any; t++)
            any = f->input[p][t] != NO_ARC || f->posts[p][t];
        if (!any) {
            const unsigned t = below(d, n->transitions);
            add_post(f, n, p, t, pick_weight(d, how.calm));
        }
    }
}

/* Do both draw on one place? */
static bool in_conflict(const draft *f, const made_net *n, unsigned i,
                        unsigned j)
{
    for (unsigned p = 0; p < n->places; p++)
        if (f->input[p][i] == BASIC && f->input[p][j] == BASIC)
            return true;
    return false;
}

/* Settle a pair by a condition that one wants true and the other false; if
   only nearly, both want it the same way. */
static bool settle_by_condition(dice *d, draft *f, made_net *n, unsigned i,
                                unsigned j, bool nearly)
{
    const unsigned c = below(d, 64), sort = below(d, 2);
    if ((f->conditions[i] | f->conditions[j]) >> c & 1)
        return false;
    add_condition(f, n, i, c, sort);
    add_condition(f, n, j, c, nearly ? sort : 1 - sort);
    return true;
}

/* Settle a pair by a place from which i needs what keeps j off; if only
   nearly, the weights are one apart, or i only posts there. */
static bool settle_by_place(dice *d, manner how, draft *f, made_net *n,
                            unsigned i, unsigned j, bool nearly)
{
    const unsigned p = below(d, n->places);
    if (f->input[p][j] != NO_ARC || f->input[p][i] == INHIBITOR)
        return false;
    if (f->input[p][i] == NO_ARC && nearly && one_in(d, 2))
        add_post(f, n, p, i, f->weight[p][i] = (uint16_t)from_to(d, 1, 3));
    else if (f->input[p][i] == NO_ARC)
        add_input(f, n, p, i, TEST, pick_weight(d, how.calm));
    unsigned weight = f->weight[p][i];
    if (nearly)
        weight = weight > 1 && one_in(d, 2) ? weight - 1
               : weight < 65535 ? weight + 1 : weight;
    add_input(f, n, p, j, INHIBITOR, weight);
    return true;
}

/* One way or another for each pair in conflict, priority where no other
   works out; x stands before y in the order. */
static void settle_pairs(dice *d, manner how, draft *f, made_net *n)
{
    for (unsigned x = 0; x < n->transitions; x++) {
        for (unsigned y = x + 1; y < n->transitions; y++) {
            const unsigned i = f->order[x], j = f->order[y];
            if (!in_conflict(f, n, i, j))
                continue;
            const bool nearly = how.loose && one_in(d, 3);
            const unsigned way = below(d, 8);
            if (how.loose && one_in(d, 5))
                continue;
            if (way == 0 && settle_by_condition(d, f, n, i, j, nearly))
                continue;
            if (way <= 2 && settle_by_place(d, how, f, n, i, j, nearly))
                continue;
            if (way == 3 && settle_by_place(d, how, f, n, j, i, nearly))
                continue;
            add_priority(f, n, i, j);
        }
    }
}

/* The whole order written as neighbours only: the closure does the rest. */
static void settle_by_chain(draft *f, made_net *n)
{
    for (unsigned x = 0; x + 1 < n->transitions; x++)
        add_priority(f, n, f->order[x], f->order[x + 1]);
}

/* Priority pairs that nothing asks for: along the order, or any. */
static void add_priorities(dice *d, manner how, draft *f, made_net *n)
{
    const unsigned more = how.tangled ? from_to(d, 1, 4) : below(d, 3);
    for (unsigned i = 0; i < more; i++) {
        unsigned x = below(d, n->transitions), y = below(d, n->transitions);
        if (how.tangled)
            add_priority(f, n, f->order[x], f->order[y]);
        else if (x < y)
            add_priority(f, n, f->order[x], f->order[y]);
    }
}

/* One action by chance. */
static void add_action(dice *d, draft *f, made_net *n)
{
    const unsigned p = below(d, n->places), k = below(d, 64);
    if (f->actions[p] >> k & 1)
        return;
    f->actions[p] |= (uint64_t)1 << k;
    add_record(n, ACTION, n->place[p], k, 0, 0, 0);
}

/* One function by chance. */
static void add_function(dice *d, draft *f, made_net *n)
{
    const unsigned t = below(d, n->transitions), k = below(d, 64);
    if (f->functions[t] >> k & 1)
        return;
    f->functions[t] |= (uint64_t)1 << k;
    add_record(n, FUNCTION, n->transition[t], k, 0, 0, 0);
}

/* Conditions, actions and functions; then more of them up to the number of
   records asked for. */
static void dress(dice *d, manner how, draft *f, made_net *n)
{
    const unsigned actions = below(d, 4), functions = below(d, 4);
    for (unsigned t = 0; t < n->transitions; t++) {
        const unsigned c = below(d, 64), sort = below(d, 2);
        if (one_in(d, 4))
            add_condition(f, n, t, c, sort);
    }
    for (unsigned i = 0; i < actions; i++)
        add_action(d, f, n);
    for (unsigned i = 0; i < functions; i++)
        add_function(d, f, n);
    /* A small net may not have room for that many, so it does give up. */
    for (unsigned i = 0; i < 4000
         && n->length < (size_t)RECORD_BYTES * how.records; i++) {
        if (one_in(d, 2))
            add_action(d, f, n);
        else
            add_function(d, f, n);
    }
}

void shuffle_records(dice *d, made_net *n)
{
    const size_t records = n->length / RECORD_BYTES;
    for (size_t i = records; i > 1; i--) {
        uint8_t kept[RECORD_BYTES];
        uint8_t *last = n->table + RECORD_BYTES * (i - 1);
        uint8_t *other = n->table + RECORD_BYTES * below(d, (unsigned)i);
        memcpy(kept, last, RECORD_BYTES);
        memcpy(last, other, RECORD_BYTES);
        memcpy(other, kept, RECORD_BYTES);
    }
}

void make_net(dice *d, manner how, made_net *n)
{
    static draft f;
    declare(d, how, &f, n);
    if (how.ladder)
        draw_ladder(d, &f, n);
    draw_arcs(d, how, &f, n);
    if (n->transitions > 24 || (!how.loose && one_in(d, 3)))
        settle_by_chain(&f, n);
    else
        settle_pairs(d, how, &f, n);
    add_priorities(d, how, &f, n);
    dress(d, how, &f, n);
    if (one_in(d, 2))
        shuffle_records(d, n);
}
