/* The plain engine, first part: records and answers 1 to 9, in the order in
   which the page gives them. */
#include "plain_table.h"

#include <string.h>

/* ---- Records ---- */

/* One record as the table of kinds lays it out: `one` and `two` are bytes 1
   and 2, `low` bytes 4-5, `high` bytes 6-7. */
typedef struct {
    unsigned kind, one, two, sort;
    int64_t low, high;
} record;

/* The record counted r from 0. */
static record record_at(const uint8_t *table, size_t r)
{
    const uint8_t *bytes = table + RECORD_BYTES * r;
    return (record){ .kind = bytes[0], .one = bytes[1], .two = bytes[2],
                     .sort = bytes[3],
                     .low = (int64_t)number_at(bytes + 4, 2),
                     .high = (int64_t)number_at(bytes + 6, 2) };
}

/* Answer 2: the kind exists, and has such a sort. */
static bool kind_is_known(record r)
{
    static const unsigned highest_sort[8] = { 0, 0, 2, 3, 1, 0, 0, 0 };
    return r.kind >= PLACE && r.kind <= FUNCTION
        && r.sort <= highest_sort[r.kind];
}

/* The bounds on a and b for each sort of transition. */
static bool interval_is_right(record r)
{
    if (r.sort == INTERVAL)
        return 1 <= r.low && r.low <= r.high && r.high <= 65534;
    if (r.sort == OR_MORE)
        return 1 <= r.low && r.high == 0;
    return r.low == 0 && r.high == 0;
}

/* Answer 3: numbers, weight and interval in range, unused bytes 0. */
static bool fields_are_right(record r)
{
    switch (r.kind) {
    case PLACE:
        return r.one < PLACES && r.two == 0 && r.high == 0;
    case TRANSITION:
        return r.one < TRANSITIONS && r.two == 0 && interval_is_right(r);
    case ARC:
        return r.one < PLACES && r.two < TRANSITIONS
            && r.low >= 1 && r.high == 0;
    case ACTION:
        return r.one < PLACES && r.two < 64 && r.low == 0 && r.high == 0;
    default: /* condition, priority, function */
        return r.one < TRANSITIONS && r.two < 64 && r.low == 0 && r.high == 0;
    }
}

/* Answer 4: do two records state one thing? A declaration is known by its
   number, an arc by its ends and by being input or post, all others by the
   two numbers they bring together. */
static bool states_the_same(record r, record earlier)
{
    if (r.kind != earlier.kind || r.one != earlier.one)
        return false;
    if (r.kind == PLACE || r.kind == TRANSITION)
        return true;
    if (r.two != earlier.two)
        return false;
    if (r.kind == ARC && PLANTED_FAULT == 10)
        return r.sort == earlier.sort;
    if (r.kind == ARC)
        return (r.sort == POST) == (earlier.sort == POST);
    return true;
}

/* Answer 4 for one record: some earlier one states the same. */
static bool stated_before(const uint8_t *table, size_t r)
{
    const record later = record_at(table, r);
    for (size_t e = 0; e < r; e++)
        if (table[RECORD_BYTES * e] == later.kind
            && states_the_same(later, record_at(table, e)))
            return true;
    return false;
}

/* ---- The net that a table describes ---- */

/* Every record except the arcs, and the declarations above all. Only for
   tables that passed answers 1 to 4. */
static void read_records(net *n, const uint8_t *table, size_t records)
{
    memset(n, 0, offsetof(net, arcs));
    for (size_t i = 0; i < records; i++) {
        const record r = record_at(table, i);
        switch (r.kind) {
        case PLACE:
            n->has_place[r.one] = true;
            n->first_tokens[r.one] = r.low;
            break;
        case TRANSITION:
            n->has_transition[r.one] = true;
            n->timing[r.one] = r.sort;
            n->a[r.one] = r.low;
            n->b[r.one] = r.high;
            break;
        case ARC:
            n->place_has_arc[r.one] = true;
            break;
        case CONDITION:
            if (r.sort == WANTED_TRUE)
                n->wanted_true[r.one] |= only(r.two);
            else
                n->wanted_false[r.one] |= only(r.two);
            break;
        case PRIORITY:
            n->written_above[r.two] |= only(r.one);
            break;
        case ACTION:
            n->actions[r.one] |= only(r.two);
            break;
        case FUNCTION:
            n->functions[r.one] |= only(r.two);
            break;
        }
    }
}

/* The arcs, gathered for each transition in turn. */
static void read_arcs(net *n, const uint8_t *table, size_t records)
{
    size_t arcs = 0;
    for (unsigned t = 0; t < TRANSITIONS; t++) {
        n->arcs_from[t] = arcs;
        for (size_t i = 0; n->has_transition[t] && i < records; i++) {
            if (table[RECORD_BYTES * i] != ARC)
                continue;
            const record r = record_at(table, i);
            if (r.two == t)
                n->arcs[arcs++] = (arc){ r.one, r.sort, r.low };
        }
    }
    n->arcs_from[TRANSITIONS] = arcs;
}

/* The priority relation: whatever stands above one that stands above t
   stands above t as well. */
static void close_priority(net *n)
{
    memcpy(n->above, n->written_above, sizeof n->above);
    for (unsigned middle = 0; middle < TRANSITIONS; middle++)
        for (unsigned t = 0; n->above[middle] != 0 && t < TRANSITIONS; t++)
            if (in(n->above[t], middle))
                n->above[t] |= n->above[middle];
}

/* ---- Answers 5 to 9 ---- */

/* Answer 5: does the record name a place or transition nobody declared? */
static bool names_unknown(const net *n, record r)
{
    switch (r.kind) {
    case ARC:
        return !n->has_place[r.one] || !n->has_transition[r.two];
    case ACTION:
        return !n->has_place[r.one];
    case CONDITION:
    case FUNCTION:
        return !n->has_transition[r.one];
    case PRIORITY:
        return !n->has_transition[r.one] || !n->has_transition[r.two];
    default:
        return false;
    }
}

/* Definition of conflict: one place has a basic arc to both. */
static bool in_conflict(const net *n, unsigned i, unsigned j)
{
    for (size_t x = n->arcs_from[i]; x < n->arcs_from[i + 1]; x++)
        for (size_t y = n->arcs_from[j]; y < n->arcs_from[j + 1]; y++)
            if (n->arcs[x].place == n->arcs[y].place
                && n->arcs[x].sort == BASIC && n->arcs[y].sort == BASIC)
                return true;
    return false;
}

/* Third way to settle: what i needs from a place is just what keeps j off. */
static bool kept_apart_by_place(const net *n, unsigned i, unsigned j)
{
    for (size_t x = n->arcs_from[i]; x < n->arcs_from[i + 1]; x++)
        for (size_t y = n->arcs_from[j]; y < n->arcs_from[j + 1]; y++)
            if (n->arcs[x].place == n->arcs[y].place
                && (n->arcs[x].sort == BASIC || n->arcs[x].sort == TEST)
                && n->arcs[y].sort == INHIBITOR
                && (n->arcs[x].weight == n->arcs[y].weight
                    || PLANTED_FAULT == 7))
                return true;
    return false;
}

/* Settled by priority, by a condition wanted both ways, or by a place. */
static bool settled(const net *n, unsigned i, unsigned j)
{
    if (in(n->above[i], j) || in(n->above[j], i))
        return true;
    if ((n->wanted_true[i] & n->wanted_false[j]) != 0
        || (n->wanted_false[i] & n->wanted_true[j]) != 0)
        return true;
    return kept_apart_by_place(n, i, j) || kept_apart_by_place(n, j, i);
}

/* Answer 6: a net has a place and a transition. */
static plain_answer test_empty(const net *n)
{
    bool any_place = false, any_transition = false;
    for (unsigned p = 0; p < PLACES; p++)
        any_place = any_place || n->has_place[p];
    for (unsigned t = 0; t < TRANSITIONS; t++)
        any_transition = any_transition || n->has_transition[t];
    if (!any_place)
        return answer(6, 0, 0);
    if (!any_transition)
        return answer(6, 1, 0);
    return answer(0, 0, 0);
}

/* Answer 7: each place, then each transition, has an arc. */
static plain_answer test_isolated(const net *n)
{
    for (unsigned p = 0; p < PLACES; p++)
        if (n->has_place[p] && !n->place_has_arc[p])
            return answer(7, p, 0);
    for (unsigned t = 0; t < TRANSITIONS; t++)
        if (n->has_transition[t] && n->arcs_from[t] == n->arcs_from[t + 1])
            return answer(7, 128 + t, 0);
    return answer(0, 0, 0);
}

/* Answer 8: nobody stands above itself. */
static plain_answer test_circle(const net *n)
{
    for (unsigned t = 0; t < TRANSITIONS; t++)
        if (in(n->above[t], t))
            return answer(8, t, 0);
    return answer(0, 0, 0);
}

/* Answer 9: every pair in conflict is settled. */
static plain_answer test_conflict(const net *n)
{
    for (unsigned i = 0; i < TRANSITIONS; i++)
        for (unsigned j = i + 1; n->has_transition[i] && j < TRANSITIONS; j++)
            if (n->has_transition[j] && in_conflict(n, i, j)
                && !settled(n, i, j))
                return answer(9, 64 * i + j, 0);
    return answer(0, 0, 0);
}

/* Answers 1 to 9 in their order; on 0 the net has been read. */
plain_answer plain_read_net(net *n, const uint8_t *table, size_t table_len)
{
    if (table_len % RECORD_BYTES != 0
        || table_len > RECORD_BYTES * MOST_RECORDS)
        return answer(1, 0, 0);
    const size_t records = table_len / RECORD_BYTES;
    for (size_t r = 0; r < records; r++) {
        if (!kind_is_known(record_at(table, r)))
            return answer(2, r, 0);
        if (!fields_are_right(record_at(table, r)))
            return answer(3, r, 0);
        if (stated_before(table, r))
            return answer(4, r, 0);
    }
    read_records(n, table, records);
    for (size_t r = 0; r < records; r++)
        if (names_unknown(n, record_at(table, r)))
            return answer(5, r, 0);
    read_arcs(n, table, records);
    close_priority(n);
    plain_answer found = test_empty(n);
    if (found.number == 0)
        found = test_isolated(n);
    if (found.number == 0)
        found = test_circle(n);
    if (found.number == 0)
        found = test_conflict(n);
    return found;
}
