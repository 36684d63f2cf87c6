/* The ways in which a table goes wrong. */
#include "spoils.h"

#include <string.h>

/* How many whole records there are. */
static size_t records_in(const made_net *n)
{
    return n->length / RECORD_BYTES;
}

/* The bytes of one record. */
static uint8_t *record_of(made_net *n, size_t r)
{
    return n->table + RECORD_BYTES * r;
}

/* Two bytes, lowest first. */
static void put_low_first(uint8_t *bytes, unsigned number)
{
    bytes[0] = (uint8_t)number;
    bytes[1] = (uint8_t)(number >> 8);
}

/* The same, read. */
static unsigned low_first(const uint8_t *bytes)
{
    return bytes[0] + 256u * bytes[1];
}

/* Some record of this kind, or any record if there is none. */
static uint8_t *some_record(dice *d, made_net *n, unsigned kind)
{
    const size_t records = records_in(n);
    const size_t first = below(d, (unsigned)records);
    for (size_t i = 0; i < records; i++) {
        uint8_t *r = record_of(n, (first + i) % records);
        if (r[0] == kind)
            return r;
    }
    return record_of(n, first);
}

/* Take a record out and close the gap. */
static void remove_record(made_net *n, uint8_t *r)
{
    const uint8_t *after = r + RECORD_BYTES;
    memmove(r, after, (size_t)(n->table + n->length - after));
    n->length -= RECORD_BYTES;
}

/* Bring the last record to any place in the table. */
static void move_last(dice *d, made_net *n)
{
    uint8_t kept[RECORD_BYTES];
    uint8_t *last = record_of(n, records_in(n) - 1);
    uint8_t *other = record_of(n, below(d, (unsigned)records_in(n)));
    memcpy(kept, last, RECORD_BYTES);
    memcpy(last, other, RECORD_BYTES);
    memcpy(other, kept, RECORD_BYTES);
}

/* A kind or a sort that may not exist. */
static void spoil_kind(dice *d, uint8_t *r)
{
    if (one_in(d, 2))
        r[0] = (uint8_t)(one_in(d, 2) ? below(d, 10) : below(d, 256));
    else
        r[3] = (uint8_t)(one_in(d, 4) ? below(d, 256) : below(d, 5));
}

/* An interval on the edge of what is allowed. */
static void spoil_interval(dice *d, uint8_t *r)
{
    static const unsigned edges[6] = { 0, 1, 2, 65533, 65534, 65535 };
    r[3] = (uint8_t)below(d, 3);
    put_low_first(r + 4, edges[below(d, 6)]);
    put_low_first(r + 6, edges[below(d, 6)]);
}

/* A number, weight or unused byte on the edge of its range. */
static void spoil_field(dice *d, uint8_t *r)
{
    static const uint8_t edges[8] = { 0, 1, 63, 64, 65, 127, 128, 255 };
    const unsigned way = below(d, 4);
    const uint8_t edge = edges[below(d, 8)];
    if (r[0] == TRANSITION && way != 0)
        spoil_interval(d, r);
    else if (r[0] == ARC && way == 1)
        put_low_first(r + 4, one_in(d, 2) ? 0 : 65535);
    else if (way <= 1)
        r[from_to(d, 1, 2)] = edge;
    else
        r[from_to(d, 4, 7)] = edge;
}

/* A record a second time, with another value where that makes it no other
   record; now and then as an arc the other way, which is allowed. */
static void state_twice(dice *d, made_net *n)
{
    uint8_t copy[RECORD_BYTES];
    memcpy(copy, some_record(d, n, from_to(d, PLACE, FUNCTION)), RECORD_BYTES);
    if (copy[0] == PLACE && one_in(d, 2))
        put_low_first(copy + 4, below(d, 65536));
    if (copy[0] == CONDITION && one_in(d, 2))
        copy[3] ^= 1;
    if (copy[0] == ARC && copy[3] != POST && one_in(d, 2))
        copy[3] = (uint8_t)below(d, 3);
    if (copy[0] == ARC && one_in(d, 6))
        copy[3] = copy[3] == POST ? (uint8_t)below(d, 3) : POST;
    if (copy[0] == ARC && one_in(d, 2))
        put_low_first(copy + 4, from_to(d, 1, 65535));
    add_record(n, copy[0], copy[1], copy[2], copy[3], low_first(copy + 4),
               low_first(copy + 6));
    move_last(d, n);
}

/* A declaration missing, or another name in a record. */
static void spoil_name(dice *d, made_net *n)
{
    if (one_in(d, 3)) {
        remove_record(n, some_record(d, n, from_to(d, PLACE, TRANSITION)));
        return;
    }
    uint8_t *r = some_record(d, n, from_to(d, ARC, FUNCTION));
    if (one_in(d, 2))
        r[1] = (uint8_t)below(d, r[0] == ARC || r[0] == ACTION ? 128 : 64);
    else
        r[2] = (uint8_t)below(d, 64);
}

/* A place or transition that no arc touches: a new one, or an old one robbed
   of its arcs. */
static void isolate(dice *d, made_net *n)
{
    if (one_in(d, 3)) {
        const unsigned p = below(d, 128), tokens = below(d, 4);
        add_record(n, PLACE, p, 0, 0, tokens, 0);
        move_last(d, n);
    } else if (one_in(d, 2)) {
        add_record(n, TRANSITION, below(d, 64), 0, 0, 0, 0);
        move_last(d, n);
    } else {
        const unsigned end = from_to(d, 1, 2);
        const uint8_t *robbed = some_record(d, n, ARC);
        const uint8_t number = robbed[end];
        for (size_t i = records_in(n); i > 0; i--)
            if (record_of(n, i - 1)[0] == ARC
                && record_of(n, i - 1)[end] == number)
                remove_record(n, record_of(n, i - 1));
    }
}

/* A priority pair turned round, or between any two, or of one with itself. */
static void close_circle(dice *d, made_net *n)
{
    const uint8_t *r = some_record(d, n, PRIORITY);
    if (r[0] == PRIORITY && one_in(d, 2)) {
        add_record(n, PRIORITY, r[2], r[1], 0, 0, 0);
    } else {
        const unsigned high = n->transition[below(d, n->transitions)];
        const unsigned low = n->transition[below(d, n->transitions)];
        add_record(n, PRIORITY, high, one_in(d, 4) ? high : low, 0, 0, 0);
    }
    move_last(d, n);
}

/* A settlement taken away, changed a little, or one more conflict. */
static void unsettle(dice *d, made_net *n)
{
    uint8_t *r = some_record(d, n, ARC);
    const unsigned p = n->place[below(d, n->places)];
    const unsigned t = n->transition[below(d, n->transitions)];
    switch (below(d, 6)) {
    case 0:
    case 1:
        remove_record(n, some_record(d, n, PRIORITY));
        break;
    case 2:
        remove_record(n, some_record(d, n, CONDITION));
        break;
    case 3:
        if (r[0] == ARC && low_first(r + 4) < 65535)
            put_low_first(r + 4, low_first(r + 4) + 1);
        break;
    case 4:
        if (r[0] == ARC)
            r[3] = (uint8_t)below(d, 4);
        break;
    default:
        add_record(n, ARC, p, t, BASIC, 1, 0);
        move_last(d, n);
    }
}

/* One spoil, drawn from all of them. */
static void spoil_once(dice *d, made_net *n)
{
    uint8_t *any = record_of(n, below(d, (unsigned)records_in(n)));
    const uint8_t chance = (uint8_t)below(d, 256);
    switch (below(d, 12)) {
    case 0:
        any[below(d, RECORD_BYTES)] = chance;
        break;
    case 1:
        spoil_kind(d, any);
        break;
    case 2:
    case 3:
        spoil_field(d, any);
        break;
    case 4:
    case 5:
        state_twice(d, n);
        break;
    case 6:
        spoil_name(d, n);
        break;
    case 7:
        isolate(d, n);
        break;
    case 8:
        close_circle(d, n);
        break;
    case 9:
        shuffle_records(d, n);
        break;
    default:
        unsettle(d, n);
    }
}

void spoil_table(dice *d, made_net *n)
{
    const unsigned times = one_in(d, 4) ? from_to(d, 2, 4) : 1;
    for (unsigned i = 0; i < times && n->length != 0; i++)
        spoil_once(d, n);
}

void damage_table(dice *d, made_net *n)
{
    const unsigned bits = below(d, 5);
    for (unsigned i = 0; i < bits; i++) {
        const size_t at = below(d, (unsigned)n->length);
        n->table[at] ^= (uint8_t)(1 << below(d, 8));
    }
    switch (below(d, 4)) {
    case 0: /* cut short */
        n->length = below(d, (unsigned)n->length);
        break;
    case 1: { /* a little more */
        const size_t more = below(d, 25);
        fill(d, n->table + n->length, more);
        n->length += more;
        break;
    }
    case 2: { /* too long, or just not */
        static const unsigned lengths[6] = { 8184, 8191, 8192, 8193, 8199,
                                             8200 };
        const size_t longer = lengths[below(d, 6)];
        if (longer < n->length || !one_in(d, 8))
            break;
        memset(n->table + n->length, 0, longer - n->length);
        n->length = longer;
        break;
    }
    default:
        break;
    }
}

void chance_bytes(dice *d, made_net *n)
{
    n->length = one_in(d, 4) ? below(d, 100) : RECORD_BYTES * below(d, 12);
    fill(d, n->table, n->length);
}

void chance_records(dice *d, made_net *n)
{
    const unsigned records = from_to(d, 1, 24), bound = from_to(d, 1, 6);
    n->length = 0;
    for (unsigned i = 0; i < records; i++) {
        const unsigned kind = from_to(d, PLACE, FUNCTION);
        const unsigned one = below(d, bound), two = below(d, bound);
        const unsigned sort = below(d, 4), few = below(d, 3);
        switch (kind) {
        case PLACE:
        case TRANSITION:
            add_record(n, kind, one, 0, 0, kind == PLACE ? few : 0, 0);
            break;
        case ARC:
            add_record(n, kind, one, two, sort, 1 + few, 0);
            break;
        default:
            add_record(n, kind, one, two, kind == CONDITION ? sort % 2 : 0, 0,
                       0);
        }
    }
}

void one_sided(dice *d, made_net *n)
{
    const unsigned first = below(d, 48), others = below(d, 6);
    const bool only_places = one_in(d, 2);
    n->length = 0;
    for (unsigned i = 0; i < others; i++) {
        const unsigned tokens = below(d, 4), k = below(d, 64);
        if (only_places) {
            add_record(n, PLACE, first + i, 0, 0, tokens, 0);
            add_record(n, ACTION, first + i, k, 0, 0, 0);
        } else {
            add_record(n, TRANSITION, first + i, 0, 0, 0, 0);
            add_record(n, one_in(d, 2) ? FUNCTION : CONDITION, first + i, k, 0,
                       0, 0);
            add_record(n, PRIORITY, first + i, first, 0, 0, 0);
        }
    }
}
