/* The baseline's reading of a table: one pass over the records fills the rows
   and finds answers 2, 3 and 4. */
#include "baseline_net.h"

/* For each kind: the bits of a record that must be 0, and byte 0, which must be the kind. */
static const uint64_t fixed_bits[8] = {
    0, 0xffff0000ffff80ff, 0x0000000000ffc0ff, 0xffff0000fcc080ff,
    0xfffffffffec0c0ff, 0xffffffffffc0c0ff, 0xffffffffffc080ff, 0xffffffffffc0c0ff
};
static const uint8_t highest_sort[8] = { 0, 0, 2, 3, 1, 0, 0, 0 };

enum { LONGEST_SURVEY = 256 };        /* above this many records all rows are cleared unasked */

/* A record that is wrong in itself: is it 2 or 3? */
static size_t fault_of(const uint8_t *record)
{
    unsigned kind = record[0];
    if (kind < 1 || kind > 7 || sort_of(record) > highest_sort[kind])
        return 2;
    return 3;
}

/* Clears the rows that the numbers in the table can reach. */
static void clear_rows(struct net *net)
{
    uint64_t any = ~(uint64_t)0;
    if (net->records <= LONGEST_SURVEY) {
        any = 0;
        for (size_t i = 0; i < net->records; i++)
            any |= load64(net->table + 8 * i);
    }
    unsigned first = (uint8_t)(any >> 8), second = (uint8_t)(any >> 16);
    net->places = first < PLACES ? first + 1 : PLACES;
    net->transitions = (first | second) < TRANSITIONS ? (first | second) + 1 : TRANSITIONS;
    memset(net->place, 0, net->places * sizeof net->place[0]);
    memset(net->transition, 0, net->transitions * sizeof net->transition[0]);
    memset(net->flag, 0, sizeof net->flag);
}

/* The pass over the records, then the questions about the whole. A record's
   link is its number plus one. */
static inline __attribute__((always_inline)) base_answer read_records(struct net *net, int chains)
{
    uint64_t declared = 0, timed = 0, conditional = 0, higher = 0, named = 0, arced = 0, sharing = 0;
    unsigned inhibitors = 0;
    const uint8_t *record = net->table;
    size_t links = net->records;
    clear_rows(net);
    for (size_t link = 1; link <= links; link++, record += 8) {
        uint64_t whole = load64(record);
        size_t first = first_of(record), second = second_of(record);
        if ((whole & fixed_bits[3]) == 3) {
            struct place *place = &net->place[first];
            struct transition *transition = &net->transition[second];
            uint64_t member = bit(second);
            if (load32(record + 4) == 0)
                return refuse(3, link - 1);
            net->flag[TOUCHED][first] = 1;
            arced |= member;
            unsigned sort = sort_of(record);
            if (sort == POST) {
                if (place->post & member)
                    return refuse(4, link - 1);
                place->post |= member;
                if (chains) {
                    net->next_of_transition[link] = transition->puts;
                    transition->puts = (uint16_t)link;
                }
                continue;
            }
            if (place->input & member)
                return refuse(4, link - 1);
            place->input |= member;
            net->next_of_place[link] = (uint16_t)place->arcs;
            place->arcs = link;
            if (sort == BASIC) {
                if (place->basic) {
                    transition->shares |= place->basic;
                    sharing |= member;
                }
                place->basic |= member;
                if (chains) {
                    net->next_of_transition[link] = transition->takes;
                    transition->takes = (uint16_t)link;
                }
            } else if (sort == INHIBITOR) {
                net->inhibitor[inhibitors++] = (uint16_t)link;
            } else if (chains) {
                net->next_of_transition[link] = transition->tests;
                transition->tests = (uint16_t)link;
            }
            continue;
        }
        unsigned kind = (uint8_t)whole;
        if (kind - 1 > 6 || (whole & fixed_bits[kind]) != kind)
            return refuse(fault_of(record), link - 1);
        if (kind == 1) {
            if (net->flag[KNOWN][first])
                return refuse(4, link - 1);
            net->flag[KNOWN][first] = 1;
        } else if (kind == 2) {
            uint32_t a = load16(record + 4), b = load16(record + 6);
            uint64_t member = bit(first);
            switch (sort_of(record)) {
            case 0:
                if (a | b)
                    return refuse(3, link - 1);
                break;
            case 1:
                if (a == 0 || a > b || b > 65534)
                    return refuse(3, link - 1);
                timed |= member;
                break;
            case 2:
                if (a == 0 || b != 0)
                    return refuse(3, link - 1);
                b = FOR_EVER;
                timed |= member;
                break;
            default:
                return refuse(2, link - 1);
            }
            if (declared & member)
                return refuse(4, link - 1);
            declared |= member;
            net->a[first] = a;
            net->b[first] = b;
        } else if (kind == 6) {
            if (net->place[first].actions & bit(second))
                return refuse(4, link - 1);
            net->place[first].actions |= bit(second);
            net->flag[CARRIER][first] = 1;
        } else {
            struct transition *transition = &net->transition[first];
            named |= bit(first);
            if (kind == 7) {
                if (transition->functions & bit(second))
                    return refuse(4, link - 1);
                transition->functions |= bit(second);
            } else if (kind == 4) {
                if (transition->looks & bit(second))
                    return refuse(4, link - 1);
                transition->looks |= bit(second);
                transition->wants |= (uint64_t)!sort_of(record) << second;
                conditional |= bit(first);
            } else {
                if (transition->below & bit(second))
                    return refuse(4, link - 1);
                transition->below |= bit(second);
                higher |= bit(first);
                named |= bit(second);
            }
        }
    }
    net->declared = declared;
    net->timed = timed;
    net->conditional = conditional;
    net->higher = higher;
    net->inhibitors = (uint16_t)inhibitors;
    return base_whole(net, named | arced, arced, sharing);
}

base_answer base_read(struct net *net, const uint8_t *table, size_t table_len, int chains)
{
    if (table_len % 8 != 0 || table_len > 8 * RECORDS)
        return refuse(1, 0);
    net->table = table;
    net->records = table_len / 8;
    return chains ? read_records(net, 1) : read_records(net, 0);
}
