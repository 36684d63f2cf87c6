/* The baseline's questions about a table as a whole: answers 5 to 9.

   Each first asks about whole sets, which an accepted table passes; only a
   table that fails is searched for the exact place. */
#include "baseline_net.h"

/* 5 in record order, once some name is known to be undeclared. */
static base_answer first_unknown(const struct net *net)
{
    for (size_t i = 0; i < net->records; i++) {
        const uint8_t *record = net->table + 8 * i;
        unsigned kind = record[0], first = first_of(record), second = second_of(record);
        int lost = 0;
        if (kind == 3 || kind == 6)
            lost |= !net->flag[KNOWN][first];
        if (kind == 4 || kind == 5 || kind == 7)
            lost |= !(net->declared & bit(first));
        if (kind == 3 || kind == 5)
            lost |= !(net->declared & bit(second));
        if (lost)
            return refuse(5, i);
    }
    return refuse(0, 0);
}

/* 5, 6 and 7, from the sets of declared, named and touched. */
static base_answer settle_names(const struct net *net, uint64_t named, uint64_t arced)
{
    uint64_t lost = named & ~net->declared, bare = 0, some = 0;
    for (size_t p = 0; p < net->places; p += 8) {
        uint64_t known = load64(net->flag[KNOWN] + p), touched = load64(net->flag[TOUCHED] + p);
        lost |= (touched | load64(net->flag[CARRIER] + p)) & ~known;
        bare |= known & ~touched;
        some |= known;
    }
    if (lost)
        return first_unknown(net);
    if (!some)
        return refuse(6, 0);
    if (!net->declared)
        return refuse(6, 1);
    for (size_t p = 0; bare && p < net->places; p++)
        if (net->flag[KNOWN][p] && !net->flag[TOUCHED][p])
            return refuse(7, p);
    if (net->declared & ~arced)
        return refuse(7, PLACES + lowest(net->declared & ~arced));
    return refuse(0, 0);
}

/* 8, once there is some circle: closes the rows as they stand. */
static base_answer lowest_in_circle(struct net *net)
{
    struct transition *row = net->transition;
    for (unsigned k = 0; k < net->transitions; k++)
        for (unsigned i = 0; i < net->transitions; i++)
            if (row[i].below & bit(k))
                row[i].below |= row[k].below;
    unsigned i = 0;
    while (!(row[i].below & bit(i)))
        i++;
    return refuse(8, i);
}

/* Closes the priority: goes down from each transition, closes a row when all
   rows it names are closed, and hands the pairs that mattered upwards after. */
static base_answer close_priority(struct net *net)
{
    struct transition *row = net->transition;
    uint8_t path[TRANSITIONS], pair[RECORDS][2];
    size_t pairs = 0;
    uint64_t open = net->higher, on_path = 0;
    while (open) {
        size_t depth = 0;
        path[0] = (uint8_t)lowest(open);
        on_path = bit(path[0]);
        for (;;) {
            unsigned t = path[depth];
            uint64_t down = row[t].below & open;
            if (down & on_path)
                return lowest_in_circle(net);
            if (down) {
                size_t u = lowest(down);
                path[++depth] = (uint8_t)u;
                on_path |= bit(u);
                continue;
            }
            uint64_t closed = row[t].below, left = closed;
            while (left) {
                size_t u = lowest(left);
                closed |= row[u].below;
                left &= ~(row[u].below | bit(u));
                pair[pairs][0] = (uint8_t)t;
                pair[pairs++][1] = (uint8_t)u;
            }
            row[t].below = closed;
            open &= ~bit(t);
            on_path &= ~bit(t);
            if (depth-- == 0)
                break;
        }
    }
    while (pairs-- > 0) {
        unsigned t = pair[pairs][0];
        row[pair[pairs][1]].above |= row[t].above | bit(t);
    }
    return refuse(0, 0);
}

/* Takes out of `unsettled` the pairs that an inhibitor arc settles. */
static void settle_by_weight(const struct net *net, uint64_t *unsettled, uint64_t concerned)
{
    for (unsigned k = 0; k < net->inhibitors; k++) {
        const uint8_t *arc = arc_at(net->table, net->inhibitor[k]);
        unsigned t = second_of(arc);
        if (!(concerned & bit(t)))
            continue;
        unsigned link = (unsigned)net->place[first_of(arc)].arcs;
        for (; link; link = net->next_of_place[link]) {
            const uint8_t *other = arc_at(net->table, link);
            unsigned u = second_of(other);
            if (sort_of(other) != INHIBITOR && weight_of(other) == weight_of(arc)
                && (concerned & bit(u))) {
                unsettled[t] &= ~bit(u);
                unsettled[u] &= ~bit(t);
            }
        }
    }
}

/* 9: priorities first, as whole rows; then conditions; weights only for what is left. */
static base_answer settle_conflicts(const struct net *net, uint64_t sharing)
{
    const struct transition *row = net->transition;
    uint64_t unsettled[TRANSITIONS], later = 0, concerned = 0;
    for (; sharing; sharing &= sharing - 1) {
        size_t t = lowest(sharing);
        uint64_t left = row[t].shares & ~(row[t].below | row[t].above), kept = 0;
        for (; left; left &= left - 1) {
            size_t u = lowest(left);
            if (!(row[t].looks & row[u].looks & (row[t].wants ^ row[u].wants)))
                kept |= left & -left;
        }
        if (kept) {
            later |= bit(t);
            concerned |= bit(t) | kept;
            unsettled[t] = kept;
        }
    }
    if (!later)
        return refuse(0, 0);
    for (uint64_t set = concerned & ~later; set; set &= set - 1)
        unsettled[lowest(set)] = 0;
    settle_by_weight(net, unsettled, concerned);
    size_t least = SIZE_MAX;
    for (; later; later &= later - 1) {
        size_t t = lowest(later);
        for (uint64_t left = unsettled[t]; left; left &= left - 1) {
            size_t u = lowest(left);
            size_t at = t < u ? 64 * (size_t)t + u : 64 * (size_t)u + t;
            least = at < least ? at : least;
        }
    }
    return least == SIZE_MAX ? refuse(0, 0) : refuse(9, least);
}

base_answer base_whole(struct net *net, uint64_t named, uint64_t arced, uint64_t sharing)
{
    base_answer answer = settle_names(net, named, arced);
    if (answer.number == 0 && net->higher)
        answer = close_priority(net);
    if (answer.number == 0 && sharing)
        answer = settle_conflicts(net, sharing);
    return answer;
}
