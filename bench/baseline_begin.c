/* The baseline before its first cycle: what the table and the image say, put
   into the form in which a cycle is cheap. */
#include "baseline_course.h"

/* Outside every level: for a call with one word levels are not laid out. */
static const struct level nowhere = { UINT32_MAX, 0, 0, { 0, 0 } };

/* The levels of a place that nobody looks at, and above them the overfull one. */
static const struct level silent[2] = {
    { 0, FULL + 1, 0, { 0, 0 } }, { FULL + 1, UINT32_MAX, 0, { 0, 0 } }
};

/* Lays out the levels of a place: its weights in rising order, then what each
   holds back. The topmost one is for an overfull place. */
static const struct level *lay_out(struct course *course, size_t p)
{
    const struct net *net = course->net;
    struct level *level = course->free_level;
    size_t top = 0;
    if (!(net->place[p].arcs | net->place[p].actions))
        return silent;
    level[0] = (struct level){ 0, 0, 0, { 0, 0 } };
    if (net->place[p].actions)
        level[++top] = (struct level){ 1, 0, 0, { 0, 0 } };
    for (unsigned link = (unsigned)net->place[p].arcs; link; link = net->next_of_place[link]) {
        const uint8_t *arc = arc_at(net->table, link);
        uint64_t member = bit(second_of(arc));
        uint32_t weight = weight_of(arc);
        size_t k = top;
        while (level[k].from > weight)
            k--;
        if (level[k].from != weight) {
            for (size_t j = top++; j > k; j--)
                level[j + 1] = level[j];
            level[++k] = (struct level){ weight, 0, 0, { 0, 0 } };
        }
        if (sort_of(arc) == INHIBITOR)
            level[k].effect[0] |= member;
        else
            level[k].lacking |= member;
    }
    uint64_t lacking = 0, much = 0;
    uint32_t to = FULL + 1;
    for (size_t k = top + 1; k-- > 0;) {
        uint64_t own = level[k].lacking;
        level[k].to = to;
        to = level[k].from;
        level[k].lacking = lacking;
        lacking |= own;
    }
    for (size_t k = 0; k <= top; k++) {
        much |= level[k].effect[0];
        level[k].effect = (two_sets){ much | level[k].lacking, k ? net->place[p].actions : 0 };
    }
    level[top + 1] = silent[1];
    course->free_level = level + top + 2;
    return level;
}

/* Takes the marking from the image, and what it means for the transitions. */
static void begin_places(struct course *course, const uint8_t *image)
{
    const struct net *net = course->net;
    size_t p = 0;
    memcpy(course->tokens, image, sizeof course->tokens);
    course->free_level = course->levels;
    if (course->count == 1) {
        for (; p < net->places; p++) {
            uint64_t lacking, back = held_back(net, p, course->tokens[p], &lacking);
            course->effect[p] = (two_sets){ back, course->tokens[p] ? net->place[p].actions : 0 };
            course->level[p] = &nowhere;
        }
    } else {
        for (; p < net->places; p++) {
            course->level[p] = level_of(lay_out(course, p), course->tokens[p]);
            course->effect[p] = course->level[p]->effect;
        }
    }
    for (; p % STRIDE != 0; p++)
        course->effect[p] = (two_sets){ 0, 0 };
    course->stride = p;
}

/* Takes the counters and reset orders from the image. */
static void begin_timed(struct course *course, const uint8_t *image)
{
    const struct net *net = course->net;
    const uint32_t count = (uint32_t)course->count;
    memset(course->calendar, 0, (2 * course->count + 1) * sizeof course->calendar[0]);
    for (uint64_t set = net->timed; set; set &= set - 1) {
        size_t t = lowest(set);
        uint32_t record = load32(image + 4 * (PLACES + t)), lead = net->a[t] - 1, span = net->b[t];
        course->lead[t] = lead < count ? lead : count;
        course->span[t] = span < count ? span : count;
        course->since[t] = 0;
        course->opens[t] = course->closes[t] = (uint16_t)count;
        if (record == 0)
            continue;
        int32_t counter = (int32_t)(record & 0xffff);
        int32_t opens = (int32_t)lead - counter, closes = (int32_t)span - counter;
        course->reset |= (uint64_t)(record >> 16) << t;
        course->since[t] = -counter;
        if (counter)
            course->enabled |= bit(t);
        course->window |= (uint64_t)((opens < 0) ^ (closes < 0)) << t;
        if (opens >= 0 && opens < (int32_t)count)
            course->opens[t] = (uint16_t)opens;
        if (closes >= 0 && closes < (int32_t)count)
            course->closes[t] = (uint16_t)closes;
        course->calendar[course->opens[t]] ^= bit(t);
        course->calendar[course->closes[t]] ^= bit(t);
    }
}

/* Tabulates the conditions by fours: each value of four bits, and whom it stops. */
static void tabulate_conditions(struct course *course)
{
    const struct net *net = course->net;
    uint64_t stops[TRANSITIONS][2], used = 0;
    for (uint64_t set = net->conditional; set; set &= set - 1)
        used |= net->transition[lowest(set)].looks;
    course->quads = (67 - (size_t)__builtin_clzll(used)) / 4;
    memset(stops, 0, course->quads * 4 * sizeof stops[0]);
    for (uint64_t set = net->conditional; set; set &= set - 1) {
        size_t t = lowest(set);
        for (uint64_t looks = net->transition[t].looks; looks; looks &= looks - 1) {
            size_t c = lowest(looks);
            stops[c][~net->transition[t].wants >> c & 1] |= bit(t);
        }
    }
    for (size_t q = 0; q < course->quads; q++) {
        uint64_t *unwilling = course->unwilling[q];
        unwilling[0] = 0;
        for (unsigned k = 0; k < 4; k++)
            for (unsigned value = 0; value < 1u << k; value++) {
                unwilling[value + (1u << k)] = unwilling[value] | stops[4 * q + k][1];
                unwilling[value] |= stops[4 * q + k][0];
            }
    }
}

/* For each transition, those above it that can take from a place it looks at. */
static void find_rivals(struct course *course)
{
    struct net *net = course->net;
    struct transition *row = net->transition;
    for (uint64_t set = net->declared; set; set &= set - 1) {
        size_t t = lowest(set);
        uint64_t above = row[t].above;
        if (above) {
            uint64_t near = row[t].shares;
            for (unsigned link = row[t].tests; link; link = net->next_of_transition[link])
                near |= net->place[first_of(arc_at(net->table, link))].basic;
            row[t].rivals |= near & above;
            if (row[t].rivals)
                course->ranked |= bit(t);
        }
        for (uint64_t lower = row[t].shares & row[t].below; lower; lower &= lower - 1) {
            size_t u = lowest(lower);
            row[u].rivals |= bit(t);
            course->ranked |= bit(u);
        }
    }
}

void base_begin(struct course *course, struct net *net, const uint8_t *image, size_t count)
{
    course->net = net;
    course->count = count;
    course->reset = course->window = course->enabled = course->ranked = course->ready = 0;
    course->quads = 0;
    course->free_step = course->steps;
    begin_places(course, image);
    if (net->timed)
        begin_timed(course, image);
    if (net->conditional && count >= MANY_WORDS)
        tabulate_conditions(course);
    if (net->higher)
        find_rivals(course);
}
