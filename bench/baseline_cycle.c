/* The baseline's cycles: falling edge, rising edge, and the image at the end. */
#include "baseline_course.h"

/* Copies one chain of arcs into steps. */
static struct step *copy_chain(const struct net *net, unsigned link, struct step *to)
{
    for (; link; link = net->next_of_transition[link]) {
        const uint8_t *arc = arc_at(net->table, link);
        *to++ = (struct step){ (uint16_t)first_of(arc), (uint16_t)weight_of(arc) };
    }
    return to;
}

/* Lays out the steps of the transitions in `set`. */
static void lay_out_steps(struct course *course, uint64_t set)
{
    const struct net *net = course->net;
    course->ready |= set;
    for (; set; set &= set - 1) {
        size_t t = lowest(set);
        struct step *step = course->free_step;
        course->deed[t].takes = step;
        course->deed[t].tests = step = copy_chain(net, net->transition[t].takes, step);
        course->deed[t].puts = step = copy_chain(net, net->transition[t].tests, step);
        course->deed[t].end = step = copy_chain(net, net->transition[t].puts, step);
        course->free_step = step;
        course->deed[t].functions = net->transition[t].functions;
        course->deed[t].rivals = net->transition[t].rivals;
    }
}

/* What all places together hold back and make active. */
static inline two_sets gather(const struct course *course)
{
    two_sets effect = { 0, 0 };
    const two_sets *at = course->effect, *end = at + course->stride;
#pragma GCC unroll 8
    for (; at != end; at++)
        effect |= *at;
    return effect;
}

/* Of the transitions in `set`, those whose conditions the word does not meet. */
static inline uint64_t stopped_by(const struct course *course, uint64_t word, uint64_t set)
{
    uint64_t stopped = 0;
    if (course->quads) {
        for (size_t q = 0; q < course->quads; q++, word >>= 4)
            stopped |= course->unwilling[q][word & 15];
        return stopped;
    }
    for (set &= course->net->conditional; set; set &= set - 1) {
        const struct transition *row = &course->net->transition[lowest(set)];
        if ((word & row->looks) != row->wants)
            stopped |= set & -set;
    }
    return stopped;
}

/* Falling edge for the timed transitions that begin to count: their old days
   leave the calendar, the new ones go in. Inlined, it would cost the cycle
   registers it has better use for. */
static __attribute__((noinline)) void begin_counting(struct course *course, uint64_t starting, size_t cycle)
{
    uint64_t *calendar = course->calendar;
    for (; starting; starting &= starting - 1) {
        size_t t = lowest(starting);
        uint64_t member = bit((unsigned)t);
        calendar[course->opens[t]] ^= member;
        calendar[course->closes[t]] ^= member;
        uint32_t opens = (uint32_t)cycle + course->lead[t], closes = (uint32_t)cycle + course->span[t];
        calendar[opens] ^= member;
        calendar[closes] ^= member;
        course->opens[t] = (uint16_t)opens;
        course->closes[t] = (uint16_t)closes;
        course->since_before[t] = course->since[t];
        course->since[t] = (int32_t)cycle;
    }
}

/* Takes the basic weights of a fired transition, adds to `lacking` who lacked
   tokens there before, and to the moved places those left below their level. */
static inline uint8_t *withdraw(struct course *course, const struct deed *deed, uint64_t *lacking,
                                uint8_t *moved)
{
    for (const struct step *step = deed->takes, *end = deed->tests; step != end; step++) {
        size_t p = step->place;
        const struct level *level = course->level[p];
        uint32_t left = course->tokens[p] - step->weight;
        course->tokens[p] = left;
        *lacking |= level->lacking;
        if (left < level->from)
            *moved++ = (uint8_t)p;
    }
    return moved;
}

/* Puts the post weights of a fired transition; adds the places raised above their level. */
static inline uint8_t *put(struct course *course, const struct deed *deed, uint8_t *moved)
{
    for (const struct step *step = deed->puts, *end = deed->end; step != end; step++) {
        size_t p = step->place;
        const struct level *level = course->level[p];
        uint32_t now = course->tokens[p] + step->weight;
        course->tokens[p] = now;
        if (now >= level->to)
            *moved++ = (uint8_t)p;
    }
    return moved;
}

/* The residual of a place for t: what it holds, and what those of `fired` that
   do not stand above t have taken. */
static uint32_t residual(const struct course *course, size_t p, size_t t, uint64_t fired)
{
    const struct net *net = course->net;
    uint32_t tokens = course->tokens[p];
    uint64_t others = fired & ~net->transition[t].above & net->place[p].basic;
    for (unsigned link = (unsigned)net->place[p].arcs; others && link; link = net->next_of_place[link]) {
        const uint8_t *arc = arc_at(net->table, link);
        if (others & bit(second_of(arc)))
            tokens += weight_of(arc);
    }
    return tokens;
}

/* Does the residual still enable t? The tokens have lost the basic weights of
   all of `fired`. On a basic arc that is the residual itself: whoever took
   there stands above t. For a test arc it is a lower bound. */
static inline int residual_enables(const struct course *course, size_t t, uint64_t fired)
{
    const struct deed *deed = &course->deed[t];
    const struct step *step = deed->takes, *end = deed->tests;
    for (; step != end; step++)
        if (course->tokens[step->place] < step->weight)
            return 0;
    for (end = deed->puts; step != end; step++)
        if (course->tokens[step->place] < step->weight
            && residual(course, step->place, t, fired) < step->weight)
            return 0;
    return 1;
}

/* Who lacks tokens at the places left below their level, after taking and before putting. */
static inline uint64_t lacking_between(const struct course *course, const uint8_t *end)
{
    uint64_t lacking = 0, little;
    const uint8_t *moved = course->moved;
    if (course->count == 1) {
        for (; moved != end; moved++) {
            held_back(course->net, *moved, course->tokens[*moved], &little);
            lacking |= little;
        }
    } else {
        for (; moved != end; moved++) {
            const struct level *level = course->level[*moved];
            do
                level--;
            while (course->tokens[*moved] < level->from);
            lacking |= level->lacking;
        }
    }
    return lacking;
}

/* The lowest overfull place among those that left their level. */
static unsigned lowest_full(const struct course *course, const uint8_t *end)
{
    unsigned full = PLACES;
    for (const uint8_t *moved = course->moved; moved != end; moved++)
        if (course->tokens[*moved] > FULL && *moved < full)
            full = *moved;
    return full;
}

/* The places that left their level find their new one. Is one overfull? */
static inline int find_levels(struct course *course, const uint8_t *end)
{
    uint32_t most = 0;
    const uint8_t *moved = course->moved;
    if (course->count == 1) {
        for (; moved != end; moved++)
            most |= course->tokens[*moved];
    } else {
        for (; moved != end; moved++) {
            size_t p = *moved;
            uint32_t tokens = course->tokens[p];
            const struct level *level = level_of(course->level[p], tokens);
            most |= tokens;
            course->level[p] = level;
            course->effect[p] = level->effect;
        }
    }
    return most > FULL;
}

/* Gives back what a refused cycle took and takes what it put. */
static void undo(struct course *course, uint64_t fired)
{
    const struct net *net = course->net;
    for (; fired; fired &= fired - 1) {
        size_t t = lowest(fired), link;
        for (link = net->transition[t].takes; link; link = net->next_of_transition[link])
            course->tokens[first_of(arc_at(net->table, link))] += weight_of(arc_at(net->table, link));
        for (link = net->transition[t].puts; link; link = net->next_of_transition[link])
            course->tokens[first_of(arc_at(net->table, link))] -= weight_of(arc_at(net->table, link));
    }
}

/* Writes the image after `cycles` finished cycles, with the transitions that
   were enabled in the last one and those with a reset order. */
static void finish(const struct course *course, uint8_t *image, size_t cycles,
                   uint64_t running, uint64_t reset)
{
    const struct net *net = course->net;
    memcpy(image, course->tokens, sizeof course->tokens);
    for (uint64_t set = net->timed; set; set &= set - 1) {
        size_t t = lowest(set);
        uint32_t counter = 0, ceiling = net->b[t] == FOR_EVER ? net->a[t] : net->b[t] + 1;
        if (running & bit(t)) {
            counter = (uint32_t)((int32_t)cycles - course->since[t]);
            counter = counter < ceiling ? counter : ceiling;
        }
        store32(image + 4 * (PLACES + t), counter | (uint32_t)(reset >> t & 1) << 16);
    }
}

base_answer base_cycles(struct net *net, uint8_t *image, const uint8_t *words, size_t count,
                        uint8_t *report)
{
    struct course course;
    uint8_t path[TRANSITIONS];        /* whose rivals are decided first */
    base_begin(&course, net, image, count);
    const uint64_t timed = net->timed, ranked = course.ranked;
    uint64_t running = course.enabled, reset = course.reset, window = course.window;
    for (size_t cycle = 0; cycle < count; cycle++, report += 24) {
        two_sets effect = gather(&course);
        uint64_t enabled = net->declared & ~effect[0];
        uint64_t starting = timed & enabled & (~running | reset);
        if (timed) {
            begin_counting(&course, starting, cycle);
            window = (window & ~starting) ^ course.calendar[cycle];
        }
        uint64_t firable = enabled & (window | ~timed);
        firable &= ~stopped_by(&course, load64(words + 8 * cycle), firable);
        if (firable & ~course.ready)
            lay_out_steps(&course, firable & ~course.ready);

        uint64_t fired = firable & ~ranked, undecided = firable & ranked;
        uint64_t lacking = 0, functions = 0;
        uint8_t *moved = course.moved;
        for (uint64_t set = fired; set; set &= set - 1)
            moved = withdraw(&course, &course.deed[lowest(set)], &lacking, moved);
        while (undecided) {
            size_t t = lowest(undecided), depth = 0;
            for (;;) {
                const struct deed *deed = &course.deed[t];
                uint64_t rivals = deed->rivals;
                if (rivals & undecided) {
                    path[depth++] = (uint8_t)t;
                    t = lowest(rivals & undecided);
                    continue;
                }
                undecided &= ~bit(t);
                if (!(rivals & fired) || residual_enables(&course, t, fired)) {
                    fired |= bit(t);
                    moved = withdraw(&course, deed, &lacking, moved);
                }
                if (depth == 0)
                    break;
                t = path[--depth];
            }
        }
        if (timed)
            lacking |= lacking_between(&course, moved);
        for (uint64_t set = fired; set; set &= set - 1) {
            const struct deed *deed = &course.deed[lowest(set)];
            functions |= deed->functions;
            moved = put(&course, deed, moved);
        }
        if (find_levels(&course, moved)) {
            unsigned full = lowest_full(&course, moved);
            undo(&course, fired);
            for (; starting; starting &= starting - 1)
                course.since[lowest(starting)] = course.since_before[lowest(starting)];
            if (cycle)
                finish(&course, image, cycle, running, reset);
            return (base_answer){ 13, full, cycle };
        }
        running = enabled;
        reset = timed & (fired | lacking);
        store64(report, fired);
        store64(report + 8, effect[1]);
        store64(report + 16, functions);
    }
    finish(&course, image, count, running, reset);
    return (base_answer){ 0, 0, count };
}
