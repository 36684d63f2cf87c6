/* Two engines side by side: the library and the plain engine get the same
   chance cases, and must answer the same and leave the same bytes.

   harness [CASES [SEED [FIRST]]] [no-minimum]
   Exit 1 at the first difference, or if the cases met too little. */
#include "compare.h"
#include "day.h"
#include "images.h"
#include "spoils.h"
#include "tally.h"

#include <inttypes.h>
#include <stdio.h>
#include <stdlib.h>
#include <string.h>

enum { LONG_EVERY = 250, LARGE_EVERY = 400, DAY_EVERY = 3 };

/* ---- Kinds of case ---- */

/* Nets up to LARGE are accepted by the way they were made. */
enum kind { SOUND, BRIMFUL, LADDER, LONG, LARGE, LOOSE, TANGLED, SPOILT,
            DAMAGED, CHANCE_BYTES, CHANCE_RECORDS, ONE_SIDED, KINDS };

static const char *const kind_names[KINDS] = {
    "sound", "brimful", "ladder", "long", "large", "loose", "tangled", "spoilt",
    "damaged", "chance bytes", "chance records", "one-sided"
};

static enum kind kind_at_hand;
static uint64_t kinds_made[KINDS];

/* ---- Making a case ---- */

/* Long and large cases come in turn, all others by chance. */
static enum kind pick_kind(dice *d)
{
    const unsigned percent = below(d, 100);
    if (at_hand.number % LONG_EVERY == 0)
        return LONG;
    if (at_hand.number % LARGE_EVERY == 1)
        return LARGE;
    return percent < 46 ? SOUND : percent < 52 ? BRIMFUL
         : percent < 56 ? LADDER : percent < 66 ? LOOSE : percent < 70 ? TANGLED
         : percent < 88 ? SPOILT : percent < 93 ? DAMAGED
         : percent < 95 ? CHANCE_BYTES : percent < 98 ? CHANCE_RECORDS
         : ONE_SIDED;
}

/* The table of a case, after its kind. */
static void make_table(dice *d, made_net *n)
{
    const enum kind kind = kind_at_hand;
    manner how = { .most_places = 6, .most_transitions = 5 };
    how.calm = kind == LONG;
    how.brimful = kind == BRIMFUL;
    how.loose = kind == LOOSE;
    how.tangled = kind == TANGLED;
    how.ladder = kind == LADDER;
    if (kind == LOOSE)
        how.most_transitions = 8;
    if (kind == LADDER)
        how.most_places = how.most_transitions = 12;
    if (one_in(d, 20)) {
        how.most_places = 20;
        how.most_transitions = kind == LONG ? 8 : 20;
    }
    if (kind == LARGE) {
        how.most_places = PLACES;
        how.most_transitions = TRANSITIONS;
        how.records = one_in(d, 8) ? MOST_RECORDS : below(d, 700);
    }
    make_net(d, how, n);
    if (kind == SPOILT)
        spoil_table(d, n);
    if (kind == DAMAGED)
        damage_table(d, n);
    if (kind == CHANCE_BYTES)
        chance_bytes(d, n);
    if (kind == CHANCE_RECORDS)
        chance_records(d, n);
    if (kind == ONE_SIDED)
        one_sided(d, n);
}

/* Any length but 768, near it more often than not. */
static size_t wrong_image_length(dice *d)
{
    static const size_t lengths[6] = { 0, 764, 767, 769, 772, 1536 };
    const size_t any = below(d, 1000);
    if (one_in(d, 2) || any == IMAGE_BYTES)
        return lengths[below(d, 6)];
    return any;
}

/* The image for the run: the one that start wrote, or one by chance that
   fits, or does not, or is not even an image. */
static void choose_image(dice *d, const made_net *n, bool started)
{
    uint8_t bytes[IMAGE_BYTES];
    const unsigned percent = below(d, 100);
    if (started && (percent >= 55 || kind_at_hand == LONG)) {
        lend_on(&image);
    } else if (percent < 3) {
        lend(d, &image, NULL, wrong_image_length(d));
    } else if (percent < 4) {
        lend(d, &image, NULL, IMAGE_BYTES);
    } else {
        fitting_image(d, n, kind_at_hand == BRIMFUL, bytes);
        if (percent < 12)
            spoil_image(d, n, bytes);
        lend(d, &image, bytes, IMAGE_BYTES);
    }
}

/* Conditions mostly false, mostly true, or either; one word for all cycles
   now and then. */
static void fill_words(dice *d, uint8_t *bytes, size_t length)
{
    const unsigned way = below(d, 6);
    uint64_t word = roll(d);
    for (size_t i = 0; i < length; i++) {
        if (i % WORD_BYTES == 0 && way != 0)
            word = way == 1 ? 0 : way == 2 ? ~(uint64_t)0
                 : way == 3 ? roll(d) & roll(d)
                 : way == 4 ? roll(d) | roll(d) : roll(d);
        bytes[i] = (uint8_t)(word >> 8 * (i % WORD_BYTES));
    }
}

/* Words: few of them, but in long cases each number from 0 to 512 in turn. */
static void choose_words(dice *d, bool first_run)
{
    static const size_t too_long[4] = { 4097, 4103, 4104, 4200 };
    uint8_t bytes[WORD_BYTES * MOST_WORDS + 200];
    size_t length = WORD_BYTES * (one_in(d, 2) ? below(d, 9) : below(d, 4));
    if (kind_at_hand == LONG && first_run)
        length = WORD_BYTES * (at_hand.number / LONG_EVERY % (MOST_WORDS + 1));
    else if (one_in(d, 25))
        length = one_in(d, 8) ? too_long[below(d, 4)]
                              : length + from_to(d, 1, 7);
    fill_words(d, bytes, length);
    lend(d, &words, bytes, length);
}

/* Room for the report: just enough, more, or too little. */
static void choose_report(dice *d)
{
    size_t length = words.length / WORD_BYTES * CYCLE_BYTES;
    const unsigned percent = below(d, 100);
    if (percent < 40)
        length += below(d, 100);
    else if (percent < 47 && length != 0 && kind_at_hand != LONG)
        length = one_in(d, 2) ? length - 1 : below(d, (unsigned)length);
    lend(d, &report, NULL, length);
}

/* One case: a table, checked, started, and run up to three times; then, in one
   of a few, a day. */
static void one_case(void)
{
    static made_net n;
    dice d = dice_for(at_hand.seed, at_hand.number);
    kind_at_hand = pick_kind(&d);
    kinds_made[kind_at_hand] += 1;
    at_hand.kind = kind_names[kind_at_hand];
    at_hand.made_sound = kind_at_hand <= LARGE;
    make_table(&d, &n);
    lend(&d, &table, n.table, n.length);
    compare_check();
    const bool right_length = kind_at_hand == LONG || !one_in(&d, 16);
    lend(&d, &image, NULL, right_length ? IMAGE_BYTES
                                        : wrong_image_length(&d));
    const bool started = compare_start() == 0;
    choose_image(&d, &n, started);
    plain_answer ran = { 0, 0, 0 };
    for (unsigned run = 0; run < 3; run++) {
        if (run != 0)
            lend_on(&image);
        choose_words(&d, run == 0);
        choose_report(&d);
        ran = compare_run();
        compare_lookups(&d);
        if (ran.number >= 1 && ran.number <= 10)
            break;
        if (!one_in(&d, 3))
            break;
    }
    if (one_in(&d, DAY_EVERY))
        one_day(&d, &n, ran);
}

/* ---- The end ---- */

/* What the cases met. */
static void print_met(uint64_t cases)
{
    printf("cases %" PRIu64 " seed %" PRIu64 ", no difference\nkinds:", cases,
           at_hand.seed);
    for (unsigned k = 0; k < KINDS; k++)
        printf("%s %s %" PRIu64, k == 0 ? "" : ",", kind_names[k],
               kinds_made[k]);
    printf("\n");
    print_tally();
}

int main(int argc, char **argv)
{
    uint64_t numbers[3] = { 200000, 20250101, 0 }; /* cases, seed, first */
    unsigned given = 0;
    bool minimum = true;
    for (int i = 1; i < argc; i++) {
        if (strcmp(argv[i], "no-minimum") == 0)
            minimum = false;
        else if (given < 3)
            numbers[given++] = strtoull(argv[i], NULL, 10);
    }
    at_hand.seed = numbers[1];
    plain_covered = &met.cycles;
    watch_for_breaks();
    for (uint64_t i = 0; i < numbers[0]; i++) {
        at_hand.number = numbers[2] + i;
        one_case();
    }
    print_met(numbers[0]);
    if (minimum && !met_enough()) {
        printf("FAILED\n");
        return 1;
    }
    return 0;
}
