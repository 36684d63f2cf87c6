/* A caller that knows the header alone: net N of document 01, word by word, then a list of words at once, then what a wrong input is answered; and
   the count of a day, right and wrong. It is C11 and C++ alike. */
#include "moezelkring.h"

#include <stdio.h>
#include <string.h>

/* Net N: kind, byte 1, byte 2, sort, bytes 4-5, bytes 6-7. */
static const uint8_t net_n[] = {
    1, 0, 0, 0, 1, 0, 0, 0, /* places 0, 1 and 2 hold a token */
    1, 1, 0, 0, 1, 0, 0, 0,
    1, 2, 0, 0, 1, 0, 0, 0,
    1, 3, 0, 0, 0, 0, 0, 0,
    1, 4, 0, 0, 0, 0, 0, 0,
    2, 0, 0, 0, 0, 0, 0, 0,
    2, 1, 0, 0, 0, 0, 0, 0,
    2, 2, 0, 1, 2, 0, 3, 0, /* transition 2 has the interval from 2 to 3 */
    2, 3, 0, 0, 0, 0, 0, 0,
    3, 0, 0, 0, 1, 0, 0, 0, /* transition 0 takes from 0 and 2, puts to 3 */
    3, 2, 0, 0, 1, 0, 0, 0,
    3, 3, 0, 3, 1, 0, 0, 0,
    3, 1, 1, 0, 1, 0, 0, 0, /* transition 1 takes from 1 and 2, puts to 4 */
    3, 2, 1, 0, 1, 0, 0, 0,
    3, 4, 1, 3, 1, 0, 0, 0,
    3, 3, 2, 0, 1, 0, 0, 0, /* transition 2 takes from 3, puts to 2 */
    3, 2, 2, 3, 1, 0, 0, 0,
    4, 2, 0, 0, 0, 0, 0, 0, /* and wants condition 0, and carries function 0 */
    7, 2, 0, 0, 0, 0, 0, 0,
    3, 4, 3, 0, 1, 0, 0, 0, /* transition 3 takes from 4, puts to 2 */
    3, 2, 3, 3, 1, 0, 0, 0,
    6, 3, 0, 0, 0, 0, 0, 0, /* place 3 carries action 0 */
    5, 0, 1, 0, 0, 0, 0, 0  /* transition 0 stands above 1: the last record */
};

static void show(const char *what, mk_answer a)
{
    printf("%s: number %lu, at %lu, cycles %lu\n", what, (unsigned long)a.number, (unsigned long)a.at, (unsigned long)a.cycles);
}

/* The first four transitions one by one, the others together. */
static void show_summary(const char *what, mk_summary s)
{
    unsigned long others = 0;
    int i;
    for (i = 5; i < MK_SUMMARY_NUMBERS; i++)
        others += s.counts[i];
    printf("%s: number %lu, at %lu, cycles %lu, fired %lu %lu %lu %lu, others %lu\n", what, (unsigned long)s.number, (unsigned long)s.at,
           (unsigned long)s.counts[0], (unsigned long)s.counts[1], (unsigned long)s.counts[2], (unsigned long)s.counts[3],
           (unsigned long)s.counts[4], others);
}

/* The first five places one by one, and how many of the others changed. */
static void show_change(const char *what, mk_change c)
{
    int p, others = 0;
    for (p = 5; p < MK_CHANGE_NUMBERS; p++)
        others += c.change[p] != 0;
    printf("%s: number %lu, at %lu, places %ld %ld %ld %ld %ld, others changed %d\n", what, (unsigned long)c.number, (unsigned long)c.at,
           (long)c.change[0], (long)c.change[1], (long)c.change[2], (long)c.change[3], (long)c.change[4], others);
}

/* The tokens that an image has on a place. */
static long tokens(const uint8_t *image, int place)
{
    return image[4 * place] + 256L * image[4 * place + 1];
}

/* Net 3 of document 01, five cycles, beside the seven cycles of net 4: counted, what they moved, and added. */
static void day(mk_summary seven)
{
    /* Place 0 has room for one token more, and transition 0 puts one there in every cycle. */
    static const uint8_t filling[] = {1, 0, 0, 0, 254, 255, 0, 0, 2, 0, 0, 0, 0, 0, 0, 0, 3, 0, 0, 3, 1, 0, 0, 0};
    uint8_t start[MK_IMAGE_BYTES], image[MK_IMAGE_BYTES], words[5 * MK_WORD_BYTES], report[5 * MK_RECORD_BYTES];
    mk_summary five, sum;
    mk_change moved;
    mk_answer a;
    int p, same = 0;

    mk_start(net_n, sizeof net_n, start, sizeof start);
    memcpy(image, start, sizeof image);
    memset(words, 0, sizeof words);
    words[2 * MK_WORD_BYTES] = 1;
    a = mk_run(net_n, sizeof net_n, image, sizeof image, words, sizeof words, report, sizeof report);
    show("five words", a);
    five = mk_count(net_n, sizeof net_n, report, MK_RECORD_BYTES * a.cycles);
    show_summary("count of five cycles", five);
    moved = mk_net_change(net_n, sizeof net_n, five.counts);
    show_change("net change of five cycles", moved);
    for (p = 0; p < MK_CHANGE_NUMBERS; p++)
        same += moved.change[p] == tokens(image, p) - tokens(start, p);
    printf("end marking less start marking: the same at %d places\n", same);

    show_summary("count of seven cycles", seven);
    show_summary("five and seven", mk_add(five.counts, seven.counts));
    sum = mk_add(seven.counts, five.counts);
    show_summary("seven and five", sum);
    show_change("net change of the twelve", mk_net_change(net_n, sizeof net_n, sum.counts));
    show_summary("five twice", mk_add(five.counts, five.counts));

    /* A run that ends with 13: its answer says how much of the report to lend. */
    mk_start(filling, sizeof filling, image, sizeof image);
    a = mk_run(filling, sizeof filling, image, sizeof image, words, 2 * MK_WORD_BYTES, report, sizeof report);
    show("two words at a place that one fills", a);
    sum = mk_count(filling, sizeof filling, report, MK_RECORD_BYTES * a.cycles);
    show_summary("count of its finished cycles", sum);
    show_change("their net change", mk_net_change(filling, sizeof filling, sum.counts));
}

/* Reports and summaries at their limits and beyond. */
static void wrong_day(void)
{
    static uint8_t report[MK_REPORT_MOST + MK_RECORD_BYTES];
    uint32_t one[MK_SUMMARY_NUMBERS] = {1, 1}, other[MK_SUMMARY_NUMBERS] = {0};

    show_summary("count of no bytes", mk_count(net_n, sizeof net_n, NULL, 0));
    show_summary("count of 512 cycles", mk_count(net_n, sizeof net_n, report, MK_REPORT_MOST));
    show_summary("count of 513 cycles", mk_count(net_n, sizeof net_n, report, sizeof report));
    show_summary("count of 25 bytes", mk_count(net_n, sizeof net_n, report, 25));
    memset(report + 2 * MK_RECORD_BYTES + 8, 255, 16);
    show_summary("actions and functions of any kind", mk_count(net_n, sizeof net_n, report, MK_REPORT_MOST));
    report[2 * MK_RECORD_BYTES] = 16;
    report[511 * MK_RECORD_BYTES + 7] = 128;
    show_summary("transitions 4 and 63 in the fired sets", mk_count(net_n, sizeof net_n, report, MK_REPORT_MOST));
    show_summary("the same in 513 cycles", mk_count(net_n, sizeof net_n, report, sizeof report));
    show_summary("the same with a table refused", mk_count(net_n, sizeof net_n - 8, report, sizeof report));

    other[0] = 3;
    other[1 + 9] = 3;
    show_change("net change of a transition that the net lacks", mk_net_change(net_n, sizeof net_n, other));
    other[1 + 9] = 4;
    show_change("fired 4 times in 3 cycles", mk_net_change(net_n, sizeof net_n, other));
    show_change("the same with a table refused", mk_net_change(net_n, sizeof net_n - 8, other));
    show_summary("added to one cycle", mk_add(one, other));
    show_summary("one cycle added to it", mk_add(other, one));
    other[1 + 9] = 0;
    other[0] = 4294967294u;
    show_summary("as many cycles as can be", mk_add(one, other));
    other[0] = 4294967295u;
    show_summary("one cycle more", mk_add(one, other));
}

int main(void)
{
    uint8_t image[MK_IMAGE_BYTES], words[7 * MK_WORD_BYTES], report[7 * MK_RECORD_BYTES];
    mk_part part;
    int cycle;

    show("check", mk_check(net_n, sizeof net_n));
    show("check without the last record", mk_check(net_n, sizeof net_n - 8));
    show("check of no bytes", mk_check(NULL, 0));
    show("start", mk_start(net_n, sizeof net_n, image, sizeof image));

    /* Net 4 of document 01: seven cycles, one call each; condition 0 holds in the last alone. The counter of transition 2 is record 130. */
    memset(words, 0, sizeof words);
    for (cycle = 1; cycle <= 7; cycle++) {
        mk_answer a;
        words[0] = cycle == 7;
        a = mk_run(net_n, sizeof net_n, image, sizeof image, words, MK_WORD_BYTES, report, MK_RECORD_BYTES);
        printf("cycle %d: number %lu, fired %u, counter of transition 2 is %u\n", cycle, (unsigned long)a.number, report[0], image[4 * 130]);
    }

    /* The same seven in one call leave the same. */
    mk_start(net_n, sizeof net_n, image, sizeof image);
    words[0] = 0;
    words[6 * MK_WORD_BYTES] = 1;
    show("seven words in one call", mk_run(net_n, sizeof net_n, image, sizeof image, words, sizeof words, report, sizeof report));
    part = mk_lookup(report, sizeof report, 2);
    printf("cycle 2 stands at %lu, %lu bytes: fired %u, actions %u\n", (unsigned long)part.from, (unsigned long)part.length, report[part.from],
           report[part.from + 8]);
    part = mk_lookup(report, sizeof report, 8);
    printf("cycle 8 stands at %lu, %lu bytes\n", (unsigned long)part.from, (unsigned long)part.length);

    /* Wrong inputs change nothing. */
    show("image too short", mk_run(net_n, sizeof net_n, image, 767, words, sizeof words, report, sizeof report));
    image[4 * 5] = 1;
    show("a token at an undeclared place", mk_run(net_n, sizeof net_n, image, sizeof image, words, sizeof words, report, sizeof report));
    image[4 * 5] = 0;
    show("words of 9 bytes", mk_run(net_n, sizeof net_n, image, sizeof image, words, 9, report, sizeof report));
    show("report too short", mk_run(net_n, sizeof net_n, image, sizeof image, words, sizeof words, report, sizeof report - 1));
    show("no words", mk_run(net_n, sizeof net_n, image, sizeof image, NULL, 0, NULL, 0));

    day(mk_count(net_n, sizeof net_n, report, sizeof report));
    wrong_day();
    return 0;
}
