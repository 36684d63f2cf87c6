/* moezelkring.h: the manual of the Moezelkring sequencer engine, for C11 and C++.

   The engine runs a net of places and transitions in cycles. It keeps nothing between calls, allocates nothing, calls no operating system and
   has no state of its own: everything it reads and writes is bytes that you lend it for the length of one call. It is proved to do what this
   manual says, for every length and content of those bytes: there is no input that it does not answer.

   IN TEN LINES

       #include "moezelkring.h"
       uint8_t image[MK_IMAGE_BYTES], words[8] = {1}, report[MK_RECORD_BYTES];
       mk_answer a = mk_start(table, table_len, image, sizeof image);
       if (a.number != MK_ACCEPTED) return refuse(a.number, a.at);
       for (;;) {
           read_conditions(words);
           a = mk_run(table, table_len, image, sizeof image, words, sizeof words, report, sizeof report);
           if (a.number != MK_ACCEPTED) return refuse(a.number, a.at);
           act_on(report);
       }

   A DAY OF CALLS

       uint32_t day[MK_SUMMARY_NUMBERS] = {0};
       ... and behind each mk_run that answered 0 or 13:
           mk_summary call = mk_count(table, table_len, report, MK_RECORD_BYTES * a.cycles);
           mk_summary sum = mk_add(day, call.counts);
           if (sum.number != MK_ACCEPTED) return refuse(sum.number, sum.at);
           memcpy(day, sum.counts, sizeof day);
       ... and at its end:
       mk_change moved = mk_net_change(table, table_len, day);

   THE BYTES

   Numbers of more than one byte have their lowest byte first.

   table   At most 1,024 records of eight bytes, in any order, counted from 0. Byte 0 is the kind, byte 3 the sort; bytes that are not
           listed must be 0.
             1 place       byte 1 place, bytes 4-5 first tokens; sort 0
             2 transition  byte 1 transition; sort 0 untimed, 1 interval a to b (bytes 4-5 a, bytes 6-7 b; 1 <= a <= b <= 65,534),
                           2 interval a or more (bytes 4-5 a, at least 1; bytes 6-7 are 0)
             3 arc         byte 1 place, byte 2 transition, bytes 4-5 weight (at least 1); sort 0 basic, 1 test, 2 inhibitor (from the place
                           to the transition), 3 post (from the transition to the place)
             4 condition   byte 1 transition, byte 2 condition; sort 0 wanted true, 1 wanted false
             5 priority    byte 1 the higher transition, byte 2 the lower one; sort 0
             6 action      byte 1 place, byte 2 action; sort 0
             7 function    byte 1 transition, byte 2 function; sort 0
           Places are 0 to 127; transitions, conditions, actions and functions are 0 to 63.
   image   The state between two cycles, 768 bytes: 192 records of four bytes. Record p, for place p: tokens (2 bytes), 0, 0. Record 128 + t,
           for transition t: counter (2 bytes), reset order (0 or 1), 0.
   words   Eight bytes a cycle, at most 512 words a call: bit k of the number is condition k. Bits of conditions that no record names have
           no effect.
   report  24 bytes a finished cycle: the fired transitions, the active actions and the executed functions, eight bytes each, bit k for
           number k.
   summary 65 numbers of 32 bits, as an array of uint32_t: the cycles, then how often each transition fired, number 1 + t for transition t.
           65 zeros are the summary of no cycles.

   WHO OWNS WHAT

   You own all of it, before, during and after a call. The engine reads table, words and summaries, and writes only into image (start and run)
   and report (run); count only reads the report. Buffers of one call must not overlap each other, except that both summaries of mk_add may
   be the same one, and nothing else may change them while the call runs; then calls on different buffers may run at the same time. A pointer
   may be null only where its length is 0; a summary has no length, and always has its 65 numbers. What count, add and net change find is
   in their answer, by value.

   WHAT A REFUSAL LEAVES

   Refusals 1 to 12 come before any cycle and change no byte. Refusal 13 comes at a cycle: the cycles before it are finished, their records
   stand in the report, the image is the state before the refused cycle, and nothing of the refused cycle is left anywhere. Bytes of the report
   beyond the finished cycles are never written. Count, add and net change write nothing that you lend, refused or not; a refusal's summary
   or change is all zeros.

   LIMITS

   A table has at most 8,192 bytes, words at most 4,096, a report that is counted at most 12,288. A place holds at most 65,535 tokens between
   cycles. A summary has at most 4,294,967,295 cycles; a net change is at most 288,225,978,038,092,800, up or down, and so is always exact.
   How much stack a call takes is in docs/SPEED.md. The archive is for x86-64. */
#ifndef MOEZELKRING_H
#define MOEZELKRING_H

#include <stddef.h>
#include <stdint.h>

#ifdef __cplusplus
extern "C" {
#endif

/* Sizes in bytes. */
enum {
    MK_IMAGE_BYTES = 768,   /* a state image */
    MK_WORD_BYTES = 8,      /* a condition word */
    MK_RECORD_BYTES = 24,   /* one cycle in a report */
    MK_TABLE_MOST = 8192,   /* the longest table */
    MK_WORDS_MOST = 4096,   /* the longest list of words */
    MK_REPORT_MOST = 12288  /* the longest report that count takes */
};

/* Sizes in numbers. */
enum {
    MK_SUMMARY_NUMBERS = 65,  /* a summary: the cycles and 64 transitions */
    MK_CHANGE_NUMBERS = 128   /* a net change: 128 places */
};

/* Answer numbers, in the order in which they are looked for: the first that applies is answered. The checks of a record, 2 to 4, are made record
   by record: the first record with a fault decides. */
enum {
    MK_ACCEPTED = 0,  /* `at` is 0 */
    MK_LENGTH = 1,    /* the table's length is no multiple of 8, or above 8,192; `at` is 0 */
    MK_KIND = 2,      /* a record's kind is not 1 to 7, or it has no such sort; `at` is the record */
    MK_FIELD = 3,     /* a number, weight or interval is out of range, or an unused byte is not 0; `at` is the record */
    MK_TWICE = 4,     /* a record says again what an earlier one said: the same place or transition declared, a second input arc (basic, test or
                         inhibitor) or a second post arc between one place and one transition, the same condition of a transition (in either
                         sort), the same priority, action or function; `at` is the later record */
    MK_UNKNOWN = 5,   /* a record names a place or transition that none declares; `at` is the record */
    MK_EMPTY = 6,     /* no place (`at` is 0), or no transition (`at` is 1) */
    MK_ISOLATED = 7,  /* a place or a transition has no arc; `at` is the lowest such place, or 128 + the lowest such transition */
    MK_CIRCLE = 8,    /* a transition stands above itself by the priorities and what follows from them; `at` is the lowest such transition */
    MK_CONFLICT = 9,  /* two transitions take from one place by basic arcs, and nothing settles it: neither stands above the other, no condition is
                         wanted true by one and false by the other, and no place has a basic or test arc to one and an inhibitor arc of equal
                         weight to the other; `at` is 64 * i + j for the least such pair i < j */
    MK_STATE = 10,    /* run: the image is not 768 bytes (`at` is 192), or does not fit the table (`at` is the first wrong record) */
    MK_WORDS = 11,    /* run: the length of the words is no multiple of 8, or above 4,096; `at` is 0 */
    MK_ROOM = 12,     /* run: the report is shorter than 24 bytes a word; start: the image is not 768 bytes; `at` is 0 */
    MK_FULL = 13,     /* run: a place would end the cycle with more than 65,535 tokens; `at` is the lowest such place */
    MK_REPORT = 14,   /* count: the report's length is no multiple of 24, or above 12,288 (`at` is 512), or a bit of a fired set names a
                         transition that the table does not declare (`at` is the first such record of the report, counted from 0) */
    MK_COUNT = 15     /* add, net change: a summary has a transition fired more often than its cycles; add: the cycles of both together are
                         above 4,294,967,295; `at` is 0 */
};

/* What check, start and run answer. */
typedef struct {
    size_t number;  /* one of the numbers above */
    size_t at;      /* where, as said beside the number */
    size_t cycles;  /* the finished cycles: 0 except for run */
} mk_answer;

/* A part of a report. */
typedef struct {
    size_t from;    /* where it starts, counted in bytes from the report's first */
    size_t length;  /* how long it is: 24, or 0 for an empty part, which starts at 0 */
} mk_part;

/* What count and add answer. */
typedef struct {
    size_t number;                        /* one of the numbers above */
    size_t at;                            /* where, as said beside the number */
    uint32_t counts[MK_SUMMARY_NUMBERS];  /* the summary; all 0 if the call is refused */
} mk_summary;

/* What net change answers. */
typedef struct {
    size_t number;                      /* one of the numbers above */
    size_t at;                          /* where, as said beside the number */
    int64_t change[MK_CHANGE_NUMBERS];  /* for each place, the tokens it gained, below 0 if it lost some; all 0 if the call is refused */
} mk_change;

/* Is the table well defined? Answers 0 to 9. Reads the table, writes nothing. */
mk_answer mk_check(const uint8_t *table, size_t table_len);

/* Writes the image of a fresh net: first tokens, counters 0, no reset orders. Answers 0 to 9, and 12. */
mk_answer mk_start(const uint8_t *table, size_t table_len, uint8_t *image, size_t image_len);

/* Does one cycle for each word, from the state in the image, which it replaces by the state after the last finished cycle. Writes 24 bytes of
   report for each finished cycle. With no words it is accepted and changes nothing. Any image that fits the table is taken, whether a run could
   have led to it or not. Answers 0 to 13. */
mk_answer mk_run(const uint8_t *table, size_t table_len, uint8_t *image, size_t image_len, const uint8_t *words, size_t words_len, uint8_t *report,
                 size_t report_len);

/* Where cycle number `cycle`, counted from 1, stands in a report: its 24 bytes, or an empty part for 0 and for a cycle that the report does not
   hold whole. It goes by the report's length alone: how many cycles are finished is in run's answer. */
mk_part mk_lookup(const uint8_t *report, size_t report_len, size_t cycle);

/* The summary of a report: its cycles, and how often each transition fired. Of a record only the fired transitions are looked at, and every record
   that is lent is taken for a finished cycle: lend 24 * cycles bytes of the report, by the cycles of run's answer, also where that answer is 13.
   Such a part is accepted, with the table of that run. Answers 0 to 9, and 14. */
mk_summary mk_count(const uint8_t *table, size_t table_len, const uint8_t *report, size_t report_len);

/* Adds two summaries, number by number. A list of summaries has the same total in whatever order it is added, unless a total is refused: then it is
   refused in every order. The summary of no cycles changes nothing. No table is asked: whether both are of one net is yours to know. Answers 0
   and 15. */
mk_summary mk_add(const uint32_t one[MK_SUMMARY_NUMBERS], const uint32_t other[MK_SUMMARY_NUMBERS]);

/* What the transitions of a summary moved in all: for each place, what their post arcs put there less what their basic arcs took, as often as
   they fired. A count for a transition that the table does not declare moves nothing. For the summary of the finished cycles of a run it is the
   marking after the run less the marking before it; for a sum of such, from run to run on one image, the marking after the last less the marking
   before the first. Answers 0 to 9, and 15. */
mk_change mk_net_change(const uint8_t *table, size_t table_len, const uint32_t summary[MK_SUMMARY_NUMBERS]);

#ifdef __cplusplus
}
#endif

#endif
