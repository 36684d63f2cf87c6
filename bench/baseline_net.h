/* What one reading of a table leaves behind, for the baseline's own files.

   Rows are cleared only as far as the numbers in the table can reach; the
   chains of arcs are record numbers plus one, with 0 for the end, so that
   a weight is read from the record itself and never copied. */
#ifndef MOEZELKRING_BASELINE_NET_H
#define MOEZELKRING_BASELINE_NET_H

#include <stddef.h>
#include <stdint.h>
#include <string.h>

#include "baseline.h"

#if __BYTE_ORDER__ != __ORDER_LITTLE_ENDIAN__
#error "the baseline reads and writes whole little-endian numbers"
#endif

enum { PLACES = 128, TRANSITIONS = 64, RECORDS = 1024, IMAGE = 768, WORDS = 512, FULL = 65535 };
enum { BASIC, TEST, INHIBITOR, POST };
enum { KNOWN, TOUCHED, CARRIER };
enum { FOR_EVER = 1 << 20 };          /* the b of a transition of sort 2: no counter comes near */

/* A place: its transitions by input arc, by post arc and by basic arc, the
   actions it carries, and the chain of its input arcs. */
struct place { uint64_t input, post, basic, actions, arcs; };

/* A transition: the conditions it looks at and those it wants true, the
   transitions below and above it, those it shares a basic place with (kept
   with the one whose arc stands later in the table), its functions, and the
   chains of its basic, test and post arcs. */
struct transition {
    uint64_t looks, wants, below, above, shares, functions;
    uint16_t takes, tests, puts, pad;
    uint64_t rivals;
};

struct net {
    const uint8_t *table;
    size_t records;
    size_t places, transitions;       /* rows cleared: no number in the table lies beyond */
    uint64_t declared, timed, conditional, higher;
    struct place place[PLACES];
    struct transition transition[TRANSITIONS];
    uint8_t flag[3][PLACES];          /* 1: the place is declared, has an arc, carries an action */
    uint32_t a[TRANSITIONS], b[TRANSITIONS];                   /* only for timed transitions */
    uint16_t next_of_place[RECORDS + 1], next_of_transition[RECORDS + 1];
    uint16_t inhibitors;
    uint16_t inhibitor[RECORDS];
};

/* Numbers 1 to 9 for a table; with `chains`, the chains of each transition too. */
base_answer base_read(struct net *net, const uint8_t *table, size_t table_len, int chains);

/* Numbers 5 to 9, once all records are right: the transitions that are named,
   those with an arc, and those that share a basic place with an earlier one. */
base_answer base_whole(struct net *net, uint64_t named, uint64_t arced, uint64_t sharing);

/* The cycles of a call of run whose lengths and image were found right. */
base_answer base_cycles(struct net *net, uint8_t *image, const uint8_t *words, size_t count,
                        uint8_t *report);

static inline base_answer refuse(size_t number, size_t at)
{
    return (base_answer){ number, at, 0 };
}

static inline uint64_t load64(const uint8_t *from)
{
    uint64_t number;
    memcpy(&number, from, sizeof number);
    return number;
}

static inline uint32_t load32(const uint8_t *from)
{
    uint32_t number;
    memcpy(&number, from, sizeof number);
    return number;
}

static inline uint32_t load16(const uint8_t *from)
{
    uint16_t number;
    memcpy(&number, from, sizeof number);
    return number;
}

static inline void store64(uint8_t *to, uint64_t number) { memcpy(to, &number, sizeof number); }
static inline void store32(uint8_t *to, uint32_t number) { memcpy(to, &number, sizeof number); }

static inline size_t lowest(uint64_t set) { return (size_t)__builtin_ctzll(set); }
static inline uint64_t bit(size_t member) { return (uint64_t)1 << (member & 63); }

/* The fields of a record; its bytes are read one by one where only some matter. */
static inline unsigned first_of(const uint8_t *record) { return record[1]; }
static inline unsigned second_of(const uint8_t *record) { return record[2]; }
static inline unsigned sort_of(const uint8_t *record) { return record[3]; }
static inline uint32_t weight_of(const uint8_t *record) { return load16(record + 4); }

/* The arc at a link of a chain. */
static inline const uint8_t *arc_at(const uint8_t *table, unsigned link)
{
    return table + 8 * (size_t)link - 8;
}

#endif
