/* Nets by chance. A sound net is one that the page accepts by the way it was
   made: no engine is asked. */
#ifndef NETS_H
#define NETS_H

#include "dice.h"
#include "page.h"

enum { MOST_BYTES = RECORD_BYTES * MOST_RECORDS };
enum { TABLE_ROOM = MOST_BYTES + 512 };

/* How a net is to be made. */
typedef struct {
    unsigned most_places, most_transitions;
    bool calm;        /* so few tokens that no run here can fill a place */
    bool brimful;     /* places hold about as much as they can */
    bool loose;       /* some pairs left unsettled, or nearly settled */
    bool tangled;     /* priority pairs both ways */
    bool ladder;      /* each draws on its own place and on the next one's */
    unsigned records; /* filled up to so many, where that is more */
} manner;

/* The table, and what was declared in it, so that images can be made. */
typedef struct {
    unsigned places, transitions;
    unsigned place[PLACES], transition[TRANSITIONS];
    unsigned timing[TRANSITIONS], a[TRANSITIONS], b[TRANSITIONS];
    size_t length;
    uint8_t table[TABLE_ROOM];
} made_net;

/* A record at the end of the table, if 8,192 bytes leave room for it. */
void add_record(made_net *n, unsigned kind, unsigned one, unsigned two,
                unsigned sort, unsigned low, unsigned high);

/* Tokens for a place: few, many, or next to 65,535. */
unsigned pick_tokens(dice *d, bool calm, bool brimful);

void shuffle_records(dice *d, made_net *n);
void make_net(dice *d, manner how, made_net *n);

#endif
