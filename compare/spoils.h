/* Tables that are not as they should be. */
#ifndef SPOILS_H
#define SPOILS_H

#include "nets.h"

/* One thing wrong, or nearly wrong, in the records of a sound net. */
void spoil_table(dice *d, made_net *n);

/* Bits turned over, bytes missing or too many. */
void damage_table(dice *d, made_net *n);

/* Tables made of chance bytes or chance records, and tables without places
   or without transitions. */
void chance_bytes(dice *d, made_net *n);
void chance_records(dice *d, made_net *n);
void one_sided(dice *d, made_net *n);

#endif
