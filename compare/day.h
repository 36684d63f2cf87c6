/* The day of a case, by chance: what its run did, or other reports and
   summaries, right and wrong. */
#ifndef DAY_H
#define DAY_H

#include "compare.h"
#include "nets.h"

/* Count, net change and add, after the last run of the case. */
void one_day(dice *d, const made_net *n, plain_answer ran);

#endif
