/* What the cases met, and whether that is enough to mean something. */
#ifndef TALLY_H
#define TALLY_H

#include <stdbool.h>

void print_tally(void);

/* Says what there was too little of. */
bool met_enough(void);

#endif
