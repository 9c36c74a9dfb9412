/* Times a day by slots. */
#ifndef DAYS_H
#define DAYS_H

#include "cases.h"

/* Compares both programs' days on the cases of the group and on small ones, and on the group with dispatches of files that are patched
 * from slot to slot; then times the three on the group with 96 slots and prints a line. */
void time_days(int repetitions, const struct group *g);

#endif
