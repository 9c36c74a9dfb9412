/* Times judging. */
#ifndef JUDGES_H
#define JUDGES_H

#include "cases.h"

/* Compares both programs' judgements on the cases of the group and on small ones, then times them on the group and prints a line
 * for accepted outputs and one for others. */
void time_judges(int repetitions, const struct group *g);

#endif
