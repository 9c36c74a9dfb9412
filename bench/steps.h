/* Times a run's advances. */
#ifndef STEPS_H
#define STEPS_H

#include "cases.h"

/* Compares runs of the group's cases with dispatches, then times an advance beside a dispatch and prints a line. */
void time_steps(int repetitions, const struct group *g);

#endif
