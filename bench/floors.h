/* Times floors for other demands. */
#ifndef FLOORS_H
#define FLOORS_H

#include "cases.h"

/* Compares both programs' floors on the cases of the group and on small ones, then times them on the group with 96 demands and
 * prints a line. */
void time_floors(int repetitions, const struct group *g);

#endif
