/* Times refining. */
#ifndef REFINES_H
#define REFINES_H

#include "cases.h"

/* Compares both programs' replies on small cases, on sites full of ties, on cases of the last group and on sites of equal sets; then
 * times them on those sites at the largest budget and on cases of the last group with long searches at a smaller one, and prints how
 * the gap closes with the budget on the sites and on cases of each group. */
void time_refines(int repetitions, const struct group *groups, int count);

#endif
