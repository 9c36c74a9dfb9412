/* Sites full of ties. */
#ifndef TIES_H
#define TIES_H

#include "cases.h"

/* Makes a case of up to six sets, some of them equal, of which outputs tie at one multiplier: the ends of a zone or neighbours, and
 * for some sets standing too; at a demand that some of these outputs and of the limits meet together, or one above. Dispatch may
 * answer it or refuse it with 11. */
void make_tied_case(uint64_t *state, struct case_file *c, uint32_t edition);

#endif
