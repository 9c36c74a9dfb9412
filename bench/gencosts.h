/* Times the reading of cost rows. */
#ifndef GENCOSTS_H
#define GENCOSTS_H

/* Compares both programs' answers to rows, well-formed and damaged, then times them on rows that are read and prints a line. */
void time_gencosts(int repetitions);

#endif
