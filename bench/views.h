/* Times the Modbus view. */
#ifndef VIEWS_H
#define VIEWS_H

/* Compares both programs' answers to requests on a reply of 32 units, then times them and prints a line for each. */
void time_views(int repetitions);

#endif
