/* The clock and the median of the benchmark. */
#ifndef MEASURE_H
#define MEASURE_H

enum { REPETITIONS_MAX = 1000 };

/* Processor time of this process. */
double processor_nanoseconds(void);

/* Sorts, so that the least is first, the greatest last and the median in the middle. */
double median(double *values, int n);

#endif
