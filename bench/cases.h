/* Case files for the benchmark, made from a fixed seed. */
#ifndef CASES_H
#define CASES_H

#include "shahfureel.h"

#include <stddef.h>
#include <stdint.h>

enum { CASES_IN_GROUP = 256, SMALL_CASES = 20000, SMALL_CASES_SEED = 20240602 };

struct case_file {
    size_t length;
    uint8_t bytes[SHAHFUREEL_FILE_BYTES_MAX];
};

/* Cases alike in size and edition: each unit has as many zones. Tried are the cases made, kept or not. */
struct group {
    uint32_t units, zones, edition, tried;
    struct case_file cases[CASES_IN_GROUP];
};

/* The next number of a pseudorandom sequence, from least to greatest. */
uint32_t random_between(uint64_t *state, uint32_t least, uint32_t greatest);

/* Packs a case of edition 1. Ends the process where the rows are refused. */
void pack_case(struct case_file *c, uint32_t demand, const uint32_t *rows, uint32_t units);

/* The same case in edition 2, with the b1 of each unit. */
void widen(const struct case_file *from, struct case_file *to, const int32_t *b1);

/* The same case in edition 2, with a b1 for each unit that its b leaves room for. */
void to_edition_2(uint64_t *state, const struct case_file *from, struct case_file *to);

/* Fills a group with cases that dispatch answers after 18 evaluations, the most there are. */
void make_group(struct group *g, uint32_t units, uint32_t zones, uint32_t edition, uint64_t seed);

/* Makes a case of equal sets that may stand, with four zones each, at six tenths of their greatest outputs. */
void make_equal_case(struct case_file *c, uint32_t units);

/* Makes a small case of round numbers, in which choices tie and nets are equal. Dispatch may answer it or refuse it with 11. */
void make_small_case(uint64_t *state, struct case_file *c);

/* The same cases with a demand that no allocation covers, which step 1 refuses. */
void refuse_group(struct group *refused, const struct group *g);

#endif
