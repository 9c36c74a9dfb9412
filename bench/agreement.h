/* Whether the controller and the plain C program answer alike. */
#ifndef AGREEMENT_H
#define AGREEMENT_H

#include "cases.h"

enum { ANSWERS = 100 };

/* How often each answer was given: a refusal's number, or a reply's length. */
struct tally {
    uint64_t replies, answers[ANSWERS], evaluations[19];
};

/* Dispatches small cases by both programs, in edition 1 and in edition 2. Ends the process where they differ. */
void compare_small(struct tally *first, struct tally *second);

/* Calls a comparison on each of the small cases that a seed makes, in edition 1 and in edition 2. */
void compare_small_cases(uint64_t seed, void (*compare_case)(uint64_t *state, const struct case_file *c));

/* A changed byte of the file or an end too early, at times: a call then refuses it, or has another case. */
void damage_at_times(uint64_t *state, struct case_file *c);

/* Prints how often each refusal was given, and ends the line. */
void print_refusals(const uint64_t refused[SHAHFUREEL_LENGTH_MIN]);

/* Dispatches every case of the group by both programs, and damaged copies of it. Ends the process where they differ. */
void compare_group(const struct group *g, struct tally *whole, struct tally *damaged);

/* The same of the cases of an edition 1 group, each turned into edition 2. */
void compare_in_edition_2(const struct group *g, struct tally *whole, struct tally *damaged);

/* Ends the process unless both programs refuse every case of the group with 11. */
void compare_refused(const struct group *g);

#endif
