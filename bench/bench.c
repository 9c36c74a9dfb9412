/* Times the controller against the plain C program: processor time per dispatch, its ratio, and its growth with the number
 * of units. It first compares the answers of both. */
#include "agreement.h"
#include "cases.h"
#include "days.h"
#include "floors.h"
#include "gencosts.h"
#include "judges.h"
#include "measure.h"
#include "plain.h"
#include "refines.h"
#include "steps.h"
#include "views.h"

#include <stdio.h>
#include <stdlib.h>

enum { SIZES = 6, ZONINGS = 2, OF_EDITION_1 = SIZES * ZONINGS, GROUPS = OF_EDITION_1 + ZONINGS };
enum { REPETITIONS_DEFAULT = 15 };
enum { UNITS_TIMED = 60000 }; /* units dispatched by each program in one repetition, about */

static const uint32_t sizes[SIZES] = {1, 2, 4, 8, 16, 32};
static const uint32_t zonings[ZONINGS] = {0, 4};

typedef uint32_t dispatch_call(const uint8_t *file, size_t file_length, uint8_t *reply, size_t reply_length);

/* Nanoseconds per dispatch by both programs, one number a repetition. */
struct times {
    double controller[REPETITIONS_MAX], plain[REPETITIONS_MAX], ratio[REPETITIONS_MAX];
};

/* Edition 1 in all sizes without zones, then with zones; then edition 2 in the largest size. */
static struct group groups[GROUPS], refused[GROUPS];
static struct times whole_times[GROUPS], refused_times[GROUPS];

/* ---- measuring */

/* One pass over the cases of the group. */
static double measure(dispatch_call *dispatch, const struct group *g)
{
    static volatile uint32_t sink;
    uint8_t reply[SHAHFUREEL_REPLY_BYTES];
    double start = processor_nanoseconds();
    for (uint32_t i = 0; i < CASES_IN_GROUP; i++)
        sink = dispatch(g->cases[i].bytes, g->cases[i].length, reply, sizeof reply);
    (void)sink;
    return processor_nanoseconds() - start;
}

/* One pass by each program, the controller first in every other one. */
static void measure_both(int controller_first, const struct group *g, double *controller, double *plain)
{
    if (controller_first)
        *controller += measure(shahfureel_dispatch, g);
    *plain += measure(plain_dispatch, g);
    if (!controller_first)
        *controller += measure(shahfureel_dispatch, g);
}

static void repeat(int repetition, const struct group *g, struct times *t)
{
    uint32_t passes = 2 + UNITS_TIMED / (g->units * CASES_IN_GROUP);
    double controller = 0, plain = 0;
    for (uint32_t pass = 0; pass < passes; pass++)
        measure_both((repetition + (int)pass) % 2, g, &controller, &plain);
    t->controller[repetition] = controller / passes / CASES_IN_GROUP;
    t->plain[repetition] = plain / passes / CASES_IN_GROUP;
    t->ratio[repetition] = controller / plain;
}

/* ---- statistics */

/* t = a + b n, by least squares of the deviations relative to t. */
struct line {
    double a, b, deviation;
};

static struct line fit(const double *n, const double *t, int count)
{
    double w = 0, wn = 0, wt = 0, wnn = 0, wnt = 0;
    struct line l = {0, 0, 0};
    for (int i = 0; i < count; i++) {
        double weight = 1 / (t[i] * t[i]);
        w += weight;
        wn += weight * n[i];
        wt += weight * t[i];
        wnn += weight * n[i] * n[i];
        wnt += weight * n[i] * t[i];
    }
    l.b = (w * wnt - wn * wt) / (w * wnn - wn * wn);
    l.a = (wt - l.b * wn) / w;
    for (int i = 0; i < count; i++) {
        double d = (l.a + l.b * n[i]) / t[i] - 1;
        if (d < 0)
            d = -d;
        if (d > l.deviation)
            l.deviation = d;
    }
    return l;
}

/* ---- printing */

static void print_evaluations(const struct tally *t)
{
    printf("  replies by evaluations:");
    for (int k = 1; k <= 18; k++)
        if (t->evaluations[k] != 0)
            printf(" %d: %llu", k, (unsigned long long)t->evaluations[k]);
    printf("\n");
}

static void print_answers(const char *what, const struct tally *t)
{
    printf("%s: both programs agree in every byte\n  replies %llu; refusals by number:", what, (unsigned long long)t->replies);
    for (int number = 1; number < (int)SHAHFUREEL_LENGTH_MIN; number++)
        if (t->answers[number] != 0)
            printf(" %d: %llu", number, (unsigned long long)t->answers[number]);
    printf("\n");
    print_evaluations(t);
}

/* The medians of a group, the ratio with its least and greatest. */
struct summary {
    double controller, plain, ratio, least, greatest;
};

static struct summary summarise(struct times *t, int repetitions)
{
    struct summary s;
    s.controller = median(t->controller, repetitions);
    s.plain = median(t->plain, repetitions);
    s.ratio = median(t->ratio, repetitions);
    s.least = t->ratio[0];
    s.greatest = t->ratio[repetitions - 1];
    return s;
}

static void print_group(const struct group *g, struct summary whole, struct summary step1)
{
    printf("%5u %5u %10.0f %8.0f %7.2f  %4.2f to %4.2f %9.0f %7.0f %9.0f %7.0f\n", (unsigned)g->zones, (unsigned)g->units,
           whole.controller, whole.plain, whole.ratio, whole.least, whole.greatest, whole.controller / g->units,
           whole.plain / g->units, step1.controller, step1.plain);
}

static void print_line(const char *name, uint32_t zones, struct line l)
{
    printf("%s, %u zones: t = %.0f + %.1f n ns, greatest deviation %.1f %%\n", name, (unsigned)zones, l.a, l.b,
           100 * l.deviation);
}

/* Prints the figures of a group, and returns them. */
static struct summary print_timed(int group, int repetitions)
{
    struct summary whole = summarise(&whole_times[group], repetitions);
    print_group(&groups[group], whole, summarise(&refused_times[group], repetitions));
    return whole;
}

static void print_zoning(int zoning, int repetitions)
{
    double n[SIZES], controller[SIZES], plain[SIZES];
    for (int i = 0; i < SIZES; i++) {
        struct summary whole = print_timed(zoning * SIZES + i, repetitions);
        n[i] = sizes[i];
        controller[i] = whole.controller;
        plain[i] = whole.plain;
    }
    print_line("controller", zonings[zoning], fit(n, controller, SIZES));
    print_line("plain C", zonings[zoning], fit(n, plain, SIZES));
}

static void print_times(int repetitions)
{
    printf("nanoseconds of processor time per dispatch; medians of %d repetitions; ratio: controller / plain C\n", repetitions);
    printf("to step 1: the same cases with a demand that step 1 refuses, so checking, decoding and step 1 alone\n\n");
    printf("                                         least and       per unit         to step 1\n");
    printf("zones units controller  plain C   ratio   greatest  controller plain C controller plain C\n");
    for (int zoning = 0; zoning < ZONINGS; zoning++)
        print_zoning(zoning, repetitions);
    printf("edition 2:\n");
    for (int group = OF_EDITION_1; group < GROUPS; group++)
        print_timed(group, repetitions);
}

/* ---- main */

static void make_group_of_index(int i)
{
    uint64_t seed = UINT64_C(20240601) + (uint64_t)i;
    if (i < OF_EDITION_1)
        make_group(&groups[i], sizes[i % SIZES], zonings[i / SIZES], 1, seed);
    else
        make_group(&groups[i], sizes[SIZES - 1], zonings[i - OF_EDITION_1], 2, seed);
    refuse_group(&refused[i], &groups[i]);
}

static void make_groups(void)
{
    uint32_t tried = 0;
    for (int i = 0; i < GROUPS; i++) {
        make_group_of_index(i);
        compare_refused(&refused[i]);
        tried += groups[i].tried;
    }
    printf("%d groups of %d cases, those with 18 evaluations of %u made\n", GROUPS, CASES_IN_GROUP, (unsigned)tried);
}

static void compare_groups(void)
{
    struct tally whole[2] = {{0}}, damaged[2] = {{0}}, small[2] = {{0}};
    for (int i = 0; i < GROUPS; i++) {
        uint32_t edition = groups[i].edition;
        compare_group(&groups[i], &whole[edition - 1], &damaged[edition - 1]);
        if (edition == 1)
            compare_in_edition_2(&groups[i], &whole[1], &damaged[1]);
    }
    compare_small(&small[0], &small[1]);
    print_answers("cases", &whole[0]);
    print_answers("damaged cases and short replies", &damaged[0]);
    print_answers("small cases", &small[0]);
    print_answers("cases of edition 2", &whole[1]);
    print_answers("damaged cases of edition 2 and short replies", &damaged[1]);
    print_answers("small cases of edition 2", &small[1]);
    printf("\n");
}

static void print_shares(const char *what, const struct plain_lowering *l)
{
    printf("%s: %.2f %% of %llu dispatches, %.2f %% of %llu evaluations", what,
           100 * (double)l->dispatches_lowered / (double)l->dispatches, (unsigned long long)l->dispatches,
           100 * (double)l->evaluations_lowered / (double)l->evaluations, (unsigned long long)l->evaluations);
}

/* Of the cases and of small cases: how many replies have a lowered unit, and in how many evaluations a unit was lowered. */
static void print_lowering(void)
{
    struct plain_lowering of_groups = {0, 0, 0, 0}, of_small = {0, 0, 0, 0};
    uint64_t state = SMALL_CASES_SEED;
    static struct case_file c;
    for (int i = 0; i < GROUPS; i++)
        for (uint32_t k = 0; k < CASES_IN_GROUP; k++)
            plain_lowering(groups[i].cases[k].bytes, groups[i].cases[k].length, &of_groups);
    for (int i = 0; i < SMALL_CASES; i++) {
        make_small_case(&state, &c);
        plain_lowering(c.bytes, c.length, &of_small);
    }
    print_shares("with a unit lowered: cases", &of_groups);
    print_shares("; small cases", &of_small);
    printf("\n\n");
}

static int repetitions_of(int argc, char **argv)
{
    int n = argc < 2 ? REPETITIONS_DEFAULT : atoi(argv[1]);
    if (argc > 2 || n < 1 || n > REPETITIONS_MAX) {
        fprintf(stderr, "usage: bench [REPETITIONS], 1 to %d\n", REPETITIONS_MAX);
        exit(2);
    }
    return n;
}

static void repeat_group(int repetition, int i)
{
    repeat(repetition, &groups[i], &whole_times[i]);
    repeat(repetition, &refused[i], &refused_times[i]);
}

int main(int argc, char **argv)
{
    int repetitions = repetitions_of(argc, argv);
    make_groups();
    compare_groups();
    print_lowering();
    for (int repetition = 0; repetition < repetitions; repetition++)
        for (int i = 0; i < GROUPS; i++)
            repeat_group(repetition, i);
    print_times(repetitions);
    time_views(repetitions);
    time_judges(repetitions, &groups[OF_EDITION_1 - 1]);
    time_floors(repetitions, &groups[OF_EDITION_1 - 1]);
    time_days(repetitions, &groups[OF_EDITION_1 - 1]);
    time_refines(repetitions, &groups[SIZES], SIZES);
    time_gencosts(repetitions);
    printf("\n");
    for (int i = 0; i < SIZES; i++)
        if (sizes[i] == 1 || sizes[i] == 8 || sizes[i] == 32)
            time_steps(repetitions, &groups[SIZES + i]);
    return 0;
}
