/* Times refining against plain C, on sites of equal sets at the largest budget and on sites of different sets, where searches are
 * long; and prints how the gap closes with the budget. It first compares the replies of both programs. */
#include "refines.h"

#include "agreement.h"
#include "measure.h"
#include "plain.h"
#include "ties.h"

#include <stdio.h>
#include <stdlib.h>
#include <string.h>

enum { SITES = 3, BUDGETS = 6, CASES_REFINED = 16, REPETITIONS_MOST = 5, FILLED = 0xA5 };
enum { REPLY_ROOM = SHAHFUREEL_REFINE_REPLY_BYTES + 16 };
enum { TIED_CASES = 20000, DIFFERENT_BUDGET = 1000, DIFFERENT_LEAST = 500 };

static const uint32_t sizes[SITES] = {8, 16, 32};
static const uint32_t budgets[BUDGETS] = {1, 10, 100, 1000, 10000, SHAHFUREEL_BUDGET_MAX};

typedef uint32_t refine_call(const uint8_t *, size_t, uint32_t, uint8_t *, size_t);

/* Equal sets, so many to a site. */
static struct case_file sites[SITES];

/* How many nodes were evaluated in how many replies, how many of these searches ended, and how often each number was given. */
static uint64_t nodes, replies, ended, refused[SHAHFUREEL_LENGTH_MIN];

/* ---- agreement */

static void compare(const struct case_file *c, uint32_t budget, size_t room)
{
    uint8_t ours[REPLY_ROOM], plain[REPLY_ROOM];
    memset(ours, FILLED, sizeof ours);
    memset(plain, FILLED, sizeof plain);
    uint32_t answer = shahfureel_refine(c->bytes, c->length, budget, ours, room);
    uint32_t other = plain_refine(c->bytes, c->length, budget, plain, room);
    if (answer != other || memcmp(ours, plain, sizeof ours) != 0) {
        fprintf(stderr, "refine: the programs differ at a budget of %u for a file of %zu bytes, controller %u, plain C %u\n",
                (unsigned)budget, c->length, (unsigned)answer, (unsigned)other);
        exit(1);
    }
    if (answer < SHAHFUREEL_LENGTH_MIN) {
        refused[answer]++;
        return;
    }
    replies++;
    nodes += shahfureel_refined_nodes(ours);
    ended += shahfureel_refined_nodes(ours) < budget;
}

/* Mostly small, so that many searches are cut short; at times the largest, or none that is taken. */
static uint32_t make_budget(uint64_t *state)
{
    switch (random_between(state, 0, 15)) {
    case 0:
        return SHAHFUREEL_BUDGET_MAX;
    case 1:
        return random_between(state, 0, 1) ? 0 : SHAHFUREEL_BUDGET_MAX + 1;
    case 2:
    case 3:
        return random_between(state, 1, 1000);
    default:
        return random_between(state, 1, 30);
    }
}

/* At times with a damaged file, or too little room. */
static void compare_case(uint64_t *state, const struct case_file *c)
{
    static struct case_file other;
    other = *c;
    damage_at_times(state, &other);
    compare(&other, make_budget(state), REPLY_ROOM);
    compare(c, make_budget(state), SHAHFUREEL_REFINE_REPLY_BYTES);
    compare(c, make_budget(state), random_between(state, SHAHFUREEL_REFINE_REPLY_BYTES - 2, REPLY_ROOM));
}

/* Sites full of ties: the first nodes one by one, some more, and at times all. */
static void compare_tied(uint64_t seed, uint32_t edition)
{
    static struct case_file c;
    uint64_t state = seed;
    for (int i = 0; i < TIED_CASES; i++) {
        make_tied_case(&state, &c, edition);
        for (uint32_t budget = 1; budget <= 3; budget++)
            compare(&c, budget, REPLY_ROOM);
        compare(&c, random_between(&state, 4, 60), REPLY_ROOM);
        if (i % 8 == 0)
            compare(&c, SHAHFUREEL_BUDGET_MAX, REPLY_ROOM);
    }
}

static void compare_all(const struct group *largest)
{
    compare_small_cases(20240610, compare_case);
    compare_tied(20240611, 1);
    compare_tied(20240612, 2);
    for (uint32_t i = 0; i < CASES_IN_GROUP; i++) {
        compare(&largest->cases[i], 1 + i % 30, REPLY_ROOM);
        compare(&largest->cases[i], 1000, REPLY_ROOM);
    }
    for (int i = 0; i < SITES; i++)
        for (int k = 0; k < BUDGETS; k++)
            compare(&sites[i], budgets[k], REPLY_ROOM);
    printf("\nrefine: both programs agree in every byte\n  %llu nodes in %llu replies, of %llu searches that ended",
           (unsigned long long)nodes, (unsigned long long)replies, (unsigned long long)ended);
    print_refusals(refused);
}

/* ---- times */

/* Nanoseconds to a node of some cases together, and the mean of their nodes. */
static double measure_refine(refine_call *call, const struct case_file *cases, uint32_t count, uint32_t budget, uint32_t *mean)
{
    uint8_t reply[SHAHFUREEL_REFINE_REPLY_BYTES];
    uint64_t evaluated = 0;
    double start = processor_nanoseconds();
    for (uint32_t i = 0; i < count; i++) {
        call(cases[i].bytes, cases[i].length, budget, reply, sizeof reply);
        evaluated += shahfureel_refined_nodes(reply);
    }
    *mean = (uint32_t)(evaluated / count);
    return (processor_nanoseconds() - start) / (double)evaluated;
}

static void time_cases(int repetitions, const char *what, const struct case_file *cases, uint32_t count, uint32_t budget)
{
    static double controller[REPETITIONS_MAX], plain[REPETITIONS_MAX], ratio[REPETITIONS_MAX];
    uint32_t mean;
    for (int i = 0; i < repetitions; i++) {
        controller[i] = measure_refine(shahfureel_refine, cases, count, budget, &mean);
        plain[i] = measure_refine(plain_refine, cases, count, budget, &mean);
        ratio[i] = controller[i] / plain[i];
    }
    double of_both = median(ratio, repetitions);
    printf("refine, %s units of 4 zones, %u nodes: controller %.0f ns a node, plain C %.0f ns, ratio %.2f, %.2f to %.2f\n", what,
           (unsigned)mean, median(controller, repetitions), median(plain, repetitions), of_both, ratio[0], ratio[repetitions - 1]);
}

static void time_equal(int repetitions)
{
    char what[32];
    for (int i = 0; i < SITES; i++) {
        snprintf(what, sizeof what, "%u equal", (unsigned)sizes[i]);
        time_cases(repetitions, what, &sites[i], 1, SHAHFUREEL_BUDGET_MAX);
    }
}

/* The cases of the group whose searches are long. */
static void time_different(int repetitions, const struct group *g)
{
    static struct case_file cases[CASES_IN_GROUP];
    uint8_t reply[SHAHFUREEL_REFINE_REPLY_BYTES];
    char what[64];
    uint32_t count = 0;
    for (uint32_t i = 0; i < CASES_IN_GROUP; i++) {
        cases[count] = g->cases[i];
        shahfureel_refine(cases[count].bytes, cases[count].length, DIFFERENT_BUDGET, reply, sizeof reply);
        count += shahfureel_refined_nodes(reply) >= DIFFERENT_LEAST;
    }
    snprintf(what, sizeof what, "%u cases of %u different", (unsigned)count, (unsigned)g->units);
    if (count > 0)
        time_cases(repetitions, what, cases, count, DIFFERENT_BUDGET);
}

/* ---- gaps */

/* What a step of the greatest output costs. */
static double step_cost(const uint32_t *row)
{
    double p = row[SHAHFUREEL_ROW_GREATEST];
    return row[SHAHFUREEL_ROW_C0] / p + row[SHAHFUREEL_ROW_C1] + row[SHAHFUREEL_ROW_C2] * p;
}

static int dearer_first(const void *a, const void *b)
{
    double x = step_cost(a), y = step_cost(b);
    return (x < y) - (x > y);
}

/* The same case with its units in another order: those first whose greatest output is the dearest, step by step. */
static void put_dearest_first(const struct case_file *from, struct case_file *to)
{
    uint32_t rows[SHAHFUREEL_ROWS_NUMBERS];
    int64_t told[SHAHFUREEL_ANSWERS]; /* demand and number of units */
    shahfureel_unpack(from->bytes, from->length, rows, SHAHFUREEL_ROWS_NUMBERS, told, SHAHFUREEL_ANSWERS);
    qsort(rows, (size_t)told[1], SHAHFUREEL_ROW_NUMBERS * sizeof rows[0], dearer_first);
    to->length = shahfureel_pack((uint32_t)told[0], rows, SHAHFUREEL_ROW_NUMBERS * (size_t)told[1], to->bytes, sizeof to->bytes);
}

/* Prints the mean gap of some cases at each budget, in percent of the cost, how many searches end within the largest, and the mean
 * of their nodes. */
static void print_gaps(const char *what, const struct case_file *cases, uint32_t count, uint32_t units)
{
    uint8_t reply[SHAHFUREEL_REFINE_REPLY_BYTES];
    uint32_t closed = 0, evaluated = 0;
    printf("%13s %5u", what, (unsigned)units);
    for (int k = 0; k < BUDGETS; k++) {
        double sum = 0;
        for (uint32_t i = 0; i < count; i++) {
            shahfureel_refine(cases[i].bytes, cases[i].length, budgets[k], reply, sizeof reply);
            sum += 100.0 * (double)shahfureel_refined_gap(reply) / (double)shahfureel_refined_cost(reply);
            closed += k == BUDGETS - 1 && shahfureel_refined_nodes(reply) < budgets[k];
            evaluated += k == BUDGETS - 1 ? shahfureel_refined_nodes(reply) : 0;
        }
        printf(" %8.3f", sum / count);
    }
    printf(" %5u of %-2u %8u\n", (unsigned)closed, (unsigned)count, (unsigned)(evaluated / count));
}

static void print_table(const struct group *groups, int count)
{
    static struct case_file ordered[CASES_REFINED];
    printf("refine, units of 4 zones: mean gap in %% of the cost, by budget; and how many searches end\n              units");
    for (int k = 0; k < BUDGETS; k++)
        printf(" %8u", (unsigned)budgets[k]);
    printf("     ended    nodes\n");
    for (int i = 0; i < count; i++)
        print_gaps("different", groups[i].cases, CASES_REFINED, groups[i].units);
    for (int i = 0; i < count; i++) {
        for (int k = 0; k < CASES_REFINED; k++)
            put_dearest_first(&groups[i].cases[k], &ordered[k]);
        print_gaps("dearest first", ordered, CASES_REFINED, groups[i].units);
    }
    for (int i = 0; i < SITES; i++)
        print_gaps("equal", &sites[i], 1, sizes[i]);
}

void time_refines(int repetitions, const struct group *groups, int count)
{
    for (int i = 0; i < SITES; i++)
        make_equal_case(&sites[i], sizes[i]);
    compare_all(&groups[count - 1]);
    int most = repetitions < REPETITIONS_MOST ? repetitions : REPETITIONS_MOST;
    time_equal(most);
    time_different(most, &groups[count - 1]);
    print_table(groups, count);
}
