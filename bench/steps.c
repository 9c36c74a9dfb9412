/* Times an advance of a run against a dispatch of the same case. It first runs each case to its end, which must be dispatch's reply. */
#include "steps.h"

#include "measure.h"

#include <stdio.h>
#include <stdlib.h>
#include <string.h>

enum { ADVANCES = 18 }; /* all that the cases of a group take */

static struct shahfureel_run run;
static volatile int64_t sink;

/* Starts a run and advances it to its end. */
static uint32_t run_case(const struct case_file *c)
{
    int64_t state;
    uint32_t number = shahfureel_start(&run, c->bytes, c->length);
    for (int k = 0; k < ADVANCES && number == 0; k++)
        number = shahfureel_advance(&run, c->bytes, c->length, &state, 1);
    return number;
}

static void compare(const struct case_file *c)
{
    uint8_t reply[SHAHFUREEL_REPLY_BYTES];
    int64_t asked[SHAHFUREEL_RUN_ANSWERS];
    int same = shahfureel_dispatch(c->bytes, c->length, reply, sizeof reply) >= SHAHFUREEL_LENGTH_MIN && run_case(c) == 0 &&
               shahfureel_ask(&run, asked, SHAHFUREEL_RUN_ANSWERS) == 0 && asked[SHAHFUREEL_ASKED_STATE] == SHAHFUREEL_FINISHED &&
               asked[SHAHFUREEL_ASKED_EVALUATIONS] == shahfureel_reply_evaluations(reply) &&
               asked[SHAHFUREEL_ASKED_COST] == (int64_t)shahfureel_reply_cost(reply) &&
               asked[SHAHFUREEL_ASKED_GAP] == (int64_t)shahfureel_reply_gap(reply) &&
               asked[SHAHFUREEL_ASKED_SURPLUS] == (int64_t)shahfureel_reply_surplus(reply);
    for (uint32_t i = 0; same && i < shahfureel_reply_count(reply); i++)
        same = asked[SHAHFUREEL_ASKED_OUTPUTS + i] == shahfureel_reply_output(reply, i);
    if (!same) {
        fprintf(stderr, "run: its end is not dispatch's reply on a file of %zu bytes\n", c->length);
        exit(1);
    }
}

/* One pass over the cases of the group: a start of each. */
static double measure_start(const struct group *g)
{
    double start = processor_nanoseconds();
    for (uint32_t i = 0; i < CASES_IN_GROUP; i++)
        sink = shahfureel_start(&run, g->cases[i].bytes, g->cases[i].length);
    return (processor_nanoseconds() - start) / CASES_IN_GROUP;
}

/* A start of each, and all its advances. */
static double measure_runs(const struct group *g)
{
    double start = processor_nanoseconds();
    for (uint32_t i = 0; i < CASES_IN_GROUP; i++)
        sink = run_case(&g->cases[i]);
    return (processor_nanoseconds() - start) / CASES_IN_GROUP;
}

static double measure_dispatch(const struct group *g)
{
    uint8_t reply[SHAHFUREEL_REPLY_BYTES];
    double start = processor_nanoseconds();
    for (uint32_t i = 0; i < CASES_IN_GROUP; i++)
        sink = shahfureel_dispatch(g->cases[i].bytes, g->cases[i].length, reply, sizeof reply);
    return (processor_nanoseconds() - start) / CASES_IN_GROUP;
}

void time_steps(int repetitions, const struct group *g)
{
    static double starts[REPETITIONS_MAX], advances[REPETITIONS_MAX], dispatches[REPETITIONS_MAX], ratio[REPETITIONS_MAX];
    for (uint32_t i = 0; i < CASES_IN_GROUP; i++)
        compare(&g->cases[i]);
    for (int i = 0; i < repetitions; i++) {
        starts[i] = measure_start(g);
        advances[i] = (measure_runs(g) - starts[i]) / ADVANCES;
        dispatches[i] = measure_dispatch(g);
        ratio[i] = advances[i] / dispatches[i];
    }
    printf("run, %u units of %u zones, each ends with dispatch's reply: start %.0f ns, advance %.0f ns, %.2f of a dispatch of %.0f ns\n",
           (unsigned)g->units, (unsigned)g->zones, median(starts, repetitions), median(advances, repetitions),
           median(ratio, repetitions), median(dispatches, repetitions));
}
