/* Times judging against plain C and against dispatch: on dispatch's own outputs, which are accepted, and on the same with a last
 * output that is not permitted. It first compares the answers of both programs. */
#include "judges.h"

#include "agreement.h"
#include "measure.h"
#include "plain.h"

#include <stdio.h>
#include <stdlib.h>
#include <string.h>

enum { LISTS = 4, NOT_PERMITTED = 65535, ANSWERS_ROOM = 5, FILLED = 0xA5 };

typedef uint32_t judge_call(const uint8_t *, size_t, const uint32_t *, size_t, int64_t *, size_t);

/* Outputs for each case of a group, with a place more than any case has units. */
static uint32_t own[CASES_IN_GROUP][SHAHFUREEL_UNITS_MAX + 1], wrong[CASES_IN_GROUP][SHAHFUREEL_UNITS_MAX + 1];

/* How often each number was given, 0 apart by whether the outputs were accepted. */
static uint64_t accepted, not_accepted, refused[SHAHFUREEL_LENGTH_MIN];

/* ---- agreement */

static void count(uint32_t number, int64_t is_accepted)
{
    if (number != 0)
        refused[number % SHAHFUREEL_LENGTH_MIN]++;
    else if (is_accepted)
        accepted++;
    else
        not_accepted++;
}

static void compare(const struct case_file *c, const uint32_t *outputs, size_t length, size_t room)
{
    int64_t ours[ANSWERS_ROOM], plain[ANSWERS_ROOM];
    memset(ours, FILLED, sizeof ours);
    memset(plain, FILLED, sizeof plain);
    uint32_t number = shahfureel_judge(c->bytes, c->length, outputs, length, ours, room);
    uint32_t other = plain_judge(c->bytes, c->length, outputs, length, plain, room);
    if (number != other || memcmp(ours, plain, sizeof ours) != 0) {
        fprintf(stderr, "judge: the programs differ on %zu outputs for a file of %zu bytes, controller %u, plain C %u\n", length,
                c->length, (unsigned)number, (unsigned)other);
        exit(1);
    }
    count(number, ours[0]);
}

/* Dispatch's own outputs; zeros where it refuses. Returns the number of units. */
static uint32_t own_outputs(const struct case_file *c, uint32_t *outputs)
{
    uint8_t reply[SHAHFUREEL_REPLY_BYTES];
    uint32_t units = (uint32_t)c->bytes[2] << 8 | c->bytes[3];
    uint32_t answer = shahfureel_dispatch(c->bytes, c->length, reply, sizeof reply);
    for (uint32_t i = 0; i <= SHAHFUREEL_UNITS_MAX; i++)
        outputs[i] = answer >= SHAHFUREEL_LENGTH_MIN && i < units ? shahfureel_reply_output(reply, i) : 0;
    return units;
}

/* Dispatch's own outputs, and lists in which one of them is another; at times of another length, or with too few answers. */
static void compare_case(uint64_t *state, const struct case_file *c)
{
    uint32_t outputs[SHAHFUREEL_UNITS_MAX + 1];
    uint32_t units = own_outputs(c, outputs);
    compare(c, outputs, units, ANSWERS_ROOM);
    for (int i = 0; i < LISTS; i++) {
        uint32_t at = random_between(state, 0, units - 1), before = outputs[at];
        uint32_t others[4] = {before + 1, before - 1, random_between(state, 0, 20), 65536 + before};
        outputs[at] = others[random_between(state, 0, 3)];
        compare(c, outputs, units, ANSWERS_ROOM);
        outputs[at] = before;
    }
    compare(c, outputs, random_between(state, 0, SHAHFUREEL_UNITS_MAX + 1), ANSWERS_ROOM);
    compare(c, outputs, units, random_between(state, 0, ANSWERS_ROOM));
}

static void print_agreement(void)
{
    printf("\njudgements: both programs agree in every answer\n  accepted %llu, not accepted %llu",
           (unsigned long long)accepted, (unsigned long long)not_accepted);
    print_refusals(refused);
}

/* ---- times */

static void make_lists(const struct group *g)
{
    uint64_t state = 20240605;
    for (uint32_t i = 0; i < CASES_IN_GROUP; i++) {
        uint32_t units = own_outputs(&g->cases[i], own[i]);
        memcpy(wrong[i], own[i], sizeof own[i]);
        wrong[i][units - 1] = NOT_PERMITTED;
        compare(&g->cases[i], wrong[i], units, SHAHFUREEL_JUDGE_ANSWERS);
        compare_case(&state, &g->cases[i]);
    }
}

/* One pass over the cases of the group. */
static double measure_judge(judge_call *judge, const struct group *g, uint32_t lists[][SHAHFUREEL_UNITS_MAX + 1])
{
    static volatile int64_t sink;
    int64_t answers[SHAHFUREEL_JUDGE_ANSWERS];
    double start = processor_nanoseconds();
    for (uint32_t i = 0; i < CASES_IN_GROUP; i++) {
        judge(g->cases[i].bytes, g->cases[i].length, lists[i], g->units, answers, SHAHFUREEL_JUDGE_ANSWERS);
        sink = answers[3];
    }
    (void)sink;
    return (processor_nanoseconds() - start) / CASES_IN_GROUP;
}

static double measure_dispatch(const struct group *g)
{
    static volatile uint32_t sink;
    uint8_t reply[SHAHFUREEL_REPLY_BYTES];
    double start = processor_nanoseconds();
    for (uint32_t i = 0; i < CASES_IN_GROUP; i++)
        sink = shahfureel_dispatch(g->cases[i].bytes, g->cases[i].length, reply, sizeof reply);
    (void)sink;
    return (processor_nanoseconds() - start) / CASES_IN_GROUP;
}

static void time_lists(int repetitions, const struct group *g, const char *what, uint32_t lists[][SHAHFUREEL_UNITS_MAX + 1])
{
    static double controller[REPETITIONS_MAX], plain[REPETITIONS_MAX], ratio[REPETITIONS_MAX], of_dispatch[REPETITIONS_MAX];
    for (int i = 0; i < repetitions; i++) {
        controller[i] = measure_judge(shahfureel_judge, g, lists);
        plain[i] = measure_judge(plain_judge, g, lists);
        ratio[i] = controller[i] / plain[i];
        of_dispatch[i] = controller[i] / measure_dispatch(g);
    }
    double c = median(controller, repetitions), p = median(plain, repetitions);
    printf("judge, %u units of %u zones, %s: controller %.0f ns, plain C %.0f ns, ratio %.2f; %.2f of a dispatch\n",
           (unsigned)g->units, (unsigned)g->zones, what, c, p, median(ratio, repetitions), median(of_dispatch, repetitions));
}

void time_judges(int repetitions, const struct group *g)
{
    compare_small_cases(20240604, compare_case);
    make_lists(g);
    print_agreement();
    time_lists(repetitions, g, "dispatch's own outputs", own);
    time_lists(repetitions, g, "the last output not permitted", wrong);
}
