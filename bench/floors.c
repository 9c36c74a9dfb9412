/* Times floors for 96 demands against plain C and against one dispatch. It first compares the answers of both programs. */
#include "floors.h"

#include "agreement.h"
#include "measure.h"
#include "plain.h"

#include <stdio.h>
#include <stdlib.h>
#include <string.h>

enum { LISTS = 3, DEMANDS_MAX = 96, LIST_ROOM = DEMANDS_MAX + 4, ANSWERS_ROOM = 2, FILLED = 0xA5 };

typedef uint32_t floors_call(const uint8_t *, size_t, const uint32_t *, size_t, int64_t *, size_t, int64_t *, size_t);

/* Demands for each case of a group. */
static uint32_t demands_of[CASES_IN_GROUP][DEMANDS_MAX];

/* How many floors were written by how many calls, and how often each number was given. */
static uint64_t written, answered, refused[SHAHFUREEL_LENGTH_MIN];

/* ---- agreement */

/* The floors and answers of a call, all of them filled before. */
struct lists {
    int64_t floors[LIST_ROOM], answers[ANSWERS_ROOM];
};

static uint32_t ask(floors_call *call, const struct case_file *c, const uint32_t *demands, size_t length, size_t room,
                    size_t answers_room, struct lists *l)
{
    memset(l, FILLED, sizeof *l);
    return call(c->bytes, c->length, demands, length, l->floors, room, l->answers, answers_room);
}

static void compare(const struct case_file *c, const uint32_t *demands, size_t length, size_t room, size_t answers_room)
{
    struct lists ours, plain;
    uint32_t number = ask(shahfureel_floors, c, demands, length, room, answers_room, &ours);
    uint32_t other = ask(plain_floors, c, demands, length, room, answers_room, &plain);
    if (number != other || memcmp(&ours, &plain, sizeof ours) != 0) {
        fprintf(stderr, "floors: the programs differ on %zu demands for a file of %zu bytes, controller %u, plain C %u\n", length,
                c->length, (unsigned)number, (unsigned)other);
        exit(1);
    }
    refused[number % SHAHFUREEL_LENGTH_MIN]++;
    answered += number == 0;
    written += number == 0 ? length : 0;
}

static uint32_t demand_of(const struct case_file *c) { return (uint32_t)shahfureel_big_endian(c->bytes + 4, 4); }

/* Near the case's own demand, up to twice as much, any, at the limits, and at times one too many. */
static uint32_t make_demand(uint64_t *state, uint32_t own)
{
    uint32_t near = own + random_between(state, 0, 4);
    switch (random_between(state, 0, 31)) {
    case 0:
        return 0;
    case 1:
        return SHAHFUREEL_DEMAND_MAX;
    case 2:
        return random_between(state, 0, 50) == 0 ? SHAHFUREEL_DEMAND_MAX + 1 : SHAHFUREEL_DEMAND_MAX - 1;
    case 3:
    case 4:
        return random_between(state, 0, SHAHFUREEL_DEMAND_MAX);
    case 5:
    case 6:
    case 7:
    case 8:
        return near < 2 ? 0 : near - 2;
    default:
        return random_between(state, 0, 2 * own + 20);
    }
}

static void make_demands(uint64_t *state, const struct case_file *c, uint32_t *demands, size_t length)
{
    for (size_t i = 0; i < length; i++)
        demands[i] = make_demand(state, demand_of(c));
}

/* Lists of any length, also too long ones; at times with too little room for floors, or none for the answer. */
static void compare_case(uint64_t *state, const struct case_file *c)
{
    uint32_t demands[DEMANDS_MAX + 1];
    for (int i = 0; i < LISTS; i++) {
        size_t length = random_between(state, 0, random_between(state, 0, 1) ? 6 : DEMANDS_MAX + 1);
        make_demands(state, c, demands, length);
        compare(c, demands, length, LIST_ROOM, ANSWERS_ROOM);
        compare(c, demands, length, length, 1);
        compare(c, demands, length, random_between(state, 0, LIST_ROOM), random_between(state, 0, ANSWERS_ROOM));
    }
}

static void print_agreement(void)
{
    printf("\nfloors: both programs agree in every answer\n  %llu floors in %llu answers",
           (unsigned long long)written, (unsigned long long)answered);
    print_refusals(refused);
}

/* ---- times */

/* From four fifths to six fifths of each case's own demand, in equal steps. */
static void make_lists(const struct group *g)
{
    uint64_t state = 20240607;
    for (uint32_t i = 0; i < CASES_IN_GROUP; i++) {
        uint32_t own = demand_of(&g->cases[i]);
        for (uint32_t k = 0; k < DEMANDS_MAX; k++)
            demands_of[i][k] = own * (4 * (DEMANDS_MAX - 1) + 2 * k) / (5 * (DEMANDS_MAX - 1));
        compare(&g->cases[i], demands_of[i], DEMANDS_MAX, DEMANDS_MAX, 1);
        compare_case(&state, &g->cases[i]);
    }
}

/* One pass over the cases of the group. */
static double measure_floors(floors_call *call, const struct group *g)
{
    static volatile int64_t sink;
    int64_t floors[DEMANDS_MAX], answer;
    double start = processor_nanoseconds();
    for (uint32_t i = 0; i < CASES_IN_GROUP; i++) {
        call(g->cases[i].bytes, g->cases[i].length, demands_of[i], DEMANDS_MAX, floors, DEMANDS_MAX, &answer, 1);
        sink = floors[DEMANDS_MAX - 1];
    }
    (void)sink;
    return (processor_nanoseconds() - start) / CASES_IN_GROUP;
}

static double measure_dispatch(const struct group *g)
{
    static volatile uint32_t sink;
    uint8_t reply[SHAHFUREEL_REPLY_BYTES];
    double start = processor_nanoseconds();
    for (uint32_t i = 0; i < CASES_IN_GROUP; i++)
        sink = shahfureel_dispatch(g->cases[i].bytes, g->cases[i].length, reply, sizeof reply);
    (void)sink;
    return (processor_nanoseconds() - start) / CASES_IN_GROUP;
}

void time_floors(int repetitions, const struct group *g)
{
    static double controller[REPETITIONS_MAX], plain[REPETITIONS_MAX], ratio[REPETITIONS_MAX], of_dispatch[REPETITIONS_MAX];
    compare_small_cases(20240606, compare_case);
    make_lists(g);
    print_agreement();
    for (int i = 0; i < repetitions; i++) {
        controller[i] = measure_floors(shahfureel_floors, g);
        plain[i] = measure_floors(plain_floors, g);
        ratio[i] = controller[i] / plain[i];
        of_dispatch[i] = controller[i] / measure_dispatch(g);
    }
    double c = median(controller, repetitions), p = median(plain, repetitions);
    printf("floors, %u units of %u zones, %d demands: controller %.0f ns, plain C %.0f ns, ratio %.2f; %.2f of a dispatch\n",
           (unsigned)g->units, (unsigned)g->zones, DEMANDS_MAX, c, p, median(ratio, repetitions), median(of_dispatch, repetitions));
}
