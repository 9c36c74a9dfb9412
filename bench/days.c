/* Times a day of 96 slots against plain C and against 96 dispatches of a file patched from slot to slot. It first compares the
 * answers of both programs, and those of the dispatches. */
#include "days.h"

#include "agreement.h"
#include "measure.h"
#include "plain.h"

#include <stdio.h>
#include <stdlib.h>
#include <string.h>

enum { LISTS = 2, SLOTS_MAX = 96, SLOT_BYTES = 18, FILLED = 0xA5 };
enum { TRACE_ROOM = SLOT_BYTES * SLOTS_MAX + 20, HISTORIES_ROOM = 34, HISTORIES_LEAST = 32, ANSWERS_ROOM = 2 };

typedef uint32_t day_call(const uint8_t *, size_t, const uint32_t *, size_t, uint8_t *, size_t, struct shahfureel_history *, size_t,
                          int64_t *, size_t);

/* Demands for each case of a group. */
static uint32_t demands_of[CASES_IN_GROUP][SLOTS_MAX];

/* How many slots were solved and how many refused, by how many calls, and how often each number was given. */
static uint64_t solved, uncovered, answered, refused[SHAHFUREEL_LENGTH_MIN];

/* ---- agreement */

/* What a call writes, all of it filled before. */
struct written {
    uint8_t trace[TRACE_ROOM];
    struct shahfureel_history histories[HISTORIES_ROOM];
    int64_t answers[ANSWERS_ROOM];
};

struct rooms {
    size_t trace, histories, answers;
};

static void differ(const char *what, const struct case_file *c, size_t length)
{
    fprintf(stderr, "day: %s differ on %zu demands for a file of %zu bytes\n", what, length, c->length);
    exit(1);
}

static uint32_t ask(day_call *call, const struct case_file *c, const uint32_t *demands, size_t length, struct rooms r,
                    struct written *w)
{
    memset(w, FILLED, sizeof *w);
    return call(c->bytes, c->length, demands, length, w->trace, r.trace, w->histories, r.histories, w->answers, r.answers);
}

static void count_slots(const uint8_t *trace, size_t length)
{
    answered++;
    for (size_t k = 0; k < length; k++) {
        int covered = shahfureel_slot_status(trace, k) == 0;
        solved += (uint64_t)covered;
        uncovered += (uint64_t)!covered;
    }
}

static void compare(const struct case_file *c, const uint32_t *demands, size_t length, struct rooms r)
{
    static struct written ours, plain;
    uint32_t number = ask(shahfureel_day, c, demands, length, r, &ours);
    uint32_t other = ask(plain_day, c, demands, length, r, &plain);
    if (number != other || memcmp(&ours, &plain, sizeof ours) != 0)
        differ("the programs", c, length);
    refused[number % SHAHFUREEL_LENGTH_MIN]++;
    if (number == 0)
        count_slots(ours.trace, length);
}

static uint32_t demand_of(const struct case_file *c) { return (uint32_t)shahfureel_big_endian(c->bytes + 4, 4); }

/* Mostly from half of the case's own demand to a little more than it; at times none, any, at the limits, or one too many. */
static uint32_t make_demand(uint64_t *state, uint32_t own)
{
    switch (random_between(state, 0, 31)) {
    case 0:
        return 0;
    case 1:
        return SHAHFUREEL_DEMAND_MAX;
    case 2:
        return random_between(state, 0, 50) == 0 ? SHAHFUREEL_DEMAND_MAX + 1 : own;
    case 3:
        return random_between(state, 0, SHAHFUREEL_DEMAND_MAX);
    case 4:
    case 5:
        return random_between(state, 0, 2 * own + 20);
    default:
        return random_between(state, own / 2, own + own / 16 + 1);
    }
}

/* Lists of any length, also too long ones; at times with too little room, or a damaged file. */
static void compare_case(uint64_t *state, const struct case_file *c)
{
    uint32_t demands[SLOTS_MAX + 1];
    static struct case_file other;
    for (int i = 0; i < LISTS; i++) {
        size_t length = random_between(state, 0, random_between(state, 0, 7) ? 6 : SLOTS_MAX + 1);
        for (size_t k = 0; k < length; k++)
            demands[k] = make_demand(state, demand_of(c));
        other = *c;
        damage_at_times(state, &other);
        compare(&other, demands, length, (struct rooms){TRACE_ROOM, HISTORIES_ROOM, ANSWERS_ROOM});
        compare(c, demands, length, (struct rooms){SLOT_BYTES * length, HISTORIES_LEAST, 1});
        struct rooms any = {random_between(state, 0, (uint32_t)(SLOT_BYTES * length + 1)),
                            random_between(state, 30, HISTORIES_ROOM), random_between(state, 0, ANSWERS_ROOM)};
        compare(c, demands, length, any);
    }
}

static void print_agreement(void)
{
    printf("\nday: both programs agree in every answer\n  %llu slots solved and %llu refused in %llu answers",
           (unsigned long long)solved, (unsigned long long)uncovered, (unsigned long long)answered);
    print_refusals(refused);
}

/* ---- the same by dispatches */

static void put(uint8_t *at, uint32_t number, int bytes)
{
    for (int i = bytes - 1; i >= 0; i--, number >>= 8)
        at[i] = (uint8_t)number;
}

/* Writes the outputs of a reply into the bodies as previous ones. */
static void patch(struct case_file *c, const uint8_t *reply)
{
    for (uint32_t i = 0; i < shahfureel_reply_count(reply); i++) {
        size_t body = (size_t)shahfureel_big_endian(c->bytes + 8 + 4 * i, 2);
        memcpy(c->bytes + body + 16, reply + SHAHFUREEL_REPLY_OUTPUTS + 2 * i, 2);
    }
}

/* Dispatches a slot of a file that the slots before have patched. Returns whether it is solved. */
static int dispatch_slot(struct case_file *c, uint32_t demand, uint8_t *reply)
{
    put(c->bytes + 4, demand, 4);
    if (shahfureel_dispatch(c->bytes, c->length, reply, SHAHFUREEL_REPLY_BYTES) < SHAHFUREEL_LENGTH_MIN)
        return 0;
    patch(c, reply);
    return 1;
}

/* Status, cost and gap of every slot are those of its own dispatch. */
static void compare_with_dispatches(const struct case_file *from, const uint32_t *demands)
{
    static struct written w;
    struct case_file c = *from;
    uint8_t reply[SHAHFUREEL_REPLY_BYTES], slot[SLOT_BYTES];
    if (ask(shahfureel_day, from, demands, SLOTS_MAX, (struct rooms){TRACE_ROOM, HISTORIES_LEAST, 1}, &w) != 0)
        differ("day and dispatches", from, SLOTS_MAX);
    for (size_t k = 0; k < SLOTS_MAX; k++) {
        int covered = dispatch_slot(&c, demands[k], reply);
        memset(slot, 0, sizeof slot);
        put(slot, covered ? 0 : SHAHFUREEL_NO_ALLOCATION, 2);
        if (covered)
            memcpy(slot + SHAHFUREEL_SLOT_COST, reply + SHAHFUREEL_REPLY_COST, 16); /* cost and gap */
        if (memcmp(w.trace + SLOT_BYTES * k, slot, sizeof slot) != 0)
            differ("day and dispatches", from, k + 1);
    }
}

/* ---- times */

/* From 64 % of each case's own demand to all of it and back, in equal steps. Returns how many of all slots are solved. */
static uint64_t make_days(const struct group *g)
{
    uint64_t state = 20240609, before = solved;
    for (uint32_t i = 0; i < CASES_IN_GROUP; i++) {
        for (uint32_t k = 0; k < SLOTS_MAX; k++)
            demands_of[i][k] = demand_of(&g->cases[i]) * (1280 + 15 * (k < 48 ? k : 96 - k)) / 2000;
        compare(&g->cases[i], demands_of[i], SLOTS_MAX, (struct rooms){SLOT_BYTES * SLOTS_MAX, HISTORIES_LEAST, 1});
        compare_with_dispatches(&g->cases[i], demands_of[i]);
    }
    uint64_t of_days = solved - before;
    for (uint32_t i = 0; i < CASES_IN_GROUP; i++)
        compare_case(&state, &g->cases[i]);
    return of_days;
}

/* One pass over the cases of the group. */
static double measure_day(day_call *call, const struct group *g)
{
    static volatile int64_t sink;
    static struct written w;
    double start = processor_nanoseconds();
    for (uint32_t i = 0; i < CASES_IN_GROUP; i++) {
        call(g->cases[i].bytes, g->cases[i].length, demands_of[i], SLOTS_MAX, w.trace, TRACE_ROOM, w.histories, HISTORIES_LEAST,
             w.answers, 1);
        sink = w.answers[0];
    }
    (void)sink;
    return (processor_nanoseconds() - start) / CASES_IN_GROUP;
}

static double measure_dispatches(const struct group *g)
{
    static volatile int sink;
    static struct case_file c;
    uint8_t reply[SHAHFUREEL_REPLY_BYTES];
    double start = processor_nanoseconds();
    for (uint32_t i = 0; i < CASES_IN_GROUP; i++) {
        c = g->cases[i];
        for (uint32_t k = 0; k < SLOTS_MAX; k++)
            sink = dispatch_slot(&c, demands_of[i][k], reply);
    }
    (void)sink;
    return (processor_nanoseconds() - start) / CASES_IN_GROUP;
}

void time_days(int repetitions, const struct group *g)
{
    static double controller[REPETITIONS_MAX], plain[REPETITIONS_MAX], ratio[REPETITIONS_MAX], of_dispatches[REPETITIONS_MAX];
    compare_small_cases(20240608, compare_case);
    uint64_t of_days = make_days(g);
    print_agreement();
    for (int i = 0; i < repetitions; i++) {
        controller[i] = measure_day(shahfureel_day, g);
        plain[i] = measure_day(plain_day, g);
        ratio[i] = controller[i] / plain[i];
        of_dispatches[i] = controller[i] / measure_dispatches(g);
    }
    double c = median(controller, repetitions), p = median(plain, repetitions);
    printf("day, %u units of %u zones, %d slots, %.1f %% of them solved: controller %.0f ns, plain C %.0f ns, ratio %.2f; ",
           (unsigned)g->units, (unsigned)g->zones, SLOTS_MAX, 100 * (double)of_days / (CASES_IN_GROUP * SLOTS_MAX), c, p,
           median(ratio, repetitions));
    printf("%.2f of %d dispatches\n", median(of_dispatches, repetitions), SLOTS_MAX);
}
