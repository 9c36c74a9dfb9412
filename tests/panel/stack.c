/* The stack that each call takes: it is made on a stack of its own, painted before, and what it has written over is counted. No call may
 * take more than include/shahfureel.h says, on the largest cases of either edition and on U5; refining moreover on a case whose search
 * is as deep as one can be. Cost rows are of every kind. */
#define _XOPEN_SOURCE 700
#include "shahfureel.h"

#include <stdio.h>
#include <stdlib.h>
#include <string.h>
#include <ucontext.h>

enum { STACK = 262144, PAINT = 0xA5, BUDGET = 1000 };

static uint8_t stack[STACK] __attribute__((aligned(64)));
static ucontext_t here, there;

static uint8_t file[SHAHFUREEL_FILE_BYTES_MAX], reply[SHAHFUREEL_REPLY_BYTES], packed_file[SHAHFUREEL_FILE_BYTES_MAX];
static uint8_t request[SHAHFUREEL_VIEW_REQUEST_BYTES] = {3, 0, 0, 0, 1}, viewed[SHAHFUREEL_VIEW_ANSWER_BYTES];
static uint32_t rows[SHAHFUREEL_ROWS_NUMBERS], outputs[SHAHFUREEL_UNITS_MAX], demands[SHAHFUREEL_DEMANDS_MAX];
static int64_t floors[SHAHFUREEL_DEMANDS_MAX], answers[SHAHFUREEL_JUDGE_ANSWERS];
static uint8_t trace[SHAHFUREEL_DEMANDS_MAX * SHAHFUREEL_SLOT_BYTES];
static struct shahfureel_history histories[SHAHFUREEL_HISTORIES];
static struct shahfureel_run run;
static int64_t state, asked[SHAHFUREEL_RUN_ANSWERS];
static uint8_t refined[SHAHFUREEL_REFINE_REPLY_BYTES];
static size_t file_length, units;
static uint32_t reply_length;

static void nothing(void) {}
static void dispatch(void) { reply_length = shahfureel_dispatch(file, file_length, reply, sizeof reply); }
static void price(void) { shahfureel_price(file, file_length, 21, answers, SHAHFUREEL_ANSWERS); }
static void pack(void) { shahfureel_pack(0, rows, units * SHAHFUREEL_ROW_NUMBERS, packed_file, sizeof packed_file); }
static const int32_t b1[SHAHFUREEL_UNITS_MAX];
static void pack2(void) { shahfureel_pack2(0, rows, units * SHAHFUREEL_ROW_NUMBERS, b1, units, packed_file, sizeof packed_file); }
static void unpack(void) { shahfureel_unpack(file, file_length, rows, SHAHFUREEL_ROWS_NUMBERS, answers, SHAHFUREEL_ANSWERS); }
static void view(void) { shahfureel_view(reply, reply_length, request, sizeof request, viewed, sizeof viewed, answers, 1); }
static void judge(void) { shahfureel_judge(file, file_length, outputs, units, answers, SHAHFUREEL_JUDGE_ANSWERS); }
static void floor_list(void)
{
    shahfureel_floors(file, file_length, demands, SHAHFUREEL_DEMANDS_MAX, floors, SHAHFUREEL_DEMANDS_MAX, answers, 1);
}
static void day(void)
{
    shahfureel_day(file, file_length, demands, SHAHFUREEL_DEMANDS_MAX, trace, sizeof trace, histories, SHAHFUREEL_HISTORIES, answers,
                   1);
}
static void start(void) { shahfureel_start(&run, file, file_length); }
/* to the run's end: what one of its advances takes at most */
static void advance(void)
{
    do
        shahfureel_advance(&run, file, file_length, &state, 1);
    while (state == SHAHFUREEL_UNFINISHED);
}
static void ask(void) { shahfureel_ask(&run, asked, SHAHFUREEL_RUN_ANSWERS); }
static void refine(void) { shahfureel_refine(file, file_length, BUDGET, refined, sizeof refined); }
/* rows of every kind: one that is read, one of the most bytes, one of each refusal */
static void gencost(void)
{
    static const char *const texts[] = {"2 1500 0 3 0.085 1.2 600", "2 0 0 3 0 0 x", "2 0 0 3 0.00001 0 0", "2 0 0 3 0 0 1000.1"};
    static char longest[SHAHFUREEL_GENCOST_BYTES_MAX];
    memset(longest, '0', sizeof longest);
    memcpy(longest, "2 0.5 0 3 0 0.", 14);
    longest[100] = ' ';
    shahfureel_gencost(longest, sizeof longest, answers, SHAHFUREEL_GENCOST_ANSWERS);
    for (size_t i = 0; i < sizeof texts / sizeof texts[0]; i++)
        shahfureel_gencost(texts[i], strlen(texts[i]), answers, SHAHFUREEL_GENCOST_ANSWERS);
}

static const struct {
    const char *name;
    void (*call)(void);
    size_t most;
} calls[] = {
    {"dispatch", dispatch, SHAHFUREEL_STACK_DISPATCH}, {"price", price, SHAHFUREEL_STACK_PRICE},
    {"pack", pack, SHAHFUREEL_STACK_PACK},             {"unpack", unpack, SHAHFUREEL_STACK_UNPACK},
    {"view", view, SHAHFUREEL_STACK_VIEW},             {"judge", judge, SHAHFUREEL_STACK_JUDGE},
    {"floors", floor_list, SHAHFUREEL_STACK_FLOORS},   {"day", day, SHAHFUREEL_STACK_DAY},
    {"start", start, SHAHFUREEL_STACK_START},          {"advance", advance, SHAHFUREEL_STACK_ADVANCE},
    {"ask", ask, SHAHFUREEL_STACK_ASK},                {"refine", refine, SHAHFUREEL_REFINE_STACK_BYTES},
    {"gencost", gencost, SHAHFUREEL_STACK_GENCOST},    {"pack2", pack2, SHAHFUREEL_STACK_PACK2},
};

enum { CALLS = sizeof calls / sizeof calls[0] };

/* the bytes of the painted stack that a call writes over, with the frame of its caller here */
static size_t taken_by(void (*call)(void))
{
    memset(stack, PAINT, sizeof stack);
    if (getcontext(&there) != 0)
        exit(2);
    there.uc_stack.ss_sp = stack;
    there.uc_stack.ss_size = sizeof stack;
    there.uc_link = &here;
    makecontext(&there, call, 0);
    if (swapcontext(&here, &there) != 0)
        exit(2);
    size_t untouched = 0;
    while (untouched < sizeof stack && stack[untouched] == PAINT)
        untouched++;
    return sizeof stack - untouched;
}

static void read_case(const char *path)
{
    FILE *f = fopen(path, "rb");
    if (f == NULL) {
        perror(path);
        exit(2);
    }
    file_length = fread(file, 1, sizeof file, f);
    fclose(f);
    units = (size_t)file[2] * 256 + file[3];
    for (size_t k = 0; k < SHAHFUREEL_DEMANDS_MAX; k++)
        demands[k] = (uint32_t)shahfureel_big_endian(file + 4, 4) * (uint32_t)(k % 4) / 3; /* from none to the case's own */
}

/* 32 sets alike of six regions, at a demand that they cover only from the highest region of each. So of every node that is split
 * the part with the lowest region covers nothing, and the rest is split again, until one region is left to each set: 160 splits,
 * each below the one before, and 321 nodes. No outputs tie at a whole price of energy, so that a gap stays open all the way down. */
static void make_deepest_case(void)
{
    static const uint32_t row[SHAHFUREEL_ROW_NUMBERS] = {0, 1, 3, 0, 1, 100, 0, 0, 0, 0, 4, 2, 4, 5, 7, 8, 10, 11, 13};
    units = SHAHFUREEL_UNITS_MAX;
    for (size_t i = 0; i < units; i++)
        memcpy(rows + SHAHFUREEL_ROW_NUMBERS * i, row, sizeof row);
    file_length = shahfureel_pack(100 * SHAHFUREEL_UNITS_MAX - 50, rows, SHAHFUREEL_ROWS_NUMBERS, file, sizeof file);
}

/* makes each call on the case, and keeps the most that it took */
static void measure(size_t own, size_t *most)
{
    for (size_t k = 0; k < CALLS; k++) {
        size_t taken = taken_by(calls[k].call);
        taken = taken > own ? taken - own : 0;
        if (taken > most[k])
            most[k] = taken;
        for (size_t u = 0; k == 0 && u < units && reply_length >= SHAHFUREEL_LENGTH_MIN; u++)
            outputs[u] = shahfureel_reply_output(reply, (unsigned)u);
    }
}

int main(int count, char **paths)
{
    size_t most[CALLS] = {0};
    size_t own = taken_by(nothing);
    int failed = count < 2;
    for (int i = 1; i < count; i++) {
        read_case(paths[i]);
        measure(own, most);
    }
    make_deepest_case();
    measure(own, most);
    failed |= shahfureel_refined_nodes(refined) != 321;
    for (size_t k = 0; k < CALLS; k++) {
        printf("stack: %s %zu bytes, at most %zu\n", calls[k].name, most[k], calls[k].most);
        failed |= most[k] > calls[k].most || most[k] == 0;
    }
    return failed;
}
