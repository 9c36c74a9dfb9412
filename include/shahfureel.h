/* Shahfureel: economic dispatch of generating sets, with a proved bound on the distance from the best.
 *
 * A unit is a generating set. A row is a unit's numbers as a list; packing turns rows and a demand into a case file, a few
 * hundred bytes; dispatch turns a case file into a reply: who gives how much, what it costs, and the gap to the best. Judging takes
 * a case file and outputs of your own, and says whether they will do, what they cost and how far that is from the best at most.
 * Floors takes a case file and other demands, and says for each what it costs at least, from one search. The day takes a case
 * file and the demands of a day's slots, dispatches one after the other, each from the outputs of the one before, and says what
 * each slot costs and how often each unit is started. A run is a dispatch made one evaluation at a time, for screens that show
 * the best so far. Refining takes a case file and a budget of dispatches, and looks for cheaper outputs and a smaller gap. The view
 * serves a reply to station screens that poll it by Modbus. A cost row is a set's costs as text, a row of a MATPOWER gencost
 * matrix: reading it gives the cost numbers of a row, exactly or not at all.
 *
 * A whole program: one unit that can give 0.2 to 1.0 MW, but nothing strictly between 0.4 and 0.7 MW, is asked for 0.5 MW.
 * It prints "unit 1 gives 0.7 MW" and "cost 119000, nobody does it for less than 77000".
 *
 *         #include "shahfureel.h"
 *
 *         #include <stdio.h>
 *
 *         int main(void)
 *         {
 *             uint32_t row[SHAHFUREEL_ROW_NUMBERS] = {0};
 *             uint8_t file[SHAHFUREEL_FILE_BYTES_MAX];
 *             uint8_t reply[SHAHFUREEL_REPLY_BYTES];
 *
 *             row[SHAHFUREEL_ROW_C1] = 10000;
 *             row[SHAHFUREEL_ROW_C2] = 1000;
 *             row[SHAHFUREEL_ROW_LEAST] = 2;
 *             row[SHAHFUREEL_ROW_GREATEST] = 10;
 *             row[SHAHFUREEL_ROW_ZONES] = 1;
 *             row[SHAHFUREEL_ROW_EDGES] = 4;
 *             row[SHAHFUREEL_ROW_EDGES + 1] = 7;
 *             uint32_t length = shahfureel_pack(5, row, SHAHFUREEL_ROW_NUMBERS, file, sizeof file);
 *             if (length < SHAHFUREEL_LENGTH_MIN)
 *                 return (int)length;
 *             uint32_t answer = shahfureel_dispatch(file, length, reply, sizeof reply);
 *             if (answer < SHAHFUREEL_LENGTH_MIN)
 *                 return (int)answer;
 *             for (uint32_t i = 0; i < shahfureel_reply_count(reply); i++) {
 *                 unsigned steps = shahfureel_reply_output(reply, i);
 *                 printf("unit %u gives %u.%u MW\n", (unsigned)i + 1, steps / 10, steps % 10);
 *             }
 *             unsigned long long cost = shahfureel_reply_cost(reply), gap = shahfureel_reply_gap(reply);
 *             printf("cost %llu, nobody does it for less than %llu\n", cost, cost - gap);
 *             return 0;
 *         }
 *
 * Compile it with  gcc program.c $(pkg-config --cflags --libs shahfureel)  where the library is installed (tools/install; docs/C.md
 * says how, and how to do without). This header and libshahfureel.a or libshahfureel.so are all that is needed: they may be copied
 * to a machine without the toolchain, if that is x86-64 with Linux's calling convention. The header is C99 and C++.
 *
 * What each call promises, for every input (proved of all of them but the few that say otherwise):
 *   - it returns, and reads and writes nothing outside the buffers that it is lent;
 *   - a refusal leaves every lent buffer as it was;
 *   - otherwise only the start of an output buffer is written, as far as the call says; the rest is untouched;
 *   - it keeps nothing between calls but what it writes into a lent run, and allocates nothing. Several threads may call at once,
 *     also on the same input, each with output buffers and runs of its own. The stack that each takes is named below,
 *     SHAHFUREEL_STACK_... and, much the greatest, SHAHFUREEL_REFINE_STACK_BYTES; the first call of each function takes up to 3 kB
 *     more in a dynamically linked program, when the loader looks it up, or memset or memcpy for it (seen, not proved). For a thread
 *     add PTHREAD_STACK_MIN, and what its own functions take, to that: the thread's own part of its stack is not in these numbers.
 * What the caller must ensure (nothing in C can check it):
 *   - each pointer is valid for its length or room, and lists of numbers are aligned for their type;
 *   - LENGTHS AND ROOM OF LISTS COUNT NUMBERS, NOT BYTES: rows_length, rows_room, b1_length, outputs_length, demands_length,
 *     floors_room, answers_room; histories_room counts records. For an array that is `sizeof rows / sizeof rows[0]`; a bare
 *     `sizeof rows` lets the call pass the array's end. Files, replies, requests, the view's answer, the day's trace and cost rows
 *     count bytes;
 *   - a length or room is at most PTRDIFF_MAX bytes, and a pointer is not null, also where the length is 0;
 *   - an output buffer overlaps no other buffer of the same call.
 * A `..._length` is the exact length of an input: a case file's length is what packing returned or what was read, not the size of
 * the array that holds it. A `..._room` is the size of an output buffer, which may be greater than needed.
 */
#ifndef SHAHFUREEL_H
#define SHAHFUREEL_H

#include <stddef.h>
#include <stdint.h>

#ifdef __cplusplus
extern "C" {
#endif

/* ---- the version of this header. The first number changes where a program must be changed or compiled anew; the second with each
 * request that lands: more calls and numbers, and, where docs/CHANGES.md says so, other answers; the third with all else. The
 * library that a program is linked with, or has loaded, says its own by shahfureel_version. */

#define SHAHFUREEL_VERSION "1.14.2"

/* ---- sizes */

#define SHAHFUREEL_UNITS_MAX 32u             /* units in a case file */
#define SHAHFUREEL_FILE_BYTES_MAX 1608u      /* no case file is longer; of edition 1, none is longer than 1,480 */
#define SHAHFUREEL_REPLY_BYTES 92u           /* a reply buffer has at least as many bytes */
#define SHAHFUREEL_REFINE_REPLY_BYTES 94u    /* and one for shahfureel_refine as many */
#define SHAHFUREEL_BUDGET_MAX 100000u        /* nodes that shahfureel_refine evaluates at most */
#define SHAHFUREEL_ROW_NUMBERS 19u           /* numbers to a unit in a list of rows */
#define SHAHFUREEL_ROWS_NUMBERS 608u         /* a list of rows for unpacking has at least as many numbers */
#define SHAHFUREEL_ANSWERS 2u                /* a list of answers has at least as many; for view, floors and day one will do */
#define SHAHFUREEL_JUDGE_ANSWERS 4u          /* and for shahfureel_judge as many */
#define SHAHFUREEL_DEMANDS_MAX 96u           /* a list of demands for shahfureel_floors or shahfureel_day has at most as many */
#define SHAHFUREEL_FLOORS_MAX 96u            /* SHAHFUREEL_DEMANDS_MAX by its former name */
#define SHAHFUREEL_SLOT_BYTES 18u            /* bytes of a day's trace to each slot */
#define SHAHFUREEL_HISTORIES 32u             /* a list of histories has at least as many records, however few units there are */
#define SHAHFUREEL_RUN_NUMBERS 41u           /* numbers of a run */
#define SHAHFUREEL_RUN_BYTES 1608u           /* and its bytes, as many as the longest case file has */
#define SHAHFUREEL_RUN_ANSWERS 38u           /* and answers when it is asked: a list has as many at least; to advance one will do */
#define SHAHFUREEL_MULTIPLIER_MAX 65536u     /* hundredths of the currency per MWh */
#define SHAHFUREEL_DEMAND_MAX 320000u        /* steps of 0.1 MW */
#define SHAHFUREEL_RAMP_UNLIMITED 10000u     /* as up or down: no ramp limit that way */
#define SHAHFUREEL_B1_MAX 10000000           /* a b1 lies from -SHAHFUREEL_B1_MAX to SHAHFUREEL_B1_MAX */
#define SHAHFUREEL_LENGTH_MIN 30u            /* shahfureel_dispatch, _refine, _pack and _pack2: an answer below this is a refusal */
#define SHAHFUREEL_VIEW_REQUEST_BYTES 5u     /* a Modbus request: function, start and quantity */
#define SHAHFUREEL_VIEW_ANSWER_BYTES 252u    /* a buffer for a Modbus answer has at least as many bytes */
#define SHAHFUREEL_GENCOST_BYTES_MAX 256u    /* no cost row that is read has more bytes */
#define SHAHFUREEL_GENCOST_ANSWERS 3u        /* a list of answers for shahfureel_gencost has at least as many */

/* ---- the stack that each call takes, in bytes at most (measured by tests/panel/stack.c, not proved) */

#define SHAHFUREEL_STACK_DISPATCH 3840u
#define SHAHFUREEL_STACK_PRICE 3584u
#define SHAHFUREEL_STACK_PACK 512u
#define SHAHFUREEL_STACK_PACK2 512u
#define SHAHFUREEL_STACK_UNPACK 768u
#define SHAHFUREEL_STACK_VIEW 256u
#define SHAHFUREEL_STACK_JUDGE 3840u
#define SHAHFUREEL_STACK_FLOORS 4096u
#define SHAHFUREEL_STACK_DAY 4608u
#define SHAHFUREEL_STACK_START 3584u
#define SHAHFUREEL_STACK_ADVANCE 4096u
#define SHAHFUREEL_STACK_ASK 512u
#define SHAHFUREEL_STACK_GENCOST 512u
#define SHAHFUREEL_REFINE_STACK_BYTES 131072u /* it calls itself, up to 161 calls deep */

/* ---- editions of the case file. Edition 1 is what shahfureel_pack writes and shahfureel_unpack reads. In edition 2, which
 * shahfureel_pack2 writes, each unit also has b1, a linear loss, from -10,000,000 to 10,000,000: at output p the unit loses b1 * p
 * hundred-millionths of a step more. It is a B0 coefficient times 100,000,000, and may be negative. Edition 1 is read as b1 = 0.
 * shahfureel_dispatch, shahfureel_price, shahfureel_judge, shahfureel_floors, shahfureel_day, shahfureel_refine and runs take both
 * editions.
 *
 * To make a file of edition 2 by hand, from the bytes that shahfureel_pack wrote: the first field becomes 2; into each body, behind
 * its byte 25, go the 4 bytes of b1, big-endian in two's complement, (uint32_t)b1; each length in the contents grows by 4, and the
 * offset of unit i, counted from 0, by 4 * i. Keep b1 + 19,999 * b below 100,000,000, or the unit is refused with 18. */

/* ---- a row: the place of each number. Unit i of a list, counted from 0, starts at rows[SHAHFUREEL_ROW_NUMBERS * i].
 *
 * Outputs are in steps of 0.1 MW. At a running output p a unit costs c0 + c1 * p + c2 * p * p millionths of the currency per
 * hour; a unit that stands costs nothing, not even c0. At output p it loses b * p * p hundred-millionths of a step, and in
 * edition 2 also b1 * p. So a set that costs A + B * P + C * P * P an hour while it runs, and loses L * P * P + K * P MW, at P
 * MW, has c0 = 1,000,000 A, c1 = 100,000 B, c2 = 10,000 C, b = 10,000,000 L, b1 = 100,000,000 K.
 *
 * A running output lies from least to greatest and strictly inside no zone (both edges are permitted; a zone may start where the
 * one before ends, and that edge is then permitted alone between them). If previous is above 0, a
 * running output also lies from previous - down to previous + up: 0 means that the set may not move that way, 10,000 that there
 * is no limit. If previous is 0, up and down are ignored. Output 0 is permitted exactly for a set that may stand, ramp or not. */

enum shahfureel_row {
    SHAHFUREEL_ROW_C0 = 0,                   /* cost of running at all: up to 1,000,000,000 */
    SHAHFUREEL_ROW_C1 = 1,                   /* cost: up to 10,000,000 */
    SHAHFUREEL_ROW_C2 = 2,                   /* cost: up to 1,000 */
    SHAHFUREEL_ROW_B = 3,                    /* loss: up to 5,000 */
    SHAHFUREEL_ROW_LEAST = 4,                /* least running output: at least 1 */
    SHAHFUREEL_ROW_GREATEST = 5,             /* greatest running output: above least, up to 10,000 */
    SHAHFUREEL_ROW_PREVIOUS = 6,             /* what the set gives now: up to 10,000; 0 if it stands */
    SHAHFUREEL_ROW_UP = 7,                   /* by how much it may rise: up to 10,000 */
    SHAHFUREEL_ROW_DOWN = 8,                 /* by how much it may fall and still run: up to 10,000 */
    SHAHFUREEL_ROW_MUST_RUN = 9,             /* the mark: 0 may stand, 1 must run */
    SHAHFUREEL_ROW_ZONES = 10,               /* prohibited zones: 0 to 4 */
    SHAHFUREEL_ROW_EDGES = 11                /* zone k, from 0: lower edge here + 2 * k, upper edge next; unused are 0 */
};

/* ---- a reply: the byte at which each field starts. Fields are unsigned and big-endian; the functions below read them. */

enum shahfureel_reply {
    SHAHFUREEL_REPLY_COUNT = 0,              /* 2 bytes: number of units */
    SHAHFUREEL_REPLY_EVALUATIONS = 2,        /* 2 bytes: prices of energy that the search evaluated, at most 18 */
    SHAHFUREEL_REPLY_COST = 4,               /* 8 bytes: what the units that run cost, millionths of the currency per hour */
    SHAHFUREEL_REPLY_GAP = 12,               /* 8 bytes: likewise; nobody covers the demand for less than cost - gap */
    SHAHFUREEL_REPLY_SURPLUS = 20,           /* 8 bytes: net of losses less the demand, hundred-millionths of a step */
    SHAHFUREEL_REPLY_OUTPUTS = 28            /* 2 bytes to a unit: its output in steps of 0.1 MW, 0 if it stands */
};

#define SHAHFUREEL_REPLY_OUTPUTS_AT 28u      /* SHAHFUREEL_REPLY_OUTPUTS by its former name */

/* ---- the reply of shahfureel_refine: the byte at which each field starts. It has the nodes, in 4 bytes, where a reply of
 * shahfureel_dispatch has the evaluations, in 2. So all behind them starts 2 bytes later, and the functions for the one read wrong
 * bytes of the other, shahfureel_reply_cost of this one too. Nothing in the bytes says which of the two they are: keep them apart by
 * the call that wrote them. */

enum shahfureel_refined {
    SHAHFUREEL_REFINED_COUNT = 0,            /* 2 bytes: number of units */
    SHAHFUREEL_REFINED_NODES = 2,            /* 4 bytes: nodes evaluated, 1 to the budget */
    SHAHFUREEL_REFINED_COST = 6,             /* 8 bytes: what the units that run cost, millionths of the currency per hour */
    SHAHFUREEL_REFINED_GAP = 14,             /* 8 bytes: likewise; nobody covers the demand for less than cost - gap */
    SHAHFUREEL_REFINED_SURPLUS = 22,         /* 8 bytes: net of losses less the demand, hundred-millionths of a step */
    SHAHFUREEL_REFINED_OUTPUTS = 30          /* 2 bytes to a unit: its output in steps of 0.1 MW, 0 if it stands */
};

/* ---- the answers of shahfureel_judge: the place of each number */

enum shahfureel_judged {
    SHAHFUREEL_JUDGED_ACCEPTED = 0,          /* 1 if the outputs are accepted, else 0 and all others 0 too */
    SHAHFUREEL_JUDGED_COST = 1,              /* what they cost, millionths of the currency per hour */
    SHAHFUREEL_JUDGED_SURPLUS = 2,           /* net of losses less the demand, hundred-millionths of a step */
    SHAHFUREEL_JUDGED_DISTANCE = 3           /* as the cost; nobody covers the demand for less than cost - distance */
};

/* ---- a day's trace: SHAHFUREEL_SLOT_BYTES bytes to each slot, in the order of the demands; the byte of a slot at which each field
 * starts. Fields are unsigned and big-endian; the functions below read them. */

enum shahfureel_slot {
    SHAHFUREEL_SLOT_STATUS = 0,              /* 2 bytes: 0 if the slot is solved; 11 if no permitted outputs cover its demand */
    SHAHFUREEL_SLOT_COST = 2,                /* 8 bytes: what the slot costs, millionths of the currency per hour; 0 at 11 */
    SHAHFUREEL_SLOT_GAP = 10                 /* 8 bytes: likewise; nobody covers this slot's demand for less than cost - gap */
};

/* ---- what shahfureel_day tells of a unit: the record of unit i of the file, counted from 0, is histories[i] */

struct shahfureel_history {
    uint16_t previous;                       /* its output in the last solved slot, in steps; without one, previous of the file */
    uint16_t starts;                         /* how many solved slots it runs in after it stood */
};

/* ---- a run: a search that the caller advances, and the case that it is of. Zero it before its first start, and let nothing but
 * the calls write into it. It may be copied by assignment at any moment; the copy is a run of its own. */

struct shahfureel_run {
    uint64_t numbers[SHAHFUREEL_RUN_NUMBERS]; /* where the search stands: shahfureel_ask tells it */
    uint8_t held[SHAHFUREEL_RUN_BYTES];      /* its first bytes are the case file of the last accepted start */
};

/* ---- where a run stands: the first answer of shahfureel_advance and of shahfureel_ask */

enum shahfureel_state {
    SHAHFUREEL_NOT_STARTED = 0,              /* no accepted start, or not a run's numbers */
    SHAHFUREEL_UNFINISHED = 1,               /* advance it again */
    SHAHFUREEL_FINISHED = 2                  /* it has what shahfureel_dispatch replies */
};

/* ---- the answers of shahfureel_ask: the place of each number. Of a run that is not started all of them are 0. */

enum shahfureel_asked {
    SHAHFUREEL_ASKED_STATE = 0,              /* one of the three above */
    SHAHFUREEL_ASKED_COUNT = 1,              /* number of units */
    SHAHFUREEL_ASKED_EVALUATIONS = 2,        /* prices of energy evaluated so far, at most 18 */
    SHAHFUREEL_ASKED_COST = 3,               /* what the best outputs so far cost, millionths of the currency per hour */
    SHAHFUREEL_ASKED_GAP = 4,                /* likewise; nobody covers the demand for less than cost - gap */
    SHAHFUREEL_ASKED_SURPLUS = 5,            /* net of losses less the demand, hundred-millionths of a step */
    SHAHFUREEL_ASKED_OUTPUTS = 6             /* unit i, from 0: its output in steps here + i; 32 of them, 0 behind the units */
};

/* These read a reply that shahfureel_dispatch has written; `unit` counts from 0 and is below shahfureel_reply_count(reply). */

static inline uint64_t shahfureel_big_endian(const uint8_t *at, size_t bytes)
{
    uint64_t number = 0;
    size_t i;
    for (i = 0; i < bytes; i++)
        number = number << 8 | at[i];
    return number;
}

static inline uint16_t shahfureel_reply_count(const uint8_t *reply)
{
    return (uint16_t)shahfureel_big_endian(reply + SHAHFUREEL_REPLY_COUNT, 2);
}

static inline uint16_t shahfureel_reply_evaluations(const uint8_t *reply)
{
    return (uint16_t)shahfureel_big_endian(reply + SHAHFUREEL_REPLY_EVALUATIONS, 2);
}

static inline uint64_t shahfureel_reply_cost(const uint8_t *reply)
{
    return shahfureel_big_endian(reply + SHAHFUREEL_REPLY_COST, 8);
}

static inline uint64_t shahfureel_reply_gap(const uint8_t *reply)
{
    return shahfureel_big_endian(reply + SHAHFUREEL_REPLY_GAP, 8);
}

static inline uint64_t shahfureel_reply_surplus(const uint8_t *reply)
{
    return shahfureel_big_endian(reply + SHAHFUREEL_REPLY_SURPLUS, 8);
}

static inline uint16_t shahfureel_reply_output(const uint8_t *reply, size_t unit)
{
    return (uint16_t)shahfureel_big_endian(reply + SHAHFUREEL_REPLY_OUTPUTS + 2 * unit, 2);
}

/* These read a reply that shahfureel_refine has written; `unit` counts from 0 and is below shahfureel_refined_count(reply). */

static inline uint16_t shahfureel_refined_count(const uint8_t *reply)
{
    return (uint16_t)shahfureel_big_endian(reply + SHAHFUREEL_REFINED_COUNT, 2);
}

static inline uint32_t shahfureel_refined_nodes(const uint8_t *reply)
{
    return (uint32_t)shahfureel_big_endian(reply + SHAHFUREEL_REFINED_NODES, 4);
}

static inline uint64_t shahfureel_refined_cost(const uint8_t *reply)
{
    return shahfureel_big_endian(reply + SHAHFUREEL_REFINED_COST, 8);
}

static inline uint64_t shahfureel_refined_gap(const uint8_t *reply)
{
    return shahfureel_big_endian(reply + SHAHFUREEL_REFINED_GAP, 8);
}

static inline uint64_t shahfureel_refined_surplus(const uint8_t *reply)
{
    return shahfureel_big_endian(reply + SHAHFUREEL_REFINED_SURPLUS, 8);
}

static inline uint16_t shahfureel_refined_output(const uint8_t *reply, size_t unit)
{
    return (uint16_t)shahfureel_big_endian(reply + SHAHFUREEL_REFINED_OUTPUTS + 2 * unit, 2);
}

/* These read a trace that shahfureel_day has written; `slot` counts from 0 and is below the call's demands_length. */

static inline uint16_t shahfureel_slot_status(const uint8_t *trace, size_t slot)
{
    return (uint16_t)shahfureel_big_endian(trace + SHAHFUREEL_SLOT_BYTES * slot + SHAHFUREEL_SLOT_STATUS, 2);
}

static inline uint64_t shahfureel_slot_cost(const uint8_t *trace, size_t slot)
{
    return shahfureel_big_endian(trace + SHAHFUREEL_SLOT_BYTES * slot + SHAHFUREEL_SLOT_COST, 8);
}

static inline uint64_t shahfureel_slot_gap(const uint8_t *trace, size_t slot)
{
    return shahfureel_big_endian(trace + SHAHFUREEL_SLOT_BYTES * slot + SHAHFUREEL_SLOT_GAP, 8);
}

/* ---- refusals, and what to do
 *
 * The first that applies is given: dispatch 1 to 6, unit by unit 7, 8, 18, 9, 10, then 11; pricing 14, 1, then as dispatch from
 * 2 on; judging as dispatch, then 19; floors 1, 20, 21, then as dispatch from 2 on; the day 1, 22, 23, then as dispatch from 2 on
 * but never 11; refining 1, 25, then as dispatch from 2 on; starting a run as dispatch from 2 on, advancing it 1, then 24, asking
 * it 1; unpacking 1 to 6, unit by unit 7 to 10; packing 12, 5, row by row 7 to 10, then 13; packing edition 2 the same, with 18
 * between 8 and 9; the view 1, 15, 16, 17; a cost row 1, 26, 27, 28. (Behind 24 an advance checks the file once more, as dispatch
 * does from 2 on. Of a run that a start has begun it finds nothing.)
 *
 * shahfureel_refusal_text has a sentence for each number, to show beside it. More on some of them:
 *
 * 7 to 10 and 18 from packing: to find the row, pack the rows one by one, each as a list of its 19 numbers with demand 0, in edition
 * 2 by shahfureel_pack2 with its own b1. The row that is refused is the one. From a call on a file: a file that packing has written is
 * never refused with 2 to 10 or 18, if it is passed with its exact length, but that unpacking refuses one of edition 2 with 3; so
 * another program has made this one, or it was damaged.
 *
 * 3 from unpacking, for a file that dispatch takes: it is of edition 2, and a row has no place for b1.
 *
 * 11: dispatch the same rows with demand 0. Refused with 11 again: zones and ramp limits leave a must-run set no output at all
 * (dispatch the rows one by one with demand 0 to find it). Answered: the sets together give too little for the demand, as
 * their limits, zones, ramp limits and losses are. As the status of a slot 11 is no refusal of the day: see shahfureel_day.
 *
 * 16: requests of other Modbus functions have other lengths. To answer one, send its function with the top bit set, then 1, as
 * examples/modbus_server.c does.
 *
 * 24: the file that an advance was handed is not, byte by byte, the one that the run was started with: the case was loaded anew or
 * changed meanwhile. The run keeps its state. Start it anew with the new file, and it begins again with that; or hand over the old
 * file, and it goes on. So a panel whose users may load a case starts anew at 24, or keeps a copy of the file while a run lasts.
 *
 * 26 to 28: to find the word of a cost row, put its words into "2 0 0 3 0 0 0", each alone and in its own place, and read that, as
 * examples/gencost.c does. At 28 no coefficient of the row is too fine; at 27 one may be above its limit too. */

enum shahfureel_refusal {
    SHAHFUREEL_BUFFER_TOO_SHORT = 1,         /* lend a reply of 92 bytes, for refining 94, rows of 608 numbers, answers of 2, for
                                                judging 4, for asking a run 38, for a cost row 3 */
    SHAHFUREEL_FILE_TOO_SHORT = 2,           /* the file has less than its 8 bytes of head: was it read whole? */
    SHAHFUREEL_EDITION_UNKNOWN = 3,          /* the first field is neither 1 nor 2, or for unpacking not 1: bytes swapped? */
    SHAHFUREEL_COUNT_OUT_OF_RANGE = 4,       /* the file names no unit, or more than 32 */
    SHAHFUREEL_DEMAND_OUT_OF_RANGE = 5,      /* the demand is above 320,000 steps: is it in steps of 0.1 MW? */
    SHAHFUREEL_CONTENTS_INVALID = 6,         /* offsets, lengths or the file's end do not fit: cut, or its room passed? */
    SHAHFUREEL_ZONE_COUNT_INVALID = 7,       /* more than 4 zones, or not as many as the body or row has (unused are 0) */
    SHAHFUREEL_COEFFICIENT_OUT_OF_RANGE = 8, /* c0, c1, c2 or b of a unit is above its limit */
    SHAHFUREEL_LIMITS_INVALID = 9,           /* 1 <= least, then zone edges, then greatest <= 10,000: strictly rising, but a zone
                                                may start where the one before ends */
    SHAHFUREEL_RAMP_OR_MARK_OUT_OF_RANGE = 10, /* previous, up or down above 10,000, or a mark that is not 0 or 1 */
    SHAHFUREEL_NO_ALLOCATION = 11,           /* no permitted outputs cover the demand after losses: see above */
    SHAHFUREEL_ROWS_INVALID = 12,            /* rows_length is 0, above 608, or not 19 to a unit: does it count numbers? Or
                                                b1_length is not one to a row */
    SHAHFUREEL_FILE_BUFFER_TOO_SHORT = 13,   /* lend a file buffer of SHAHFUREEL_FILE_BYTES_MAX bytes */
    SHAHFUREEL_MULTIPLIER_OUT_OF_RANGE = 14, /* the multiplier is above 65,536 */
    SHAHFUREEL_REPLY_MALFORMED = 15,         /* the reply is not 28 + 2 * units bytes, units 1 to 32: was its room passed, or is it
                                                one of shahfureel_refine? */
    SHAHFUREEL_REQUEST_LENGTH_INVALID = 16,  /* the request is not 5 bytes: one of another function, or with its header? */
    SHAHFUREEL_ANSWER_TOO_SHORT = 17,        /* lend an answer of 252 bytes */
    SHAHFUREEL_LOSSES_OUT_OF_RANGE = 18,     /* edition 2: b1 outside -10,000,000 to 10,000,000, or b1 + 19,999 * b at or above
                                                100,000,000: near 10,000 steps the net would not grow with the output */
    SHAHFUREEL_OUTPUT_COUNT_INVALID = 19,    /* not one output to a unit of the file: give 0 for a unit that stands */
    SHAHFUREEL_DEMANDS_INVALID = 20,         /* more than 96 demands: ask in several calls; or one above 320,000: in steps? */
    SHAHFUREEL_FLOORS_TOO_SHORT = 21,        /* fewer places for floors than demands: lend one for each */
    SHAHFUREEL_DAY_DEMANDS_INVALID = 22,     /* more than 96 demands for a day: make the slots longer, or plan the rest by a call on
                                                a file whose previous outputs are those of the histories; or one above 320,000 */
    SHAHFUREEL_DAY_BUFFERS_TOO_SHORT = 23,   /* lend a trace of 18 bytes for each demand and 32 histories, also for fewer units */
    SHAHFUREEL_CASE_CHANGED = 24,            /* a run advanced with a file that is not its own: start anew, or hand over its own */
    SHAHFUREEL_BUDGET_OUT_OF_RANGE = 25,     /* a budget of 0 or above 100,000: ask for at most SHAHFUREEL_BUDGET_MAX. There is no
                                                way to go on from there: a call always begins with the whole site */
    SHAHFUREEL_GENCOST_MALFORMED = 26,       /* a cost row that is not of the form, or of more than 256 bytes: does it begin with a
                                                blank or end with one, with ';' or with the line's end, has it a sign or an
                                                exponent, or is it of another model or degree? */
    SHAHFUREEL_GENCOST_NOT_WHOLE = 27,       /* a coefficient finer than a case file can hold: square, linear or constant is no
                                                whole number of 0.0001, 0.00001 or 0.000001. Nothing is rounded: round it yourself,
                                                if the set's costs may change by that */
    SHAHFUREEL_GENCOST_ABOVE_LIMIT = 28      /* square, linear or constant is above 0.1, 100 or 1,000, which is what a case file
                                                holds: give the costs of all sets in a larger unit of money */
};

/* ---- calls. docs/FORMATS.md has the case file byte by byte. */

/* Dispatches a case file, of either edition. Returns the reply's length, 28 + 2 * units, and writes the reply; or returns a
 * refusal, which is below SHAHFUREEL_LENGTH_MIN. The outputs in the reply are permitted and cover the demand after losses; no
 * permitted outputs that cover it cost less than cost - gap. More load is never cheaper: of two case files that differ only in the
 * demand, if the higher demand is solved so is the lower, with no more cost and no greater cost - gap (specification, rule 16.20);
 * its gap, surplus, evaluations and a unit's output may be greater. */
uint32_t shahfureel_dispatch(const uint8_t *file, size_t file_length, uint8_t *reply, size_t reply_room);

/* Prices a case file, of either edition, at a multiplier, a price of energy in hundredths of the currency per MWh. Returns 0
 * and writes answers[0], the dual value, and answers[1], 1 where the units' choices at that price cover the demand and else 0;
 * or returns a refusal. The dual value, divided by 100,000 and rounded up, is a lower bound on the cost of whatever covers the
 * demand, in millionths of the currency per hour. It may be negative. (answers_room counts numbers: at least 2.) */
uint32_t shahfureel_price(const uint8_t *file, size_t file_length, uint32_t multiplier, int64_t *answers, size_t answers_room);

/* Packs a demand, in steps of 0.1 MW, and rows into a case file of edition 1. Returns the file's length, which is the
 * file_length of the other calls, and writes the file; or returns a refusal, which is below SHAHFUREEL_LENGTH_MIN. (rows_length
 * counts numbers, 19 to a unit; file_room counts bytes, and 1,480 are always enough.) */
uint32_t shahfureel_pack(uint32_t demand, const uint32_t *rows, size_t rows_length, uint8_t *file, size_t file_room);

/* Packs a demand, rows and a b1 for each row into a case file of edition 2: units whose losses have a linear part. Returns the
 * file's length, at most SHAHFUREEL_FILE_BYTES_MAX, and writes the file; or returns a refusal, which is below
 * SHAHFUREEL_LENGTH_MIN, and writes nothing.
 *   - b1[i] is that of the unit whose row starts at rows[SHAHFUREEL_ROW_NUMBERS * i]; it may be negative, where running the unit
 *     takes load off the lines of others. With b1 of 0 the unit is as in edition 1.
 *   - It refuses as shahfureel_pack does, with 12 also where b1 has not one number to a row, and with 18 for losses.
 *   - What it writes is never refused with 2 to 10 or 18 by the calls that read both editions, and they read exactly the demand, the
 *     rows and the b1 that were packed (proved). shahfureel_unpack refuses it with 3.
 * (rows_length and b1_length count numbers, 19 and 1 to a unit; file_room counts bytes, and 1,608 are always enough.) */
uint32_t shahfureel_pack2(uint32_t demand, const uint32_t *rows, size_t rows_length, const int32_t *b1, size_t b1_length,
                          uint8_t *file, size_t file_room);

/* Unpacks a case file of edition 1; one of edition 2 is refused with 3. Returns 0 and writes 19 numbers to a unit into rows,
 * and answers[0], the demand, and answers[1], the number of units; or returns a refusal. (rows_room and answers_room count
 * numbers: at least 608 and 2.) */
uint32_t shahfureel_unpack(const uint8_t *file, size_t file_length, uint32_t *rows, size_t rows_room, int64_t *answers,
                           size_t answers_room);

/* Answers a request of the Modbus Application Protocol on a reply, which is 14 + units registers of two bytes, high byte first,
 * numbered from 0. Returns 0, writes the answer and, as answers[0], the answer's length; or returns a refusal.
 *   - reply_length is exactly what shahfureel_dispatch returned for this reply, not the size of the array that holds it.
 *   - The request is a protocol data unit of 5 bytes, without a header or a checksum of the line: the function, then the start and
 *     the quantity, 2 bytes each.
 *   - Function 3, read holding registers, is answered with the function, the byte count 2 * quantity, and the registers.
 *   - What cannot be served is answered too, with 2 bytes: the request's function plus 128, unless it has that bit, and the
 *     exception's number: 1 for another function, else 3 for a quantity outside 1 to 125, else 2 where start + quantity is above
 *     14 + units. That is no refusal.
 * (answer_room counts bytes: at least 252. answers_room counts numbers: at least 1.) */
uint32_t shahfureel_view(const uint8_t *reply, size_t reply_length, const uint8_t *request, size_t request_length,
                         uint8_t *answer, size_t answer_room, int64_t *answers, size_t answers_room);

/* Judges outputs that you give, one to a unit in the order of the file, in steps of 0.1 MW, 0 for a unit that stands. Returns 0
 * and writes four answers: answers[0] is 1 if the outputs are accepted, and then answers[1] is their cost, answers[2] their surplus
 * and answers[3] the distance; it is 0 if they are not, and then the others are 0 too; or returns a refusal.
 *   - Accepted are outputs each of which is permitted (see the row above) and which together cover the demand after losses. Any
 *     other list is not accepted, also one with a number above 10,000: a number is never cut.
 *   - The outputs may cost less than those that shahfureel_dispatch replies, which tries one price of energy for all units at a
 *     time and no combinations of outputs. Those of a reply are accepted with the reply's cost and surplus, and its gap as the
 *     distance.
 *   - No permitted outputs that cover the demand cost less than cost - distance. For one file that is the same number for all
 *     outputs: it is cost - gap of the reply too.
 * To see why outputs are not accepted, judge them again with a demand of 0 (bytes 4 to 7 of the file): accepted, they are permitted
 * and what they net is answers[2]; else one of them is not permitted. examples/judge.c does so.
 * (outputs_length and answers_room count numbers: answers_room is at least 4.) */
uint32_t shahfureel_judge(const uint8_t *file, size_t file_length, const uint32_t *outputs, size_t outputs_length,
                          int64_t *answers, size_t answers_room);

/* Says what other demands cost at least. Takes a case file, of either edition, and up to 96 demands in steps of 0.1 MW, in any
 * order. Returns 0 and writes a floor for each demand, floors[i] for demands[i], and answers[0], how many floors it wrote, which is
 * demands_length; or returns a refusal.
 *   - A floor is in millionths of the currency per hour, and never negative. No permitted outputs of these units that cover
 *     demands[i] after losses cost less than floors[i]. It is a lower bound, not what a dispatch at that demand costs.
 *   - The floors come from the prices of energy that shahfureel_dispatch evaluates for the file's own demand, so that one search
 *     serves all of them. For the file's own demand the floor is cost - gap of the reply. For another it may be lower than cost -
 *     gap of the reply to a file with that demand, never higher. Where a single price was evaluated, as always at demand 0 (the
 *     reply says how many), all floors are alike.
 *   - Of two demands the higher has no lower floor.
 *   - A demand that nothing covers gets a number too: to learn whether it can be covered, dispatch a file with that demand.
 *   - The file's own demand (its bytes 4 to 7) must be one that the units cover, or the call is refused with 11, as dispatch is.
 *     The file is checked also where the list of demands is empty; then no floor is written, and answers[0] is 0.
 * All buffers remain yours: file and demands are only read; floors past demands_length and answers past the first are untouched.
 * (demands_length, floors_room and answers_room count numbers: floors_room is at least demands_length, answers_room at least 1.) */
uint32_t shahfureel_floors(const uint8_t *file, size_t file_length, const uint32_t *demands, size_t demands_length,
                           int64_t *floors, size_t floors_room, int64_t *answers, size_t answers_room);

/* Dispatches a day slot by slot. Takes a case file, of either edition, and up to 96 demands in steps of 0.1 MW, one to a slot, in
 * their order. Returns 0 and writes 18 bytes of the trace for each slot, a history for each unit, and answers[0], the total; or
 * returns a refusal.
 *   - A slot is dispatched as shahfureel_dispatch does it. Its case is the file with the slot's demand for the file's own (bytes 4
 *     to 7) and, for the previous output of each unit, previous of the unit's history. So the ramps are carried from slot to slot:
 *     up and down say by how much a unit may change from one slot to the next. Status, cost and gap are those of that dispatch.
 *   - Before the first slot, also where the list of demands is empty, each unit's history is set from the file: previous to the
 *     unit's previous output there, starts to 0. What stood in the histories before the call does not count. After each solved
 *     slot previous is the unit's output in it, and starts is one more if the unit stood before the slot and runs in it. A unit
 *     that the file has at 0 and that runs in the first slot counts a start. A unit that stood has no ramp window when it starts.
 *   - A slot whose demand no permitted outputs cover, from where the units are, is a refused slot: its status is 11, its cost and
 *     gap are 0. The call returns 0 all the same and goes on; the histories stay as they are, so that the ramps of the next slot
 *     count from the last solved slot, or from the file. A refused slot adds nothing to the total: look at every status before
 *     you use it. After a solved slot, 11 means that the units give too little. If every slot has 11, see 11 above.
 *   - The total is the sum of the costs of the solved slots, each per hour: for slots of a quarter of an hour divide it by 4.
 *   - The file's own demand is checked (above 320,000 the call is refused with 5) and not dispatched: it is no slot, and the call
 *     is not refused where the units cannot cover it.
 *   - The histories have the outputs of the last solved slot only. For those of slot k, counted from 1, call with the first k
 *     demands: the slots before it are the same then (examples/day.c does so).
 *   - Each slot is dispatched without a look at the next, so that the day need not be the cheapest there is, and its gaps do not
 *     say how far from that it is. A greater demand in one slot may even make the day cheaper.
 * All buffers remain yours: file and demands are only read; bytes of the trace behind those of the slots, histories behind those
 * of the units, and answers past the first are untouched. A refusal touches nothing.
 * (demands_length and answers_room count numbers, trace_room bytes, histories_room records: trace_room is at least 18 *
 * demands_length, histories_room at least 32, answers_room at least 1.) */
uint32_t shahfureel_day(const uint8_t *file, size_t file_length, const uint32_t *demands, size_t demands_length, uint8_t *trace,
                        size_t trace_room, struct shahfureel_history *histories, size_t histories_room, int64_t *answers,
                        size_t answers_room);

/* Looks for cheaper outputs and a smaller gap, for sites that will wait for it. Takes a case file, of either edition, and a budget.
 * Returns the reply's length, 30 + 2 * units, and writes the reply; or returns a refusal, which is below SHAHFUREEL_LENGTH_MIN.
 *   - One price of energy for all makes sets that may stand, or have zones, jump from region to region of their permitted outputs,
 *     and so leaves a dispatch a gap of several percent. The regions of a unit are 0, if it may stand, and the intervals that its
 *     limits, zones and ramp window leave it. Refining divides the site by them: it dispatches the site with the first unit that
 *     has several regions kept to the lowest of them, then with that unit kept to the others, and so on in either part, depth first
 *     (the field's branch and bound). Each such part, the whole site being the first, is a node. The budget, 1 to 100,000, is how
 *     many nodes are evaluated, that is dispatched, at most.
 *   - The reply has the best outputs of all nodes, the first found among equals. They are permitted and cover the demand after
 *     losses, and nobody covers it for less than cost - gap. A larger budget raises neither the cost nor the gap. With a budget of
 *     1, cost, gap, surplus and outputs are those that shahfureel_dispatch replies.
 *   - A gap of 0 says that no outputs are cheaper. Fewer nodes than the budget say that the search has ended: every larger budget
 *     has the same reply, also where a gap is left. So take a small budget, look at gap and nodes, and take ten times as much until
 *     you are content, as examples/refine.c does: the budgets of all these calls together are a ninth more than the last.
 *   - The order of the units in the file matters to the search, though not to what is permitted: put those first whose greatest
 *     output is the dearest for each step; mostly it then ends sooner, or has a smaller gap at the same budget.
 *   - The time grows with the nodes that are evaluated; the stack and the reply do not. Most nodes are decided by what is known of
 *     the node that they are a part of; no node takes longer than a dispatch and a few evaluations more. The largest budget took 13
 *     to 18 milliseconds at 32 units (docs/PERFORMANCE.md has the time of a node). A call cannot be interrupted.
 *   - The stack grows with the number of regions, up to SHAHFUREEL_REFINE_STACK_BYTES for 32 units of six regions each. A thread
 *     may have less than that by default: see to it where you make one.
 *   - That more load is never cheaper is promised of shahfureel_dispatch and not here: at one budget above 1 a higher demand may
 *     cost less than a lower one.
 *   - shahfureel_view refuses this reply with 15. To serve it all the same, make it a reply of 2 bytes less: its bytes 0 and 1, two
 *     zeros for the evaluations, and its bytes from 6 on.
 * The bytes of the buffer behind the reply are untouched. (reply_room counts bytes: at least 94, also for fewer units.) */
uint32_t shahfureel_refine(const uint8_t *file, size_t file_length, uint32_t budget, uint8_t *reply, size_t reply_room);

/* Reads a cost row, a row of a MATPOWER gencost matrix as text. Returns 0 and writes three answers, the cost numbers of a unit,
 * each at the place that it has in the unit's row; or returns a refusal.
 *   - The text is seven words: 2 (a polynomial), startup, shutdown, 3 (coefficients), then the square, linear and constant
 *     coefficients of the cost an hour at an output in MW. Each two are parted by one or more spaces or tabs. Nothing stands before
 *     the first or behind the last: no blank, no line's end, no ';'. It has at most 256 bytes.
 *   - 2 and 3 are that one character. The others are digits, or digits, a point and digits: no sign, no exponent, and a digit on
 *     either side of a point. Zeros before and behind change nothing. Startup and shutdown need the form and are ignored, whatever
 *     their value.
 *   - A case file counts power in steps of 0.1 MW and money in millionths. So answers[SHAHFUREEL_ROW_C2] is 10,000 times the square
 *     coefficient, answers[SHAHFUREEL_ROW_C1] 100,000 times the linear and answers[SHAHFUREEL_ROW_C0] 1,000,000 times the constant
 *     one, exactly: nothing is rounded. Copied to these places of a row they are never refused with 8.
 *   - `2 1500 0 3 0.085 1.2 600` gives c2 850, c1 120,000 and c0 600,000,000.
 * The text is only read, and need not end with a zero byte; row_length does not count one. Answers past the third are untouched.
 * (row_length counts bytes. answers_room counts numbers: at least 3.) */
uint32_t shahfureel_gencost(const char *row, size_t row_length, int64_t *answers, size_t answers_room);

/* ---- words about the library; both are plain C, tested and not proved. What they return is never null, and stays for as long as
 * the program runs: it is not to be freed or written. */

/* A sentence for a refusal's number: what is wrong, and mostly what to do. It begins with a small letter and ends without a full
 * stop, to stand behind a colon. For 0, and for every other number that is no refusal, the sentence says so. */
const char *shahfureel_refusal_text(uint32_t number);

/* The version of the library that this program is linked with or has loaded, such as "1.14.2". Compare it with SHAHFUREEL_VERSION,
 * that of the header by which the program was compiled: the first number must be the same, and the library's second not smaller. */
const char *shahfureel_version(void);

/* ---- a dispatch one evaluation at a time. A screen that is not to freeze starts a run, advances it until it is finished, 18 times
 * at most, and asks in between what is found so far. docs/C.md has a whole program, examples/run.c another. These three take the
 * two arrays of a run; shahfureel_start, shahfureel_advance and shahfureel_ask below take the struct. */

/* Starts a run of a case file, of either edition, whatever the run was before. Returns 0 and writes the run: no price of energy is
 * evaluated yet, the best so far are the units' greatest outputs, and the gap is the cost. Or returns a refusal, as
 * shahfureel_dispatch does for this file, 11 among them; the run then stays as it was, and goes on with its old file.
 * The file is not the run's own `held`: the two would overlap. */
uint32_t shahfureel_run_start(uint64_t numbers[SHAHFUREEL_RUN_NUMBERS], uint8_t held[SHAHFUREEL_RUN_BYTES], const uint8_t *file,
                              size_t file_length);

/* Advances a run by one evaluation. Returns 0 and writes answers[0], where the run then stands; or returns a refusal.
 *   - The file is the one of the start, handed over again. With any other the call is refused with 24, also where the run is
 *     finished: see above. (Hand over a file of your own, not the run's `held`: that is never another.)
 *   - From one advance to the next the cost never rises, and cost - gap never falls, until the run is started anew.
 *   - A run is finished after as many advances as shahfureel_dispatch makes evaluations. Advancing it once more changes nothing and
 *     says that it is finished. Of a run that is not started it says so, whatever the file, and changes nothing either.
 * (answers_room counts numbers: at least 1.) */
uint32_t shahfureel_run_advance(uint64_t numbers[SHAHFUREEL_RUN_NUMBERS], const uint8_t held[SHAHFUREEL_RUN_BYTES],
                                const uint8_t *file, size_t file_length, int64_t *answers, size_t answers_room);

/* Tells what a run has so far. Returns 0 and writes 38 answers, or returns 1. It changes nothing: ask as often as you like.
 *   - At every moment since the start the outputs are permitted and cover the demand after losses, and nobody covers it for less
 *     than cost - gap. Of a finished run the others are those of the reply to its file.
 *   - Numbers that no start has written may pass for a started run: zero them before the first start. The calls stay within their
 *     memory all the same.
 * (answers_room counts numbers: at least 38.) */
uint32_t shahfureel_run_ask(const uint64_t numbers[SHAHFUREEL_RUN_NUMBERS], int64_t *answers, size_t answers_room);

static inline uint32_t shahfureel_start(struct shahfureel_run *run, const uint8_t *file, size_t file_length)
{
    return shahfureel_run_start(run->numbers, run->held, file, file_length);
}

static inline uint32_t shahfureel_advance(struct shahfureel_run *run, const uint8_t *file, size_t file_length, int64_t *answers,
                                          size_t answers_room)
{
    return shahfureel_run_advance(run->numbers, run->held, file, file_length, answers, answers_room);
}

static inline uint32_t shahfureel_ask(const struct shahfureel_run *run, int64_t *answers, size_t answers_room)
{
    return shahfureel_run_ask(run->numbers, answers, answers_room);
}

#ifdef __cplusplus
}
#endif

#endif
