/* The panel's calls from C, by include/shahfureel.h and the library alone. Each buffer stands between guards, each byte
 * buffer from 1 to 8 bytes past an aligned address, each input in memory that ends with it; each call is made to answer and to
 * refuse with every number that it can give. The header's names are compared with bytes, and what it advises is tried. */
#include "shahfureel.h"

#include <stdio.h>
#include <stdlib.h>
#include <string.h>

static int failures = 0;
static int checks = 0;

static void expect(int holds, const char *call, const char *what)
{
    checks++;
    if (!holds) {
        failures++;
        printf("FAILED: %s: %s\n", call, what);
    }
}

/* ---- buffers between guards. Sizes and places are written out here and below; `sizes_named` compares the header's with them. */

enum { GUARD = 16, ALIGNMENTS = 8, FILLED = 0xA5, BYTES = 1608, NUMBERS = 608, FLOORS = 98, ANSWERS = 40 };
enum { SLOT = 18, TRACE = 98 * SLOT, HISTORIES = 34, RUN = 41 };

/* histories at an address that is even and no multiple of 4: their numbers have 16 bits */
struct history_space {
    uint16_t before;
    struct shahfureel_history records[GUARD + HISTORIES + GUARD];
};

static uint8_t byte_space[GUARD + ALIGNMENTS + TRACE + GUARD];
static uint32_t number_space[GUARD + NUMBERS + GUARD];
static int64_t floor_space[GUARD + FLOORS + GUARD];
static int64_t answer_space[GUARD + ANSWERS + GUARD];
static uint64_t run_space[GUARD + RUN + GUARD];
static union {
    uint32_t aligned;
    struct history_space space;
} shifted;
static uint32_t *const numbers = number_space + GUARD;
static int64_t *const floor_list = floor_space + GUARD;
static int64_t *const answers = answer_space + GUARD;
static uint64_t *const run_numbers = run_space + GUARD;
static struct shahfureel_history *const histories = shifted.space.records + GUARD;

static void fill(void)
{
    memset(byte_space, FILLED, sizeof byte_space);
    memset(number_space, FILLED, sizeof number_space);
    memset(floor_space, FILLED, sizeof floor_space);
    memset(answer_space, FILLED, sizeof answer_space);
    memset(run_space, FILLED, sizeof run_space);
    memset(&shifted.space, FILLED, sizeof shifted.space);
}

/* whether every byte of a space but those from `at` on, `length` of them, is as fill left it */
static int kept_but(const void *space, size_t size, const void *at, size_t length)
{
    const uint8_t *first = space;
    const uint8_t *hole = at;
    for (const uint8_t *p = first; p < first + size; p++)
        if ((p < hole || p >= hole + length) && *p != FILLED)
            return 0;
    return 1;
}

static int bytes_kept_but(const uint8_t *at, size_t length) { return kept_but(byte_space, sizeof byte_space, at, length); }
static int numbers_kept_but(size_t count) { return kept_but(number_space, sizeof number_space, numbers, count * sizeof numbers[0]); }
static int floors_kept_but(size_t count) { return kept_but(floor_space, sizeof floor_space, floor_list, count * sizeof(int64_t)); }
static int answers_kept_but(size_t count) { return kept_but(answer_space, sizeof answer_space, answers, count * sizeof answers[0]); }
static int histories_kept_but(size_t count)
{
    return kept_but(&shifted.space, sizeof shifted.space, histories, count * sizeof histories[0]);
}

static int all_kept(void)
{
    return bytes_kept_but(byte_space, 0) && numbers_kept_but(0) && floors_kept_but(0) && answers_kept_but(0) && histories_kept_but(0);
}

/* ---- the specification's case U5: one unit with one zone, demand 5 */

enum { U5_BYTES = 42, ROW = 19 };

static const uint8_t U5[U5_BYTES] = {0x00, 0x01, 0x00, 0x01, 0x00, 0x00, 0x00, 0x05, 0x00, 0x0C, 0x00, 0x1E, 0x00, 0x00,
                                     0x00, 0x00, 0x00, 0x00, 0x27, 0x10, 0x03, 0xE8, 0x00, 0x00, 0x00, 0x02, 0x00, 0x0A,
                                     0x00, 0x00, 0x00, 0x00, 0x00, 0x00, 0x00, 0x00, 0x00, 0x01, 0x00, 0x04, 0x00, 0x07};

static const uint8_t U5_REPLY[30] = {0x00, 0x01, 0x00, 0x12, 0x00, 0x00, 0x00, 0x00, 0x00, 0x01,
                                     0xD0, 0xD8, 0x00, 0x00, 0x00, 0x00, 0x00, 0x00, 0xA4, 0x10,
                                     0x00, 0x00, 0x00, 0x00, 0x0B, 0xEB, 0xC2, 0x00, 0x00, 0x07};

static const uint32_t U_ROW[ROW] = {0, 10000, 1000, 0, 2, 10, 0, 0, 0, 0, 1, 4, 7, 0, 0, 0, 0, 0, 0};

/* U5 with one byte changed, and the number that every call on files gives it */
static const struct {
    size_t at;
    uint8_t value;
    uint32_t number;
    const char *what;
} damaged[] = {
    {1, 0, SHAHFUREEL_EDITION_UNKNOWN, "edition 0 is 3"},
    {1, 3, SHAHFUREEL_EDITION_UNKNOWN, "edition 3 is 3"},
    {0, 1, SHAHFUREEL_EDITION_UNKNOWN, "edition 257 is 3"},
    {0, 2, SHAHFUREEL_EDITION_UNKNOWN, "edition 513 is 3"},
    {3, 0, SHAHFUREEL_COUNT_OUT_OF_RANGE, "no unit is 4"},
    {3, 33, SHAHFUREEL_COUNT_OUT_OF_RANGE, "33 units are 4"},
    {4, 1, SHAHFUREEL_DEMAND_OUT_OF_RANGE, "a demand above 320,000 is 5"},
    {3, 2, SHAHFUREEL_CONTENTS_INVALID, "two units in the contents of one are 6"},
    {9, 13, SHAHFUREEL_CONTENTS_INVALID, "an offset of 13 is 6"},
    {11, 31, SHAHFUREEL_CONTENTS_INVALID, "a length of 31 is 6"},
    {37, 5, SHAHFUREEL_ZONE_COUNT_INVALID, "five zones are 7"},
    {37, 0, SHAHFUREEL_ZONE_COUNT_INVALID, "no zone in a body of 30 bytes is 7"},
    {12, 0x40, SHAHFUREEL_COEFFICIENT_OUT_OF_RANGE, "c0 above 1,000,000,000 is 8"},
    {16, 1, SHAHFUREEL_COEFFICIENT_OUT_OF_RANGE, "c1 above 10,000,000 is 8"},
    {20, 4, SHAHFUREEL_COEFFICIENT_OUT_OF_RANGE, "c2 above 1,000 is 8"},
    {22, 0x20, SHAHFUREEL_COEFFICIENT_OUT_OF_RANGE, "b above 5,000 is 8"},
    {25, 0, SHAHFUREEL_LIMITS_INVALID, "a least output of 0 is 9"},
    {26, 0x28, SHAHFUREEL_LIMITS_INVALID, "a greatest output above 10,000 is 9"},
    {39, 2, SHAHFUREEL_LIMITS_INVALID, "a lower edge at the least output is 9"},
    {38, 4, SHAHFUREEL_LIMITS_INVALID, "a lower edge of 1,028, above the greatest output, is 9"},
    {41, 10, SHAHFUREEL_LIMITS_INVALID, "an upper edge at the greatest output is 9"},
    {28, 0x40, SHAHFUREEL_RAMP_OR_MARK_OUT_OF_RANGE, "a previous output above 10,000 is 10"},
    {30, 0x40, SHAHFUREEL_RAMP_OR_MARK_OUT_OF_RANGE, "an up step above 10,000 is 10"},
    {32, 0x40, SHAHFUREEL_RAMP_OR_MARK_OUT_OF_RANGE, "a down step above 10,000 is 10"},
    {35, 2, SHAHFUREEL_RAMP_OR_MARK_OUT_OF_RANGE, "a mark of 2 is 10"},
};

enum { DAMAGED = sizeof damaged / sizeof damaged[0] };

/* ---- edition 2: U with demand 5 and b1 -10,000,000, byte by byte; and the bytes of b1 10,000,000 */

enum { E2_BYTES = 46, E2_B1_AT = 38 };

static const uint8_t E2[E2_BYTES] = {0x00, 0x02, 0x00, 0x01, 0x00, 0x00, 0x00, 0x05, 0x00, 0x0C, 0x00, 0x22, 0x00, 0x00, 0x00, 0x00,
                                     0x00, 0x00, 0x27, 0x10, 0x03, 0xE8, 0x00, 0x00, 0x00, 0x02, 0x00, 0x0A, 0x00, 0x00, 0x00, 0x00,
                                     0x00, 0x00, 0x00, 0x00, 0x00, 0x01, 0xFF, 0x67, 0x69, 0x80, 0x00, 0x04, 0x00, 0x07};

static const uint8_t E2_B1_POSITIVE[4] = {0x00, 0x98, 0x96, 0x80};

/* 18 evaluations, cost 119,000, gap 51,600, surplus 270,000,000, output 7 */
static const uint8_t E2_REPLY[30] = {0x00, 0x01, 0x00, 0x12, 0x00, 0x00, 0x00, 0x00, 0x00, 0x01,
                                     0xD0, 0xD8, 0x00, 0x00, 0x00, 0x00, 0x00, 0x00, 0xC9, 0x90,
                                     0x00, 0x00, 0x00, 0x00, 0x10, 0x17, 0xDF, 0x80, 0x00, 0x07};

/* the same but gap 30,800, surplus 130,000,000 */
static const uint8_t E2_POSITIVE_REPLY[30] = {0x00, 0x01, 0x00, 0x12, 0x00, 0x00, 0x00, 0x00, 0x00, 0x01,
                                              0xD0, 0xD8, 0x00, 0x00, 0x00, 0x00, 0x00, 0x00, 0x78, 0x50,
                                              0x00, 0x00, 0x00, 0x00, 0x07, 0xBF, 0xA4, 0x80, 0x00, 0x07};

/* E2 with other b and b1 and one byte more changed (byte 1, the edition, has 2 anyway), and the number that dispatch and pricing give
 * it; unpacking gives 3 to all of them */
static const struct {
    uint32_t b;
    int32_t b1;
    size_t at;
    uint8_t value;
    uint32_t number;
    const char *what;
} damaged_2[] = {
    {0, 10000001, 1, 2, SHAHFUREEL_LOSSES_OUT_OF_RANGE, "b1 above 10,000,000 is 18"},
    {0, -10000001, 1, 2, SHAHFUREEL_LOSSES_OUT_OF_RANGE, "b1 below -10,000,000 is 18"},
    {0, INT32_MAX, 1, 2, SHAHFUREEL_LOSSES_OUT_OF_RANGE, "the greatest number of 32 bits is 18"},
    {0, INT32_MIN, 1, 2, SHAHFUREEL_LOSSES_OUT_OF_RANGE, "the least number of 32 bits is 18"},
    {5000, 5000, 1, 2, SHAHFUREEL_LOSSES_OUT_OF_RANGE, "b 5,000 with b1 5,000 is 18"},
    {4501, 9984501, 1, 2, SHAHFUREEL_LOSSES_OUT_OF_RANGE, "b 4,501 with b1 9,984,501 is 18"},
    {5001, 10000001, 1, 2, SHAHFUREEL_COEFFICIENT_OUT_OF_RANGE, "8 comes before 18"},
    {0, 10000001, 25, 0, SHAHFUREEL_LOSSES_OUT_OF_RANGE, "18 comes before 9"},
    {0, 10000001, 35, 2, SHAHFUREEL_LOSSES_OUT_OF_RANGE, "18 comes before 10"},
    {0, 10000001, 37, 5, SHAHFUREEL_ZONE_COUNT_INVALID, "7 comes before 18"},
    {0, 10000001, 11, 26, SHAHFUREEL_CONTENTS_INVALID, "a length of 26 in edition 2 is 6"},
    {0, 0, 37, 2, SHAHFUREEL_ZONE_COUNT_INVALID, "two zones in a body of 34 bytes are 7 in edition 2"},
    {0, 0, 43, 2, SHAHFUREEL_LIMITS_INVALID, "a lower edge, at 30 in edition 2, at the least output is 9"},
    {0, 0, 45, 10, SHAHFUREEL_LIMITS_INVALID, "an upper edge, at 32 in edition 2, at the greatest output is 9"},
    {0, 0, 35, 2, SHAHFUREEL_RAMP_OR_MARK_OUT_OF_RANGE, "a mark of 2 is 10 in edition 2"},
    {0, 1, 7, 10, SHAHFUREEL_NO_ALLOCATION, "b1 1 leaves less than 10 steps"},
    {0, -10000000, 7, 12, SHAHFUREEL_NO_ALLOCATION, "b1 -10,000,000 gives no 12 steps"},
};

enum { DAMAGED_2 = sizeof damaged_2 / sizeof damaged_2[0] };

/* ---- inputs in memory that ends with them, so that valgrind sees a call that reads or writes past them */

static void *copy_of(const void *from, size_t size, size_t alignment)
{
    uint8_t *block = malloc(alignment + size);
    if (block == NULL)
        abort();
    memset(block, FILLED, alignment);
    return memcpy(block + alignment, from, size);
}

/* after a call, which must have left the input and the bytes before it as they were */
static void release(const char *call, void *at, const void *from, size_t size, size_t alignment)
{
    uint8_t *block = (uint8_t *)at - alignment;
    expect(kept_but(block, alignment, block, 0) && memcmp(at, from, size) == 0, call, "it changes no input");
    free(block);
}

/* U5 or E2, or what they become by changed bytes, with room for one byte more */
static uint8_t case_file[E2_BYTES + 1];

static const uint8_t *u5(void)
{
    memcpy(case_file, U5, U5_BYTES);
    return case_file;
}

static const uint8_t *u5_but(size_t at, uint8_t value)
{
    u5();
    case_file[at] = value;
    return case_file;
}

static void put(uint8_t *at, uint32_t number, int bytes)
{
    for (int i = bytes - 1; i >= 0; i--, number >>= 8)
        at[i] = (uint8_t)number;
}

static const uint8_t *e2(void)
{
    memcpy(case_file, E2, E2_BYTES);
    return case_file;
}

static const uint8_t *e2_but(size_t at, uint8_t value)
{
    e2();
    case_file[at] = value;
    return case_file;
}

static const uint8_t *e2_with(uint32_t b, int32_t b1)
{
    e2();
    put(case_file + 22, b, 2);
    put(case_file + E2_B1_AT, (uint32_t)b1, 4);
    return case_file;
}

static const uint8_t *e2_damaged(size_t i)
{
    e2_with(damaged_2[i].b, damaged_2[i].b1);
    case_file[damaged_2[i].at] = damaged_2[i].value;
    return case_file;
}

/* ---- dispatch */

static uint32_t dispatch(const uint8_t *from, size_t file_length, size_t alignment, size_t reply_room)
{
    fill();
    uint8_t *file = copy_of(from, file_length, alignment);
    uint32_t number = shahfureel_dispatch(file, file_length, byte_space + GUARD + alignment, reply_room);
    release("dispatch", file, from, file_length, alignment);
    return number;
}

static void dispatch_gives(const uint8_t *file, size_t file_length, size_t alignment, size_t reply_room, uint32_t number,
                           const char *what)
{
    expect(dispatch(file, file_length, alignment, reply_room) == number, "dispatch", what);
    expect(all_kept(), "dispatch", "a refusal changes nothing");
}

/* the reply to a file of one unit */
static void dispatch_replies(const uint8_t *file, size_t file_length, size_t alignment, size_t reply_room, const uint8_t *wanted,
                             const char *what)
{
    const uint8_t *reply = byte_space + GUARD + alignment;
    expect(dispatch(file, file_length, alignment, reply_room) == sizeof U5_REPLY, "dispatch", what);
    expect(memcmp(reply, wanted, sizeof U5_REPLY) == 0, "dispatch", what);
    expect(bytes_kept_but(reply, sizeof U5_REPLY), "dispatch", "it writes 28 + 2n bytes and no other");
}

/* U5 at demand 0 with a c0 of 50,000: it stands and costs nothing; if it must run it gives 2 and costs 50,000 and 24,000 */
static void standing_costs_nothing(size_t a)
{
    const uint8_t *reply = byte_space + GUARD + a;
    u5_but(7, 0);
    case_file[14] = 0xC3;
    case_file[15] = 0x50;
    expect(dispatch(case_file, U5_BYTES, a, BYTES) == sizeof U5_REPLY, "dispatch", "a set that stands is replied");
    expect(shahfureel_reply_output(reply, 0) == 0 && shahfureel_reply_cost(reply) == 0, "dispatch", "standing costs nothing");
    case_file[35] = 1;
    expect(dispatch(case_file, U5_BYTES, a, BYTES) == sizeof U5_REPLY, "dispatch", "a set that must run is replied");
    expect(shahfureel_reply_output(reply, 0) == 2 && shahfureel_reply_cost(reply) == 74000, "dispatch", "running costs c0 too");
}

/* U so many times with these costs, its outputs tied at one multiplier: some units are lowered to their least tied output */
static const struct {
    uint32_t c0, c1, c2, units, demand, outputs[3], evaluations;
    uint64_t cost, gap, surplus;
    const char *what;
} lowered[] = {
    {0, 10000, 1000, 2, 5, {2, 3}, 18, 63000, 0, 0, "one of two units alike is lowered"},
    {0, 10000, 1000, 3, 8, {2, 3, 3}, 18, 102000, 0, 0, "one of three units alike is lowered"},
    {0, 10000, 1000, 3, 7, {2, 2, 3}, 18, 87000, 0, 0, "two of three units alike are lowered"},
    {0, 10000, 1000, 2, 11, {4, 7}, 18, 175000, 0, 0, "a unit is lowered over a zone"},
    {0, 10000, 1000, 2, 2, {0, 2}, 16, 24000, 0, 0, "a unit is lowered to standing"},
    {0, 10000, 1000, 2, 3, {2, 2}, 18, 48000, 12000, 100000000, "none is lowered below the demand"},
    {6000, 10000, 1000, 2, 5, {3, 3}, 18, 90000, 15000, 100000000, "none goes to a tied output between"},
    {0, 11000, 1000, 2, 5, {2, 3}, 14, 68000, 0, 0, "an equal net by lowering ends the search"},
    {0, 0, 0, 1, 0, {0}, 1, 0, 0, 0, "a unit that costs nothing stands at demand 0"},
    {0, 0, 0, 2, 15, {10, 10}, 1, 0, 0, 500000000, "units that cost nothing stay where they cover"},
    {655360000, 0, 0, 2, 10, {0, 10}, 2, 655360000, 0, 0, "a unit is lowered at 65,536"},
};

enum { LOWERED = sizeof lowered / sizeof lowered[0] };

/* the case file of a row of that table, and its length */
static uint32_t lowered_file(size_t k, uint8_t *file, size_t room)
{
    uint32_t rows[3 * ROW];
    for (uint32_t i = 0; i < lowered[k].units; i++) {
        memcpy(rows + ROW * i, U_ROW, sizeof U_ROW);
        rows[ROW * i + SHAHFUREEL_ROW_C0] = lowered[k].c0;
        rows[ROW * i + SHAHFUREEL_ROW_C1] = lowered[k].c1;
        rows[ROW * i + SHAHFUREEL_ROW_C2] = lowered[k].c2;
    }
    return shahfureel_pack(lowered[k].demand, rows, ROW * lowered[k].units, file, room);
}

static void dispatching_lowered(size_t a)
{
    const uint8_t *reply = byte_space + GUARD + a;
    uint8_t file[BYTES];
    for (size_t k = 0; k < LOWERED; k++) {
        uint32_t length = lowered_file(k, file, sizeof file), replied = 28 + 2 * lowered[k].units;
        expect(dispatch(file, length, a, BYTES) == replied, "dispatch", lowered[k].what);
        for (uint32_t i = 0; i < lowered[k].units; i++)
            expect(shahfureel_reply_output(reply, i) == lowered[k].outputs[i], "dispatch", lowered[k].what);
        expect(shahfureel_reply_evaluations(reply) == lowered[k].evaluations, "dispatch", lowered[k].what);
        expect(shahfureel_reply_cost(reply) == lowered[k].cost && shahfureel_reply_gap(reply) == lowered[k].gap, "dispatch",
               lowered[k].what);
        expect(shahfureel_reply_surplus(reply) == lowered[k].surplus, "dispatch", lowered[k].what);
        expect(bytes_kept_but(reply, replied), "dispatch", "it writes 28 + 2n bytes and no other");
    }
}

/* U in edition 2: either sign of b1, none, the most beside b, and lengths that one edition has and the other has not */
static void dispatching_edition_2(size_t a)
{
    dispatch_replies(e2(), E2_BYTES, a, SHAHFUREEL_REPLY_BYTES, E2_REPLY, "b1 -10,000,000");
    dispatch_replies(e2_with(0, 0), E2_BYTES, a, BYTES, U5_REPLY, "b1 0 is replied as edition 1 is");
    memcpy(case_file + E2_B1_AT, E2_B1_POSITIVE, sizeof E2_B1_POSITIVE);
    dispatch_replies(case_file, E2_BYTES, a, BYTES, E2_POSITIVE_REPLY, "b1 10,000,000");
    expect(dispatch(e2_with(5000, 4999), E2_BYTES, a, BYTES) == sizeof U5_REPLY, "dispatch", "b 5,000 with b1 4,999 is accepted");
    expect(dispatch(e2_but(7, 11), E2_BYTES, a, BYTES) == sizeof U5_REPLY, "dispatch", "b1 -10,000,000 covers 11 steps");
    expect(shahfureel_reply_output(byte_space + GUARD + a, 0) == 10, "dispatch", "with 10");
    for (size_t i = 0; i < DAMAGED_2; i++)
        dispatch_gives(e2_damaged(i), E2_BYTES, a, 92, damaged_2[i].number, damaged_2[i].what);
    dispatch_gives(e2(), E2_BYTES - 1, a, 92, SHAHFUREEL_CONTENTS_INVALID, "a cut file of edition 2 is 6");
    dispatch_gives(e2(), E2_BYTES + 1, a, 92, SHAHFUREEL_CONTENTS_INVALID, "a padded file of edition 2 is 6");
    dispatch_gives(e2_but(1, 1), E2_BYTES, a, 92, SHAHFUREEL_ZONE_COUNT_INVALID, "U of edition 2 as edition 1 is 7");
    dispatch_gives(u5_but(1, 2), U5_BYTES, a, 92, SHAHFUREEL_ZONE_COUNT_INVALID, "U5 as edition 2 is 7");
    u5_but(11, 26);
    case_file[37] = 0;
    expect(dispatch(case_file, 38, a, BYTES) == sizeof U5_REPLY, "dispatch", "a body of 26 bytes is accepted in edition 1");
    case_file[1] = 2;
    dispatch_gives(case_file, 38, a, 92, SHAHFUREEL_CONTENTS_INVALID, "a body of 26 bytes is 6 in edition 2");
}

/* two demands of one file: the higher one costs no less and has no smaller cost - gap */
static void more_load(const uint8_t *lower, const uint8_t *higher, size_t file_length, size_t a, const char *what)
{
    const uint8_t *reply = byte_space + GUARD + a;
    expect(memcmp(lower, higher, 4) == 0 && memcmp(lower + 8, higher + 8, file_length - 8) == 0, "dispatch", "demands alone differ");
    expect(dispatch(higher, file_length, a, BYTES) == sizeof U5_REPLY, "dispatch", what);
    uint64_t cost = shahfureel_reply_cost(reply), gap = shahfureel_reply_gap(reply);
    expect(dispatch(lower, file_length, a, BYTES) == sizeof U5_REPLY, "dispatch", what);
    expect(shahfureel_reply_cost(reply) <= cost, "dispatch", what);
    expect(shahfureel_reply_cost(reply) - shahfureel_reply_gap(reply) <= cost - gap, "dispatch", what);
}

/* U with zones from 4 to 7 and from 7 to 9: a row packed, unpacked again, dispatched and judged; and zones that do not fit */
static void sharing_an_edge(size_t a)
{
    uint32_t row[ROW], back[NUMBERS];
    uint8_t file[12 + 34];
    int64_t told[4];
    memcpy(row, U_ROW, sizeof row);
    row[10] = 2;
    row[13] = 7;
    row[14] = 9;
    expect(shahfureel_pack(7, row, ROW, file, sizeof file) == sizeof file, "pack", "a shared edge is accepted");
    expect(shahfureel_unpack(file, sizeof file, back, NUMBERS, told, 2) == 0 && memcmp(back, row, sizeof row) == 0, "unpack",
           "both edges come back");
    expect(dispatch(file, sizeof file, a, BYTES) == sizeof U5_REPLY, "dispatch", "a shared edge is dispatched");
    expect(shahfureel_reply_output(byte_space + GUARD + a, 0) == 7, "dispatch", "at the edge");
    for (uint32_t output = 5; output <= 9; output++) {
        expect(shahfureel_pack(5, row, ROW, file, sizeof file) == sizeof file, "pack", "a shared edge is accepted");
        expect(shahfureel_judge(file, sizeof file, &output, 1, told, 4) == 0, "judge", "a shared edge is judged");
        expect(told[0] == (output == 7 || output == 9), "judge", "7 and 9 alone are permitted from 5 to 9");
    }
    row[13] = 6;
    expect(shahfureel_pack(7, row, ROW, file, sizeof file) == SHAHFUREEL_LIMITS_INVALID, "pack", "zones that overlap are 9");
    row[13] = row[14] = 7;
    expect(shahfureel_pack(7, row, ROW, file, sizeof file) == SHAHFUREEL_LIMITS_INVALID, "pack", "a zone without length is 9");
    memcpy(row, U_ROW, sizeof row);
    row[11] = 2;
    expect(shahfureel_pack(7, row, ROW, file, sizeof file) == SHAHFUREEL_LIMITS_INVALID, "pack", "an edge at least is 9");
}

/* two pairs of demands */
static void dispatching_loads(size_t a)
{
    uint8_t higher[E2_BYTES];
    memcpy(higher, u5_but(7, 7), U5_BYTES);
    more_load(u5(), higher, U5_BYTES, a, "U at 5 costs no more than at 7");
    memcpy(higher, e2_but(7, 11), E2_BYTES);
    more_load(e2(), higher, E2_BYTES, a, "U of edition 2 at 5 costs no more than at 11");
}

static void dispatching(size_t a)
{
    dispatching_loads(a);
    sharing_an_edge(a);
    standing_costs_nothing(a);
    dispatching_lowered(a);
    dispatching_edition_2(a);
    dispatch_replies(u5(), U5_BYTES, a, SHAHFUREEL_REPLY_BYTES, U5_REPLY, "U5");
    dispatch_replies(u5(), U5_BYTES, a, BYTES, U5_REPLY, "U5");
    dispatch_gives(u5(), U5_BYTES, a, 0, SHAHFUREEL_BUFFER_TOO_SHORT, "a reply of no byte is 1");
    dispatch_gives(u5(), U5_BYTES, a, 91, SHAHFUREEL_BUFFER_TOO_SHORT, "a reply of 91 bytes is 1");
    dispatch_gives(u5(), 0, a, 91, SHAHFUREEL_BUFFER_TOO_SHORT, "1 comes before 2");
    dispatch_gives(u5(), 0, a, 92, SHAHFUREEL_FILE_TOO_SHORT, "an empty file is 2");
    dispatch_gives(u5(), 7, a, 92, SHAHFUREEL_FILE_TOO_SHORT, "a file of 7 bytes is 2");
    dispatch_gives(u5(), 11, a, 92, SHAHFUREEL_CONTENTS_INVALID, "a file cut in its contents is 6");
    dispatch_gives(u5(), U5_BYTES - 1, a, 92, SHAHFUREEL_CONTENTS_INVALID, "a cut file is 6");
    dispatch_gives(u5(), U5_BYTES + 1, a, 92, SHAHFUREEL_CONTENTS_INVALID, "a padded file is 6");
    for (size_t i = 0; i < DAMAGED; i++)
        dispatch_gives(u5_but(damaged[i].at, damaged[i].value), U5_BYTES, a, 92, damaged[i].number, damaged[i].what);
    dispatch_gives(u5_but(7, 11), U5_BYTES, a, 92, SHAHFUREEL_NO_ALLOCATION, "a demand of 11 is 11");
}

/* ---- pricing */

static uint32_t price(const uint8_t *from, size_t file_length, size_t alignment, uint32_t multiplier, size_t answers_room)
{
    fill();
    uint8_t *file = copy_of(from, file_length, alignment);
    uint32_t number = shahfureel_price(file, file_length, multiplier, answers, answers_room);
    release("price", file, from, file_length, alignment);
    return number;
}

static void price_gives(const uint8_t *file, size_t file_length, size_t alignment, uint32_t multiplier, size_t answers_room,
                        uint32_t number, const char *what)
{
    expect(price(file, file_length, alignment, multiplier, answers_room) == number, "price", what);
    expect(all_kept(), "price", "a refusal changes nothing");
}

static void price_values(const uint8_t *file, size_t file_length, size_t alignment, uint32_t multiplier, size_t answers_room,
                         int64_t dual, int64_t covered)
{
    expect(price(file, file_length, alignment, multiplier, answers_room) == 0, "price", "it returns 0");
    expect(answers[0] == dual && answers[1] == covered, "price", "dual value and cover");
    expect(answers_kept_but(2), "price", "it writes two answers and no other");
}

/* at 21, where 4 and 7 tie without b1 */
static void pricing_edition_2(size_t a)
{
    price_values(e2_with(0, 0), E2_BYTES, a, 21, 2, INT64_C(7700000000), 1);
    price_values(e2_with(0, -1), E2_BYTES, a, 21, 2, INT64_C(7699999853), 1);
    price_values(e2_with(0, 1), E2_BYTES, a, 21, 2, INT64_C(7700000084), 0);
    price_values(e2(), E2_BYTES, a, SHAHFUREEL_MULTIPLIER_MAX, ANSWERS, INT64_C(-39301600000000), 1);
    for (size_t i = 0; i < DAMAGED_2; i++)
        price_gives(e2_damaged(i), E2_BYTES, a, 21, 2, damaged_2[i].number, damaged_2[i].what);
}

static void pricing(size_t a)
{
    pricing_edition_2(a);
    price_values(u5(), U5_BYTES, a, 20, 2, INT64_C(7600000000), 0);
    price_values(u5(), U5_BYTES, a, 21, 2, INT64_C(7700000000), 1);
    price_values(u5(), U5_BYTES, a, 21, ANSWERS, INT64_C(7700000000), 1);
    price_values(u5(), U5_BYTES, a, SHAHFUREEL_MULTIPLIER_MAX, 2, INT64_C(-32748000000000), 1);
    price_gives(u5(), U5_BYTES, a, 65537, 1, SHAHFUREEL_MULTIPLIER_OUT_OF_RANGE, "14 comes before 1");
    price_gives(u5(), U5_BYTES, a, UINT32_MAX, 2, SHAHFUREEL_MULTIPLIER_OUT_OF_RANGE, "a multiplier is unsigned");
    price_gives(u5(), U5_BYTES, a, 21, 0, SHAHFUREEL_BUFFER_TOO_SHORT, "no answer is 1");
    price_gives(u5(), 0, a, 21, 1, SHAHFUREEL_BUFFER_TOO_SHORT, "1 comes before 2");
    price_gives(u5(), 0, a, 21, 2, SHAHFUREEL_FILE_TOO_SHORT, "an empty file is 2");
    price_gives(u5(), U5_BYTES - 1, a, 21, 2, SHAHFUREEL_CONTENTS_INVALID, "a cut file is 6");
    for (size_t i = 0; i < DAMAGED; i++)
        price_gives(u5_but(damaged[i].at, damaged[i].value), U5_BYTES, a, 21, 2, damaged[i].number, damaged[i].what);
    price_gives(u5_but(7, 11), U5_BYTES, a, 21, 2, SHAHFUREEL_NO_ALLOCATION, "a demand of 11 is 11");
}

/* ---- the Modbus view */

static uint32_t view(const uint8_t *from, size_t reply_length, const uint8_t *asked, size_t request_length, size_t alignment,
                     size_t answer_room, size_t answers_room)
{
    fill();
    uint8_t *reply = copy_of(from, reply_length, alignment);
    uint8_t *request = copy_of(asked, request_length, alignment);
    uint32_t number = shahfureel_view(reply, reply_length, request, request_length, byte_space + GUARD + alignment, answer_room,
                                      answers, answers_room);
    release("view", request, asked, request_length, alignment);
    release("view", reply, from, reply_length, alignment);
    return number;
}

static void view_gives(const uint8_t *reply, size_t reply_length, size_t request_length, size_t alignment, size_t answer_room,
                       size_t answers_room, uint32_t number, const char *what)
{
    static const uint8_t request[6] = {3, 0, 0, 0, 1};
    expect(view(reply, reply_length, request, request_length, alignment, answer_room, answers_room) == number, "view", what);
    expect(all_kept(), "view", "a refusal changes nothing");
}

/* the answer to a request on U5's reply */
static void view_answers(size_t alignment, size_t answer_room, const uint8_t *request, const uint8_t *answer, size_t length,
                         const char *what)
{
    const uint8_t *written = byte_space + GUARD + alignment;
    expect(view(U5_REPLY, sizeof U5_REPLY, request, SHAHFUREEL_VIEW_REQUEST_BYTES, alignment, answer_room, 1) == 0, "view", what);
    expect(answers[0] == (int64_t)length && memcmp(written, answer, length) == 0, "view", what);
    expect(bytes_kept_but(written, length) && answers_kept_but(1), "view", "it writes its answer and one length, no other");
}

static void viewing_registers(size_t a)
{
    uint8_t all[2 + sizeof U5_REPLY] = {3, sizeof U5_REPLY};
    memcpy(all + 2, U5_REPLY, sizeof U5_REPLY);
    view_answers(a, SHAHFUREEL_VIEW_ANSWER_BYTES, (const uint8_t[]){3, 0, 0, 0, 15}, all, sizeof all, "all registers");
    view_answers(a, BYTES, (const uint8_t[]){3, 0, 14, 0, 1}, (const uint8_t[]){3, 2, 0, 7}, 4, "the last register");
    view_answers(a, 252, (const uint8_t[]){3, 0, 15, 0, 1}, (const uint8_t[]){0x83, 2}, 2, "a register past the end");
    view_answers(a, 252, (const uint8_t[]){3, 0, 0, 0, 0}, (const uint8_t[]){0x83, 3}, 2, "no register");
    view_answers(a, 252, (const uint8_t[]){3, 0xFF, 0xFF, 0, 126}, (const uint8_t[]){0x83, 3}, 2, "3 comes before 2");
    view_answers(a, 252, (const uint8_t[]){16, 0, 0, 0, 0}, (const uint8_t[]){0x90, 1}, 2, "another function");
}

static void viewing(size_t a)
{
    uint8_t other[sizeof U5_REPLY];
    memcpy(other, U5_REPLY, sizeof other);
    viewing_registers(a);
    view_gives(U5_REPLY, 0, 0, a, 0, 0, SHAHFUREEL_BUFFER_TOO_SHORT, "1 comes before 15");
    view_gives(U5_REPLY, 0, 0, a, 0, 1, SHAHFUREEL_REPLY_MALFORMED, "15 comes before 16");
    view_gives(U5_REPLY, sizeof U5_REPLY - 1, 5, a, 252, 1, SHAHFUREEL_REPLY_MALFORMED, "a cut reply is 15");
    other[1] = 0;
    view_gives(other, 28, 5, a, 252, 1, SHAHFUREEL_REPLY_MALFORMED, "a reply of no unit is 15");
    other[1] = 2;
    view_gives(other, sizeof other, 5, a, 252, 1, SHAHFUREEL_REPLY_MALFORMED, "a reply of another count is 15");
    view_gives(U5_REPLY, sizeof U5_REPLY, 4, a, 0, 1, SHAHFUREEL_REQUEST_LENGTH_INVALID, "16 comes before 17");
    view_gives(U5_REPLY, sizeof U5_REPLY, 6, a, 252, 1, SHAHFUREEL_REQUEST_LENGTH_INVALID, "a request of 6 bytes is 16");
    view_gives(U5_REPLY, sizeof U5_REPLY, 5, a, 251, 1, SHAHFUREEL_ANSWER_TOO_SHORT, "an answer of 251 bytes is 17");
}

/* ---- judging */

static const uint32_t seven[2] = {7, 7};

static uint32_t judge(const uint8_t *from, size_t file_length, const uint32_t *given, size_t outputs_length, size_t alignment,
                      size_t answers_room)
{
    fill();
    uint8_t *file = copy_of(from, file_length, alignment);
    uint32_t *outputs = copy_of(given, outputs_length * sizeof given[0], sizeof given[0]);
    uint32_t number = shahfureel_judge(file, file_length, outputs, outputs_length, answers, answers_room);
    release("judge", outputs, given, outputs_length * sizeof given[0], sizeof given[0]);
    release("judge", file, from, file_length, alignment);
    return number;
}

static void judge_gives(const uint8_t *file, size_t file_length, const uint32_t *outputs, size_t outputs_length, size_t alignment,
                        size_t answers_room, uint32_t number, const char *what)
{
    expect(judge(file, file_length, outputs, outputs_length, alignment, answers_room) == number, "judge", what);
    expect(all_kept(), "judge", "a refusal changes nothing");
}

static void judge_accepts(const uint8_t *file, size_t file_length, const uint32_t *outputs, size_t outputs_length,
                          size_t alignment, size_t answers_room, int64_t cost, int64_t surplus, int64_t distance, const char *what)
{
    expect(judge(file, file_length, outputs, outputs_length, alignment, answers_room) == 0, "judge", what);
    expect(answers[0] == 1 && answers[1] == cost && answers[2] == surplus && answers[3] == distance, "judge", what);
    expect(answers_kept_but(4), "judge", "it writes four answers and no other");
}

/* an output of a file of one unit */
static void judge_accepts_not(const uint8_t *file, size_t file_length, uint32_t output, size_t alignment, const char *what)
{
    for (size_t room = 4; room <= 5; room++) {
        expect(judge(file, file_length, &output, 1, alignment, room) == 0, "judge", what);
        expect(answers[0] == 0 && answers[1] == 0 && answers[2] == 0 && answers[3] == 0, "judge", what);
        expect(answers_kept_but(4), "judge", "it writes four zeros and no other answer");
    }
}

/* the outputs of a reply are accepted with the reply's cost and surplus, and its gap as the distance */
static void judging_replies(const uint8_t *file, size_t file_length, size_t a)
{
    uint8_t reply[92];
    uint32_t outputs[32];
    expect(shahfureel_dispatch(file, file_length, reply, sizeof reply) >= 30, "judge", "a case to be dispatched");
    uint32_t units = shahfureel_reply_count(reply);
    for (uint32_t i = 0; i < units; i++)
        outputs[i] = shahfureel_reply_output(reply, i);
    judge_accepts(file, file_length, outputs, units, a, 4, (int64_t)shahfureel_reply_cost(reply),
                  (int64_t)shahfureel_reply_surplus(reply), (int64_t)shahfureel_reply_gap(reply), "dispatch's own outputs");
}

/* U at other demands than 5: edges, limits and standing; and its own dispatch at each demand that it covers */
static void judging_demands(size_t a)
{
    judge_accepts(u5_but(7, 4), U5_BYTES, (const uint32_t[]){4}, 1, a, 4, 56000, 0, 0, "a lower edge, and the demand just met");
    judge_accepts(u5_but(7, 7), U5_BYTES, seven, 1, a, 4, 119000, 0, 0, "an upper edge");
    judge_accepts(u5_but(7, 10), U5_BYTES, (const uint32_t[]){10}, 1, a, 4, 200000, 0, 0, "the greatest output");
    judge_accepts(u5_but(7, 1), U5_BYTES, (const uint32_t[]){2}, 1, a, 4, 24000, 100000000, 12000, "the least output");
    judge_accepts(u5_but(7, 0), U5_BYTES, (const uint32_t[]){0}, 1, a, 4, 0, 0, 0, "a set that stands");
    judge_accepts_not(u5_but(7, 10), U5_BYTES, 9, a, "a step too little");
    for (uint8_t demand = 0; demand <= 10; demand++)
        judging_replies(u5_but(7, demand), U5_BYTES, a);
    u5_but(7, 0);
    case_file[35] = 1;
    judge_accepts(case_file, U5_BYTES, (const uint32_t[]){2}, 1, a, 4, 24000, 200000000, 0, "a set that must run");
    judge_accepts_not(case_file, U5_BYTES, 0, a, "a set that must run and stands");
}

static void judging_edition_2(size_t a)
{
    judge_accepts(e2(), E2_BYTES, (const uint32_t[]){8}, 1, a, 4, 144000, 380000000, 76600, "b1 -10,000,000");
    judge_accepts(e2_with(0, 10000000), E2_BYTES, (const uint32_t[]){8}, 1, a, 4, 144000, 220000000, 55800, "b1 10,000,000");
    judging_replies(e2(), E2_BYTES, a);
    e2_with(0, 10000000);
    case_file[7] = 2;
    judge_accepts_not(case_file, E2_BYTES, 2, a, "b1 10,000,000 leaves less than 2 steps of 2");
    for (size_t i = 0; i < DAMAGED_2; i++) {
        judge_gives(e2_damaged(i), E2_BYTES, seven, 1, a, 4, damaged_2[i].number, damaged_2[i].what);
        judge_gives(e2_damaged(i), E2_BYTES, seven, 0, a, 4, damaged_2[i].number, "19 comes last");
    }
}

/* U twice at demand 5: dispatch gives 2 and 3, and before it lowers the first 3 and 3 */
static void judging_two_units(size_t a)
{
    uint32_t rows[2 * ROW];
    uint8_t file[BYTES];
    memcpy(rows, U_ROW, sizeof U_ROW);
    memcpy(rows + ROW, U_ROW, sizeof U_ROW);
    uint32_t length = shahfureel_pack(5, rows, 2 * ROW, file, sizeof file);
    expect(length == 76, "judge", "U twice packs to 76 bytes");
    judge_accepts(file, length, (const uint32_t[]){2, 3}, 2, a, 4, 63000, 0, 0, "2 and 3");
    judge_accepts(file, length, (const uint32_t[]){3, 3}, 2, a, 4, 78000, 100000000, 15000, "3 and 3");
    judge_accepts(file, length, (const uint32_t[]){7, 0}, 2, a, 5, 119000, 200000000, 56000, "7 and 0");
    judging_replies(file, length, a);
    expect(judge(file, length, (const uint32_t[]){2, 2}, 2, a, 4) == 0 && answers[0] == 0, "judge", "2 and 2 do not cover");
    expect(judge(file, length, (const uint32_t[]){3, 65539}, 2, a, 4) == 0 && answers[0] == 0, "judge", "no number is cut");
    judge_gives(file, length, seven, 1, a, 4, SHAHFUREEL_OUTPUT_COUNT_INVALID, "an output too few is 19");
    judge_gives(file, length, (const uint32_t[]){2, 3, 0}, 3, a, 4, SHAHFUREEL_OUTPUT_COUNT_INVALID, "an output too many is 19");
    rows[ROW + SHAHFUREEL_ROW_MUST_RUN] = 1;
    expect(shahfureel_pack(5, rows, 2 * ROW, file, sizeof file) == length, "judge", "the second must run");
    judge_accepts(file, length, (const uint32_t[]){0, 7}, 2, a, 4, 119000, 200000000, 56000, "the second runs");
    expect(judge(file, length, (const uint32_t[]){7, 0}, 2, a, 4) == 0 && answers[0] == 0, "judge", "an output is its own unit's");
}

/* the outputs of the replies with lowered units; and cheaper ones than dispatch's 3 and 3 */
static void judging_lowered(size_t a)
{
    uint8_t file[BYTES];
    for (size_t k = 0; k < LOWERED; k++)
        judging_replies(file, lowered_file(k, file, sizeof file), a);
    uint32_t length = lowered_file(6, file, sizeof file);
    judge_accepts(file, length, (const uint32_t[]){2, 3}, 2, a, 4, 75000, 0, 0, "cheaper than dispatch's own");
}

static void judging(size_t a)
{
    judge_accepts(u5(), U5_BYTES, seven, 1, a, SHAHFUREEL_JUDGE_ANSWERS, 119000, 200000000, 42000, "U5, 7");
    judge_accepts(u5(), U5_BYTES, seven, 1, a, 5, 119000, 200000000, 42000, "U5, 7, five answers");
    judge_accepts(u5(), U5_BYTES, (const uint32_t[]){8}, 1, a, 4, 144000, 300000000, 67000, "U5, 8");
    judge_accepts_not(u5(), U5_BYTES, 4, a, "permitted and not covering");
    judge_accepts_not(u5(), U5_BYTES, 0, a, "standing and not covering");
    judge_accepts_not(u5(), U5_BYTES, 5, a, "inside the zone");
    judge_accepts_not(u5(), U5_BYTES, 1, a, "below least");
    judge_accepts_not(u5(), U5_BYTES, 11, a, "above greatest");
    judge_accepts_not(u5(), U5_BYTES, 65536 + 7, a, "a number is not cut to 16 bits");
    judge_accepts_not(u5(), U5_BYTES, UINT32_MAX, a, "the greatest number of 32 bits");
    judging_demands(a);
    judging_edition_2(a);
    judging_two_units(a);
    judging_lowered(a);
    judge_gives(u5(), U5_BYTES, seven, 1, a, 3, SHAHFUREEL_BUFFER_TOO_SHORT, "three answers are 1");
    judge_gives(u5(), 0, seven, 0, a, 3, SHAHFUREEL_BUFFER_TOO_SHORT, "1 comes before 2 and 19");
    judge_gives(u5(), U5_BYTES, seven, 0, a, 0, SHAHFUREEL_BUFFER_TOO_SHORT, "no answer is 1");
    judge_gives(u5(), 7, seven, 1, a, 4, SHAHFUREEL_FILE_TOO_SHORT, "a file of 7 bytes is 2");
    judge_gives(u5(), 0, seven, 0, a, 4, SHAHFUREEL_FILE_TOO_SHORT, "2 comes before 19");
    judge_gives(u5(), U5_BYTES - 1, seven, 1, a, 4, SHAHFUREEL_CONTENTS_INVALID, "a cut file is 6");
    for (size_t i = 0; i < DAMAGED; i++) {
        const uint8_t *file = u5_but(damaged[i].at, damaged[i].value);
        judge_gives(file, U5_BYTES, seven, 1, a, 4, damaged[i].number, damaged[i].what);
        judge_gives(file, U5_BYTES, seven, 2, a, 4, damaged[i].number, "19 comes last");
    }
    judge_gives(u5_but(7, 11), U5_BYTES, seven, 1, a, 4, SHAHFUREEL_NO_ALLOCATION, "a demand of 11 is 11");
    judge_gives(u5_but(7, 11), U5_BYTES, seven, 0, a, 4, SHAHFUREEL_NO_ALLOCATION, "11 comes before 19");
    judge_gives(u5(), U5_BYTES, seven, 0, a, 4, SHAHFUREEL_OUTPUT_COUNT_INVALID, "no output is 19");
    judge_gives(u5(), U5_BYTES, seven, 2, a, 4, SHAHFUREEL_OUTPUT_COUNT_INVALID, "two outputs for one unit are 19");
}

/* ---- floors for other demands */

static uint32_t floors(const uint8_t *from, size_t file_length, const uint32_t *asked, size_t demands_length, size_t alignment,
                       size_t floors_room, size_t answers_room)
{
    fill();
    uint8_t *file = copy_of(from, file_length, alignment);
    uint32_t *demands = copy_of(asked, demands_length * sizeof asked[0], sizeof asked[0]);
    uint32_t number =
        shahfureel_floors(file, file_length, demands, demands_length, floor_list, floors_room, answers, answers_room);
    release("floors", demands, asked, demands_length * sizeof asked[0], sizeof asked[0]);
    release("floors", file, from, file_length, alignment);
    return number;
}

static void floors_gives(const uint8_t *file, size_t file_length, const uint32_t *demands, size_t demands_length, size_t alignment,
                         size_t floors_room, size_t answers_room, uint32_t number, const char *what)
{
    expect(floors(file, file_length, demands, demands_length, alignment, floors_room, answers_room) == number, "floors", what);
    expect(all_kept(), "floors", "a refusal changes nothing");
}

/* with just room enough, and with more */
static void floors_writes(const uint8_t *file, size_t file_length, const uint32_t *demands, size_t demands_length, size_t alignment,
                          const int64_t *wanted, const char *what)
{
    for (size_t more = 0; more <= 2; more++) {
        expect(floors(file, file_length, demands, demands_length, alignment, demands_length + more, 1 + more) == 0, "floors", what);
        expect(answers[0] == (int64_t)demands_length && answers_kept_but(1), "floors", "it writes how many, and no other answer");
        expect(memcmp(floor_list, wanted, demands_length * sizeof wanted[0]) == 0, "floors", what);
        expect(floors_kept_but(demands_length), "floors", "it writes a floor for each demand and no other");
        expect(bytes_kept_but(byte_space, 0) && numbers_kept_but(0) && histories_kept_but(0), "floors", "it writes nothing else");
    }
}

/* the floor for the file's own demand is cost - gap of its reply, and no floor falls as the demand rises */
static void floors_of_reply(const uint8_t *file, size_t file_length, size_t a)
{
    uint8_t reply[92];
    uint32_t own = (uint32_t)shahfureel_big_endian(file + 4, 4);
    const uint32_t demands[6] = {0, own / 2, own, own + 1, own + 2, 320000};
    expect(shahfureel_dispatch(file, file_length, reply, sizeof reply) >= 30, "floors", "a case to be dispatched");
    expect(floors(file, file_length, demands, 6, a, 6, 1) == 0 && answers[0] == 6, "floors", "six floors");
    expect(floor_list[2] == (int64_t)(shahfureel_reply_cost(reply) - shahfureel_reply_gap(reply)), "floors", "cost - gap");
    expect(floor_list[0] >= 0, "floors", "none is negative");
    for (size_t i = 1; i < 6; i++)
        expect(floor_list[i - 1] <= floor_list[i], "floors", "none falls as the demand rises");
}

/* what U5's floors say of demands 0 to 12, and what dispatch proves at each of them that it answers */
static void floors_of_demands(size_t a)
{
    static const uint32_t demands[13] = {0, 1, 2, 3, 4, 5, 6, 7, 8, 9, 10, 11, 12};
    static const int64_t wanted[13] = {0,      7000,   23000,  39000,  56000,    77000,    98000,
                                       119000, 143000, 168000, 200000, 65736000, 131272000};
    floors_writes(u5(), U5_BYTES, demands, 13, a, wanted, "U5, 0 to 12");
    for (uint8_t demand = 0; demand <= 10; demand++) {
        uint8_t reply[92];
        expect(shahfureel_dispatch(u5_but(7, demand), U5_BYTES, reply, sizeof reply) == 30, "floors", "U is dispatched");
        expect(wanted[demand] <= (int64_t)(shahfureel_reply_cost(reply) - shahfureel_reply_gap(reply)), "floors",
               "no floor is above what a dispatch at that demand proves");
        floors_of_reply(u5_but(7, demand), U5_BYTES, a);
    }
    floors_writes(u5_but(7, 0), U5_BYTES, demands, 13, a, (const int64_t[13]){0}, "demand 0: a single price, all floors alike");
    floors_writes(u5_but(7, 10), U5_BYTES, demands + 9, 3, a, (const int64_t[]){0, 200000, 65736000}, "demand 10: two prices");
    floors_writes(u5_but(7, 1), U5_BYTES, demands, 4, a, (const int64_t[]){0, 12000, 24000, 39000}, "the best price is not the last");
    floors_writes(u5_but(23, 1), U5_BYTES, demands + 4, 2, a, (const int64_t[]){56001, 77001}, "a floor is rounded up");
}

static void floors_of_edition_2(size_t a)
{
    static const uint32_t demands[5] = {4, 5, 6, 11, 12};
    floors_writes(e2(), E2_BYTES, demands, 5, a, (const int64_t[]){49600, 67400, 86400, 200000, 65736000}, "b1 -10,000,000");
    floors_writes(e2_with(0, 10000000), E2_BYTES, demands, 3, a, (const int64_t[]){65200, 88200, 111800}, "b1 10,000,000");
    floors_writes(e2_with(0, 0), E2_BYTES, demands, 3, a, (const int64_t[]){56000, 77000, 98000}, "b1 0 is as edition 1");
    floors_of_reply(e2(), E2_BYTES, a);
    for (size_t i = 0; i < DAMAGED_2; i++) {
        floors_gives(e2_damaged(i), E2_BYTES, demands, 5, a, 5, 1, damaged_2[i].number, damaged_2[i].what);
        floors_gives(e2_damaged(i), E2_BYTES, demands, 0, a, 0, 1, damaged_2[i].number, "a file is checked also for no demand");
        floors_gives(e2_damaged(i), E2_BYTES, demands, 5, a, 4, 1, SHAHFUREEL_FLOORS_TOO_SHORT, "21 comes before the file");
    }
}

/* 96 demands and one more; U gives 10 at most, and from there on a floor rises by what a step costs at 65,536 */
static void floors_of_many(size_t a)
{
    uint32_t demands[98];
    for (uint32_t i = 0; i < 98; i++)
        demands[i] = 10 + i;
    expect(floors(u5(), U5_BYTES, demands, 96, a, 96, 1) == 0 && answers[0] == 96, "floors", "96 demands");
    for (int64_t i = 0; i < 96; i++)
        expect(floor_list[i] == 200000 + 65536000 * i, "floors", "each of 96 floors");
    expect(floors_kept_but(96), "floors", "96 floors and no other");
    floors_gives(u5(), U5_BYTES, demands, 97, a, 98, 1, SHAHFUREEL_DEMANDS_INVALID, "97 demands are 20");
    floors_gives(u5(), U5_BYTES, demands, 98, a, 0, 1, SHAHFUREEL_DEMANDS_INVALID, "20 comes before 21");
    floors_gives(u5(), U5_BYTES, demands, 96, a, 95, 1, SHAHFUREEL_FLOORS_TOO_SHORT, "95 places for 96 demands are 21");
    demands[95] = 320001;
    floors_gives(u5(), U5_BYTES, demands, 96, a, 96, 1, SHAHFUREEL_DEMANDS_INVALID, "the last of 96 demands is looked at");
}

/* demands and places that are refused, and what they come before */
static void floors_refused(size_t a)
{
    static const uint32_t great[3] = {5, 7, 320001}, first[3] = {320001, 5, 7}, greatest[1] = {UINT32_MAX};
    floors_gives(u5(), U5_BYTES, great, 3, a, 3, 1, SHAHFUREEL_DEMANDS_INVALID, "320,001 is 20");
    floors_gives(u5(), U5_BYTES, first, 3, a, 3, 1, SHAHFUREEL_DEMANDS_INVALID, "320,001 is 20 also as the first");
    floors_gives(u5(), U5_BYTES, greatest, 1, a, 1, 1, SHAHFUREEL_DEMANDS_INVALID, "a demand is unsigned");
    floors_gives(u5(), U5_BYTES, great, 3, a, 2, 1, SHAHFUREEL_DEMANDS_INVALID, "20 comes before 21");
    floors_gives(u5(), 0, great, 3, a, 3, 1, SHAHFUREEL_DEMANDS_INVALID, "20 comes before 2");
    floors_gives(u5(), U5_BYTES, great, 2, a, 1, 1, SHAHFUREEL_FLOORS_TOO_SHORT, "a place too few is 21");
    floors_gives(u5(), U5_BYTES, great, 1, a, 0, 1, SHAHFUREEL_FLOORS_TOO_SHORT, "no place is 21");
    floors_gives(u5(), 0, great, 2, a, 1, 1, SHAHFUREEL_FLOORS_TOO_SHORT, "21 comes before 2");
    floors_gives(u5(), U5_BYTES, great, 2, a, 2, 0, SHAHFUREEL_BUFFER_TOO_SHORT, "no answer is 1");
    floors_gives(u5(), U5_BYTES, great, 3, a, 3, 0, SHAHFUREEL_BUFFER_TOO_SHORT, "1 comes before 20");
    floors_gives(u5(), U5_BYTES, great, 2, a, 1, 0, SHAHFUREEL_BUFFER_TOO_SHORT, "1 comes before 21");
    floors_gives(u5(), 0, great, 0, a, 0, 0, SHAHFUREEL_BUFFER_TOO_SHORT, "1 comes before 2");
    floors_gives(u5(), 0, great, 2, a, 2, 1, SHAHFUREEL_FILE_TOO_SHORT, "an empty file is 2");
    floors_gives(u5(), 7, great, 0, a, 0, 1, SHAHFUREEL_FILE_TOO_SHORT, "a file of 7 bytes is 2 also for no demand");
    floors_gives(u5(), U5_BYTES - 1, great, 2, a, 2, 1, SHAHFUREEL_CONTENTS_INVALID, "a cut file is 6");
    for (size_t i = 0; i < DAMAGED; i++) {
        const uint8_t *file = u5_but(damaged[i].at, damaged[i].value);
        floors_gives(file, U5_BYTES, great, 2, a, 2, 1, damaged[i].number, damaged[i].what);
        floors_gives(file, U5_BYTES, great, 0, a, 0, 1, damaged[i].number, "a file is checked also for no demand");
        floors_gives(file, U5_BYTES, great, 3, a, 3, 1, SHAHFUREEL_DEMANDS_INVALID, "20 comes before the file");
        floors_gives(file, U5_BYTES, great, 2, a, 1, 1, SHAHFUREEL_FLOORS_TOO_SHORT, "21 comes before the file");
    }
    floors_gives(u5_but(7, 11), U5_BYTES, great, 2, a, 2, 1, SHAHFUREEL_NO_ALLOCATION, "a demand of 11 is 11");
    floors_gives(u5_but(7, 11), U5_BYTES, great, 0, a, 0, 1, SHAHFUREEL_NO_ALLOCATION, "it is 11 also for no demand");
    floors_gives(u5_but(7, 11), U5_BYTES, great, 3, a, 3, 1, SHAHFUREEL_DEMANDS_INVALID, "20 comes before 11");
    floors_gives(u5_but(7, 11), U5_BYTES, great, 2, a, 1, 1, SHAHFUREEL_FLOORS_TOO_SHORT, "21 comes before 11");
}

static void flooring(size_t a)
{
    static const uint32_t demands[5] = {0, 5, 7, 10, 320000}, mixed[7] = {10, 0, 7, 7, 5, 0, 10};
    static const int64_t wanted[5] = {0, 77000, 119000, 200000, INT64_C(20970864840000)};
    uint8_t file[BYTES];
    floors_writes(u5(), U5_BYTES, demands, 5, a, wanted, "U5");
    floors_writes(u5(), U5_BYTES, demands + 1, 1, a, wanted + 1, "U5, its own demand");
    floors_writes(u5(), U5_BYTES, mixed, 7, a, (const int64_t[]){200000, 0, 119000, 119000, 77000, 0, 200000}, "in any order");
    floors_writes(u5(), U5_BYTES, demands, 0, a, wanted, "no demand");
    floors_of_demands(a);
    floors_of_edition_2(a);
    floors_of_many(a);
    for (size_t k = 0; k < LOWERED; k++)
        floors_of_reply(file, lowered_file(k, file, sizeof file), a);
    floors_refused(a);
}

/* ---- a day by slots */

struct slot {
    uint32_t status;
    uint64_t cost, gap;
};

static uint32_t day(const uint8_t *from, size_t file_length, const uint32_t *asked, size_t demands_length, size_t alignment,
                    size_t trace_room, size_t histories_room, size_t answers_room)
{
    fill();
    uint8_t *file = copy_of(from, file_length, alignment);
    uint32_t *demands = copy_of(asked, demands_length * sizeof asked[0], sizeof asked[0]);
    uint32_t number = shahfureel_day(file, file_length, demands, demands_length, byte_space + GUARD + alignment, trace_room, histories,
                                     histories_room, answers, answers_room);
    release("day", demands, asked, demands_length * sizeof asked[0], sizeof asked[0]);
    release("day", file, from, file_length, alignment);
    return number;
}

static void day_gives(const uint8_t *file, size_t file_length, const uint32_t *demands, size_t demands_length, size_t alignment,
                      size_t trace_room, size_t histories_room, size_t answers_room, uint32_t number, const char *what)
{
    uint32_t given = day(file, file_length, demands, demands_length, alignment, trace_room, histories_room, answers_room);
    expect(given == number, "day", what);
    expect(all_kept(), "day", "a refusal changes nothing");
}

/* what the last call wrote of these slots and units, and that it wrote nothing else */
static void day_wrote(size_t alignment, const struct slot *slots, size_t count, const struct shahfureel_history *wanted,
                      size_t units, int64_t total, const char *what)
{
    const uint8_t *trace = byte_space + GUARD + alignment;
    for (size_t k = 0; k < count; k++) {
        expect(shahfureel_slot_status(trace, k) == slots[k].status, "day", what);
        expect(shahfureel_slot_cost(trace, k) == slots[k].cost && shahfureel_slot_gap(trace, k) == slots[k].gap, "day", what);
    }
    for (size_t i = 0; i < units; i++)
        expect(histories[i].previous == wanted[i].previous && histories[i].starts == wanted[i].starts, "day", what);
    expect(answers[0] == total, "day", what);
    expect(bytes_kept_but(trace, SLOT * count), "day", "it writes 18 bytes to a slot and no other");
    expect(histories_kept_but(units), "day", "it writes a history to a unit and no other");
    expect(answers_kept_but(1), "day", "it writes the total and no other answer");
    expect(numbers_kept_but(0) && floors_kept_but(0), "day", "it writes nothing else");
}

/* with just room enough, and with more */
static void day_writes(const uint8_t *file, size_t file_length, const uint32_t *demands, size_t count, size_t alignment,
                       const struct slot *slots, const struct shahfureel_history *wanted, size_t units, int64_t total,
                       const char *what)
{
    for (size_t more = 0; more <= 2; more++) {
        expect(day(file, file_length, demands, count, alignment, SLOT * count + more, 32 + more, 1 + more) == 0, "day", what);
        day_wrote(alignment, slots, count, wanted, units, total, what);
    }
}

/* a file of U once or twice, with these numbers instead of its own; b1 makes it one of edition 2 */
struct day_case {
    uint32_t units, demand, c0, b, previous, up, down, mark;
    int32_t b1;
};

static uint32_t day_file(const struct day_case *c, uint8_t *file, size_t room)
{
    uint32_t rows[2 * ROW];
    for (uint32_t i = 0; i < c->units; i++) {
        uint32_t *row = rows + ROW * i;
        memcpy(row, U_ROW, sizeof U_ROW);
        row[SHAHFUREEL_ROW_C0] = c->c0;
        row[SHAHFUREEL_ROW_B] = c->b;
        row[SHAHFUREEL_ROW_PREVIOUS] = c->previous;
        row[SHAHFUREEL_ROW_UP] = c->up;
        row[SHAHFUREEL_ROW_DOWN] = c->down;
        row[SHAHFUREEL_ROW_MUST_RUN] = c->mark;
    }
    if (c->b1 == 0)
        return shahfureel_pack(c->demand, rows, ROW * c->units, file, room);
    memcpy(file, e2_with(c->b, c->b1), E2_BYTES);
    return E2_BYTES;
}

/* the specification's examples, and some more */
static const struct {
    struct day_case of;
    size_t count;
    uint32_t demands[5];
    struct slot slots[5];
    int64_t total;
    struct shahfureel_history histories[2];
    const char *what;
} days[] = {
    {{1, 5, 0, 0, 0, 0, 0, 0, 0},
     5,
     {5, 0, 10, 11, 3},
     {{0, 119000, 42000}, {0, 0, 0}, {0, 200000, 0}, {11, 0, 0}, {0, 200000, 140000}},
     519000,
     {{10, 2}},
     "U: once it runs at 10 it stays there, or stands"},
    {{1, 11, 0, 0, 0, 0, 0, 0, 0}, 1, {5}, {{0, 119000, 42000}}, 119000, {{7, 1}}, "the file's own demand is not dispatched"},
    {{1, 5, 0, 0, 7, 0, 0, 0, 0}, 0, {0}, {{0, 0, 0}}, 0, {{7, 0}}, "no slot: the histories are the file's"},
    {{1, 5, 0, 0, 0, 0, 0, 0, 0},
     3,
     {2, 0, 10},
     {{0, 24000, 0}, {0, 0, 0}, {0, 200000, 0}},
     224000,
     {{10, 2}},
     "a unit that stood has no ramp window"},
    {{1, 5, 0, 0, 0, 10000, 10000, 0, 0},
     3,
     {5, 11, 5},
     {{0, 119000, 42000}, {11, 0, 0}, {0, 119000, 42000}},
     238000,
     {{7, 1}},
     "a refused slot starts nothing"},
    {{1, 5, 0, 0, 7, 10000, 10000, 0, 0},
     3,
     {5, 0, 5},
     {{0, 119000, 42000}, {0, 0, 0}, {0, 119000, 42000}},
     238000,
     {{7, 1}},
     "a unit that ran before the day does not start in its first slot"},
    {{1, 5, 0, 0, 0, 0, 0, 1, 0}, 3, {2, 10, 2}, {{0, 24000, 0}, {11, 0, 0}, {0, 24000, 0}}, 48000, {{2, 1}}, "U must run"},
    {{1, 5, 0, 0, 5, 0, 0, 1, 0}, 2, {0, 5}, {{11, 0, 0}, {11, 0, 0}}, 0, {{5, 0}}, "a stuck unit: every slot is refused"},
    {{1, 5, 0, 0, 5, 3, 0, 0, 0}, 2, {7, 8}, {{0, 119000, 0}, {0, 144000, 0}}, 263000, {{8, 0}}, "up to 8 from 5"},
    {{2, 5, 0, 0, 0, 0, 0, 0, 0},
     4,
     {5, 5, 0, 5},
     {{0, 63000, 0}, {0, 63000, 0}, {0, 0, 0}, {0, 63000, 0}},
     189000,
     {{2, 2}, {3, 2}},
     "U twice, tied outputs lowered"},
    {{1, 5, 0, 1, 0, 0, 0, 0, 0}, 3, {5, 10, 11}, {{0, 119000, 41999}, {11, 0, 0}, {11, 0, 0}}, 119000, {{7, 1}}, "U with b 1"},
    {{1, 5, 1000000000, 0, 0, 10000, 10000, 1, 0},
     5,
     {5, 5, 5, 5, 5},
     {{0, 1000119000, 42000}, {0, 1000119000, 42000}, {0, 1000119000, 42000}, {0, 1000119000, 42000}, {0, 1000119000, 42000}},
     INT64_C(5000595000),
     {{7, 1}},
     "a total above 32 bits"},
    {{1, 5, 0, 0, 0, 3, 3, 0, 0}, 3, {7, 11, 4}, {{0, 119000, 0}, {11, 0, 0}, {0, 56000, 0}}, 175000, {{4, 1}}, "down over the zone"},
    {{1, 5, 0, 0, 0, 0, 0, 0, -10000000},
     3,
     {5, 11, 12},
     {{0, 119000, 51600}, {11, 0, 0}, {11, 0, 0}},
     119000,
     {{7, 1}},
     "edition 2, b1 -10,000,000"},
    {{1, 320000, 0, 0, 0, 0, 0, 0, 0}, 2, {320000, 5}, {{11, 0, 0}, {0, 119000, 42000}}, 119000, {{7, 1}}, "the greatest demands"},
};

enum { DAYS = sizeof days / sizeof days[0] };

/* the day of a file by dispatches: slot by slot, of the file with the slot's demand, and the outputs of the last solved slot as the
 * previous ones; the day of the first slots, of each number of them, must be these */
static void day_by_dispatches(const uint8_t *from, size_t file_length, const uint32_t *demands, size_t count, size_t a)
{
    uint8_t file[BYTES], reply[92];
    struct slot slots[96];
    struct shahfureel_history wanted[32];
    uint32_t units = (uint32_t)shahfureel_big_endian(from + 2, 2);
    int64_t total = 0;
    memcpy(file, from, file_length);
    for (uint32_t i = 0; i < units; i++) {
        wanted[i].previous = (uint16_t)shahfureel_big_endian(file + shahfureel_big_endian(file + 8 + 4 * i, 2) + 16, 2);
        wanted[i].starts = 0;
    }
    for (size_t k = 0; k <= count; k++) {
        expect(day(from, file_length, demands, k, a, SLOT * k, 32, 1) == 0, "day", "the first slots of a day are dispatched");
        day_wrote(a, slots, k, wanted, units, total, "each slot is the dispatch of its own case");
        if (k == count)
            return;
        put(file + 4, demands[k], 4);
        uint32_t answer = shahfureel_dispatch(file, file_length, reply, sizeof reply);
        expect(answer == 28 + 2 * units || answer == SHAHFUREEL_NO_ALLOCATION, "day", "a slot is a case");
        slots[k] = (struct slot){answer == SHAHFUREEL_NO_ALLOCATION ? 11 : 0, 0, 0};
        if (slots[k].status != 0)
            continue;
        slots[k].cost = shahfureel_reply_cost(reply);
        slots[k].gap = shahfureel_reply_gap(reply);
        total += (int64_t)slots[k].cost;
        for (uint32_t i = 0; i < units; i++) {
            wanted[i].starts = (uint16_t)(wanted[i].starts + (wanted[i].previous == 0 && shahfureel_reply_output(reply, i) != 0));
            wanted[i].previous = shahfureel_reply_output(reply, i);
            put(file + shahfureel_big_endian(file + 8 + 4 * i, 2) + 16, wanted[i].previous, 2);
        }
    }
}

/* demands around a file's own: none, half, all, a little more, too many, and back */
static void days_of_file(const uint8_t *file, size_t file_length, size_t a)
{
    uint32_t own = (uint32_t)shahfureel_big_endian(file + 4, 4);
    const uint32_t demands[12] = {own, 0, own / 2, own, own + 1, own + 2, 320000, own / 4, own + own / 2, 1, own / 3, own};
    day_by_dispatches(file, file_length, demands, 12, a);
}

/* 96 slots, in which U gives 10 and stands by turns, and one slot more */
static void day_of_many(size_t a)
{
    uint32_t demands[98];
    struct slot slots[96];
    for (uint32_t i = 0; i < 98; i++)
        demands[i] = i % 2 == 0 ? 10 : 0;
    for (uint32_t i = 0; i < 96; i++)
        slots[i] = (struct slot){0, i % 2 == 0 ? 200000 : 0, 0};
    day_writes(u5(), U5_BYTES, demands, 96, a, slots, (const struct shahfureel_history[]){{0, 48}}, 1, 48 * 200000, "96 slots");
    day_gives(u5(), U5_BYTES, demands, 97, a, TRACE, 32, 1, SHAHFUREEL_DAY_DEMANDS_INVALID, "97 demands are 22");
    day_gives(u5(), U5_BYTES, demands, 97, a, TRACE, 32, 0, SHAHFUREEL_BUFFER_TOO_SHORT, "1 comes before 22 for their number");
    day_gives(u5(), U5_BYTES, demands, 98, a, 0, 0, 1, SHAHFUREEL_DAY_DEMANDS_INVALID, "22 comes before 23");
    day_gives(u5(), U5_BYTES, demands, 96, a, SLOT * 96 - 1, 32, 1, SHAHFUREEL_DAY_BUFFERS_TOO_SHORT, "1,727 bytes are 23");
    demands[95] = 320001;
    day_gives(u5(), U5_BYTES, demands, 96, a, TRACE, 32, 1, SHAHFUREEL_DAY_DEMANDS_INVALID, "the last of 96 demands is looked at");
}

/* demands and room that are refused, and what they come before */
static void day_refused(size_t a)
{
    static const uint32_t great[3] = {5, 7, 320001}, first[3] = {320001, 5, 7}, greatest[1] = {UINT32_MAX};
    day_gives(u5(), U5_BYTES, great, 3, a, TRACE, 32, 1, SHAHFUREEL_DAY_DEMANDS_INVALID, "320,001 is 22");
    day_gives(u5(), U5_BYTES, first, 3, a, TRACE, 32, 1, SHAHFUREEL_DAY_DEMANDS_INVALID, "320,001 is 22 also as the first");
    day_gives(u5(), U5_BYTES, greatest, 1, a, TRACE, 32, 1, SHAHFUREEL_DAY_DEMANDS_INVALID, "a demand is unsigned");
    day_gives(u5(), U5_BYTES, great, 3, a, 53, 32, 1, SHAHFUREEL_DAY_DEMANDS_INVALID, "22 comes before 23 for the trace");
    day_gives(u5(), U5_BYTES, great, 3, a, 54, 31, 1, SHAHFUREEL_DAY_DEMANDS_INVALID, "22 comes before 23 for the histories");
    day_gives(u5(), 0, great, 3, a, TRACE, 32, 1, SHAHFUREEL_DAY_DEMANDS_INVALID, "22 comes before 2");
    day_gives(u5(), U5_BYTES, great, 1, a, 17, 32, 1, SHAHFUREEL_DAY_BUFFERS_TOO_SHORT, "a trace of 17 bytes is 23");
    day_gives(u5(), U5_BYTES, great, 1, a, 0, 32, 1, SHAHFUREEL_DAY_BUFFERS_TOO_SHORT, "no trace is 23");
    day_gives(u5(), U5_BYTES, great, 2, a, 35, 32, 1, SHAHFUREEL_DAY_BUFFERS_TOO_SHORT, "35 bytes for two slots are 23");
    day_gives(u5(), U5_BYTES, great, 1, a, 18, 31, 1, SHAHFUREEL_DAY_BUFFERS_TOO_SHORT, "31 histories are 23");
    day_gives(u5(), U5_BYTES, great, 1, a, 18, 1, 1, SHAHFUREEL_DAY_BUFFERS_TOO_SHORT, "a history for the one unit is 23");
    day_gives(u5(), U5_BYTES, great, 0, a, 0, 31, 1, SHAHFUREEL_DAY_BUFFERS_TOO_SHORT, "31 histories are 23 also for no slot");
    day_gives(u5(), U5_BYTES, great, 0, a, 0, 0, 1, SHAHFUREEL_DAY_BUFFERS_TOO_SHORT, "no history is 23");
    day_gives(u5(), 0, great, 1, a, 17, 32, 1, SHAHFUREEL_DAY_BUFFERS_TOO_SHORT, "23 comes before 2");
    day_gives(u5(), 0, great, 1, a, 18, 31, 1, SHAHFUREEL_DAY_BUFFERS_TOO_SHORT, "23 for the histories comes before 2");
    day_gives(u5(), U5_BYTES, great, 2, a, TRACE, 32, 0, SHAHFUREEL_BUFFER_TOO_SHORT, "no answer is 1");
    day_gives(u5(), U5_BYTES, great, 3, a, TRACE, 32, 0, SHAHFUREEL_BUFFER_TOO_SHORT, "1 comes before 22");
    day_gives(u5(), U5_BYTES, great, 2, a, 35, 31, 0, SHAHFUREEL_BUFFER_TOO_SHORT, "1 comes before 23");
    day_gives(u5(), 0, great, 0, a, 0, 32, 0, SHAHFUREEL_BUFFER_TOO_SHORT, "1 comes before 2");
    day_gives(u5(), 0, great, 2, a, TRACE, 32, 1, SHAHFUREEL_FILE_TOO_SHORT, "an empty file is 2");
    day_gives(u5(), 7, great, 0, a, 0, 32, 1, SHAHFUREEL_FILE_TOO_SHORT, "a file of 7 bytes is 2 also for no slot");
    day_gives(u5(), 11, great, 2, a, TRACE, 32, 1, SHAHFUREEL_CONTENTS_INVALID, "a file cut in its contents is 6");
    day_gives(u5(), U5_BYTES - 1, great, 2, a, TRACE, 32, 1, SHAHFUREEL_CONTENTS_INVALID, "a cut file is 6");
    day_gives(u5(), U5_BYTES + 1, great, 2, a, TRACE, 32, 1, SHAHFUREEL_CONTENTS_INVALID, "a padded file is 6");
}

static void day_of_damaged(size_t a)
{
    static const uint32_t demands[3] = {5, 7, 320001};
    for (size_t i = 0; i < DAMAGED; i++) {
        const uint8_t *file = u5_but(damaged[i].at, damaged[i].value);
        day_gives(file, U5_BYTES, demands, 2, a, TRACE, 32, 1, damaged[i].number, damaged[i].what);
        day_gives(file, U5_BYTES, demands, 0, a, 0, 32, 1, damaged[i].number, "a file is checked also for no slot");
        day_gives(file, U5_BYTES, demands, 3, a, TRACE, 32, 1, SHAHFUREEL_DAY_DEMANDS_INVALID, "22 comes before the file");
        day_gives(file, U5_BYTES, demands, 2, a, 35, 32, 1, SHAHFUREEL_DAY_BUFFERS_TOO_SHORT, "23 comes before the file");
    }
    for (size_t i = 0; i < DAMAGED_2; i++) {
        if (damaged_2[i].number == SHAHFUREEL_NO_ALLOCATION) {
            days_of_file(e2_damaged(i), E2_BYTES, a); /* a day is never refused with 11 */
            continue;
        }
        day_gives(e2_damaged(i), E2_BYTES, demands, 2, a, TRACE, 32, 1, damaged_2[i].number, damaged_2[i].what);
        day_gives(e2_damaged(i), E2_BYTES, demands, 0, a, 0, 32, 1, damaged_2[i].number, "a file is checked also for no slot");
        day_gives(e2_damaged(i), E2_BYTES, demands, 2, a, 36, 31, 1, SHAHFUREEL_DAY_BUFFERS_TOO_SHORT, "23 comes before the file");
    }
}

static void planning(size_t a)
{
    uint8_t file[BYTES];
    for (size_t k = 0; k < DAYS; k++) {
        uint32_t length = day_file(&days[k].of, file, sizeof file);
        expect(length >= 30, "day", days[k].what);
        day_writes(file, length, days[k].demands, days[k].count, a, days[k].slots, days[k].histories, days[k].of.units, days[k].total,
                   days[k].what);
        day_by_dispatches(file, length, days[k].demands, days[k].count, a);
    }
    for (size_t k = 0; k < LOWERED; k++)
        days_of_file(file, lowered_file(k, file, sizeof file), a);
    days_of_file(u5(), U5_BYTES, a);
    days_of_file(e2(), E2_BYTES, a);
    days_of_file(e2_with(5000, 4999), E2_BYTES, a);
    day_of_many(a);
    day_refused(a);
    day_of_damaged(a);
}

/* ---- runs: the numbers of a run between guards, and its bytes too, from 1 to 8 past an aligned address */

_Static_assert(sizeof(struct shahfureel_run) == 8 * 41 + 1608, "a run has no other bytes");
_Static_assert(offsetof(struct shahfureel_run, numbers) == 0 && offsetof(struct shahfureel_run, held) == 328, "numbers, then bytes");
_Static_assert(SHAHFUREEL_RUN_NUMBERS == 41 && SHAHFUREEL_RUN_BYTES == 1608 && SHAHFUREEL_RUN_ANSWERS == 38, "41, 1,608, 38");
_Static_assert(SHAHFUREEL_NOT_STARTED == 0 && SHAHFUREEL_UNFINISHED == 1 && SHAHFUREEL_FINISHED == 2, "the states");

/* the places of a run's numbers */
enum { STARTED, DONE, EVALUATIONS, LOW, COST, SURPLUS, FLOOR, COUNT, LENGTH, OUTPUTS };

static const struct shahfureel_run unstarted;

static void lend(const struct shahfureel_run *run, size_t alignment)
{
    fill();
    memcpy(run_numbers, run->numbers, sizeof run->numbers);
    memcpy(byte_space + GUARD + alignment, run->held, sizeof run->held);
}

/* after a call, which may have written the run and so many answers */
static void take_back(const char *call, struct shahfureel_run *run, size_t alignment, size_t answered)
{
    const uint8_t *held = byte_space + GUARD + alignment;
    expect(kept_but(run_space, sizeof run_space, run_numbers, sizeof run->numbers) && bytes_kept_but(held, sizeof run->held) &&
               answers_kept_but(answered),
           call, "it writes its run and answers, no other");
    memcpy(run->numbers, run_numbers, sizeof run->numbers);
    memcpy(run->held, held, sizeof run->held);
}

static int same_run(const struct shahfureel_run *one, const struct shahfureel_run *other)
{
    return memcmp(one, other, sizeof *one) == 0;
}

/* a start, which changes the run unless it is refused */
static void start_gives(struct shahfureel_run *run, const uint8_t *from, size_t file_length, size_t alignment, uint32_t number,
                        const char *what)
{
    struct shahfureel_run before = *run;
    lend(run, alignment);
    uint8_t *file = copy_of(from, file_length, alignment);
    expect(shahfureel_run_start(run_numbers, byte_space + GUARD + alignment, file, file_length) == number, "start", what);
    release("start", file, from, file_length, alignment);
    take_back("start", run, alignment, 0);
    if (number != 0) {
        expect(same_run(run, &before), "start", "a refusal changes nothing");
        return;
    }
    expect(run->numbers[STARTED] == 1 && run->numbers[DONE] == 0 && run->numbers[EVALUATIONS] == 0 && run->numbers[FLOOR] == 0, "start",
           "no evaluation");
    expect(memcmp(run->held, from, file_length) == 0, "start", "it holds the file");
    expect(memcmp(run->held + file_length, before.held + file_length, BYTES - file_length) == 0, "start", "and leaves the rest");
}

/* an advance that is refused, or says where the run stands; a run of another state than unfinished stays as it was */
static void advance_gives(struct shahfureel_run *run, const uint8_t *from, size_t file_length, size_t alignment, size_t room,
                          uint32_t number, int64_t state, const char *what)
{
    struct shahfureel_run before = *run;
    lend(run, alignment);
    uint8_t *file = copy_of(from, file_length, alignment);
    expect(shahfureel_run_advance(run_numbers, byte_space + GUARD + alignment, file, file_length, answers, room) == number, "advance",
           what);
    release("advance", file, from, file_length, alignment);
    take_back("advance", run, alignment, number == 0);
    expect(number != 0 || answers[0] == state, "advance", what);
    expect(memcmp(run->held, before.held, BYTES) == 0, "advance", "it keeps the bytes");
    if (number != 0 || state == SHAHFUREEL_NOT_STARTED)
        expect(same_run(run, &before), "advance", "it keeps the run");
}

/* what a run has, as 38 answers */
static void ask(const struct shahfureel_run *run, size_t alignment, size_t room)
{
    struct shahfureel_run after;
    lend(run, alignment);
    expect(shahfureel_run_ask(run_numbers, answers, room) == (room < 38), "ask", "0, or 1 under 38 places");
    take_back("ask", &after, alignment, room < 38 ? 0 : 38);
    expect(same_run(run, &after), "ask", "it keeps the run");
}

static int has_asked(int64_t state, int64_t evaluations, int64_t cost, int64_t gap)
{
    return answers[0] == state && answers[2] == evaluations && answers[3] == cost && answers[4] == gap;
}

static int asked_as_replied(const uint8_t *reply)
{
    int same = answers[1] == shahfureel_reply_count(reply) && answers[5] == (int64_t)shahfureel_reply_surplus(reply) &&
               has_asked(SHAHFUREEL_FINISHED, shahfureel_reply_evaluations(reply), (int64_t)shahfureel_reply_cost(reply),
                         (int64_t)shahfureel_reply_gap(reply));
    for (uint32_t i = 0; i < 32; i++)
        same = same && answers[6 + i] == (i < answers[1] ? shahfureel_reply_output(reply, i) : 0);
    return same;
}

/* a file run from its start to its end, asked after each advance, which leaves off where dispatch does, with its reply; after that
 * it stays so, and a changed last byte is 24 at any time */
static void run_to_the_end(const uint8_t *file, size_t file_length, size_t a)
{
    struct shahfureel_run run = unstarted, finished;
    uint8_t reply[92], other[BYTES];
    expect(shahfureel_dispatch(file, file_length, reply, sizeof reply) >= 30, "advance", "dispatch replies");
    start_gives(&run, file, file_length, a, 0, "what dispatch replies to is started");
    ask(&run, a, 38);
    expect(has_asked(SHAHFUREEL_UNFINISHED, 0, answers[3], answers[3]), "ask", "before the first evaluation the gap is the cost");
    memcpy(other, file, file_length);
    other[file_length - 1] ^= 1;
    int64_t most = shahfureel_reply_evaluations(reply), cost = answers[3], floor = 0;
    for (int64_t k = 1; k <= most; k++) {
        advance_gives(&run, other, file_length, a, 1, SHAHFUREEL_CASE_CHANGED, 0, "another last byte is 24");
        advance_gives(&run, file, file_length, a, 1, 0, k < most ? SHAHFUREEL_UNFINISHED : SHAHFUREEL_FINISHED, "as long as dispatch");
        ask(&run, a, ANSWERS);
        expect(answers[2] == k && answers[3] <= cost && answers[3] - answers[4] >= floor, "ask", "no dearer, and no lower floor");
        cost = answers[3];
        floor = cost - answers[4];
    }
    expect(asked_as_replied(reply), "ask", "a finished run has dispatch's reply");
    expect(run.numbers[DONE] == 1 && run.numbers[LOW] == 0 && run.numbers[LENGTH] == file_length, "advance", "finished, low end 0");
    finished = run;
    advance_gives(&run, file, file_length, a, 2, 0, SHAHFUREEL_FINISHED, "once finished it says so");
    advance_gives(&run, other, file_length, a, 1, SHAHFUREEL_CASE_CHANGED, 0, "24 also of a finished run");
    expect(same_run(&run, &finished), "advance", "a finished run stays as it was");
}

/* cost and gap of U5 at its start and after each advance */
static const int64_t U5_STEPS[19][2] = {
    {200000, 200000}, {200000, 200000}, {200000, 200000}, {200000, 200000}, {200000, 200000}, {200000, 200000}, {200000, 200000},
    {200000, 200000}, {200000, 200000}, {200000, 200000}, {200000, 200000}, {200000, 200000}, {200000, 200000}, {200000, 160000},
    {200000, 129000}, {119000, 48000},  {119000, 43000},  {119000, 43000},  {119000, 42000}};

/* a run of U5 after so many advances */
static struct shahfureel_run u5_after(int64_t advances, size_t a)
{
    struct shahfureel_run run = unstarted;
    memset(run.held, FILLED, BYTES);
    start_gives(&run, u5(), U5_BYTES, a, 0, "U5 is started");
    for (int64_t k = 0; k <= advances; k++) {
        ask(&run, a, 38);
        int64_t state = k < 18 ? SHAHFUREEL_UNFINISHED : SHAHFUREEL_FINISHED;
        expect(has_asked(state, k, U5_STEPS[k][0], U5_STEPS[k][1]), "ask", "U5 as the rules say");
        expect(answers[1] == 1 && answers[6] == (U5_STEPS[k][0] == 200000 ? 10 : 7), "ask", "its output");
        if (k < advances)
            advance_gives(&run, u5(), U5_BYTES, a, 1, 0, k + 1 < 18 ? SHAHFUREEL_UNFINISHED : SHAHFUREEL_FINISHED, "U5 is advanced");
    }
    return run;
}

/* files that a start refuses, also of a run under way, which then goes on; an advance of that run gives 24 to each of them, and their
 * own number only where made-up contents hold them */
static void run_refused_file(const struct shahfureel_run *going, const uint8_t *from, size_t file_length, size_t a, uint32_t number,
                             const char *what)
{
    struct shahfureel_run none = unstarted, run = *going;
    uint8_t file[E2_BYTES + 1];
    memcpy(file, from, file_length);
    start_gives(&none, file, file_length, a, number, what);
    advance_gives(&none, file, file_length, a, 1, 0, SHAHFUREEL_NOT_STARTED, "not started, whatever the file");
    start_gives(&run, file, file_length, a, number, what);
    advance_gives(&run, file, file_length, a, 1, SHAHFUREEL_CASE_CHANGED, 0, "24 comes before the file's checks");
    advance_gives(&run, file, file_length, a, 0, SHAHFUREEL_BUFFER_TOO_SHORT, 0, "1 comes before 24");
    memcpy(run.held, file, file_length);
    run.numbers[LENGTH] = file_length;
    advance_gives(&run, file, file_length, a, 1, number, 0, what);
    run.numbers[DONE] = 1;
    advance_gives(&run, file, file_length, a, 1, number, 0, "a finished run's file is checked too");
}

static void runs_refused(const struct shahfureel_run *going, size_t a)
{
    run_refused_file(going, u5(), 0, a, SHAHFUREEL_FILE_TOO_SHORT, "an empty file is 2");
    run_refused_file(going, u5(), 7, a, SHAHFUREEL_FILE_TOO_SHORT, "a file of 7 bytes is 2");
    run_refused_file(going, u5(), U5_BYTES - 1, a, SHAHFUREEL_CONTENTS_INVALID, "a cut file is 6");
    run_refused_file(going, u5(), U5_BYTES + 1, a, SHAHFUREEL_CONTENTS_INVALID, "a padded file is 6");
    run_refused_file(going, u5_but(7, 11), U5_BYTES, a, SHAHFUREEL_NO_ALLOCATION, "a demand of 11 is 11");
    for (size_t i = 0; i < DAMAGED; i++)
        run_refused_file(going, u5_but(damaged[i].at, damaged[i].value), U5_BYTES, a, damaged[i].number, damaged[i].what);
    for (size_t i = 0; i < DAMAGED_2; i++)
        run_refused_file(going, e2_damaged(i), E2_BYTES, a, damaged_2[i].number, damaged_2[i].what);
}

/* a run of U5 after 14 advances with one number changed, and whether it still counts as started */
static const struct {
    size_t at;
    uint64_t value;
    int started;
    const char *what;
} made_up[] = {
    {STARTED, 0, 0, "started 0"},
    {STARTED, 2, 0, "started 2"},
    {STARTED, UINT64_C(0x100000001), 0, "a number has 64 bits"},
    {DONE, 2, 0, "finished 2"},
    {DONE, 1, 1, "finished at 14 evaluations"},
    {EVALUATIONS, 17, 1, "17 evaluations"},
    {EVALUATIONS, 18, 0, "18 evaluations, not finished"},
    {EVALUATIONS, UINT64_MAX, 0, "too many evaluations"},
    {LOW, 65521, 0, "a low end of 65,521 with 16 to go"},
    {LOW, 65520, 1, "a low end of 65,520"},
    {LOW, UINT64_MAX, 0, "the greatest low end"},
    {COST, UINT64_C(35200000000001), 0, "a cost above all"},
    {SURPLUS, UINT64_C(35200000000001), 0, "a surplus above all"},
    {FLOOR, UINT64_C(35200000000001), 0, "a floor above all"},
    {FLOOR, UINT64_C(35200000000000), 1, "a floor above the cost"},
    {COUNT, 0, 0, "no unit"},
    {COUNT, 33, 0, "33 units"},
    {LENGTH, 1609, 0, "a file of 1,609 bytes"},
    {OUTPUTS, 10001, 0, "an output above 10,000"},
    {OUTPUTS + 31, 10001, 0, "the last output above 10,000"},
};

static void runs_made_up(const struct shahfureel_run *going, size_t a)
{
    for (size_t i = 0; i < sizeof made_up / sizeof made_up[0]; i++) {
        struct shahfureel_run run = *going;
        run.numbers[made_up[i].at] = made_up[i].value;
        ask(&run, a, 38);
        expect((answers[0] != SHAHFUREEL_NOT_STARTED) == made_up[i].started, "ask", made_up[i].what);
        expect(answers[4] == (made_up[i].started ? (made_up[i].at == FLOOR ? 0 : 129000) : 0), "ask", "the gap is never negative");
        if (!made_up[i].started)
            advance_gives(&run, u5(), U5_BYTES, a, 1, 0, SHAHFUREEL_NOT_STARTED, made_up[i].what);
        else if (made_up[i].at == DONE)
            advance_gives(&run, u5(), U5_BYTES, a, 1, 0, SHAHFUREEL_FINISHED, made_up[i].what);
    }
    struct shahfureel_run run = *going, clean = *going;
    run.numbers[LENGTH] = BYTES;
    advance_gives(&run, u5(), U5_BYTES, a, 1, SHAHFUREEL_CASE_CHANGED, 0, "another length is 24");
    run = *going;
    memset(run.held + U5_BYTES, 0, BYTES - U5_BYTES);
    advance_gives(&run, u5(), U5_BYTES, a, 1, 0, SHAHFUREEL_UNFINISHED, "bytes behind the file's do not count");
    advance_gives(&clean, u5(), U5_BYTES, a, 1, 0, SHAHFUREEL_UNFINISHED, "U5 is advanced");
    expect(memcmp(run.numbers, clean.numbers, sizeof run.numbers) == 0, "advance", "nor change they what is found");
    memset(&run, FILLED, sizeof run);
    ask(&run, a, 38);
    expect(answers[0] == SHAHFUREEL_NOT_STARTED, "ask", "a run of any bytes is not started");
    start_gives(&run, u5(), U5_BYTES, a, 0, "and can be started");
    start_gives(&clean, u5(), U5_BYTES, a, 0, "a run under way is started anew");
    expect(memcmp(run.numbers, clean.numbers, sizeof run.numbers) == 0, "start", "whatever it was");
}

/* two runs at once, by turns, and a copy of one: each goes its own way */
static void runs_at_once(const struct shahfureel_run *going, size_t a)
{
    struct shahfureel_run one = *going, other = unstarted, copy;
    uint8_t reply[92];
    start_gives(&other, e2(), E2_BYTES, a, 0, "a second run is started");
    advance_gives(&other, u5(), U5_BYTES, a, 1, SHAHFUREEL_CASE_CHANGED, 0, "the first run's file is 24");
    advance_gives(&one, e2(), E2_BYTES, a, 1, SHAHFUREEL_CASE_CHANGED, 0, "the second run's file is 24");
    for (int64_t k = 1; k <= 4; k++) {
        copy = one;
        advance_gives(&one, u5(), U5_BYTES, a, 1, 0, k < 4 ? SHAHFUREEL_UNFINISHED : SHAHFUREEL_FINISHED, "the first run");
        advance_gives(&other, e2(), E2_BYTES, a, 1, 0, SHAHFUREEL_UNFINISHED, "the second run");
        advance_gives(&copy, u5(), U5_BYTES, a, 1, 0, k < 4 ? SHAHFUREEL_UNFINISHED : SHAHFUREEL_FINISHED, "the copy");
        expect(same_run(&one, &copy), "advance", "a copy goes the same way");
    }
    ask(&one, a, 38);
    expect(asked_as_replied(U5_REPLY), "ask", "the first run has its reply");
    for (int64_t k = 5; k <= 18; k++)
        advance_gives(&other, e2(), E2_BYTES, a, 1, 0, k < 18 ? SHAHFUREEL_UNFINISHED : SHAHFUREEL_FINISHED, "the second run");
    ask(&other, a, 38);
    expect(asked_as_replied(E2_REPLY), "ask", "the second run has its own");
    expect(shahfureel_dispatch(E2, E2_BYTES, reply, sizeof reply) == 30 && asked_as_replied(reply), "ask", "dispatch's");
    start_gives(&one, e2(), E2_BYTES, a, 0, "a finished run is started with another file");
    advance_gives(&one, u5(), U5_BYTES, a, 1, SHAHFUREEL_CASE_CHANGED, 0, "the old file is then 24");
}

static void running(size_t a)
{
    uint8_t file[BYTES];
    struct shahfureel_run none = unstarted, going = u5_after(14, a);
    u5_after(18, a);
    ask(&none, a, 38);
    for (size_t i = 0; i < 38; i++)
        expect(answers[i] == 0, "ask", "a run that is not started has zeros");
    advance_gives(&none, u5(), U5_BYTES, a, 0, SHAHFUREEL_BUFFER_TOO_SHORT, 0, "no place is 1 also of a run that is not started");
    advance_gives(&none, u5(), U5_BYTES, a, ANSWERS, 0, SHAHFUREEL_NOT_STARTED, "not started");
    advance_gives(&going, u5(), U5_BYTES, a, 0, SHAHFUREEL_BUFFER_TOO_SHORT, 0, "no place is 1");
    ask(&going, a, 0);
    ask(&going, a, 37);
    runs_refused(&going, a);
    runs_made_up(&going, a);
    runs_at_once(&going, a);
    for (size_t k = 0; k < LOWERED; k++)
        run_to_the_end(file, lowered_file(k, file, sizeof file), a);
    run_to_the_end(u5(), U5_BYTES, a);
    run_to_the_end(e2(), E2_BYTES, a);
    run_to_the_end(e2_with(5000, 4999), E2_BYTES, a);
}

/* the forms on the struct, and the header's names of what ask writes */
static void runs_named(void)
{
    struct shahfureel_run run = {{0}, {0}};
    int64_t state = 7, asked[SHAHFUREEL_RUN_ANSWERS];
    expect(shahfureel_advance(&run, U5, sizeof U5, &state, 1) == 0 && state == SHAHFUREEL_NOT_STARTED, "names", "not started");
    expect(shahfureel_start(&run, U5, 7) == SHAHFUREEL_FILE_TOO_SHORT, "names", "a refused start");
    expect(shahfureel_start(&run, U5, sizeof U5) == 0, "names", "U5 is started");
    for (int k = 0; k < 18; k++)
        expect(shahfureel_advance(&run, U5, sizeof U5, &state, 1) == 0, "names", "U5 is advanced");
    expect(state == SHAHFUREEL_FINISHED && shahfureel_ask(&run, asked, SHAHFUREEL_RUN_ANSWERS) == 0, "names", "U5 is finished");
    expect(asked[SHAHFUREEL_ASKED_STATE] == SHAHFUREEL_FINISHED && asked[SHAHFUREEL_ASKED_COUNT] == 1, "names", "state, count");
    expect(asked[SHAHFUREEL_ASKED_EVALUATIONS] == 18 && asked[SHAHFUREEL_ASKED_COST] == 119000, "names", "evaluations, cost");
    expect(asked[SHAHFUREEL_ASKED_GAP] == 42000 && asked[SHAHFUREEL_ASKED_SURPLUS] == 200000000, "names", "gap, surplus");
    expect(asked[SHAHFUREEL_ASKED_OUTPUTS] == 7 && asked[SHAHFUREEL_ASKED_OUTPUTS + 31] == 0, "names", "outputs");
    expect(shahfureel_advance(&run, E2, sizeof E2, &state, 1) == SHAHFUREEL_CASE_CHANGED, "names", "another case is 24");
}

/* ---- refining */

static uint32_t refine(const uint8_t *from, size_t file_length, uint32_t budget, size_t alignment, size_t reply_room)
{
    fill();
    uint8_t *file = copy_of(from, file_length, alignment);
    uint32_t number = shahfureel_refine(file, file_length, budget, byte_space + GUARD + alignment, reply_room);
    release("refine", file, from, file_length, alignment);
    return number;
}

static void refine_gives(const uint8_t *file, size_t file_length, uint32_t budget, size_t alignment, size_t reply_room,
                         uint32_t number, const char *what)
{
    expect(refine(file, file_length, budget, alignment, reply_room) == number, "refine", what);
    expect(all_kept(), "refine", "a refusal changes nothing");
}

/* the row of a unit by its letter: U, and what it becomes by other numbers */
static void lettered_row(char letter, uint32_t *row)
{
    memcpy(row, U_ROW, sizeof U_ROW);
    switch (letter) {
    case 'C':
        row[SHAHFUREEL_ROW_C0] = 6000;
        break;
    case 'T':
        row[SHAHFUREEL_ROW_C0] = 20000;
        break;
    case 'H':
        row[SHAHFUREEL_ROW_C0] = 500000000;
        break;
    case 'K':
        row[SHAHFUREEL_ROW_C0] = 1000000000;
        break;
    case 'M':
        row[SHAHFUREEL_ROW_MUST_RUN] = 1;
        break;
    case 'A': /* a zone with nothing strictly inside */
        row[SHAHFUREEL_ROW_EDGES + 1] = 5;
        break;
    case 'R': /* 8 to 10 are left */
        row[SHAHFUREEL_ROW_PREVIOUS] = 9;
        row[SHAHFUREEL_ROW_UP] = row[SHAHFUREEL_ROW_DOWN] = 1;
        break;
    case 'S': /* zones that share an edge */
        row[SHAHFUREEL_ROW_ZONES] = 2;
        row[SHAHFUREEL_ROW_EDGES + 2] = 7;
        row[SHAHFUREEL_ROW_EDGES + 3] = 9;
        break;
    }
}

static uint32_t lettered_file(const char *units, uint32_t demand, uint8_t *file, size_t room)
{
    uint32_t rows[3 * ROW];
    size_t count = strlen(units);
    for (size_t i = 0; i < count; i++)
        lettered_row(units[i], rows + ROW * i);
    return shahfureel_pack(demand, rows, ROW * count, file, room);
}

/* the specification's rows, each with a wrong rule that it shows */
static const struct {
    const char *units;
    uint32_t demand, budget, nodes;
    uint64_t cost, gap;
    uint32_t outputs[3];
    const char *what;
} refined[] = {
    {"U", 5, 1, 1, 119000, 42000, {7}, "a child that is not evaluated left out of the gap"},
    {"U", 5, 3, 3, 119000, 42000, {7}, "regions from above; halves; a dropped node not counted"},
    {"U", 5, 4, 4, 119000, 42000, {7}, "all regions at once"},
    {"U", 5, 5, 5, 119000, 0, {7}, "a dropped node kept in the gap"},
    {"U", 5, 100000, 5, 119000, 0, {7}, "the budget for the count"},
    {"U", 1, 4, 3, 24000, 0, {2}, "split although the floor has reached the cost"},
    {"U", 3, 2, 1, 39000, 0, {3}, "its own dispatch not counted"},
    {"C", 1, 2, 2, 45000, 30000, {3}, "the rest first"},
    {"UU", 9, 1, 1, 175000, 42000, {4, 7}, "not lowered in a node"},
    {"UU", 9, 2, 2, 171000, 38000, {0, 9}, "the last unit first"},
    {"UU", 9, 5, 5, 171000, 38000, {0, 9}, "both children at the split; breadth first"},
    {"UU", 9, 9, 9, 143000, 0, {2, 7}, "to the end"},
    {"UU", 3, 2, 2, 39000, 3000, {0, 3}, "the greatest open floor"},
    {"UU", 3, 5, 5, 39000, 3000, {0, 3}, "an equal cost replaces"},
    {"UU", 12, 4, 4, 200000, 4000, {4, 8}, "the unit with most regions first"},
    {"UC", 3, 6, 6, 39000, 0, {3, 0}, "a child not evaluated, whose parent's floor has reached the best cost meanwhile"},
    {"AM", 10, 4, 4, 175000, 23000, {4, 7}, "adjacent regions joined"},
    {"RU", 9, 5, 5, 168000, 0, {8, 2}, "regions kept that the ramp window empties"},
    {"UUU", 14, 13, 13, 214000, 0, {3, 4, 7}, "three units"},
    {"HK", 15, 20, 7, 1500263000, 0, {7, 8}, "a node without an allocation kept in the gap"},
    {"S", 5, 1, 1, 119000, 42000, {7}, "a shared edge"},
    {"S", 5, 4, 4, 119000, 42000, {7}, "a shared edge is a region"},
    {"S", 5, 5, 5, 119000, 0, {7}, "a shared edge, to the end"},
    {"SS", 9, 9, 9, 143000, 0, {2, 7}, "shared edges twice"},
    {"TU", 6, 3, 3, 119000, 25000, {0, 7}, "more load may be cheaper within a budget: 6"},
    {"TU", 7, 3, 3, 115000, 0, {3, 4}, "more load may be cheaper within a budget: 7"},
};

enum { REFINED = sizeof refined / sizeof refined[0] };

static void refining_rows(size_t a)
{
    static const size_t rooms[3] = {94, 95, BYTES};
    const uint8_t *reply = byte_space + GUARD + a;
    uint8_t file[BYTES];
    for (size_t k = 0; k < 3 * REFINED; k++) {
        size_t r = k / 3, units = strlen(refined[r].units), sum = 0;
        uint32_t length = lettered_file(refined[r].units, refined[r].demand, file, sizeof file);
        expect(refine(file, length, refined[r].budget, a, rooms[k % 3]) == 30 + 2 * units, "refine", refined[r].what);
        expect(shahfureel_refined_count(reply) == units, "refine", refined[r].what);
        expect(shahfureel_refined_nodes(reply) == refined[r].nodes, "refine", refined[r].what);
        expect(shahfureel_refined_cost(reply) == refined[r].cost && shahfureel_refined_gap(reply) == refined[r].gap, "refine",
               refined[r].what);
        for (size_t i = 0; i < units; i++) {
            expect(shahfureel_refined_output(reply, i) == refined[r].outputs[i], "refine", refined[r].what);
            sum += refined[r].outputs[i];
        }
        expect(shahfureel_refined_surplus(reply) == UINT64_C(100000000) * (sum - refined[r].demand), "refine", refined[r].what);
        expect(bytes_kept_but(reply, 30 + 2 * units), "refine", "it writes 30 + 2n bytes and no other");
    }
}

/* U5 at a budget of 5, byte by byte; and the same as a reply of dispatch, with 0 evaluations, as the header says */
static const uint8_t U5_REFINED[32] = {0x00, 0x01, 0x00, 0x00, 0x00, 0x05, 0x00, 0x00, 0x00, 0x00, 0x00,
                                       0x01, 0xD0, 0xD8, 0x00, 0x00, 0x00, 0x00, 0x00, 0x00, 0x00, 0x00,
                                       0x00, 0x00, 0x00, 0x00, 0x0B, 0xEB, 0xC2, 0x00, 0x00, 0x07};

static void refining_bytes(size_t a)
{
    uint8_t shortened[sizeof U5_REFINED - 2] = {0};
    expect(refine(u5(), U5_BYTES, 5, a, 94) == sizeof U5_REFINED, "refine", "U5 returns 32");
    expect(memcmp(byte_space + GUARD + a, U5_REFINED, sizeof U5_REFINED) == 0, "refine", "U5's bytes");
    view_gives(U5_REFINED, sizeof U5_REFINED, 5, a, 252, 1, SHAHFUREEL_REPLY_MALFORMED, "a refined reply is 15");
    memcpy(shortened, U5_REFINED, 2);
    memcpy(shortened + 4, U5_REFINED + 6, sizeof shortened - 4);
    expect(view(shortened, sizeof shortened, (const uint8_t[]){3, 0, 14, 0, 1}, 5, a, 252, 1) == 0, "refine", "as a reply, served");
    expect(memcmp(byte_space + GUARD + a, (const uint8_t[]){3, 2, 0, 7}, 4) == 0, "refine", "and has the output");
}

/* what the last reply has but its count and nodes are those of a dispatch */
static int refined_as_dispatched(const uint8_t *reply, const uint8_t *dispatched, uint32_t length)
{
    return shahfureel_refined_count(reply) == shahfureel_reply_count(dispatched) &&
           memcmp(reply + 6, dispatched + 4, length - 6) == 0;
}

/* budgets that grow: the first has dispatch's reply; cost and gap do not rise, the outputs are accepted at that cost, what nobody
 * spends less than is no lower than dispatch's, and once the search has ended the reply stays the same */
static void refining_file(const uint8_t *file, size_t file_length, size_t a)
{
    static const uint32_t budgets[9] = {1, 2, 3, 4, 5, 8, 20, 50, 100};
    const uint8_t *reply = byte_space + GUARD + a;
    uint8_t dispatched[92], before[94];
    uint32_t outputs[32], units = (uint32_t)shahfureel_big_endian(file + 2, 2), length = 30 + 2 * units;
    expect(shahfureel_dispatch(file, file_length, dispatched, sizeof dispatched) == length - 2, "refine", "a case is dispatched");
    uint64_t floor = shahfureel_reply_cost(dispatched) - shahfureel_reply_gap(dispatched);
    for (size_t k = 0; k < 9; k++) {
        expect(refine(file, file_length, budgets[k], a, 94) == length && bytes_kept_but(reply, length), "refine", "it is replied");
        expect(k != 0 || refined_as_dispatched(reply, dispatched, length), "refine", "a budget of 1 has dispatch's reply");
        uint64_t cost = shahfureel_refined_cost(reply), gap = shahfureel_refined_gap(reply);
        uint32_t nodes = shahfureel_refined_nodes(reply);
        expect(nodes >= 1 && nodes <= budgets[k] && cost - gap >= floor, "refine", "nodes within the budget, and no lower floor");
        expect(k == 0 || cost <= shahfureel_refined_cost(before), "refine", "the cost does not rise");
        expect(k == 0 || gap <= shahfureel_refined_gap(before), "refine", "the gap does not rise");
        expect(k == 0 || shahfureel_refined_nodes(before) == budgets[k - 1] || memcmp(reply, before, length) == 0, "refine",
               "once ended, the same reply");
        memcpy(before, reply, length);
        for (uint32_t i = 0; i < units; i++)
            outputs[i] = shahfureel_refined_output(before, i);
        judge_accepts(file, file_length, outputs, units, a, 4, (int64_t)cost, (int64_t)shahfureel_refined_surplus(before),
                      (int64_t)(cost - floor), "the outputs are accepted");
    }
}

static void refining_edition_2(size_t a)
{
    expect(refine(e2(), E2_BYTES, 5, a, 94) == 32, "refine", "b1 -10,000,000");
    expect(shahfureel_refined_gap(byte_space + GUARD + a) == 0, "refine", "b1 -10,000,000 to the end");
    refining_file(e2(), E2_BYTES, a);
    refining_file(e2_with(5000, 4999), E2_BYTES, a);
    for (size_t i = 0; i < DAMAGED_2; i++) {
        refine_gives(e2_damaged(i), E2_BYTES, 1, a, 94, damaged_2[i].number, damaged_2[i].what);
        refine_gives(e2_damaged(i), E2_BYTES, 0, a, 94, SHAHFUREEL_BUDGET_OUT_OF_RANGE, "25 comes before the file");
    }
}

/* rooms and budgets that are refused, files that dispatch refuses, and what comes before what */
static void refining_refused(size_t a)
{
    static const uint32_t wrong[4] = {0, 100001, 65536 * 2, UINT32_MAX};
    refine_gives(u5(), U5_BYTES, 5, a, 0, SHAHFUREEL_BUFFER_TOO_SHORT, "a reply of no byte is 1");
    refine_gives(u5(), U5_BYTES, 5, a, 92, SHAHFUREEL_BUFFER_TOO_SHORT, "a reply as dispatch takes it is 1");
    refine_gives(u5(), U5_BYTES, 5, a, 93, SHAHFUREEL_BUFFER_TOO_SHORT, "a reply of 93 bytes is 1");
    refine_gives(u5(), 0, 5, a, 93, SHAHFUREEL_BUFFER_TOO_SHORT, "1 comes before 2");
    for (size_t k = 0; k < 4; k++) {
        refine_gives(u5(), U5_BYTES, wrong[k], a, 94, SHAHFUREEL_BUDGET_OUT_OF_RANGE, "a budget outside 1 to 100,000 is 25");
        refine_gives(u5(), U5_BYTES, wrong[k], a, 93, SHAHFUREEL_BUFFER_TOO_SHORT, "1 comes before 25");
        refine_gives(u5(), 0, wrong[k], a, 94, SHAHFUREEL_BUDGET_OUT_OF_RANGE, "25 comes before 2");
        refine_gives(u5_but(7, 11), U5_BYTES, wrong[k], a, 94, SHAHFUREEL_BUDGET_OUT_OF_RANGE, "25 comes before 11");
    }
    refine_gives(u5(), 0, 1, a, 94, SHAHFUREEL_FILE_TOO_SHORT, "an empty file is 2");
    refine_gives(u5(), 7, 100000, a, 94, SHAHFUREEL_FILE_TOO_SHORT, "a file of 7 bytes is 2");
    refine_gives(u5(), U5_BYTES - 1, 1, a, 94, SHAHFUREEL_CONTENTS_INVALID, "a cut file is 6");
    refine_gives(u5(), U5_BYTES + 1, 1, a, 94, SHAHFUREEL_CONTENTS_INVALID, "a padded file is 6");
    refine_gives(u5_but(7, 11), U5_BYTES, 1, a, 94, SHAHFUREEL_NO_ALLOCATION, "a demand of 11 is 11");
    refine_gives(u5_but(7, 11), U5_BYTES, 100000, a, 94, SHAHFUREEL_NO_ALLOCATION, "also at the largest budget");
    for (size_t i = 0; i < DAMAGED; i++) {
        refine_gives(u5_but(damaged[i].at, damaged[i].value), U5_BYTES, 1, a, 94, damaged[i].number, damaged[i].what);
        refine_gives(case_file, U5_BYTES, 100000, a, 94, damaged[i].number, damaged[i].what);
        refine_gives(case_file, U5_BYTES, 0, a, 94, SHAHFUREEL_BUDGET_OUT_OF_RANGE, "25 comes before the file");
        refine_gives(case_file, U5_BYTES, 5, a, 93, SHAHFUREEL_BUFFER_TOO_SHORT, "1 comes before the file");
    }
}

static void refining(size_t a)
{
    uint8_t file[BYTES];
    refining_rows(a);
    refining_bytes(a);
    for (uint8_t demand = 0; demand <= 10; demand++)
        refining_file(u5_but(7, demand), U5_BYTES, a);
    for (size_t k = 0; k < LOWERED; k++)
        refining_file(file, lowered_file(k, file, sizeof file), a);
    for (size_t k = 0; k < REFINED; k++)
        refining_file(file, lettered_file(refined[k].units, refined[k].demand, file, sizeof file), a);
    refining_edition_2(a);
    refining_refused(a);
}

/* twelve sets alike, whose search is long: more nodes than 16 bits hold */
static void refining_many(void)
{
    static const uint32_t row[ROW] = {7, 10001, 1000, 0, 2, 20, 0, 0, 0, 0, 4, 4, 7, 8, 10, 11, 13, 14, 16};
    const uint8_t *reply = byte_space + GUARD + 1;
    uint32_t rows[12 * ROW];
    uint8_t file[BYTES];
    for (size_t i = 0; i < 12; i++)
        memcpy(rows + ROW * i, row, sizeof row);
    uint32_t length = shahfureel_pack(145, rows, 12 * ROW, file, sizeof file);
    expect(refine(file, length, 66000, 1, 94) == 54 && shahfureel_refined_nodes(reply) == 66000, "refine", "66,000 nodes");
    refining_file(file, length, 1);
}

static void refined_named(void)
{
    uint8_t rising[34];
    for (size_t i = 0; i < sizeof rising; i++)
        rising[i] = (uint8_t)(0xC1 + i);
    expect(shahfureel_refined_count(rising) == 0xC1C2, "names", "count of a refined reply");
    expect(shahfureel_refined_nodes(rising) == 0xC3C4C5C6, "names", "nodes");
    expect(shahfureel_refined_cost(rising) == UINT64_C(0xC7C8C9CACBCCCDCE), "names", "cost of a refined reply");
    expect(shahfureel_refined_gap(rising) == UINT64_C(0xCFD0D1D2D3D4D5D6), "names", "gap of a refined reply");
    expect(shahfureel_refined_surplus(rising) == UINT64_C(0xD7D8D9DADBDCDDDE), "names", "surplus of a refined reply");
    expect(shahfureel_refined_output(rising, 0) == 0xDFE0 && shahfureel_refined_output(rising, 1) == 0xE1E2, "names",
           "outputs of a refined reply");
}

/* ---- packing */

static uint32_t pack(uint32_t demand, const uint32_t *from, size_t rows_length, size_t alignment, size_t file_room)
{
    fill();
    uint32_t *rows = copy_of(from, rows_length * sizeof from[0], sizeof from[0]);
    uint32_t number = shahfureel_pack(demand, rows, rows_length, byte_space + GUARD + alignment, file_room);
    release("pack", rows, from, rows_length * sizeof from[0], sizeof from[0]);
    return number;
}

static void pack_gives(uint32_t demand, const uint32_t *rows, size_t rows_length, size_t alignment, size_t file_room,
                       uint32_t number, const char *what)
{
    expect(pack(demand, rows, rows_length, alignment, file_room) == number, "pack", what);
    expect(all_kept(), "pack", "a refusal changes nothing");
}

static void pack_writes(size_t alignment, size_t file_room)
{
    const uint8_t *file = byte_space + GUARD + alignment;
    expect(pack(5, U_ROW, ROW, alignment, file_room) == U5_BYTES, "pack", "U5 returns 42");
    expect(memcmp(file, U5, U5_BYTES) == 0, "pack", "U5's bytes");
    expect(bytes_kept_but(file, U5_BYTES), "pack", "it writes the file and no other byte");
}

/* U's row with one number changed */
static void pack_damaged(size_t alignment, size_t at, uint32_t value, uint32_t number, const char *what)
{
    uint32_t row[ROW];
    memcpy(row, U_ROW, sizeof row);
    row[at] = value;
    pack_gives(5, row, ROW, alignment, BYTES, number, what);
}

static void packing(size_t a)
{
    static const uint32_t many[33 * ROW];
    pack_writes(a, U5_BYTES);
    pack_writes(a, BYTES);
    pack_gives(5, U_ROW, 0, a, BYTES, SHAHFUREEL_ROWS_INVALID, "no row is 12");
    pack_gives(320001, U_ROW, ROW - 1, a, BYTES, SHAHFUREEL_ROWS_INVALID, "18 numbers are 12, before 5");
    pack_gives(5, many, 33 * ROW, a, BYTES, SHAHFUREEL_ROWS_INVALID, "33 rows are 12");
    pack_gives(320001, many, ROW, a, BYTES, SHAHFUREEL_DEMAND_OUT_OF_RANGE, "a demand of 320,001 is 5, before 9");
    pack_damaged(a, SHAHFUREEL_ROW_ZONES, 5, SHAHFUREEL_ZONE_COUNT_INVALID, "five zones are 7");
    pack_damaged(a, SHAHFUREEL_ROW_EDGES + 7, 1, SHAHFUREEL_ZONE_COUNT_INVALID, "an unused edge is 7");
    pack_damaged(a, SHAHFUREEL_ROW_C0, 1000000001, SHAHFUREEL_COEFFICIENT_OUT_OF_RANGE, "c0 above 1,000,000,000 is 8");
    pack_damaged(a, SHAHFUREEL_ROW_C1, 10000001, SHAHFUREEL_COEFFICIENT_OUT_OF_RANGE, "c1 above 10,000,000 is 8");
    pack_damaged(a, SHAHFUREEL_ROW_C2, 1001, SHAHFUREEL_COEFFICIENT_OUT_OF_RANGE, "c2 above 1,000 is 8");
    pack_damaged(a, SHAHFUREEL_ROW_B, 5001, SHAHFUREEL_COEFFICIENT_OUT_OF_RANGE, "b above 5,000 is 8");
    pack_damaged(a, SHAHFUREEL_ROW_C2, 65536 + 1000, SHAHFUREEL_COEFFICIENT_OUT_OF_RANGE, "a number is not cut to 16 bits");
    pack_damaged(a, SHAHFUREEL_ROW_LEAST, 0, SHAHFUREEL_LIMITS_INVALID, "a least output of 0 is 9");
    pack_damaged(a, SHAHFUREEL_ROW_EDGES, 2, SHAHFUREEL_LIMITS_INVALID, "a lower edge at the least output is 9");
    pack_damaged(a, SHAHFUREEL_ROW_PREVIOUS, 10001, SHAHFUREEL_RAMP_OR_MARK_OUT_OF_RANGE, "a previous output above 10,000 is 10");
    pack_damaged(a, SHAHFUREEL_ROW_MUST_RUN, 2, SHAHFUREEL_RAMP_OR_MARK_OUT_OF_RANGE, "a mark of 2 is 10");
    pack_gives(5, U_ROW, ROW, a, 0, SHAHFUREEL_FILE_BUFFER_TOO_SHORT, "a buffer of no byte is 13");
    pack_gives(5, U_ROW, ROW, a, U5_BYTES - 1, SHAHFUREEL_FILE_BUFFER_TOO_SHORT, "a buffer of 41 bytes is 13");
}

/* ---- packing edition 2; tests/edition2 has the rest */

static uint32_t pack2(const int32_t *from, size_t b1_length, size_t alignment, size_t file_room)
{
    fill();
    uint32_t *rows = copy_of(U_ROW, sizeof U_ROW, sizeof U_ROW[0]);
    int32_t *b1 = copy_of(from, b1_length * sizeof from[0], sizeof from[0]);
    uint32_t number = shahfureel_pack2(5, rows, ROW, b1, b1_length, byte_space + GUARD + alignment, file_room);
    release("pack2", b1, from, b1_length * sizeof from[0], sizeof from[0]);
    release("pack2", rows, U_ROW, sizeof U_ROW, sizeof U_ROW[0]);
    return number;
}

static void packing_2(size_t a)
{
    static const int32_t least[2] = {-SHAHFUREEL_B1_MAX, 0}, excessive[1] = {SHAHFUREEL_B1_MAX + 1};
    const uint8_t *file = byte_space + GUARD + a;
    expect(pack2(least, 1, a, E2_BYTES) == E2_BYTES && memcmp(file, E2, E2_BYTES) == 0, "pack2", "U with b1, its bytes");
    expect(bytes_kept_but(file, E2_BYTES), "pack2", "it writes the file and no other byte");
    expect(pack2(least, 0, a, BYTES) == SHAHFUREEL_ROWS_INVALID && all_kept(), "pack2", "no b1 is 12");
    expect(pack2(least, 2, a, BYTES) == SHAHFUREEL_ROWS_INVALID && all_kept(), "pack2", "two b1 are 12");
    expect(pack2(excessive, 1, a, 0) == SHAHFUREEL_LOSSES_OUT_OF_RANGE && all_kept(), "pack2", "18 comes before 13");
    expect(pack2(least, 1, a, E2_BYTES - 1) == SHAHFUREEL_FILE_BUFFER_TOO_SHORT && all_kept(), "pack2", "45 bytes are 13");
}

/* ---- unpacking */

static uint32_t unpack(const uint8_t *from, size_t file_length, size_t alignment, size_t rows_room, size_t answers_room)
{
    fill();
    uint8_t *file = copy_of(from, file_length, alignment);
    uint32_t number = shahfureel_unpack(file, file_length, numbers, rows_room, answers, answers_room);
    release("unpack", file, from, file_length, alignment);
    return number;
}

static void unpack_gives(const uint8_t *file, size_t file_length, size_t alignment, size_t rows_room, size_t answers_room,
                         uint32_t number, const char *what)
{
    expect(unpack(file, file_length, alignment, rows_room, answers_room) == number, "unpack", what);
    expect(all_kept(), "unpack", "a refusal changes nothing");
}

static void unpack_reads(const uint8_t *file, size_t alignment, size_t answers_room, int64_t demand)
{
    expect(unpack(file, U5_BYTES, alignment, NUMBERS, answers_room) == 0, "unpack", "U5 returns 0");
    expect(memcmp(numbers, U_ROW, sizeof U_ROW) == 0 && numbers_kept_but(ROW), "unpack", "it writes U's row and no other number");
    expect(answers[0] == demand && answers[1] == 1 && answers_kept_but(2), "unpack", "demand and count");
}

/* no row has a place for b1: 3, whatever follows in the file */
static void unpacking_edition_2(size_t a)
{
    unpack_gives(e2(), E2_BYTES, a, 608, 2, SHAHFUREEL_EDITION_UNKNOWN, "edition 2 is 3");
    unpack_gives(e2_with(0, 0), E2_BYTES, a, 608, 2, SHAHFUREEL_EDITION_UNKNOWN, "edition 2 is 3 also with b1 0");
    unpack_gives(e2(), 8, a, 608, 2, SHAHFUREEL_EDITION_UNKNOWN, "3 comes before 6");
    unpack_gives(e2_but(3, 0), E2_BYTES, a, 608, 2, SHAHFUREEL_EDITION_UNKNOWN, "3 comes before 4");
    unpack_gives(e2_but(4, 1), E2_BYTES, a, 608, 2, SHAHFUREEL_EDITION_UNKNOWN, "3 comes before 5");
    unpack_gives(e2(), 7, a, 608, 2, SHAHFUREEL_FILE_TOO_SHORT, "2 comes before 3");
    unpack_gives(e2(), E2_BYTES, a, 607, 2, SHAHFUREEL_BUFFER_TOO_SHORT, "1 comes before 3");
    unpack_gives(e2(), E2_BYTES, a, 608, 1, SHAHFUREEL_BUFFER_TOO_SHORT, "1 for the answers comes before 3");
    for (size_t i = 0; i < DAMAGED_2; i++)
        unpack_gives(e2_damaged(i), E2_BYTES, a, 608, 2, SHAHFUREEL_EDITION_UNKNOWN, damaged_2[i].what);
}

static void unpacking(size_t a)
{
    unpacking_edition_2(a);
    unpack_reads(u5(), a, 2, 5);
    unpack_reads(u5(), a, ANSWERS, 5);
    unpack_reads(u5_but(7, 11), a, 2, 11); /* 11 is no refusal of unpacking */
    unpack_gives(u5(), U5_BYTES, a, 0, 2, SHAHFUREEL_BUFFER_TOO_SHORT, "no row is 1");
    unpack_gives(u5(), U5_BYTES, a, 607, 2, SHAHFUREEL_BUFFER_TOO_SHORT, "607 numbers are 1");
    unpack_gives(u5(), U5_BYTES, a, 608, 0, SHAHFUREEL_BUFFER_TOO_SHORT, "no answer is 1");
    unpack_gives(u5(), 0, a, 608, 1, SHAHFUREEL_BUFFER_TOO_SHORT, "1 comes before 2");
    unpack_gives(u5(), 0, a, 608, 2, SHAHFUREEL_FILE_TOO_SHORT, "an empty file is 2");
    unpack_gives(u5(), U5_BYTES - 1, a, 608, 2, SHAHFUREEL_CONTENTS_INVALID, "a cut file is 6");
    for (size_t i = 0; i < DAMAGED; i++)
        unpack_gives(u5_but(damaged[i].at, damaged[i].value), U5_BYTES, a, 608, 2, damaged[i].number, damaged[i].what);
}

/* ---- cost rows */

/* rows and what they give: c2, c1 and c0, or a number; above each the wrong rule that it shows */
static const struct {
    const char *row;
    uint32_t number;
    int64_t c2, c1, c0;
} cost_rows[] = {
    /* a limit refused */
    {"2 0 0 3 0.1 0 0", 0, 1000, 0, 0},
    {"2 0 0 3 0.1 00000100 1000.0", 0, 1000, 10000000, 1000000000},
    /* the coefficients in another order, or a factor of another */
    {"2 1500 0 3 0.085 1.2 600", 0, 850, 120000, 600000000},
    /* zeros before a first digit or behind a last decimal refused */
    {"2 0 0 3 00.0500 01.20 600", 0, 500, 120000, 600000000},
    /* a tab, or more than one blank between two words, refused */
    {"2\t0  0 \t3\t\t0.01 0.5   7", 0, 100, 50000, 7000000},
    /* the least of each lost; binary floating point */
    {"2 0 0 3 0.0001 0.00001 0.000001", 0, 1, 1, 1},
    {"2 0 0 3 0 1.15 0", 0, 0, 115000, 0},
    /* startup and shutdown judged by their value */
    {"2 99999999999999999999999999 0.00000000000000000000001 3 0.1 0 0", 0, 1000, 0, 0},
    /* one, six or eight words */
    {"2", 26, 0, 0, 0},
    {"2 0 0 3 0 0", 26, 0, 0, 0},
    {"2 0 0 3 0 0 0 0", 26, 0, 0, 0},
    /* something before or behind */
    {" 2 0 0 3 0 0 0", 26, 0, 0, 0},
    {"2 0 0 3 0 0 0 ", 26, 0, 0, 0},
    {"\t2 0 0 3 0 0 0", 26, 0, 0, 0},
    {"2 0 0 3 0 0 0\t", 26, 0, 0, 0},
    {"2 0 0 3 0 0 0\n", 26, 0, 0, 0},
    {"2 0 0 3 0 0 0\r", 26, 0, 0, 0},
    {"2 0 0 3 0 0 0;", 26, 0, 0, 0},
    /* another character taken for a blank */
    {"2 0 0\n3 0 0 0", 26, 0, 0, 0},
    {"2 0 0\r3 0 0 0", 26, 0, 0, 0},
    {"2 0 0\v3 0 0 0", 26, 0, 0, 0},
    {"2 0 0\xa0" "3 0 0 0", 26, 0, 0, 0},
    /* the first or the fourth word read as a number, or not looked at */
    {"2.0 0 0 3 0 0 0", 26, 0, 0, 0},
    {"02 0 0 3 0 0 0", 26, 0, 0, 0},
    {"1 0 0 3 0 0 0", 26, 0, 0, 0},
    {"2 0 0 3.0 0 0 0", 26, 0, 0, 0},
    {"2 0 0 03 0 0 0", 26, 0, 0, 0},
    {"2 0 0 2 0 0 0", 26, 0, 0, 0},
    /* a point without a digit on either side, two points, a sign, an exponent, a comma, the characters beside the digits */
    {"2 0 0 3 0 0 .5", 26, 0, 0, 0},
    {"2 0 0 3 0 0 5.", 26, 0, 0, 0},
    {"2 0 0 3 0 0 0.0.1", 26, 0, 0, 0},
    {"2 0 0 3 0 0 -0", 26, 0, 0, 0},
    {"2 0 0 3 0 0 +0", 26, 0, 0, 0},
    {"2 0 0 3 0 0 1e-2", 26, 0, 0, 0},
    {"2 0 0 3 0 0 1,0", 26, 0, 0, 0},
    {"2 0 0 3 0 0 0.05/", 26, 0, 0, 0},
    {"2 0 0 3 0 0 0.05:", 26, 0, 0, 0},
    /* startup and shutdown not looked at */
    {"2 x 0 3 0 0 0", 26, 0, 0, 0},
    {"2 -5 0 3 0 0 0", 26, 0, 0, 0},
    {"2 0 5. 3 0 0 0", 26, 0, 0, 0},
    /* 27 or 28 of the square before 26 of the constant */
    {"2 0 0 3 0.00001 0 x", 26, 0, 0, 0},
    {"2 0 0 3 0.2 0 x", 26, 0, 0, 0},
    /* rounded */
    {"2 0 0 3 0.00001 0 0", 27, 0, 0, 0},
    {"2 0 0 3 0.00834 0 0", 27, 0, 0, 0},
    {"2 0 0 3 0 99.999999 0", 27, 0, 0, 0},
    /* 28 before 27, of one coefficient and of two */
    {"2 0 0 3 0 0 1000.0000001", 27, 0, 0, 0},
    {"2 0 0 3 0.2 0.000001 0", 27, 0, 0, 0},
    {"2 0 0 3 0.2 0 0.0000001", 27, 0, 0, 0},
    {"2 0 0 3 0.00001 200 0", 27, 0, 0, 0},
    /* a limit one higher, a decimal fewer */
    {"2 0 0 3 0.1001 0 0", 28, 0, 0, 0},
    {"2 0 0 3 0 100.00001 0", 28, 0, 0, 0},
    {"2 0 0 3 0 0 1000.000001", 28, 0, 0, 0},
    {"2 0 0 3 0.11 0 0", 28, 0, 0, 0},
    /* 2 to the power of 32 or 64 read as 0 */
    {"2 0 0 3 429496.7296 0 0", 28, 0, 0, 0},
    {"2 0 0 3 1844674407370955.1616 0 0", 28, 0, 0, 0},
    {"2 0 0 3 0 42949.67296 0", 28, 0, 0, 0},
    {"2 0 0 3 0 184467440737095.51616 0", 28, 0, 0, 0},
    {"2 0 0 3 0 0 4294.967296", 28, 0, 0, 0},
    {"2 0 0 3 0 0 18446744073709.551616", 28, 0, 0, 0},
};

enum { COST_ROWS = sizeof cost_rows / sizeof cost_rows[0] };

static uint32_t gencost(const char *from, size_t row_length, size_t alignment, size_t answers_room)
{
    fill();
    char *row = copy_of(from, row_length, alignment);
    uint32_t number = shahfureel_gencost(row, row_length, answers, answers_room);
    release("gencost", row, from, row_length, alignment);
    return number;
}

static void gencost_gives(const char *row, size_t row_length, size_t alignment, size_t answers_room, uint32_t number, const char *what)
{
    expect(gencost(row, row_length, alignment, answers_room) == number, "gencost", what);
    expect(all_kept(), "gencost", "a refusal changes nothing");
}

static void gencost_reads(const char *row, size_t row_length, size_t alignment, size_t answers_room, const int64_t read[3],
                          const char *what)
{
    expect(gencost(row, row_length, alignment, answers_room) == 0, "gencost", what);
    expect(memcmp(answers, read, 3 * sizeof read[0]) == 0, "gencost", what);
    expect(answers_kept_but(3), "gencost", "it writes three answers and no other");
    expect(bytes_kept_but(byte_space, 0) && numbers_kept_but(0) && floors_kept_but(0), "gencost", "nor another list");
}

static void reading_cost_rows(size_t a)
{
    for (size_t i = 0; i < COST_ROWS; i++) {
        const char *row = cost_rows[i].row;
        const int64_t read[3] = {cost_rows[i].c0, cost_rows[i].c1, cost_rows[i].c2};
        for (size_t room = 0; room < 3; room++)
            gencost_gives(row, strlen(row), a, room, SHAHFUREEL_BUFFER_TOO_SHORT, "under three answers are 1, before all else");
        for (size_t room = 3; room <= ANSWERS; room += ANSWERS - 3) {
            if (cost_rows[i].number == 0)
                gencost_reads(row, strlen(row), a, room, read, row);
            else
                gencost_gives(row, strlen(row), a, room, cost_rows[i].number, row);
        }
    }
}

/* a row of so many bytes: the start, zeros, and the end */
static void padded(char *row, size_t length, const char *start, const char *end)
{
    memset(row, '0', length);
    memcpy(row, start, strlen(start));
    memcpy(row + length - strlen(end), end, strlen(end));
}

/* a row of so many bytes gives a constant of 1 and nothing else, or a number */
static void cost_row_of(size_t length, size_t a, uint32_t number, const char *start, const char *end, const char *what)
{
    static const int64_t one[3] = {1000000, 0, 0};
    char row[300];
    padded(row, length, start, end);
    if (number == 0)
        gencost_reads(row, length, a, 3, one, what);
    else
        gencost_gives(row, length, a, 3, number, what);
}

static void long_cost_rows(size_t a)
{
    static const int64_t square[3] = {0, 0, 1000};
    char row[300];
    gencost_gives("2 0 0 3 0 0 0", 0, a, 3, SHAHFUREEL_GENCOST_MALFORMED, "no bytes are 26");
    gencost_gives("2 0 0 3 0 0 0", 12, a, 3, SHAHFUREEL_GENCOST_MALFORMED, "a row without its last byte is 26");
    gencost_gives("2 0 0 3 0 0 0", 14, a, 3, SHAHFUREEL_GENCOST_MALFORMED, "a zero byte behind is 26");
    cost_row_of(255, a, 0, "2 0 0 3 0 0 ", "1", "255 bytes");
    cost_row_of(256, a, 0, "2 0 0 3 0 0 ", "1", "256 bytes");
    cost_row_of(256, a, 0, "2 0 0 3 0 0 1.", "", "a constant of 242 decimals");
    cost_row_of(257, a, SHAHFUREEL_GENCOST_MALFORMED, "2 0 0 3 0 0 ", "1", "257 bytes are 26");
    cost_row_of(257, a, SHAHFUREEL_GENCOST_MALFORMED, "2 0 0 3 0 0 0.", "1", "257 bytes are 26 before 27");
    cost_row_of(257, a, SHAHFUREEL_GENCOST_MALFORMED, "2 0 0 3 0 0 1", "", "257 bytes are 26 before 28");
    cost_row_of(256, a, SHAHFUREEL_GENCOST_NOT_WHOLE, "2 0 0 3 0 0 0.", "1", "a decimal far behind is 27");
    cost_row_of(256, a, SHAHFUREEL_GENCOST_ABOVE_LIMIT, "2 0 0 3 0 0 1", "", "244 digits are 28");
    padded(row, 115, "2 0 0 3 0.1", " 0 0");
    gencost_reads(row, 115, a, 3, square, "0.1 with 100 zeros behind");
    row[110] = '1';
    gencost_gives(row, 115, a, 3, SHAHFUREEL_GENCOST_NOT_WHOLE, "0.1 with 99 zeros and a 1 behind is 27");
    padded(row, 115, "2 0 0 3 ", ".1 0 0");
    gencost_reads(row, 115, a, 3, square, "0.1 with 100 zeros before");
}

/* what is read goes into a row by the same names, and is never refused with 8 */
static void cost_rows_packed(size_t a)
{
    static const char text[] = "2 0 0 3 0.1 100 1000";
    uint32_t row[ROW];
    memcpy(row, U_ROW, sizeof row);
    expect(gencost(text, sizeof text - 1, a, SHAHFUREEL_GENCOST_ANSWERS) == 0, "gencost", text);
    for (size_t k = SHAHFUREEL_ROW_C0; k <= SHAHFUREEL_ROW_C2; k++)
        row[k] = (uint32_t)answers[k];
    expect(row[SHAHFUREEL_ROW_C0] == 1000000000 && row[SHAHFUREEL_ROW_C1] == 10000000 && row[SHAHFUREEL_ROW_C2] == 1000, "gencost",
           "each at its own place of a row");
    expect(pack(5, row, ROW, a, BYTES) == U5_BYTES, "gencost", "a row with what is read packs");
}

static void reading_costs(size_t a)
{
    reading_cost_rows(a);
    long_cost_rows(a);
    cost_rows_packed(a);
}

/* ---- the header's names and advice */

/* A row whose numbers all differ and fill their fields, and its case file: demand 0x0403 */
enum { V_BYTES = 54 };

static const uint8_t V[V_BYTES] = {0x00, 0x01, 0x00, 0x01, 0x00, 0x00, 0x04, 0x03, 0x00, 0x0C, 0x00, 0x2A, 0x3A, 0x0B,
                                   0x0C, 0x0D, 0x00, 0x97, 0x0E, 0x0F, 0x03, 0x21, 0x13, 0x22, 0x01, 0x02, 0x26, 0x23,
                                   0x0A, 0x14, 0x1C, 0x15, 0x1D, 0x16, 0x00, 0x01, 0x00, 0x04, 0x02, 0x31, 0x03, 0x32,
                                   0x04, 0x33, 0x05, 0x34, 0x06, 0x35, 0x07, 0x36, 0x08, 0x37, 0x09, 0x38};

static void build_v(uint32_t *row)
{
    row[SHAHFUREEL_ROW_C0] = 0x3A0B0C0D;
    row[SHAHFUREEL_ROW_C1] = 0x970E0F;
    row[SHAHFUREEL_ROW_C2] = 0x321;
    row[SHAHFUREEL_ROW_B] = 0x1322;
    row[SHAHFUREEL_ROW_LEAST] = 0x102;
    row[SHAHFUREEL_ROW_GREATEST] = 0x2623;
    row[SHAHFUREEL_ROW_PREVIOUS] = 0xA14;
    row[SHAHFUREEL_ROW_UP] = 0x1C15;
    row[SHAHFUREEL_ROW_DOWN] = 0x1D16;
    row[SHAHFUREEL_ROW_MUST_RUN] = 1;
    row[SHAHFUREEL_ROW_ZONES] = 4;
    for (uint32_t k = 0; k < 4; k++) {
        row[SHAHFUREEL_ROW_EDGES + 2 * k] = 0x231 + 0x202 * k;
        row[SHAHFUREEL_ROW_EDGES + 2 * k + 1] = 0x332 + 0x202 * k;
    }
}

static void build_u(uint32_t *row)
{
    memset(row, 0, SHAHFUREEL_ROW_NUMBERS * sizeof row[0]);
    row[SHAHFUREEL_ROW_C1] = 10000;
    row[SHAHFUREEL_ROW_C2] = 1000;
    row[SHAHFUREEL_ROW_LEAST] = 2;
    row[SHAHFUREEL_ROW_GREATEST] = 10;
    row[SHAHFUREEL_ROW_ZONES] = 1;
    row[SHAHFUREEL_ROW_EDGES] = 4;
    row[SHAHFUREEL_ROW_EDGES + 1] = 7;
}

/* a sentence for each refusal, no two alike, and one for all that is none; tests/panel/run compares them with docs/FORMATS.md */
static void texts_told(void)
{
    const char *none = shahfureel_refusal_text(0);
    for (uint32_t i = 1; i < 64; i++) {
        const char *text = shahfureel_refusal_text(i);
        expect(text[0] != '\0' && (strcmp(text, none) == 0) == (i > SHAHFUREEL_GENCOST_ABOVE_LIMIT), "refusal_text", "28 refusals");
        for (uint32_t k = 1; k < i && i <= SHAHFUREEL_GENCOST_ABOVE_LIMIT; k++)
            expect(strcmp(text, shahfureel_refusal_text(k)) != 0, "refusal_text", "no two are alike");
        expect(text == shahfureel_refusal_text(i), "refusal_text", "it is always the same string");
    }
    expect(shahfureel_refusal_text(UINT32_MAX) == none && shahfureel_refusal_text(1u << 31) == none, "refusal_text", "no refusal");
    expect(strcmp(shahfureel_version(), SHAHFUREEL_VERSION) == 0, "version", "library and header have one version");
}

static void sizes_named(void)
{
    expect(SHAHFUREEL_FILE_BYTES_MAX == BYTES && SHAHFUREEL_ROWS_NUMBERS == NUMBERS, "names", "1,608 bytes, 608 numbers");
    expect(SHAHFUREEL_ROW_NUMBERS == ROW && SHAHFUREEL_ROW_EDGES + 8 == ROW, "names", "19 numbers, the last 8 of them edges");
    expect(SHAHFUREEL_REPLY_BYTES == 92 && SHAHFUREEL_ANSWERS == 2, "names", "92 bytes, 2 answers");
    expect(SHAHFUREEL_REFINE_REPLY_BYTES == 94 && SHAHFUREEL_BUDGET_MAX == 100000, "names", "94 bytes, 100,000 nodes");
    expect(SHAHFUREEL_GENCOST_BYTES_MAX == 256 && SHAHFUREEL_GENCOST_ANSWERS == 3, "names", "256 bytes, 3 answers of a cost row");
    expect(SHAHFUREEL_JUDGE_ANSWERS == 4 && SHAHFUREEL_DEMANDS_MAX == 96, "names", "4 answers of judging, 96 demands");
    expect(SHAHFUREEL_FLOORS_MAX == SHAHFUREEL_DEMANDS_MAX, "names", "the former name of the number of demands");
    expect(SHAHFUREEL_SLOT_BYTES == SLOT && SHAHFUREEL_HISTORIES == 32, "names", "18 bytes to a slot, 32 histories");
    expect(sizeof(struct shahfureel_history) == 4 && offsetof(struct shahfureel_history, starts) == 2, "names", "two 16-bit numbers");
    expect((uintptr_t)histories % 4 == 2, "names", "histories at an even address that is no multiple of 4");
    expect(SHAHFUREEL_UNITS_MAX == 32 && SHAHFUREEL_DEMAND_MAX == 320000, "names", "32 units, 320,000 steps");
    expect(SHAHFUREEL_MULTIPLIER_MAX == 65536 && SHAHFUREEL_LENGTH_MIN == sizeof U5_REPLY, "names", "65,536, 30");
    expect(SHAHFUREEL_REPLY_OUTPUTS_AT == SHAHFUREEL_REPLY_OUTPUTS, "names", "the former name of the outputs' place");
}

static void rows_named(void)
{
    uint32_t row[SHAHFUREEL_ROW_NUMBERS];
    build_u(row);
    expect(memcmp(row, U_ROW, sizeof row) == 0, "names", "U's row by names");
    expect(pack(5, row, SHAHFUREEL_ROW_NUMBERS, 0, BYTES) == U5_BYTES && memcmp(byte_space + GUARD, U5, U5_BYTES) == 0, "names",
           "a row by names packs to U5");
    build_v(row);
    expect(pack(0x403, row, SHAHFUREEL_ROW_NUMBERS, 0, BYTES) == V_BYTES && memcmp(byte_space + GUARD, V, V_BYTES) == 0, "names",
           "a row by names packs to V");
    expect(unpack(V, V_BYTES, 0, NUMBERS, SHAHFUREEL_ANSWERS) == 0 && memcmp(numbers, row, sizeof row) == 0, "names",
           "V unpacks to the row by names");
}

/* a file of 32 times V's unit: the longest reply */
static void longest_reply(const uint8_t *file, size_t length)
{
    uint8_t reply[SHAHFUREEL_REPLY_BYTES];
    expect(shahfureel_dispatch(file, length, reply, sizeof reply) == sizeof reply, "names", "a reply of 92 bytes");
    expect(shahfureel_reply_count(reply) == SHAHFUREEL_UNITS_MAX, "names", "32 units");
    for (uint32_t i = 0; i < SHAHFUREEL_UNITS_MAX; i++)
        expect(shahfureel_reply_output(reply, i) == 0x102, "names", "each gives its least output");
    judging_replies(file, length, 1);
    floors_of_reply(file, length, 1);
    days_of_file(file, length, 1);
    run_to_the_end(file, length, 1);
    refining_file(file, length, 1);
}

/* 32 times V: the longest file of edition 1 */
static void longest_packed(void)
{
    static uint32_t rows[SHAHFUREEL_ROWS_NUMBERS];
    uint8_t file[SHAHFUREEL_FILE_BYTES_MAX];
    for (uint32_t i = 0; i < SHAHFUREEL_UNITS_MAX; i++)
        build_v(rows + SHAHFUREEL_ROW_NUMBERS * i);
    pack_gives(0, rows, sizeof rows / sizeof rows[0], 0, 1479, SHAHFUREEL_FILE_BUFFER_TOO_SHORT, "1,479 bytes are 13");
    expect(shahfureel_pack(0, rows, sizeof rows / sizeof rows[0], file, sizeof file) == 1480, "names", "1,480 bytes");
    longest_reply(file, 1480);
}

/* 32 times V's body with a b1 behind its first 26 bytes: the longest file of edition 2 */
static void longest_of_edition_2(void)
{
    enum { FRONT = 8 + 32 * 4, BODY = 46 };
    static uint8_t file[BYTES + 1];
    put(file, 2, 2);
    put(file + 2, 32, 2);
    for (uint32_t i = 0; i < 32; i++) {
        uint8_t *body = file + FRONT + BODY * i;
        put(file + 8 + 4 * i, FRONT + BODY * i, 2);
        put(file + 10 + 4 * i, BODY, 2);
        memcpy(body, V + 12, 26);
        put(body + 26, (uint32_t)(-9000000 - (int32_t)i), 4);
        memcpy(body + 30, V + 38, 16);
    }
    longest_reply(file, BYTES);
    dispatch_gives(file, BYTES - 1, 0, 92, SHAHFUREEL_CONTENTS_INVALID, "1,607 bytes of them are 6");
    dispatch_gives(file, BYTES + 1, 0, 92, SHAHFUREEL_CONTENTS_INVALID, "1,609 bytes are 6");
    file[1] = 1;
    dispatch_gives(file, BYTES, 0, 92, SHAHFUREEL_CONTENTS_INVALID, "a body of 46 bytes is 6 in edition 1");
}

static void judgements_named(void)
{
    const uint32_t output = 7;
    int64_t judged[SHAHFUREEL_JUDGE_ANSWERS];
    expect(shahfureel_judge(U5, sizeof U5, &output, 1, judged, SHAHFUREEL_JUDGE_ANSWERS) == 0, "names", "U5 judged returns 0");
    expect(judged[SHAHFUREEL_JUDGED_ACCEPTED] == 1 && judged[SHAHFUREEL_JUDGED_COST] == 119000, "names", "accepted, cost");
    expect(judged[SHAHFUREEL_JUDGED_SURPLUS] == 200000000, "names", "surplus");
    expect(judged[SHAHFUREEL_JUDGED_DISTANCE] == 42000, "names", "distance");
}

static void slots_named(void)
{
    uint8_t rising[2 * SHAHFUREEL_SLOT_BYTES];
    for (size_t i = 0; i < sizeof rising; i++)
        rising[i] = (uint8_t)(0xC1 + i);
    expect(shahfureel_slot_status(rising, 0) == 0xC1C2 && shahfureel_slot_status(rising, 1) == 0xD3D4, "names", "status");
    expect(shahfureel_slot_cost(rising, 0) == UINT64_C(0xC3C4C5C6C7C8C9CA), "names", "cost of the first slot");
    expect(shahfureel_slot_cost(rising, 1) == UINT64_C(0xD5D6D7D8D9DADBDC), "names", "cost of the second");
    expect(shahfureel_slot_gap(rising, 0) == UINT64_C(0xCBCCCDCECFD0D1D2), "names", "gap of the first slot");
    expect(shahfureel_slot_gap(rising, 1) == UINT64_C(0xDDDEDFE0E1E2E3E4), "names", "gap of the second");
}

static void replies_named(void)
{
    uint8_t rising[32];
    for (size_t i = 0; i < sizeof rising; i++)
        rising[i] = (uint8_t)(0xE1 + i);
    expect(shahfureel_reply_count(rising) == 0xE1E2, "names", "count");
    expect(shahfureel_reply_evaluations(rising) == 0xE3E4, "names", "evaluations");
    expect(shahfureel_reply_cost(rising) == UINT64_C(0xE5E6E7E8E9EAEBEC), "names", "cost");
    expect(shahfureel_reply_gap(rising) == UINT64_C(0xEDEEEFF0F1F2F3F4), "names", "gap");
    expect(shahfureel_reply_surplus(rising) == UINT64_C(0xF5F6F7F8F9FAFBFC), "names", "surplus");
    expect(shahfureel_reply_output(rising, 0) == 0xFDFE && shahfureel_reply_output(rising, 1) == 0xFF00, "names", "outputs");

    uint8_t reply[SHAHFUREEL_REPLY_BYTES];
    expect(shahfureel_dispatch(U5, sizeof U5, reply, sizeof reply) == sizeof U5_REPLY, "names", "U5 returns 30");
    expect(shahfureel_reply_count(reply) == 1 && shahfureel_reply_evaluations(reply) == 18, "names", "U5: 1 unit, 18 evaluations");
    expect(shahfureel_reply_cost(reply) == 119000 && shahfureel_reply_gap(reply) == 42000, "names", "U5: cost and gap");
    expect(shahfureel_reply_surplus(reply) == 200000000 && shahfureel_reply_output(reply, 0) == 7, "names", "U5: surplus, output");
    expect(shahfureel_big_endian(reply + SHAHFUREEL_REPLY_COUNT, 2) == 1 && reply[SHAHFUREEL_REPLY_EVALUATIONS + 1] == 18 &&
               shahfureel_big_endian(reply + SHAHFUREEL_REPLY_COST, 8) == 119000 &&
               shahfureel_big_endian(reply + SHAHFUREEL_REPLY_GAP, 8) == 42000 &&
               shahfureel_big_endian(reply + SHAHFUREEL_REPLY_SURPLUS, 8) == 200000000 &&
               shahfureel_big_endian(reply + SHAHFUREEL_REPLY_OUTPUTS, 2) == 7,
           "names", "U5's fields by their places");
}

/* what a row's unit gives alone at a demand, or the refusal */
static uint32_t given(uint32_t demand, const uint32_t *row)
{
    uint8_t file[SHAHFUREEL_FILE_BYTES_MAX];
    uint8_t reply[SHAHFUREEL_REPLY_BYTES];
    uint32_t length = shahfureel_pack(demand, row, SHAHFUREEL_ROW_NUMBERS, file, sizeof file);
    if (length < SHAHFUREEL_LENGTH_MIN)
        return length;
    uint32_t answer = shahfureel_dispatch(file, length, reply, sizeof reply);
    return answer < SHAHFUREEL_LENGTH_MIN ? answer : shahfureel_reply_output(reply, 0);
}

/* what the header says of ramp limits, of refusal 11 and of refusals 7 to 10. Outputs are above 18: no refusal has their number. */
static void advice(void)
{
    uint32_t row[SHAHFUREEL_ROW_NUMBERS] = {0};
    row[SHAHFUREEL_ROW_C2] = 1000;
    row[SHAHFUREEL_ROW_LEAST] = 100;
    row[SHAHFUREEL_ROW_GREATEST] = 10000;
    row[SHAHFUREEL_ROW_MUST_RUN] = 1;
    expect(given(9000, row) == 9000, "advice", "previous 0: up and down are ignored");
    row[SHAHFUREEL_ROW_PREVIOUS] = 500;
    expect(given(0, row) == 500 && given(500, row) == 500 && given(501, row) == 11, "advice", "0: the set may not move");
    row[SHAHFUREEL_ROW_UP] = SHAHFUREEL_RAMP_UNLIMITED;
    expect(given(0, row) == 500 && given(10000, row) == 10000, "advice", "10,000 up: no limit that way");
    row[SHAHFUREEL_ROW_DOWN] = SHAHFUREEL_RAMP_UNLIMITED;
    expect(given(0, row) == 100 && given(10000, row) == 10000, "advice", "10,000: no limit");
    expect(given(10001, row) == 11 && given(0, row) != 11, "advice", "too little: demand 0 is answered");

    row[SHAHFUREEL_ROW_PREVIOUS] = 50;
    row[SHAHFUREEL_ROW_UP] = 49;
    expect(given(100, row) == 11 && given(0, row) == 11, "advice", "a stuck must-run set: 11 also at demand 0");
    row[SHAHFUREEL_ROW_MUST_RUN] = 0;
    expect(given(100, row) == 11 && given(0, row) == 0, "advice", "a set that may stand is not stuck");

    uint32_t rows[2 * SHAHFUREEL_ROW_NUMBERS];
    build_u(rows);
    build_u(rows + SHAHFUREEL_ROW_NUMBERS);
    rows[SHAHFUREEL_ROW_NUMBERS + SHAHFUREEL_ROW_GREATEST] = 2;
    pack_gives(5, rows, sizeof rows / sizeof rows[0], 0, BYTES, SHAHFUREEL_LIMITS_INVALID, "a bad second row is 9");
    expect(pack(0, rows, SHAHFUREEL_ROW_NUMBERS, 0, BYTES) == U5_BYTES, "advice", "the first row alone packs");
    pack_gives(0, rows + SHAHFUREEL_ROW_NUMBERS, SHAHFUREEL_ROW_NUMBERS, 0, BYTES, SHAHFUREEL_LIMITS_INVALID, "the second is 9");
}

int main(void)
{
    texts_told();
    sizes_named();
    rows_named();
    longest_packed();
    longest_of_edition_2();
    replies_named();
    slots_named();
    judgements_named();
    runs_named();
    refined_named();
    refining_many();
    advice();
    for (size_t alignment = 1; alignment <= ALIGNMENTS; alignment++) {
        dispatching(alignment);
        pricing(alignment);
        viewing(alignment);
        judging(alignment);
        flooring(alignment);
        planning(alignment);
        running(alignment);
        refining(alignment);
        reading_costs(alignment);
        packing(alignment);
        packing_2(alignment);
        unpacking(alignment);
    }
    printf("panel: %d checks, %d failed\n", checks, failures);
    return failures != 0;
}
