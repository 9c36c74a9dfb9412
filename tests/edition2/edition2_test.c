/* shahfureel_pack2: what it writes is compared with files written out byte by byte, and on random sites with what
 * packing writes, turned into edition 2 as the header says; dispatch takes what it writes, and what it refuses dispatch refuses with
 * the same number. A refusal writes nothing, and nothing is written past the file. */
#include "shahfureel.h"

#include <stdio.h>
#include <string.h>

enum { ROW = 19, GUARD = 16, FILLED = 0xA5, LONGEST = 1608, SITES = 20000 };

static int failures = 0;
static int checks = 0;

static void expect(int holds, const char *what)
{
    checks++;
    if (!holds) {
        failures++;
        printf("FAILED: %s\n", what);
    }
}

/* ---- a file's buffer, with a guard behind it */

static uint8_t file[LONGEST + GUARD];

static int kept_from(size_t length)
{
    for (size_t i = length; i < sizeof file; i++)
        if (file[i] != FILLED)
            return 0;
    return 1;
}

static uint32_t pack_lists(uint32_t demand, const uint32_t *rows, size_t rows_length, const int32_t *b1, size_t b1_length, size_t room)
{
    memset(file, FILLED, sizeof file);
    uint32_t answer = shahfureel_pack2(demand, rows, rows_length, b1, b1_length, file, room);
    expect(kept_from(answer < SHAHFUREEL_LENGTH_MIN ? 0 : answer), "it writes the file and no other byte");
    return answer;
}

/* with a b1 for each row, as far as there are whole ones */
static uint32_t pack(uint32_t demand, const uint32_t *rows, size_t rows_length, const int32_t *b1, size_t room)
{
    return pack_lists(demand, rows, rows_length, b1, rows_length / ROW, room);
}

static uint32_t dispatch(const uint8_t *from, size_t length, uint8_t *reply)
{
    return shahfureel_dispatch(from, length, reply, SHAHFUREEL_REPLY_BYTES);
}

/* ---- files by hand */

/* the specification's unit U with b1 -10,000,000, demand 5 */
static const uint32_t U[ROW] = {0, 10000, 1000, 0, 2, 10, 0, 0, 0, 0, 1, 4, 7, 0, 0, 0, 0, 0, 0};
static const uint8_t U_FILE[46] = {0x00, 0x02, 0x00, 0x01, 0x00, 0x00, 0x00, 0x05, 0x00, 0x0C, 0x00, 0x22, 0x00, 0x00, 0x00, 0x00,
                                   0x00, 0x00, 0x27, 0x10, 0x03, 0xE8, 0x00, 0x00, 0x00, 0x02, 0x00, 0x0A, 0x00, 0x00, 0x00, 0x00,
                                   0x00, 0x00, 0x00, 0x00, 0x00, 0x01, 0xFF, 0x67, 0x69, 0x80, 0x00, 0x04, 0x00, 0x07};

/* a unit whose numbers all differ, with four zones and b1 0x1E2D3C; then one without zones and b1 -2; demand 0x403 */
static const uint32_t V[ROW] = {0x3A0B0C0D, 0x970E0F, 0x321, 0x1322, 0x102, 0x2623, 0xA14, 0x1C15, 0x1D16, 1,
                                4,          0x231,    0x332, 0x433,  0x534, 0x635,  0x736, 0x837,  0x938};
static const uint8_t TWO_FILE[92] = {
    /* head, contents */
    0x00, 0x02, 0x00, 0x02, 0x00, 0x00, 0x04, 0x03, 0x00, 0x10, 0x00, 0x2E, 0x00, 0x3E, 0x00, 0x1E,
    /* body 1: up to z, b1, edges */
    0x3A, 0x0B, 0x0C, 0x0D, 0x00, 0x97, 0x0E, 0x0F, 0x03, 0x21, 0x13, 0x22, 0x01, 0x02, 0x26, 0x23, 0x0A, 0x14, 0x1C, 0x15,
    0x1D, 0x16, 0x00, 0x01, 0x00, 0x04, 0x00, 0x1E, 0x2D, 0x3C, 0x02, 0x31, 0x03, 0x32, 0x04, 0x33, 0x05, 0x34, 0x06, 0x35,
    0x07, 0x36, 0x08, 0x37, 0x09, 0x38,
    /* body 2: up to z, b1 */
    0x00, 0x00, 0x00, 0x00, 0x00, 0x00, 0x27, 0x10, 0x03, 0xE8, 0x00, 0x00, 0x00, 0x02, 0x00, 0x0A, 0x00, 0x00, 0x00, 0x00,
    0x00, 0x00, 0x00, 0x00, 0x00, 0x00, 0xFF, 0xFF, 0xFF, 0xFE};

static void by_hand(void)
{
    static const int32_t least[1] = {-SHAHFUREEL_B1_MAX}, unlike[2] = {0x1E2D3C, -2};
    uint8_t reply[SHAHFUREEL_REPLY_BYTES];
    expect(pack(5, U, ROW, least, sizeof U_FILE) == sizeof U_FILE && memcmp(file, U_FILE, sizeof U_FILE) == 0, "U's bytes");
    expect(dispatch(file, sizeof U_FILE, reply) == 30, "U is dispatched");
    expect(shahfureel_reply_output(reply, 0) == 7 && shahfureel_reply_cost(reply) == 119000, "U gives 7");
    expect(shahfureel_reply_gap(reply) == 51600 && shahfureel_reply_surplus(reply) == 270000000, "U's gap and surplus");
    expect(pack(11, U, ROW, least, LONGEST) == sizeof U_FILE && dispatch(file, sizeof U_FILE, reply) == 30 &&
               shahfureel_reply_output(reply, 0) == 10 && shahfureel_reply_surplus(reply) == 0,
           "10 steps net 11");

    uint32_t rows[2 * ROW];
    memcpy(rows, V, sizeof V);
    memcpy(rows + ROW, U, sizeof U);
    memset(rows + ROW + SHAHFUREEL_ROW_ZONES, 0, (ROW - SHAHFUREEL_ROW_ZONES) * sizeof rows[0]);
    expect(pack(0x403, rows, 2 * ROW, unlike, LONGEST) == sizeof TWO_FILE, "two units have 92 bytes");
    expect(memcmp(file, TWO_FILE, sizeof TWO_FILE) == 0, "two units' bytes");
    expect(dispatch(file, sizeof TWO_FILE, reply) == 32, "two units are dispatched");
}

static void longest(void)
{
    static uint32_t rows[32 * ROW];
    static int32_t b1[32];
    uint8_t reply[SHAHFUREEL_REPLY_BYTES];
    for (int i = 0; i < 32; i++) {
        memcpy(rows + ROW * i, V, sizeof V);
        b1[i] = 1000 * i - SHAHFUREEL_B1_MAX;
    }
    expect(pack(0, rows, 32 * ROW, b1, LONGEST - 1) == SHAHFUREEL_FILE_BUFFER_TOO_SHORT, "1,607 bytes are 13");
    expect(SHAHFUREEL_FILE_BYTES_MAX == LONGEST && pack(0, rows, 32 * ROW, b1, LONGEST) == LONGEST, "32 units have 1,608 bytes");
    expect(dispatch(file, LONGEST, reply) == sizeof reply && shahfureel_reply_count(reply) == 32, "32 units are dispatched");
    expect(dispatch(file, LONGEST + 1, reply) == SHAHFUREEL_CONTENTS_INVALID, "a byte more is 6");
}

/* ---- refusals */

/* U with one number changed (c0 0 is U's own) and a b1: the number that it gets */
static const struct {
    size_t at;
    uint32_t value;
    int32_t b1;
    uint32_t number;
    const char *what;
} REFUSED[] = {
    {SHAHFUREEL_ROW_ZONES, 5, 0, SHAHFUREEL_ZONE_COUNT_INVALID, "five zones are 7"},
    {SHAHFUREEL_ROW_ZONES, 0, 0, SHAHFUREEL_ZONE_COUNT_INVALID, "edges of no zone are 7"},
    {SHAHFUREEL_ROW_EDGES + 7, 1, 0, SHAHFUREEL_ZONE_COUNT_INVALID, "an unused edge is 7"},
    {SHAHFUREEL_ROW_C0, 1000000001, 0, SHAHFUREEL_COEFFICIENT_OUT_OF_RANGE, "c0 above 1,000,000,000 is 8"},
    {SHAHFUREEL_ROW_C1, 10000001, 0, SHAHFUREEL_COEFFICIENT_OUT_OF_RANGE, "c1 above 10,000,000 is 8"},
    {SHAHFUREEL_ROW_C2, 1001, 0, SHAHFUREEL_COEFFICIENT_OUT_OF_RANGE, "c2 above 1,000 is 8"},
    {SHAHFUREEL_ROW_C2, 66536, 0, SHAHFUREEL_COEFFICIENT_OUT_OF_RANGE, "c2 is not cut to 16 bits"},
    {SHAHFUREEL_ROW_B, 5001, 0, SHAHFUREEL_COEFFICIENT_OUT_OF_RANGE, "b above 5,000 is 8"},
    {SHAHFUREEL_ROW_B, 5001, 10000001, SHAHFUREEL_COEFFICIENT_OUT_OF_RANGE, "8 comes before 18"},
    {SHAHFUREEL_ROW_C0, 0, 10000001, SHAHFUREEL_LOSSES_OUT_OF_RANGE, "b1 above 10,000,000 is 18"},
    {SHAHFUREEL_ROW_C0, 0, -10000001, SHAHFUREEL_LOSSES_OUT_OF_RANGE, "b1 below -10,000,000 is 18"},
    {SHAHFUREEL_ROW_C0, 0, INT32_MIN, SHAHFUREEL_LOSSES_OUT_OF_RANGE, "the least b1 of all is 18"},
    {SHAHFUREEL_ROW_B, 5000, 5000, SHAHFUREEL_LOSSES_OUT_OF_RANGE, "b 5,000 with b1 5,000 is 18"},
    {SHAHFUREEL_ROW_B, 4501, 9984501, SHAHFUREEL_LOSSES_OUT_OF_RANGE, "b 4,501 with b1 9,984,501 is 18"},
    {SHAHFUREEL_ROW_LEAST, 0, 10000001, SHAHFUREEL_LOSSES_OUT_OF_RANGE, "18 comes before 9"},
    {SHAHFUREEL_ROW_MUST_RUN, 2, 10000001, SHAHFUREEL_LOSSES_OUT_OF_RANGE, "18 comes before 10"},
    {SHAHFUREEL_ROW_LEAST, 0, 0, SHAHFUREEL_LIMITS_INVALID, "a least output of 0 is 9"},
    {SHAHFUREEL_ROW_LEAST, 4, 0, SHAHFUREEL_LIMITS_INVALID, "a least output at the lower edge is 9"},
    {SHAHFUREEL_ROW_GREATEST, 10001, 0, SHAHFUREEL_LIMITS_INVALID, "a greatest output above 10,000 is 9"},
    {SHAHFUREEL_ROW_GREATEST, 7, 0, SHAHFUREEL_LIMITS_INVALID, "a greatest output at the upper edge is 9"},
    {SHAHFUREEL_ROW_EDGES + 1, 4, 0, SHAHFUREEL_LIMITS_INVALID, "a zone from 4 to 4 is 9"},
    {SHAHFUREEL_ROW_PREVIOUS, 10001, 0, SHAHFUREEL_RAMP_OR_MARK_OUT_OF_RANGE, "a previous output above 10,000 is 10"},
    {SHAHFUREEL_ROW_UP, 10001, 0, SHAHFUREEL_RAMP_OR_MARK_OUT_OF_RANGE, "an up step above 10,000 is 10"},
    {SHAHFUREEL_ROW_DOWN, 10001, 0, SHAHFUREEL_RAMP_OR_MARK_OUT_OF_RANGE, "a down step above 10,000 is 10"},
    {SHAHFUREEL_ROW_MUST_RUN, 2, 0, SHAHFUREEL_RAMP_OR_MARK_OUT_OF_RANGE, "a mark of 2 is 10"},
};

static void refused_units(void)
{
    for (size_t i = 0; i < sizeof REFUSED / sizeof REFUSED[0]; i++) {
        uint32_t rows[2 * ROW];
        int32_t b1[2] = {0, REFUSED[i].b1};
        memcpy(rows, U, sizeof U);
        memcpy(rows + ROW, U, sizeof U);
        rows[ROW + REFUSED[i].at] = REFUSED[i].value;
        expect(pack(5, rows + ROW, ROW, b1 + 1, LONGEST) == REFUSED[i].number, REFUSED[i].what);
        expect(pack(5, rows, 2 * ROW, b1, LONGEST) == REFUSED[i].number, REFUSED[i].what);
    }
}

static void refused_calls(void)
{
    static const uint32_t many[33 * ROW];
    static const int32_t none[33];
    uint32_t rows[2 * ROW];
    int32_t excessive[2] = {0, SHAHFUREEL_B1_MAX + 1};
    expect(pack(5, U, 0, none, LONGEST) == SHAHFUREEL_ROWS_INVALID, "no row is 12");
    expect(pack(320001, U, ROW - 1, none, LONGEST) == SHAHFUREEL_ROWS_INVALID, "18 numbers are 12, before 5");
    expect(pack(5, many, ROW + 1, none, LONGEST) == SHAHFUREEL_ROWS_INVALID, "20 numbers are 12");
    expect(pack(5, many, 33 * ROW, none, LONGEST) == SHAHFUREEL_ROWS_INVALID, "33 rows are 12");
    expect(pack_lists(320001, U, ROW, none, 0, LONGEST) == SHAHFUREEL_ROWS_INVALID, "no b1 for a row is 12, before 5");
    expect(pack_lists(5, U, ROW, none, 2, LONGEST) == SHAHFUREEL_ROWS_INVALID, "two b1 for a row are 12");
    expect(pack_lists(5, many, 2 * ROW, none, 1, LONGEST) == SHAHFUREEL_ROWS_INVALID, "one b1 for two rows is 12, before 9");
    expect(pack_lists(5, U, ROW, none, ROW, LONGEST) == SHAHFUREEL_ROWS_INVALID, "a b1 for each number of a row is 12");
    expect(pack_lists(5, U, 0, none, 0, LONGEST) == SHAHFUREEL_ROWS_INVALID, "no row and no b1 is 12");
    expect(pack(320001, many, ROW, none, LONGEST) == SHAHFUREEL_DEMAND_OUT_OF_RANGE, "a demand of 320,001 is 5, before 9");
    expect(pack(5, many, ROW, none, 0) == SHAHFUREEL_LIMITS_INVALID, "9 comes before 13");
    expect(pack(5, U, ROW, none, 45) == SHAHFUREEL_FILE_BUFFER_TOO_SHORT, "45 bytes are 13");
    memcpy(rows, U, sizeof U);
    memcpy(rows + ROW, U, sizeof U);
    rows[SHAHFUREEL_ROW_MUST_RUN] = 2;
    expect(pack(5, rows, 2 * ROW, excessive, LONGEST) == SHAHFUREEL_RAMP_OR_MARK_OUT_OF_RANGE, "10 before the next unit's 18");
    rows[SHAHFUREEL_ROW_LEAST] = 0;
    expect(pack(5, rows, ROW, none, LONGEST) == SHAHFUREEL_LIMITS_INVALID, "9 comes before 10");
}

/* ---- random sites */

static uint32_t below(uint32_t count)
{
    static uint64_t state = 20240604;
    state ^= state >> 12;
    state ^= state << 25;
    state ^= state >> 27;
    return (uint32_t)((state * UINT64_C(2685821657736338717)) >> 32) % count;
}

/* A row that is accepted. */
static void make_row(uint32_t *row)
{
    uint32_t zones = below(5), limit = 1 + below(3);
    memset(row, 0, ROW * sizeof row[0]);
    row[SHAHFUREEL_ROW_C0] = below(3) * 500000000;
    row[SHAHFUREEL_ROW_C1] = below(3) * 5000000;
    row[SHAHFUREEL_ROW_C2] = below(1001);
    row[SHAHFUREEL_ROW_B] = below(2) ? 5000 - below(600) : below(5001);
    row[SHAHFUREEL_ROW_LEAST] = limit;
    /* one edge in eight equals the number before it: a zone that starts where the one before ends, or one that is refused */
    for (uint32_t k = 0; k < 2 * zones; k++)
        row[SHAHFUREEL_ROW_EDGES + k] = limit += below(8) ? 1 + below(600) : 0;
    row[SHAHFUREEL_ROW_GREATEST] = below(4) ? limit + 1 + below(600) : 10000;
    row[SHAHFUREEL_ROW_PREVIOUS] = below(2) * below(10001);
    row[SHAHFUREEL_ROW_UP] = below(10001);
    row[SHAHFUREEL_ROW_DOWN] = below(10001);
    row[SHAHFUREEL_ROW_MUST_RUN] = below(2);
    row[SHAHFUREEL_ROW_ZONES] = zones;
}

/* One number of a row past some limit, or of another row's size. */
static void damage_row(uint32_t *row)
{
    static const uint32_t values[] = {0, 1, 2, 5, 1001, 5001, 10000, 10001, 65535, 65536, 10000001, 1000000001, UINT32_MAX};
    row[below(ROW)] = values[below(sizeof values / sizeof values[0])];
}

static uint32_t get(const uint8_t *at) { return (uint32_t)at[0] << 8 | at[1]; }

static void put(uint8_t *at, uint32_t number, int bytes)
{
    for (int i = bytes - 1; i >= 0; i--, number >>= 8)
        at[i] = (uint8_t)number;
}

/* Turns a file of edition 1 into edition 2 as the header says. Returns its length. */
static size_t turn(const uint8_t *from, const int32_t *b1, uint8_t *to)
{
    uint32_t units = get(from + 2), end = 8 + 4 * units;
    memcpy(to, from, end);
    put(to, 2, 2);
    for (uint32_t i = 0; i < units; i++) {
        uint32_t offset = get(from + 8 + 4 * i), length = get(from + 10 + 4 * i);
        put(to + 8 + 4 * i, offset + 4 * i, 2);
        put(to + 10 + 4 * i, length + 4, 2);
        memcpy(to + end, from + offset, 26);
        put(to + end + 26, (uint32_t)b1[i], 4);
        memcpy(to + end + 30, from + offset + 26, length - 26);
        end += length + 4;
    }
    return end;
}

/* A b1 in range, at an end of it, just past it, or about the most that b leaves. */
static int32_t make_b1(uint32_t b)
{
    static const int32_t ends[] = {-10000001, -10000000, 10000000, 10000001, 0, INT32_MIN, INT32_MAX};
    if (below(2))
        return ends[below(sizeof ends / sizeof ends[0])];
    return below(2) ? 99999998 - 19999 * (int32_t)b + (int32_t)below(3) : (int32_t)below(20000001) - 10000000;
}

/* Of rows that packing takes: what dispatch says of the file, turned, with these b1. */
static void compare_losses(uint32_t demand, const uint32_t *rows, size_t units, const uint8_t *packed)
{
    int32_t b1[3];
    uint8_t turned[LONGEST], reply[SHAHFUREEL_REPLY_BYTES];
    for (size_t i = 0; i < units; i++)
        b1[i] = make_b1(rows[ROW * i + SHAHFUREEL_ROW_B]);
    size_t length = turn(packed, b1, turned);
    uint32_t answer = pack(demand, rows, ROW * units, b1, LONGEST);
    uint32_t dispatched = dispatch(turned, length, reply);
    if (dispatched >= SHAHFUREEL_LENGTH_MIN || dispatched == SHAHFUREEL_NO_ALLOCATION)
        expect(answer == length && memcmp(file, turned, length) == 0, "it writes what dispatch takes");
    else
        expect(answer == SHAHFUREEL_LOSSES_OUT_OF_RANGE && dispatched == answer, "it refuses with 18 what dispatch refuses so");
}

static void random_site(void)
{
    static const int32_t none[3];
    uint32_t rows[3 * ROW], demand = below(320002);
    size_t units = 1 + below(3);
    uint8_t packed[LONGEST], turned[LONGEST];
    for (size_t i = 0; i < units; i++)
        make_row(rows + ROW * i);
    if (below(2))
        damage_row(rows + ROW * below((uint32_t)units));
    uint32_t length = shahfureel_pack(demand, rows, ROW * units, packed, sizeof packed);
    uint32_t answer = pack(demand, rows, ROW * units, none, LONGEST);
    if (length < SHAHFUREEL_LENGTH_MIN) {
        expect(answer == length, "it refuses as packing does");
        return;
    }
    expect(answer == turn(packed, none, turned) && memcmp(file, turned, answer) == 0, "it writes what packing writes, turned");
    compare_losses(demand, rows, units, packed);
}

int main(void)
{
    by_hand();
    longest();
    refused_units();
    refused_calls();
    for (int i = 0; i < SITES; i++)
        random_site();
    printf("edition2: %d checks, %d failed\n", checks, failures);
    return failures != 0;
}
