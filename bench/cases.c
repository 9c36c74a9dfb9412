/* Makes case files: sites of diesel and hydro sets with their zones and ramp limits, at a demand between their limits. */
#include "cases.h"

#include "plain.h"

#include <stdio.h>
#include <stdlib.h>
#include <string.h>

enum { EVALUATIONS_MAX = 18 };
enum { B_AT = 10, B1_AT = 26, B1_BYTES = 4, B1_MAX = 10000000 };

uint32_t random_between(uint64_t *state, uint32_t least, uint32_t greatest)
{
    *state ^= *state >> 12;
    *state ^= *state << 25;
    *state ^= *state >> 27;
    uint32_t high = (uint32_t)((*state * UINT64_C(2685821657736338717)) >> 32);
    return least + (uint32_t)(((uint64_t)high * (greatest - least + 1)) >> 32);
}

/* Edges that rise strictly between the limits: each lies in its own ninth of the range. */
static void make_edges(uint64_t *state, uint32_t *edges, uint32_t zones, uint32_t least, uint32_t greatest)
{
    uint32_t part = (greatest - least - 1) / (2 * zones + 1);
    for (uint32_t k = 0; k < 2 * zones; k++)
        edges[k] = least + 1 + part * k + random_between(state, 0, part - 1);
}

/* Lets some zones start where the one before ends. */
static void share_edges(uint32_t *edges, uint32_t zones)
{
    for (uint32_t k = 2; k < 2 * zones; k += 2)
        if (edges[k] % 4 == 0)
            edges[k] = edges[k - 1];
}

/* Half of the sets stood still before; of the others the ramp limits leave about a third of the range. */
static void make_ramp(uint64_t *state, uint32_t *row, uint32_t least, uint32_t greatest)
{
    int stood = random_between(state, 0, 1) == 0;
    row[6] = stood ? 0 : random_between(state, least, greatest);
    row[7] = random_between(state, (greatest - least) / 8, (greatest - least) / 4);
    row[8] = random_between(state, (greatest - least) / 8, (greatest - least) / 4);
}

static void make_row(uint64_t *state, uint32_t *row, uint32_t zones)
{
    uint32_t least = random_between(state, 10, 200);
    uint32_t greatest = random_between(state, least + 100, least + 2000);
    row[0] = random_between(state, 1000000, 200000000);
    row[1] = random_between(state, 1000000, 9000000);
    row[2] = random_between(state, 50, 1000);
    row[3] = random_between(state, 50, 1000);
    row[4] = least;
    row[5] = greatest;
    make_ramp(state, row, least, greatest);
    row[9] = random_between(state, 0, 3) == 0;
    row[10] = zones;
    for (uint32_t k = 11; k < SHAHFUREEL_ROW_NUMBERS; k++)
        row[k] = 0;
    make_edges(state, row + 11, zones, least, greatest);
}

/* The greatest running output that the ramp limits leave, which a zone may prohibit. */
static uint32_t greatest_of(const uint32_t *row)
{
    uint32_t last = row[6] + row[7];
    return row[6] == 0 || row[5] < last ? row[5] : last;
}

/* A demand from two to nine tenths of the greatest outputs. */
static uint32_t make_demand(uint64_t *state, const uint32_t *rows, uint32_t units)
{
    uint32_t sum = 0;
    for (uint32_t i = 0; i < units; i++)
        sum += greatest_of(rows + SHAHFUREEL_ROW_NUMBERS * i);
    return random_between(state, sum / 5, sum / 10 * 9);
}

void pack_case(struct case_file *c, uint32_t demand, const uint32_t *rows, uint32_t units)
{
    c->length = shahfureel_pack(demand, rows, SHAHFUREEL_ROW_NUMBERS * units, c->bytes, sizeof c->bytes);
    if (c->length < SHAHFUREEL_LENGTH_MIN) {
        fprintf(stderr, "a case of the benchmark is not packed: refusal %u\n", (unsigned)c->length);
        exit(1);
    }
}

static uint32_t get_u16(const uint8_t *at)
{
    return (uint32_t)at[0] << 8 | at[1];
}

static void put(uint8_t *at, uint32_t number, int bytes)
{
    for (int i = bytes - 1; i >= 0; i--, number >>= 8)
        at[i] = (uint8_t)number;
}

/* A b1 beside a b: the least or the greatest that is accepted, none, or any. */
static int32_t make_b1(uint64_t *state, uint32_t b)
{
    int32_t most = 99999999 - 19999 * (int32_t)b;
    most = most < B1_MAX ? most : B1_MAX;
    switch (random_between(state, 0, 5)) {
    case 0:
        return -B1_MAX;
    case 1:
        return most;
    case 2:
        return 0;
    default:
        return (int32_t)random_between(state, 0, (uint32_t)(most + B1_MAX)) - B1_MAX;
    }
}

/* b1 stands behind byte 25 of each body; so body i, from 0, starts 4 * i bytes later. */
void widen(const struct case_file *from, struct case_file *to, const int32_t *b1)
{
    uint32_t units = get_u16(from->bytes + 2);
    memcpy(to->bytes, from->bytes, 8 + 4 * (size_t)units);
    put(to->bytes, 2, 2);
    for (uint32_t i = 0; i < units; i++) {
        uint32_t offset = get_u16(from->bytes + 8 + 4 * i), length = get_u16(from->bytes + 10 + 4 * i);
        const uint8_t *body = from->bytes + offset;
        uint8_t *widened = to->bytes + offset + B1_BYTES * i;
        put(to->bytes + 8 + 4 * i, offset + B1_BYTES * i, 2);
        put(to->bytes + 10 + 4 * i, length + B1_BYTES, 2);
        memcpy(widened, body, B1_AT);
        put(widened + B1_AT, (uint32_t)b1[i], B1_BYTES);
        memcpy(widened + B1_AT + B1_BYTES, body + B1_AT, length - B1_AT);
    }
    to->length = from->length + B1_BYTES * units;
}

void to_edition_2(uint64_t *state, const struct case_file *from, struct case_file *to)
{
    int32_t b1[SHAHFUREEL_UNITS_MAX];
    uint32_t units = get_u16(from->bytes + 2);
    for (uint32_t i = 0; i < units; i++)
        b1[i] = make_b1(state, get_u16(from->bytes + get_u16(from->bytes + 8 + 4 * i) + B_AT));
    widen(from, to, b1);
}

/* Whether dispatch answers the case after the most evaluations. */
static uint32_t is_full(const struct case_file *c)
{
    uint8_t reply[SHAHFUREEL_REPLY_BYTES];
    uint32_t length = plain_dispatch(c->bytes, c->length, reply, sizeof reply);
    return length >= SHAHFUREEL_LENGTH_MIN && reply[2] == 0 && reply[3] == EVALUATIONS_MAX;
}

static void make_case(uint64_t *state, struct case_file *c, const struct group *g)
{
    uint32_t rows[SHAHFUREEL_ROWS_NUMBERS];
    for (uint32_t i = 0; i < g->units; i++)
        make_row(state, rows + SHAHFUREEL_ROW_NUMBERS * i, g->zones);
    pack_case(c, make_demand(state, rows, g->units), rows, g->units);
    if (g->edition == 2) {
        struct case_file first = *c;
        to_edition_2(state, &first, c);
    }
}

void make_group(struct group *g, uint32_t units, uint32_t zones, uint32_t edition, uint64_t seed)
{
    uint64_t state = seed;
    g->units = units;
    g->zones = zones;
    g->edition = edition;
    g->tried = 0;
    for (uint32_t kept = 0; kept < CASES_IN_GROUP; g->tried++) {
        make_case(&state, &g->cases[kept], g);
        kept += is_full(&g->cases[kept]);
    }
}

/* A diesel set of 3 to 30 MW. */
static const uint32_t equal_row[SHAHFUREEL_ROW_NUMBERS] = {120000000, 6200000, 900, 300, 30,  300, 0,   0,   0,  0,
                                                           4,         60,      80,  110, 130, 160, 180, 210, 230};

void make_equal_case(struct case_file *c, uint32_t units)
{
    uint32_t rows[SHAHFUREEL_ROWS_NUMBERS];
    for (uint32_t i = 0; i < units; i++)
        memcpy(rows + SHAHFUREEL_ROW_NUMBERS * i, equal_row, sizeof equal_row);
    pack_case(c, equal_row[SHAHFUREEL_ROW_GREATEST] * units / 10 * 6, rows, units);
}

static void make_small_row(uint64_t *state, uint32_t *row)
{
    uint32_t least = random_between(state, 1, 3);
    uint32_t greatest = least + random_between(state, 2, 12);
    uint32_t zones_most = (greatest - least - 2) / 2;
    uint32_t zones = random_between(state, 0, zones_most < 4 ? zones_most : 4);
    for (uint32_t k = 0; k < SHAHFUREEL_ROW_NUMBERS; k++)
        row[k] = 0;
    uint32_t constant = 10000 * random_between(state, 0, 5);
    row[0] = random_between(state, 0, 1) ? constant : 0;
    row[1] = 10000 * random_between(state, 0, 3);
    row[2] = 1000 * random_between(state, 0, 1);
    row[3] = random_between(state, 0, 3) == 0;
    row[4] = least;
    row[5] = greatest;
    row[6] = random_between(state, 0, 1) * random_between(state, 0, greatest + 2);
    row[7] = random_between(state, 0, 6);
    row[8] = random_between(state, 0, 6);
    row[9] = random_between(state, 0, 1);
    row[10] = zones;
    make_edges(state, row + 11, zones, least, greatest);
    share_edges(row + 11, zones);
}

void make_small_case(uint64_t *state, struct case_file *c)
{
    uint32_t rows[SHAHFUREEL_ROWS_NUMBERS];
    uint32_t units = random_between(state, 1, 4);
    uint32_t sum = 0;
    for (uint32_t i = 0; i < units; i++) {
        make_small_row(state, rows + SHAHFUREEL_ROW_NUMBERS * i);
        sum += rows[SHAHFUREEL_ROW_NUMBERS * i + 5];
    }
    pack_case(c, random_between(state, 0, sum), rows, units);
}

/* The greatest demand of all is 320,000 steps; 32 of these sets give at most 70,400, and net at most 77,440 with the least b1. */
static void demand_greatest(struct case_file *c)
{
    c->bytes[4] = 0;
    c->bytes[5] = (uint8_t)(SHAHFUREEL_DEMAND_MAX >> 16);
    c->bytes[6] = (uint8_t)(SHAHFUREEL_DEMAND_MAX >> 8);
    c->bytes[7] = (uint8_t)SHAHFUREEL_DEMAND_MAX;
}

void refuse_group(struct group *refused, const struct group *g)
{
    *refused = *g;
    for (uint32_t i = 0; i < CASES_IN_GROUP; i++)
        demand_greatest(&refused->cases[i]);
}
