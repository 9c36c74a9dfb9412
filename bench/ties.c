/* Makes sites full of ties. 100,000 * (c1 + c2 * (p + q)) = m * (100,000,000 - b1 - b * (p + q)) is solved for c1, in whole numbers
 * as b1 and b * (p + q) are multiples of 100,000. */
#include "ties.h"

#include <string.h>

enum { SETS_MAX = 6, C0_MAX = 1000000000, C1_MAX = 10000000, NEAR_THE_END = 9990, B1_STEP = 5000000 };

#define NET_OF_STEP INT64_C(100000000)
#define PRICED_OF_COST INT64_C(100000)

/* A set, its b1, and two of its outputs with nothing permitted between them. */
struct set {
    uint32_t row[SHAHFUREEL_ROW_NUMBERS];
    int32_t b1;
    uint32_t lower, upper;
};

/* At low outputs: no zone to two. */
static void make_low_limits(uint64_t *state, struct set *s)
{
    uint32_t zones = random_between(state, 0, 2), at = random_between(state, 1, 3);
    s->row[SHAHFUREEL_ROW_LEAST] = at;
    s->row[SHAHFUREEL_ROW_ZONES] = zones;
    for (uint32_t k = 0; k < 2 * zones; k++)
        s->row[SHAHFUREEL_ROW_EDGES + k] = at += random_between(state, 1, 3);
    s->row[SHAHFUREEL_ROW_GREATEST] = at + random_between(state, 1, 3);
}

/* Just below 10,000 steps, a zone about 9,990; with the greatest b, so that the last steps gain little. */
static void make_high_limits(uint64_t *state, struct set *s)
{
    uint32_t half = random_between(state, 1, 4);
    s->row[SHAHFUREEL_ROW_B] = 5000;
    s->row[SHAHFUREEL_ROW_ZONES] = 1;
    s->row[SHAHFUREEL_ROW_EDGES] = NEAR_THE_END - half;
    s->row[SHAHFUREEL_ROW_EDGES + 1] = NEAR_THE_END + half;
    s->row[SHAHFUREEL_ROW_LEAST] = NEAR_THE_END - half - random_between(state, 1, 3);
    s->row[SHAHFUREEL_ROW_GREATEST] = NEAR_THE_END + half + random_between(state, 1, 3);
}

static int64_t net_of(const struct set *s, int64_t p)
{
    return (NET_OF_STEP - s->b1 - s->row[SHAHFUREEL_ROW_B] * p) * p;
}

/* Costs by which lower and upper tie, and perhaps standing with them; where c1 is cut, standing with the greatest output. Some are
 * one beside a tie. */
static void make_costs(uint64_t *state, struct set *s, uint32_t multiplier)
{
    static const uint32_t curves[4] = {0, 1, 200, 1000};
    int64_t both = s->lower + s->upper, curve = curves[random_between(state, 0, 3)];
    int64_t price = multiplier * ((NET_OF_STEP - s->b1 - s->row[SHAHFUREEL_ROW_B] * both) / PRICED_OF_COST);
    int64_t c2 = curve * both < price ? curve : price / both, c1 = price - c2 * both;
    int64_t chosen = c1 <= C1_MAX ? s->upper : s->row[SHAHFUREEL_ROW_GREATEST];
    c1 = c1 <= C1_MAX ? c1 : C1_MAX;
    int64_t c0 = multiplier * (net_of(s, chosen) / PRICED_OF_COST) - (c1 + c2 * chosen) * chosen;
    c0 = random_between(state, 0, 1) && c0 >= 0 && c0 < C0_MAX ? c0 : 0;
    s->row[SHAHFUREEL_ROW_C0] = (uint32_t)c0 + (random_between(state, 0, 5) == 0);
    s->row[SHAHFUREEL_ROW_C1] = (uint32_t)c1 - (c1 > 0 && random_between(state, 0, 5) == 0);
    s->row[SHAHFUREEL_ROW_C2] = (uint32_t)c2;
}

/* A b of 5,000 leaves no room for a b1 above 0. */
static void make_set(uint64_t *state, struct set *s, uint32_t edition, uint32_t multiplier)
{
    memset(s, 0, sizeof *s);
    uint32_t high = random_between(state, 0, 3) == 0;
    (high ? make_high_limits : make_low_limits)(state, s);
    int zoned = s->row[SHAHFUREEL_ROW_ZONES] != 0;
    s->lower = zoned ? s->row[SHAHFUREEL_ROW_EDGES] : s->row[SHAHFUREEL_ROW_LEAST];
    s->upper = zoned ? s->row[SHAHFUREEL_ROW_EDGES + 1] : s->lower + 1;
    s->b1 = edition == 1 ? 0 : B1_STEP * ((int32_t)random_between(state, 0, high ? 2 : 4) - 2);
    s->row[SHAHFUREEL_ROW_MUST_RUN] = random_between(state, 0, 2) == 0;
    make_costs(state, s, multiplier);
}

/* One of the outputs that tie, or a limit. */
static int64_t any_output(uint64_t *state, const struct set *s)
{
    uint32_t idle = s->row[SHAHFUREEL_ROW_MUST_RUN] ? s->row[SHAHFUREEL_ROW_LEAST] : 0;
    const uint32_t outputs[4] = {idle, s->lower, s->upper, s->row[SHAHFUREEL_ROW_GREATEST]};
    return outputs[random_between(state, 0, 3)];
}

void make_tied_case(uint64_t *state, struct case_file *c, uint32_t edition)
{
    const uint32_t multipliers[8] = {1, 16, 64, random_between(state, 1, 60), random_between(state, 1, 60), 65535, 65536, 65537};
    uint32_t multiplier = multipliers[random_between(state, 0, 7)];
    uint32_t units = random_between(state, 1, SETS_MAX), sorts = random_between(state, 1, 3);
    uint32_t rows[SETS_MAX * SHAHFUREEL_ROW_NUMBERS];
    struct set sets[3];
    int32_t b1[SETS_MAX];
    int64_t net = 0;
    for (uint32_t i = 0; i < sorts; i++)
        make_set(state, &sets[i], edition, multiplier);
    for (uint32_t i = 0; i < units; i++) {
        const struct set *s = &sets[random_between(state, 0, sorts - 1)];
        memcpy(rows + SHAHFUREEL_ROW_NUMBERS * i, s->row, sizeof s->row);
        b1[i] = s->b1;
        net += net_of(s, any_output(state, s));
    }
    pack_case(c, (uint32_t)(net / NET_OF_STEP) + random_between(state, 0, 3) / 3, rows, units);
    if (edition == 2) {
        struct case_file first = *c;
        widen(&first, c, b1);
    }
}
