/* A plain C program of the specification's dispatch, from file bytes to reply bytes: what the controller is measured against.
 * It checks and decodes each unit once, finds its permitted outputs once as regions, and makes one division a unit and
 * evaluation, from which it also has the least tied output. Judging outputs that someone gives, floors for other demands, a day by
 * slots and refining have the same parts. It is tested, not proved. */
#include "plain.h"

enum { UNITS_MAX = 32, ZONES_MAX = 4, REGIONS_MAX = 6 };
enum { HEAD_BYTES = 8, ENTRY_BYTES = 4, ZONE_BYTES = 4 };
enum { B1_AT = 26, B1_BYTES = 4, B1_MAX = 10000000 };
enum { REPLY_BYTES_MIN = 92, JUDGE_ANSWERS = 4 };
enum { DEMAND_MAX = 320000, OUTPUT_MAX = 10000, MULTIPLIER_MAX = 65536, EVALUATIONS_MAX = 18, DEMANDS_MAX = 96 };
enum { SLOT_BYTES = 18 };
enum { REFINE_REPLY_BYTES_MIN = 94, BUDGET_MAX = 100000 };

#define NET_OF_STEP INT64_C(100000000)
#define PRICED_OF_COST INT64_C(100000)

enum refusal {
    ACCEPTED = 0,
    BUFFER_TOO_SHORT = 1,
    FILE_TOO_SHORT = 2,
    EDITION_UNKNOWN = 3,
    COUNT_OUT_OF_RANGE = 4,
    DEMAND_OUT_OF_RANGE = 5,
    CONTENTS_INVALID = 6,
    ZONE_COUNT_INVALID = 7,
    COEFFICIENT_OUT_OF_RANGE = 8,
    LIMITS_INVALID = 9,
    RAMP_OR_MARK_OUT_OF_RANGE = 10,
    NO_ALLOCATION = 11,
    LOSSES_OUT_OF_RANGE = 18,
    OUTPUT_COUNT_INVALID = 19,
    DEMANDS_INVALID = 20,
    FLOORS_TOO_SHORT = 21,
    DAY_DEMANDS_INVALID = 22,
    DAY_BUFFERS_TOO_SHORT = 23,
    BUDGET_OUT_OF_RANGE = 25
};

struct unit {
    uint32_t c0, c1, c2, b;
    int32_t b1;
    int32_t least, greatest, previous, up, down;
    uint32_t mark, zone_count;
    int32_t edges[2 * ZONES_MAX];
};

struct region {
    int32_t low, high;
};

/* A unit's coefficients, and its permitted outputs as regions that ascend. Its net is (step_net - b * p) * p. */
struct offer {
    int64_t c0, c1, c2, b, step_net;
    int32_t region_count;
    struct region regions[REGIONS_MAX];
};

struct problem {
    int64_t target; /* the demand, as a net */
    uint32_t count;
    struct offer offers[UNITS_MAX];
};

/* Lowered are the units that give less than their choices. */
struct allocation {
    uint16_t outputs[UNITS_MAX];
    int64_t cost, net;
    uint32_t lowered;
};

/* A multiplier and its floor. */
struct bound {
    int64_t multiplier, floor;
};

/* Of the evaluations, those count as lowered in which a unit was. Each has its bound; floor is the greatest of them. */
struct solution {
    struct allocation best;
    int64_t floor;
    uint32_t evaluations, lowered;
    struct bound bounds[EVALUATIONS_MAX];
};

/* ---- fields */

static uint32_t read_u16(const uint8_t *at)
{
    return (uint32_t)at[0] << 8 | at[1];
}

static uint32_t read_u32(const uint8_t *at)
{
    return (uint32_t)at[0] << 24 | (uint32_t)at[1] << 16 | (uint32_t)at[2] << 8 | at[3];
}

/* Two's complement. */
static int32_t read_i32(const uint8_t *at)
{
    return (int32_t)((int64_t)(read_u32(at) ^ 0x80000000u) - INT64_C(0x80000000));
}

static void write_u16(uint8_t *at, uint32_t n)
{
    at[0] = (uint8_t)(n >> 8);
    at[1] = (uint8_t)n;
}

static void write_u32(uint8_t *at, uint32_t n)
{
    write_u16(at, n >> 16);
    write_u16(at + 2, n);
}

static void write_u64(uint8_t *at, uint64_t n)
{
    for (int i = 0; i < 8; i++)
        at[i] = (uint8_t)(n >> (56 - 8 * i));
}

/* ---- checking and reading */

static enum refusal check_head(const uint8_t *file, size_t length)
{
    if (length < HEAD_BYTES)
        return FILE_TOO_SHORT;
    uint32_t edition = read_u16(file);
    if (edition != 1 && edition != 2)
        return EDITION_UNKNOWN;
    uint32_t count = read_u16(file + 2);
    if (count < 1 || count > UNITS_MAX)
        return COUNT_OUT_OF_RANGE;
    if (read_u32(file + 4) > DEMAND_MAX)
        return DEMAND_OUT_OF_RANGE;
    return ACCEPTED;
}

/* Where the edges of a body stand: in edition 2 behind b1. */
static uint32_t edges_at(const uint8_t *file)
{
    return read_u16(file) == 2 ? B1_AT + B1_BYTES : B1_AT;
}

static int legal_size(uint32_t size, uint32_t edges)
{
    return size >= edges && size <= edges + ZONE_BYTES * ZONES_MAX && (size - edges) % ZONE_BYTES == 0;
}

static enum refusal check_contents(const uint8_t *file, size_t length, uint32_t count)
{
    uint32_t edges = edges_at(file);
    size_t start = HEAD_BYTES + ENTRY_BYTES * count;
    if (length < start)
        return CONTENTS_INVALID;
    for (uint32_t i = 0; i < count; i++) {
        const uint8_t *entry = file + HEAD_BYTES + ENTRY_BYTES * i;
        uint32_t size = read_u16(entry + 2);
        if (read_u16(entry) != start || !legal_size(size, edges))
            return CONTENTS_INVALID;
        start += size;
    }
    return start == length ? ACCEPTED : CONTENTS_INVALID;
}

static void read_unit(const uint8_t *body, uint32_t edges, struct unit *u)
{
    u->c0 = read_u32(body);
    u->c1 = read_u32(body + 4);
    u->c2 = read_u16(body + 8);
    u->b = read_u16(body + 10);
    u->b1 = edges == B1_AT ? 0 : read_i32(body + B1_AT);
    u->least = (int32_t)read_u16(body + 12);
    u->greatest = (int32_t)read_u16(body + 14);
    u->previous = (int32_t)read_u16(body + 16);
    u->up = (int32_t)read_u16(body + 18);
    u->down = (int32_t)read_u16(body + 20);
    u->mark = read_u16(body + 22);
    u->zone_count = read_u16(body + 24);
    for (uint32_t k = 0; k < 2 * u->zone_count; k++)
        u->edges[k] = (int32_t)read_u16(body + edges + 2 * k);
}

/* The edges rise from above least to below greatest; two zones may share one. */
static int zones_ascend(const struct unit *u)
{
    int32_t below = u->least + 1;
    for (uint32_t k = 0; k < u->zone_count; k++) {
        if (u->edges[2 * k] < below || u->edges[2 * k + 1] <= u->edges[2 * k])
            return 0;
        below = u->edges[2 * k + 1];
    }
    return u->zone_count == 0 || below < u->greatest;
}

static enum refusal check_unit(const struct unit *u)
{
    if (u->c0 > 1000000000 || u->c1 > 10000000 || u->c2 > 1000 || u->b > 5000)
        return COEFFICIENT_OUT_OF_RANGE;
    if (u->b1 < -B1_MAX || u->b1 > B1_MAX || u->b1 + 19999 * (int64_t)u->b >= NET_OF_STEP)
        return LOSSES_OUT_OF_RANGE;
    if (u->least < 1 || u->greatest <= u->least || u->greatest > OUTPUT_MAX || !zones_ascend(u))
        return LIMITS_INVALID;
    if (u->previous > OUTPUT_MAX || u->up > OUTPUT_MAX || u->down > OUTPUT_MAX || u->mark > 1)
        return RAMP_OR_MARK_OUT_OF_RANGE;
    return ACCEPTED;
}

static enum refusal read_body(const uint8_t *body, uint32_t size, uint32_t edges, struct unit *u)
{
    uint32_t zone_count = read_u16(body + 24);
    if (zone_count > ZONES_MAX || size != edges + ZONE_BYTES * zone_count)
        return ZONE_COUNT_INVALID;
    read_unit(body, edges, u);
    return check_unit(u);
}

/* ---- permitted outputs */

static void add_region(struct offer *o, int32_t low, int32_t high)
{
    if (low > high)
        return;
    o->regions[o->region_count].low = low;
    o->regions[o->region_count].high = high;
    o->region_count++;
}

static int32_t larger(int32_t a, int32_t b)
{
    return a > b ? a : b;
}

static int32_t smaller(int32_t a, int32_t b)
{
    return a < b ? a : b;
}

static void find_regions(const struct unit *u, struct offer *o)
{
    int32_t first = u->previous == 0 ? 0 : u->previous - u->down;
    int32_t last = u->previous == 0 ? OUTPUT_MAX : u->previous + u->up;
    int32_t low = u->least;
    o->region_count = 0;
    if (u->mark == 0)
        add_region(o, 0, 0);
    for (uint32_t k = 0; k < u->zone_count; k++) {
        add_region(o, larger(low, first), smaller(u->edges[2 * k], last));
        low = u->edges[2 * k + 1];
    }
    add_region(o, larger(low, first), smaller(u->greatest, last));
}

static void make_offer(const struct unit *u, struct offer *o)
{
    o->c0 = u->c0;
    o->c1 = u->c1;
    o->c2 = u->c2;
    o->b = u->b;
    o->step_net = NET_OF_STEP - u->b1;
    find_regions(u, o);
}

static enum refusal read_units(const uint8_t *file, struct problem *q)
{
    uint32_t edges = edges_at(file);
    for (uint32_t i = 0; i < q->count; i++) {
        const uint8_t *entry = file + HEAD_BYTES + ENTRY_BYTES * i;
        struct unit u;
        enum refusal r = read_body(file + read_u16(entry), read_u16(entry + 2), edges, &u);
        if (r != ACCEPTED)
            return r;
        make_offer(&u, &q->offers[i]);
    }
    return ACCEPTED;
}

static enum refusal read_case(const uint8_t *file, size_t length, struct problem *q)
{
    enum refusal r = check_head(file, length);
    if (r != ACCEPTED)
        return r;
    q->count = read_u16(file + 2);
    q->target = NET_OF_STEP * read_u32(file + 4);
    r = check_contents(file, length, q->count);
    if (r != ACCEPTED)
        return r;
    return read_units(file, q);
}

/* ---- cost, net and choice */

/* A set that stands costs nothing. */
static int64_t cost_of(const struct offer *o, int64_t p)
{
    return p == 0 ? 0 : o->c0 + (o->c1 + o->c2 * p) * p;
}

static int64_t net_of(const struct offer *o, int64_t p)
{
    return (o->step_net - o->b * p) * p;
}

/* The output, the greater of two on a tie, where square * p * p + linear * p is least on 0 to 10,000. */
static int64_t vertex(int64_t square, int64_t linear)
{
    if (square == 0)
        return linear <= 0 ? OUTPUT_MAX : 0;
    if (square < linear)
        return 0;
    int64_t v = (square - linear) / (2 * square);
    return v > OUTPUT_MAX ? OUTPUT_MAX : v;
}

static int64_t clamp(int64_t p, int64_t low, int64_t high)
{
    return p < low ? low : p > high ? high : p;
}

/* The permitted output of least priced cost, the greatest on a tie. The part of the priced cost that is the same for every running
 * output, 100,000 * c0, is left out; standing, the first region if it is one, costs nothing and has that part less. The vertex is
 * handed out, and whether outputs may tie: the one before the vertex with it, all of them, or those of two regions. */
static int64_t choose(const struct offer *o, int64_t m, int64_t *vertex_at, int *tied)
{
    int64_t square = PRICED_OF_COST * o->c2 + m * o->b;
    int64_t linear = PRICED_OF_COST * o->c1 - m * o->step_net;
    int64_t v = vertex(square, linear);
    int64_t best = clamp(v, o->regions[0].low, o->regions[0].high);
    int64_t least = best == 0 ? -PRICED_OF_COST * o->c0 : (square * best + linear) * best;
    int equal = square - linear == 2 * square * v;
    for (int32_t k = 1; k < o->region_count; k++) {
        int64_t p = clamp(v, o->regions[k].low, o->regions[k].high);
        int64_t priced = (square * p + linear) * p;
        equal |= priced == least;
        if (priced <= least) {
            best = p;
            least = priced;
        }
    }
    *vertex_at = v;
    *tied |= equal;
    return best;
}

/* The least permitted output whose priced cost is that of the choice: in the first region that has it, and there the first. */
static int64_t least_tied(const struct offer *o, int64_t m, int64_t v, int64_t choice)
{
    int64_t square = PRICED_OF_COST * o->c2 + m * o->b;
    int64_t linear = PRICED_OF_COST * o->c1 - m * o->step_net;
    int64_t least = (square * choice + linear) * choice;
    int64_t first = square - linear != 2 * square * v ? v : square == 0 ? 0 : v - 1;
    int stands = o->regions[0].high == 0;
    if (stands && (choice == 0 || least == -PRICED_OF_COST * o->c0))
        return 0;
    for (int32_t k = stands;; k++) {
        int64_t p = clamp(v, o->regions[k].low, o->regions[k].high);
        if ((square * p + linear) * p == least)
            return clamp(first, o->regions[k].low, o->regions[k].high);
    }
}

/* ---- steps 1 to 4 */

static void add_output(struct allocation *a, const struct offer *o, uint32_t i, int64_t p)
{
    a->outputs[i] = (uint16_t)p;
    a->cost += cost_of(o, p);
    a->net += net_of(o, p);
}

/* Step 1: the greatest outputs, and whether every unit has one and they cover. */
static int greatest_outputs(const struct problem *q, struct allocation *a)
{
    a->cost = a->net = 0;
    a->lowered = 0;
    for (uint32_t i = 0; i < q->count; i++) {
        const struct offer *o = &q->offers[i];
        if (o->region_count == 0)
            return 0;
        add_output(a, o, i, o->regions[o->region_count - 1].high);
    }
    return a->net >= q->target;
}

static int64_t divided_up(int64_t n, int64_t by)
{
    return n > 0 ? (n - 1) / by + 1 : n / by;
}

/* Lowers choices that cover, unit by unit: each to its least tied output, if the net still reaches the target then. */
static void lower(const struct problem *q, int64_t m, const int64_t *vertices, struct allocation *a)
{
    for (uint32_t i = 0; i < q->count; i++) {
        const struct offer *o = &q->offers[i];
        int64_t choice = a->outputs[i], least = least_tied(o, m, vertices[i], choice);
        int64_t net = a->net - net_of(o, choice) + net_of(o, least);
        if (least == choice || net < q->target)
            continue;
        a->net = net;
        a->cost += cost_of(o, least) - cost_of(o, choice);
        a->outputs[i] = (uint16_t)least;
        a->lowered++;
    }
}

/* The choices of one multiplier, lowered where they cover, and its floor. The dual value is the choices' priced cost and the
 * demand's price. */
static int64_t evaluate(const struct problem *q, int64_t m, struct allocation *a)
{
    int64_t vertices[UNITS_MAX];
    int tied = 0;
    a->cost = a->net = 0;
    a->lowered = 0;
    for (uint32_t i = 0; i < q->count; i++)
        add_output(a, &q->offers[i], i, choose(&q->offers[i], m, &vertices[i], &tied));
    int64_t floor = divided_up(PRICED_OF_COST * a->cost - m * (a->net - q->target), PRICED_OF_COST);
    if (tied && a->net > q->target)
        lower(q, m, vertices, a);
    return floor;
}

/* Evaluates a multiplier, counts it, and keeps its bound and the greatest floor. */
static void try_multiplier(const struct problem *q, int64_t m, struct solution *s, struct allocation *choices)
{
    int64_t floor = evaluate(q, m, choices);
    if (s->evaluations == 0 || floor > s->floor)
        s->floor = floor;
    s->bounds[s->evaluations].multiplier = m;
    s->bounds[s->evaluations].floor = floor;
    s->evaluations++;
    s->lowered += choices->lowered != 0;
}

/* Step 4. */
static void halve(const struct problem *q, struct solution *s)
{
    struct allocation choices;
    int64_t low = 0, high = MULTIPLIER_MAX;
    while (high - low > 1) {
        int64_t middle = (low + high) / 2;
        try_multiplier(q, middle, s, &choices);
        if (choices.net < q->target) {
            low = middle;
            continue;
        }
        s->best = choices;
        if (choices.net == q->target)
            return;
        high = middle;
    }
}

/* Steps 2 to 4, from the greatest outputs as the best. */
static void search(const struct problem *q, struct solution *s)
{
    struct allocation choices;
    s->evaluations = s->lowered = 0;
    try_multiplier(q, 0, s, &choices);
    if (choices.net >= q->target) {
        s->best = choices;
        return;
    }
    try_multiplier(q, MULTIPLIER_MAX, s, &choices);
    if (choices.net < q->target)
        return;
    s->best = choices;
    if (choices.net > q->target)
        halve(q, s);
}

/* ---- the reply */

/* Cost, gap, surplus and outputs, and how many bytes they take. */
static uint32_t write_best(uint8_t *at, const struct problem *q, const struct allocation *best, int64_t floor)
{
    write_u64(at, (uint64_t)best->cost);
    write_u64(at + 8, (uint64_t)(best->cost - floor));
    write_u64(at + 16, (uint64_t)(best->net - q->target));
    for (uint32_t i = 0; i < q->count; i++)
        write_u16(at + 24 + 2 * i, best->outputs[i]);
    return 24 + 2 * q->count;
}

static uint32_t write_reply(uint8_t *reply, const struct problem *q, const struct solution *s)
{
    write_u16(reply, q->count);
    write_u16(reply + 2, s->evaluations);
    return 4 + write_best(reply + 4, q, &s->best, s->floor);
}

static enum refusal solve(const uint8_t *file, size_t length, struct problem *q, struct solution *s)
{
    enum refusal r = read_case(file, length, q);
    if (r != ACCEPTED)
        return r;
    if (!greatest_outputs(q, &s->best))
        return NO_ALLOCATION;
    search(q, s);
    return ACCEPTED;
}

uint32_t plain_dispatch(const uint8_t *file, size_t file_length, uint8_t *reply, size_t reply_length)
{
    struct problem q;
    struct solution s;
    if (reply_length < REPLY_BYTES_MIN)
        return BUFFER_TOO_SHORT;
    enum refusal r = solve(file, file_length, &q, &s);
    return r == ACCEPTED ? write_reply(reply, &q, &s) : r;
}

uint32_t plain_lowering(const uint8_t *file, size_t file_length, struct plain_lowering *l)
{
    struct problem q;
    struct solution s;
    enum refusal r = solve(file, file_length, &q, &s);
    if (r != ACCEPTED)
        return r;
    l->dispatches++;
    l->dispatches_lowered += s.best.lowered != 0;
    l->evaluations += s.evaluations;
    l->evaluations_lowered += s.lowered;
    return ACCEPTED;
}

/* ---- outputs that someone gives */

static int is_permitted(const struct offer *o, uint32_t p)
{
    for (int32_t k = 0; k < o->region_count; k++)
        if (p >= (uint32_t)o->regions[k].low && p <= (uint32_t)o->regions[k].high)
            return 1;
    return 0;
}

/* Takes outputs as an allocation; returns whether each is permitted and together they cover. */
static int take_outputs(const struct problem *q, const uint32_t *outputs, struct allocation *a)
{
    a->cost = a->net = 0;
    a->lowered = 0;
    for (uint32_t i = 0; i < q->count; i++) {
        if (!is_permitted(&q->offers[i], outputs[i]))
            return 0;
        add_output(a, &q->offers[i], i, outputs[i]);
    }
    return a->net >= q->target;
}

uint32_t plain_judge(const uint8_t *file, size_t file_length, const uint32_t *outputs, size_t outputs_length, int64_t *answers,
                     size_t answers_room)
{
    struct problem q;
    struct solution s;
    struct allocation given;
    if (answers_room < JUDGE_ANSWERS)
        return BUFFER_TOO_SHORT;
    enum refusal r = read_case(file, file_length, &q);
    if (r != ACCEPTED)
        return r;
    if (!greatest_outputs(&q, &s.best))
        return NO_ALLOCATION;
    if (outputs_length != q.count)
        return OUTPUT_COUNT_INVALID;
    int accepted = take_outputs(&q, outputs, &given);
    if (accepted)
        search(&q, &s);
    answers[0] = accepted;
    answers[1] = accepted ? given.cost : 0;
    answers[2] = accepted ? given.net - q.target : 0;
    answers[3] = accepted ? given.cost - s.floor : 0;
    return 0;
}

/* ---- floors for other demands */

static int demands_valid(const uint32_t *demands, size_t length)
{
    if (length > DEMANDS_MAX)
        return 0;
    for (size_t i = 0; i < length; i++)
        if (demands[i] > DEMAND_MAX)
            return 0;
    return 1;
}

/* The greatest floor of the evaluated multipliers for a demand so many steps above the case's own. At each multiplier a step is
 * worth a whole number of millionths, so that a floor moves by it and need not be rounded again. */
static int64_t moved_floor(const struct solution *s, int64_t steps)
{
    int64_t greatest = s->bounds[0].floor;
    for (uint32_t k = 1; k < s->evaluations; k++) {
        int64_t floor = s->bounds[k].floor + NET_OF_STEP / PRICED_OF_COST * s->bounds[k].multiplier * steps;
        greatest = floor > greatest ? floor : greatest;
    }
    return greatest;
}

uint32_t plain_floors(const uint8_t *file, size_t file_length, const uint32_t *demands, size_t demands_length, int64_t *floors,
                      size_t floors_room, int64_t *answers, size_t answers_room)
{
    struct problem q;
    struct solution s;
    if (answers_room < 1)
        return BUFFER_TOO_SHORT;
    if (!demands_valid(demands, demands_length))
        return DEMANDS_INVALID;
    if (floors_room < demands_length)
        return FLOORS_TOO_SHORT;
    enum refusal r = solve(file, file_length, &q, &s);
    if (r != ACCEPTED)
        return r;
    int64_t own = read_u32(file + 4);
    for (size_t i = 0; i < demands_length; i++)
        floors[i] = moved_floor(&s, demands[i] - own);
    answers[0] = (int64_t)demands_length;
    return 0;
}

/* ---- a day by slots */

/* The units of a file that is accepted, and their histories before the first slot. */
static void begin_day(const uint8_t *file, uint32_t count, struct unit *units, struct shahfureel_history *histories)
{
    uint32_t edges = edges_at(file);
    for (uint32_t i = 0; i < count; i++) {
        read_unit(file + read_u16(file + HEAD_BYTES + ENTRY_BYTES * i), edges, &units[i]);
        histories[i].previous = (uint16_t)units[i].previous;
        histories[i].starts = 0;
    }
}

/* Takes the outputs of a solved slot as previous ones: in the histories, and for the permitted outputs of the next slot. */
static void carry(const struct allocation *a, struct unit *units, struct problem *q, struct shahfureel_history *histories)
{
    for (uint32_t i = 0; i < q->count; i++) {
        histories[i].starts = (uint16_t)(histories[i].starts + (units[i].previous == 0 && a->outputs[i] != 0));
        histories[i].previous = a->outputs[i];
        units[i].previous = a->outputs[i];
        find_regions(&units[i], &q->offers[i]);
    }
}

static void write_slot(uint8_t *slot, uint32_t status, int64_t cost, int64_t gap)
{
    write_u16(slot, status);
    write_u64(slot + 2, (uint64_t)cost);
    write_u64(slot + 10, (uint64_t)gap);
}

/* Dispatches the slots one after the other, writes their trace and the histories, and returns the total. */
static int64_t dispatch_slots(const uint32_t *demands, size_t length, struct unit *units, struct problem *q, uint8_t *trace,
                              struct shahfureel_history *histories)
{
    struct solution s;
    int64_t total = 0;
    for (size_t k = 0; k < length; k++) {
        uint8_t *slot = trace + SLOT_BYTES * k;
        q->target = NET_OF_STEP * demands[k];
        if (!greatest_outputs(q, &s.best)) {
            write_slot(slot, NO_ALLOCATION, 0, 0);
            continue;
        }
        search(q, &s);
        write_slot(slot, ACCEPTED, s.best.cost, s.best.cost - s.floor);
        carry(&s.best, units, q, histories);
        total += s.best.cost;
    }
    return total;
}

uint32_t plain_day(const uint8_t *file, size_t file_length, const uint32_t *demands, size_t demands_length, uint8_t *trace,
                   size_t trace_room, struct shahfureel_history *histories, size_t histories_room, int64_t *answers,
                   size_t answers_room)
{
    struct problem q;
    struct unit units[UNITS_MAX];
    if (answers_room < 1)
        return BUFFER_TOO_SHORT;
    if (!demands_valid(demands, demands_length))
        return DAY_DEMANDS_INVALID;
    if (trace_room < SLOT_BYTES * demands_length || histories_room < UNITS_MAX)
        return DAY_BUFFERS_TOO_SHORT;
    enum refusal r = read_case(file, file_length, &q);
    if (r != ACCEPTED)
        return r;
    begin_day(file, q.count, units, histories);
    answers[0] = dispatch_slots(demands, demands_length, units, &q, trace, histories);
    return 0;
}

/* ---- refining: branch and bound over the regions */

/* The node that is visited is a problem whose units have the regions that it leaves them; found is its dispatch. Open is the least
 * floor of the nodes that are not replaced by children. */
struct tree {
    struct problem node;
    struct solution found;
    uint32_t budget, visited;
    struct allocation best;
    int64_t open;
};

static int64_t lesser(int64_t a, int64_t b)
{
    return a < b ? a : b;
}

/* Dispatches the node. Returns its floor, or -1 if nothing covers. */
static int64_t dispatch_node(struct tree *t)
{
    t->visited++;
    if (!greatest_outputs(&t->node, &t->found.best))
        return -1;
    search(&t->node, &t->found);
    if (t->visited == 1 || t->found.best.cost < t->best.cost)
        t->best = t->found.best;
    return t->found.floor;
}

/* The first unit from there on that has several regions, or the number of units. */
static uint32_t first_several(const struct problem *q, uint32_t from)
{
    while (from < q->count && q->offers[from].region_count == 1)
        from++;
    return from;
}

static void drop_lowest(struct offer *o)
{
    o->region_count--;
    for (int32_t k = 0; k < o->region_count; k++)
        o->regions[k] = o->regions[k + 1];
}

/* Puts a region back below the others. */
static void add_lowest(struct offer *o, struct region lowest)
{
    for (int32_t k = o->region_count; k > 0; k--)
        o->regions[k] = o->regions[k - 1];
    o->regions[0] = lowest;
    o->region_count++;
}

static void visit(struct tree *t, uint32_t from, int64_t parent);

/* Visits the node with the unit kept to its lowest region, then with the unit kept to the others. */
static void split(struct tree *t, uint32_t unit, int64_t floor)
{
    struct offer *o = &t->node.offers[unit];
    int32_t count = o->region_count;
    struct region lowest = o->regions[0];
    o->region_count = 1;
    visit(t, unit, floor);
    o->region_count = count;
    drop_lowest(o);
    visit(t, unit, floor);
    add_lowest(o, lowest);
}

/* Visits a node and what it splits into. No unit before `from` has several regions. */
static void visit(struct tree *t, uint32_t from, int64_t parent)
{
    if (t->visited == t->budget) {
        t->open = lesser(t->open, parent);
        return;
    }
    int64_t floor = dispatch_node(t);
    if (floor < 0)
        return;
    floor = floor < parent ? parent : floor;
    uint32_t unit = first_several(&t->node, from);
    if (unit == t->node.count || floor >= t->best.cost)
        t->open = lesser(t->open, floor);
    else
        split(t, unit, floor);
}

uint32_t plain_refine(const uint8_t *file, size_t file_length, uint32_t budget, uint8_t *reply, size_t reply_room)
{
    struct tree t;
    if (reply_room < REFINE_REPLY_BYTES_MIN)
        return BUFFER_TOO_SHORT;
    if (budget < 1 || budget > BUDGET_MAX)
        return BUDGET_OUT_OF_RANGE;
    enum refusal r = read_case(file, file_length, &t.node);
    if (r != ACCEPTED)
        return r;
    if (!greatest_outputs(&t.node, &t.best))
        return NO_ALLOCATION;
    t.budget = budget;
    t.visited = 0;
    t.open = INT64_MAX;
    visit(&t, 0, 0);
    write_u16(reply, t.node.count);
    write_u32(reply + 2, t.visited);
    return 6 + write_best(reply + 6, &t.node, &t.best, lesser(t.open, t.best.cost));
}
