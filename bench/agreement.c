/* Compares the controller with the plain C program: the answer, and every byte of the reply's buffer, on whole case files and
 * on damaged ones. */
#include "agreement.h"

#include "plain.h"

#include <stdio.h>
#include <stdlib.h>
#include <string.h>

enum { DAMAGES = 64, GUARD = 16, FILLED = 0xA5 };

static void differ(const char *what, size_t length, uint32_t controller, uint32_t plain)
{
    fprintf(stderr, "a file of %zu bytes: %s differ, controller %u, plain C %u\n", length, what, (unsigned)controller,
            (unsigned)plain);
    exit(1);
}

static void count(struct tally *t, uint32_t answer, const uint8_t *reply)
{
    t->answers[answer < ANSWERS ? answer : 0]++;
    if (answer < SHAHFUREEL_LENGTH_MIN)
        return;
    t->replies++;
    t->evaluations[reply[3] <= 18 ? reply[3] : 0]++;
}

static void compare(const uint8_t *file, size_t length, size_t reply_length, struct tally *t)
{
    uint8_t ours[SHAHFUREEL_REPLY_BYTES + GUARD];
    uint8_t plain[SHAHFUREEL_REPLY_BYTES + GUARD];
    memset(ours, FILLED, sizeof ours);
    memset(plain, FILLED, sizeof plain);
    uint32_t answer = shahfureel_dispatch(file, length, ours, reply_length);
    uint32_t other = plain_dispatch(file, length, plain, reply_length);
    if (answer != other)
        differ("answers", length, answer, other);
    if (memcmp(ours, plain, sizeof ours) != 0)
        differ("replies", length, answer, other);
    count(t, answer, ours);
}

/* ---- damage */

static void set_u16(struct case_file *c, size_t at, uint32_t n)
{
    c->bytes[at] = (uint8_t)(n >> 8);
    c->bytes[at + 1] = (uint8_t)n;
}

static uint32_t get_u16(const struct case_file *c, size_t at)
{
    return (uint32_t)c->bytes[at] << 8 | c->bytes[at + 1];
}

/* A 16-bit field at an even place of the head or the contents. */
static void damage_front(uint64_t *state, struct case_file *c, uint32_t units)
{
    size_t at = 2 * random_between(state, 0, 3 + 2 * units);
    set_u16(c, at, random_between(state, 0, 1) ? get_u16(c, at) + 1 : random_between(state, 0, 65535));
}

/* A 16-bit field of a body, by one or to any number. */
static void damage_body(uint64_t *state, struct case_file *c, uint32_t units)
{
    uint32_t i = random_between(state, 0, units - 1);
    size_t body = get_u16(c, 8 + 4 * i);
    size_t at = body + 2 * random_between(state, 0, get_u16(c, 10 + 4 * i) / 2 - 1);
    uint32_t values[4] = {get_u16(c, at) + 1, get_u16(c, at) - 1, random_between(state, 0, 65535), 0};
    set_u16(c, at, values[random_between(state, 0, 3)]);
}

static void set_u32(struct case_file *c, size_t at, uint32_t n)
{
    set_u16(c, at, n >> 16);
    set_u16(c, at + 2, n);
}

/* A field of a body at the end of its range, or one past it. */
static void damage_range(uint64_t *state, struct case_file *c, uint32_t units)
{
    static const uint32_t ends[12] = {1000000000, 0, 10000000, 0, 1000, 5000, 1, 10000, 10000, 10000, 10000, 1};
    size_t body = get_u16(c, 8 + 4 * random_between(state, 0, units - 1));
    size_t field = random_between(state, 0, 11);
    uint32_t past = random_between(state, 0, 1);
    if (field < 4)
        set_u32(c, body + field / 2 * 4, ends[field / 2 * 2] + past);
    else if (field == 6)
        set_u16(c, body + 12, 1 - past);
    else
        set_u16(c, body + 2 * field, ends[field] + past);
}

/* b1 at an end of its range or one past it, or together with b at the end of theirs or one past it. */
static void damage_losses(uint64_t *state, struct case_file *c, uint32_t units)
{
    size_t body = get_u16(c, 8 + 4 * random_between(state, 0, units - 1));
    uint32_t past = random_between(state, 0, 1);
    uint32_t b = random_between(state, 4501, 5000);
    switch (random_between(state, 0, 2)) {
    case 0:
        set_u32(c, body + 26, 10000000 + past);
        break;
    case 1:
        set_u32(c, body + 26, 0 - (10000000 + past));
        break;
    default:
        set_u16(c, body + 10, b);
        set_u32(c, body + 26, 99999999 - 19999 * b + past);
    }
}

static size_t edges_at(const struct case_file *c)
{
    return get_u16(c, 0) == 2 ? 30 : 26;
}

/* Two edges or limits the wrong way round. */
static void damage_order(uint64_t *state, struct case_file *c, uint32_t units)
{
    uint32_t i = random_between(state, 0, units - 1);
    size_t body = get_u16(c, 8 + 4 * i), first_edge = edges_at(c);
    uint32_t edges = (uint32_t)(get_u16(c, 10 + 4 * i) - first_edge) / 2;
    size_t at = edges < 2 ? body + 12 : body + first_edge + 2 * random_between(state, 0, edges - 2);
    uint32_t first = get_u16(c, at);
    set_u16(c, at, get_u16(c, at + 2));
    set_u16(c, at + 2, first);
}

/* A unit that must run and cannot, or a demand that may be too great. */
static void damage_allocation(uint64_t *state, struct case_file *c, uint32_t units)
{
    size_t body = get_u16(c, 8 + 4 * random_between(state, 0, units - 1));
    if (random_between(state, 0, 1)) {
        set_u16(c, 6, random_between(state, 0, 65535));
        return;
    }
    set_u16(c, body + 16, get_u16(c, body + 14) + 2);
    set_u16(c, body + 18, 0);
    set_u16(c, body + 20, 1);
    set_u16(c, body + 22, random_between(state, 0, 1));
}

/* An end too early; or one byte more, which the buffer has room for below its greatest length. */
static void damage_length(uint64_t *state, struct case_file *c)
{
    if (random_between(state, 0, 1) && c->length < sizeof c->bytes)
        c->length++;
    else
        c->length = random_between(state, 0, (uint32_t)c->length - 1);
}

/* A fault of any kind; edition 2 has one kind more. */
static void damage(uint64_t *state, struct case_file *c, uint32_t units)
{
    switch (random_between(state, 0, get_u16(c, 0) == 2 ? 6 : 5)) {
    case 0:
        damage_front(state, c, units);
        break;
    case 1:
        damage_order(state, c, units);
        break;
    case 2:
        damage_allocation(state, c, units);
        break;
    case 3:
        damage_length(state, c);
        break;
    case 4:
        damage_range(state, c, units);
        break;
    case 6:
        damage_losses(state, c, units);
        break;
    default:
        damage_body(state, c, units);
    }
}

static void compare_damaged(uint64_t *state, const struct case_file *c, uint32_t units, struct tally *t)
{
    for (int i = 0; i < DAMAGES; i++) {
        struct case_file copy = *c;
        damage(state, &copy, units);
        compare(copy.bytes, copy.length, SHAHFUREEL_REPLY_BYTES, t);
    }
    compare(c->bytes, c->length, random_between(state, 0, SHAHFUREEL_REPLY_BYTES - 1), t);
}

void compare_small(struct tally *first, struct tally *second)
{
    uint64_t state = SMALL_CASES_SEED, state_of_second = 20240603;
    static struct case_file c, in_edition_2;
    for (int i = 0; i < SMALL_CASES; i++) {
        make_small_case(&state, &c);
        compare(c.bytes, c.length, SHAHFUREEL_REPLY_BYTES, first);
        to_edition_2(&state_of_second, &c, &in_edition_2);
        compare(in_edition_2.bytes, in_edition_2.length, SHAHFUREEL_REPLY_BYTES, second);
    }
}

void compare_small_cases(uint64_t seed, void (*compare_case)(uint64_t *state, const struct case_file *c))
{
    uint64_t state = seed;
    static struct case_file c, in_edition_2;
    for (int i = 0; i < SMALL_CASES; i++) {
        make_small_case(&state, &c);
        compare_case(&state, &c);
        to_edition_2(&state, &c, &in_edition_2);
        compare_case(&state, &in_edition_2);
    }
}

void damage_at_times(uint64_t *state, struct case_file *c)
{
    uint32_t at = random_between(state, 0, (uint32_t)c->length - 1);
    switch (random_between(state, 0, 31)) {
    case 0:
        c->length = at;
        break;
    case 1:
    case 2:
    case 3:
        c->bytes[at] = (uint8_t)random_between(state, 0, 255);
        break;
    default:
        break;
    }
}

void print_refusals(const uint64_t refused[SHAHFUREEL_LENGTH_MIN])
{
    printf("; refusals by number:");
    for (uint32_t number = 1; number < SHAHFUREEL_LENGTH_MIN; number++)
        if (refused[number] != 0)
            printf(" %u: %llu", (unsigned)number, (unsigned long long)refused[number]);
    printf("\n");
}

void compare_group(const struct group *g, struct tally *whole, struct tally *damaged)
{
    uint64_t state = 1 + 64 * g->units + g->zones;
    for (uint32_t i = 0; i < CASES_IN_GROUP; i++) {
        compare(g->cases[i].bytes, g->cases[i].length, SHAHFUREEL_REPLY_BYTES, whole);
        compare_damaged(&state, &g->cases[i], g->units, damaged);
    }
}

void compare_in_edition_2(const struct group *g, struct tally *whole, struct tally *damaged)
{
    uint64_t state = 2 + 64 * g->units + g->zones;
    static struct case_file in_edition_2;
    for (uint32_t i = 0; i < CASES_IN_GROUP; i++) {
        to_edition_2(&state, &g->cases[i], &in_edition_2);
        compare(in_edition_2.bytes, in_edition_2.length, SHAHFUREEL_REPLY_BYTES, whole);
        compare_damaged(&state, &in_edition_2, g->units, damaged);
    }
}

void compare_refused(const struct group *g)
{
    struct tally t = {0};
    for (uint32_t i = 0; i < CASES_IN_GROUP; i++)
        compare(g->cases[i].bytes, g->cases[i].length, SHAHFUREEL_REPLY_BYTES, &t);
    if (t.answers[SHAHFUREEL_NO_ALLOCATION] != CASES_IN_GROUP) {
        fprintf(stderr, "a demand of %u steps is not refused\n", SHAHFUREEL_DEMAND_MAX);
        exit(1);
    }
}
