/* The cost row of docs/SPECIFICATION.md, section 25, as plain C: exact, without floating point. */
#include "plain.h"

enum { MALFORMED = 26, NOT_WHOLE = 27, ABOVE_LIMIT = 28, BYTES_MAX = 256 };

/* What is left to read of a row. */
struct rest {
    const char *at, *end;
};

/* A coefficient times its factor, and whether that is whole. A value above the limit stands for every greater one. */
struct result {
    uint64_t value;
    int whole;
};

static int is_digit(char c) { return c >= '0' && c <= '9'; }

/* Passes over one character. */
static int take(struct rest *r, char c)
{
    if (r->at == r->end || *r->at != c)
        return 0;
    r->at++;
    return 1;
}

static int take_gap(struct rest *r)
{
    const char *start = r->at;
    while (take(r, ' ') || take(r, '\t'))
        ;
    return r->at > start;
}

/* Passes over digits, of which the first so many decimals count; a value above the limit grows no further. */
static int take_digits(struct rest *r, struct result *n, uint64_t limit, int *places)
{
    const char *start = r->at;
    for (; r->at < r->end && is_digit(*r->at); r->at++) {
        if (*places == 0)
            n->whole &= *r->at == '0';
        else if (n->value <= limit)
            n->value = 10 * n->value + (uint64_t)(*r->at - '0');
        *places -= *places > 0;
    }
    return r->at > start;
}

/* Passes over a number, digits or digits, a point and digits, and gives it times ten to the power of the places. */
static int take_number(struct rest *r, struct result *n, int places, uint64_t limit)
{
    int before = BYTES_MAX + 1;
    n->value = 0;
    n->whole = 1;
    if (!take_digits(r, n, limit, &before))
        return 0;
    if (take(r, '.') && !take_digits(r, n, limit, &places))
        return 0;
    for (; places > 0; places--)
        n->value *= 10;
    return 1;
}

uint32_t plain_gencost(const char *row, size_t row_length, int64_t *answers, size_t answers_room)
{
    struct rest r = {row, row + row_length};
    struct result ignored, square, linear, constant;
    if (answers_room < 3)
        return 1;
    if (row_length > BYTES_MAX)
        return MALFORMED;
    if (!(take(&r, '2') && take_gap(&r) && take_number(&r, &ignored, 0, 0) && take_gap(&r) && take_number(&r, &ignored, 0, 0) &&
          take_gap(&r) && take(&r, '3') && take_gap(&r) && take_number(&r, &square, 4, 1000) && take_gap(&r) &&
          take_number(&r, &linear, 5, 10000000) && take_gap(&r) && take_number(&r, &constant, 6, 1000000000) && r.at == r.end))
        return MALFORMED;
    if (!square.whole || !linear.whole || !constant.whole)
        return NOT_WHOLE;
    if (square.value > 1000 || linear.value > 10000000 || constant.value > 1000000000)
        return ABOVE_LIMIT;
    answers[SHAHFUREEL_ROW_C0] = (int64_t)constant.value;
    answers[SHAHFUREEL_ROW_C1] = (int64_t)linear.value;
    answers[SHAHFUREEL_ROW_C2] = (int64_t)square.value;
    return 0;
}
