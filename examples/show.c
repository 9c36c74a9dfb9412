/* A case file, or a reply of dispatch, in words; and such words as the bytes that they say. Usage: show < FILE, show < WORDS > FILE
 *     case edition 2 units 1 demand 5
 *     unit 1 c0 0 c1 10000 c2 1000 b 0 least 2 greatest 10 previous 0 up 0 down 0 mark 0 zones 1 b1 -10000000 from 4 to 7
 *     reply units 1 evaluations 18 cost 119000 gap 51600 surplus 270000000
 *     unit 1 output 7
 *
 * Each number has its name before it (docs/FORMATS.md; power is in steps), b1 in edition 2 alone. Input that begins with a letter is
 * words. What dispatch refuses of a case is said on standard error; with 2 to 6 no units are shown, and the status is 1. */
#include "shahfureel.h"

#include <ctype.h>
#include <inttypes.h>
#include <stdio.h>
#include <stdlib.h>
#include <string.h>

static uint8_t file[SHAHFUREEL_FILE_BYTES_MAX + 1]; /* a byte more than any case file has, so that a longer one is refused */
static uint8_t *at = file;                          /* where the next number stands, or is put */
static int reading;                                 /* words, not bytes */

static void stop(const char *what)
{
    fprintf(stderr, "show: a word is wrong or missing here: %s\n", what);
    exit(1);
}

/* Shows a number of so many bytes, or reads it; of 8 bytes, none that is shown is above 63 bits. Returns it. */
static int64_t pass(const char *name, size_t bytes)
{
    char word[16];
    int is_b1 = strcmp(name, "b1") == 0;
    int64_t n = (int64_t)shahfureel_big_endian(at, bytes), end = bytes == 8 ? INT64_MAX : INT64_C(1) << (8 * bytes - (size_t)is_b1);
    if (!reading)
        printf(" %s %" PRId64, name, is_b1 ? (int32_t)n : n);
    else if (scanf("%15s%" SCNd64, word, &n) != 2 || strcmp(word, name) != 0 || n >= end || n < (is_b1 ? -end : 0))
        stop(name);
    for (size_t k = bytes; k > 0; k--)
        *at++ = (uint8_t)((uint64_t)n >> 8 * (k - 1));
    return n;
}

static void pass_unit(int64_t i)
{
    int64_t n = i;
    if (i > SHAHFUREEL_UNITS_MAX || (reading ? scanf(" unit%" SCNd64, &n) != 1 || n != i : printf("\nunit %" PRId64, i) < 0))
        stop("unit, its number, from 1 to 32");
}

static void pass_reply(void)
{
    int64_t units = pass("units", 2);
    pass("evaluations", 2), pass("cost", 8), pass("gap", 8), pass("surplus", 8);
    for (int64_t i = 1; i <= units; i++)
        pass_unit(i), pass("output", 2);
}

/* A case whose contents, 4 bytes to a unit, are right or are put: where its body starts, and its length, of which one byte is 0. */
static void pass_case(int has_units)
{
    static const char *const names[] = {"c2", "b", "least", "greatest", "previous", "up", "down", "mark", "zones"};
    int64_t edition = pass("edition", 2), units = pass("units", 2), zones = pass("demand", 4);
    uint8_t *entry = at, *body = at += 4 * (units > SHAHFUREEL_UNITS_MAX ? 0 : units);
    for (int64_t i = 1; has_units && i <= units; i++, body = at, entry += 4) {
        pass_unit(i), pass("c0", 4), pass("c1", 4);
        for (size_t k = 0; k < sizeof names / sizeof names[0]; k++)
            zones = pass(names[k], 2);
        if (edition != 1)
            pass("b1", 4);
        zones = reading ? zones : (entry[3] - (at - body)) / 4; /* as many as there are, whatever their number says */
        for (int64_t k = 0; k < zones && k < 4; k++)
            pass("from", 2), pass("to", 2);
        memcpy(entry, (uint8_t[]){(uint8_t)((body - file) >> 8), (uint8_t)(body - file), 0, (uint8_t)(at - body)}, 4);
    }
}

int main(void)
{
    uint8_t reply[SHAHFUREEL_REPLY_BYTES];
    char kind[8] = "case", more;
    reading = isalpha(ungetc(getchar(), stdin));
    size_t length = reading ? (size_t)scanf("%7s", kind) : fread(file, 1, sizeof file, stdin);
    /* a reply begins with its number of units, which its length fits; its amounts are in range, as those in a cut case are not */
    int is_reply = reading ? strcmp(kind, "reply") == 0 : length <= 92 && length == 28 + 2 * shahfureel_big_endian(file, 2) &&
        shahfureel_reply_gap(file) <= shahfureel_reply_cost(file) && shahfureel_reply_cost(file) >> 43 == 0 && shahfureel_reply_surplus(file) >> 46 == 0;
    uint32_t answer = reading || is_reply ? SHAHFUREEL_LENGTH_MIN : shahfureel_dispatch(file, length, reply, sizeof reply);
    if (reading && !is_reply && strcmp(kind, "case") != 0)
        stop("case or reply");
    printf("%s", reading ? "" : is_reply ? "reply" : "case");
    if (is_reply)
        pass_reply();
    else if (reading || length >= 8)
        pass_case(answer > SHAHFUREEL_CONTENTS_INVALID);
    if (reading && scanf(" %c", &more) == 1)
        stop("the end");
    fwrite(reading ? file : (uint8_t[]){'\n'}, 1, reading ? (size_t)(at - file) : 1, stdout);
    if (answer < SHAHFUREEL_LENGTH_MIN)
        fprintf(stderr, "refused with %" PRIu32 ": %s\n", answer, shahfureel_refusal_text(answer));
    return answer <= SHAHFUREEL_CONTENTS_INVALID || fflush(stdout) != 0;
}
