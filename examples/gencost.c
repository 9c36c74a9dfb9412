/* Cost rows of a MATPOWER case as the numbers of a case file. Usage: gencost < ROWS
 *
 * It reads rows of a gencost matrix, one to a line, and prints for each the cost numbers c0, c1 and c2 of a unit's row, or in words
 * what is wrong with it. The call refuses a whole row; to find the words at fault, each is read alone, in a row that is right in
 * all others. The status is 0, or 1 if a row is refused or input or output fails. From the repository's root, build and run it by
 *
 *     gcc -std=c99 -O2 -Iinclude -o target/gencost examples/gencost.c target/lib/libshahfureel.a
 *     target/gencost < examples/gencost-rows.txt */
#include "shahfureel.h"

#include <inttypes.h>
#include <stdio.h>
#include <string.h>

#define NO_NUMBER "is not a number like 12 or 12.5"
enum { WORDS = 7, BYTES = SHAHFUREEL_GENCOST_BYTES_MAX + 1 }; /* a byte more than any row has, so that a longer one is refused */

static const char right[] = "2 0 0 3 0 0 0"; /* a row that is read: word k is its byte 2 * k */
static const struct {
    const char *name, *faults[3]; /* for 26, 27 and 28 */
} columns[WORDS] = {{"model", {"is not 2, a polynomial", "", ""}}, {"startup", {NO_NUMBER, "", ""}},
                    {"shutdown", {NO_NUMBER, "", ""}}, {"number of coefficients", {"is not 3", "", ""}},
                    {"square", {NO_NUMBER, "is no whole number of 0.0001", "is above 0.1"}},
                    {"linear", {NO_NUMBER, "is no whole number of 0.00001", "is above 100"}},
                    {"constant", {NO_NUMBER, "is no whole number of 0.000001", "is above 1,000"}}};

static char row[BYTES];
static size_t length, starts[BYTES], lengths[BYTES]; /* of the row, and of its words */
static int64_t answers[SHAHFUREEL_GENCOST_ANSWERS];

/* Reads a line, of which it keeps as much as fits; returns whether there was one. */
static int read_row(void)
{
    int c = getchar(), is_row = c != EOF;
    for (length = 0; c != EOF && c != '\n'; c = getchar())
        if (length < BYTES)
            row[length++] = (char)c;
    return is_row;
}

static int is_blank(size_t i) { return row[i] == ' ' || row[i] == '\t'; }

/* Finds the words of the row, and returns how many there are. */
static size_t find_words(void)
{
    size_t count = 0;
    for (size_t i = 0; i < length; i++)
        if (!is_blank(i)) {
            if (i == 0 || is_blank(i - 1))
                starts[count++] = i;
            lengths[count - 1] = i + 1 - starts[count - 1];
        }
    return count;
}

static void print_if_at_fault(size_t k, uint32_t number)
{
    char alone[BYTES + sizeof right];
    memcpy(alone, right, 2 * k);
    memcpy(alone + 2 * k, row + starts[k], lengths[k]);
    memcpy(alone + 2 * k + lengths[k], right + 2 * k + 1, sizeof right - 2 * k - 1);
    if (shahfureel_gencost(alone, sizeof right - 2 + lengths[k], answers, SHAHFUREEL_GENCOST_ANSWERS) != number)
        return;
    printf("; %s ", columns[k].name);
    for (const char *c = row + starts[k]; c < row + starts[k] + lengths[k]; c++)
        putchar(*c > ' ' && *c <= '~' ? *c : '?');
    printf(" %s", columns[k].faults[number - SHAHFUREEL_GENCOST_MALFORMED]);
}

static void print_refusal(uint32_t number)
{
    size_t count = find_words();
    const char *why = length == BYTES ? "; it has more than 256 bytes"
                      : count != WORDS ? "; it has not seven words"
                      : is_blank(0) || is_blank(length - 1) ? "; a blank stands before its first word or behind its last" : "";
    printf("refused with %" PRIu32 "%s", number, why);
    for (size_t k = 0; length < BYTES && count == WORDS && k < WORDS; k++)
        print_if_at_fault(k, number);
    printf("\n");
}

int main(void)
{
    int status = 0;
    for (unsigned long line = 1; read_row(); line++) {
        uint32_t number = shahfureel_gencost(row, length, answers, SHAHFUREEL_GENCOST_ANSWERS);
        printf("row %lu: ", line);
        if (number == 0)
            printf("c0 %" PRId64 ", c1 %" PRId64 ", c2 %" PRId64 "\n", answers[SHAHFUREEL_ROW_C0], answers[SHAHFUREEL_ROW_C1],
                   answers[SHAHFUREEL_ROW_C2]);
        else
            print_refusal(number);
        status |= number != 0;
    }
    int failed = ferror(stdin) || fflush(stdout) != 0 || ferror(stdout);
    if (failed)
        perror("gencost");
    return status || failed;
}
