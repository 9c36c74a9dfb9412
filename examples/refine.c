/* shahfureel_refine: looks for cheaper outputs and a smaller gap with budgets of 1, 10, 100 nodes
 * and so on, up to the one that is given.
 * Usage: refine CASE_FILE BUDGET
 *
 *     gcc -std=c99 -O2 -Iinclude -o target/refine examples/refine.c target/lib/libshahfureel.a
 *     target/refine examples/harbour.case 100
 *
 * Status 0; 1 if the case is refused, whose number and sentence standard error has; 2 if a file or number cannot be read. */
#include "shahfureel.h"

#include <inttypes.h>
#include <stdio.h>

/* Reads the case file; a byte more than any has, so that a longer one is refused. */
static uint8_t file[SHAHFUREEL_FILE_BYTES_MAX + 1];
static size_t file_length;

static int read_case(const char *name)
{
    FILE *in = fopen(name, "rb");
    if (in == NULL) {
        perror(name);
        return 0;
    }
    file_length = fread(file, 1, sizeof file, in);
    int failed = ferror(in);
    if (failed)
        perror(name);
    fclose(in);
    return !failed;
}

/* Reads a budget. A number past those of 32 bits becomes the greatest of them, which the call does not take either. */
static int read_budget(const char *word, uint32_t *budget)
{
    uint64_t number = 0;
    const char *at = word;
    for (; *at >= '0' && *at <= '9'; at++)
        number = number > UINT32_MAX ? number : 10 * number + (uint64_t)(*at - '0');
    *budget = number > UINT32_MAX ? UINT32_MAX : (uint32_t)number;
    if (at != word && *at == '\0')
        return 1;
    fprintf(stderr, "%s: this is not a budget\n", word);
    return 0;
}

static int refused(uint32_t number)
{
    fprintf(stderr, "refused with %" PRIu32 ": %s\n", number, shahfureel_refusal_text(number));
    return 1;
}

int main(int words, char **word)
{
    uint8_t reply[SHAHFUREEL_REFINE_REPLY_BYTES]; /* read by shahfureel_refined_...: it is not dispatch's */
    uint32_t budget;
    if (words != 3) {
        fprintf(stderr, "usage: refine CASE_FILE BUDGET\n");
        return 2;
    }
    if (!read_budget(word[2], &budget) || !read_case(word[1]))
        return 2;
    /* ten times as much until the gap is 0, or fewer nodes than the budget say that the search has ended; or up to the budget */
    uint32_t tried = budget < 1 || budget > SHAHFUREEL_BUDGET_MAX ? budget : 1;
    uint32_t answer = shahfureel_refine(file, file_length, tried, reply, sizeof reply);
    while (answer >= SHAHFUREEL_LENGTH_MIN && tried < budget && shahfureel_refined_gap(reply) > 0 &&
           shahfureel_refined_nodes(reply) == tried) {
        tried = budget / 10 < tried ? budget : 10 * tried;
        answer = shahfureel_refine(file, file_length, tried, reply, sizeof reply);
    }
    if (answer < SHAHFUREEL_LENGTH_MIN)
        return refused(answer);
    printf("units %u nodes %" PRIu32 " cost %" PRIu64 " gap %" PRIu64 " surplus %" PRIu64 "\n", (unsigned)shahfureel_refined_count(reply),
           shahfureel_refined_nodes(reply), shahfureel_refined_cost(reply), shahfureel_refined_gap(reply),
           shahfureel_refined_surplus(reply));
    for (uint32_t i = 0; i < shahfureel_refined_count(reply); i++)
        printf("%" PRIu32 " %u\n", i + 1, (unsigned)shahfureel_refined_output(reply, i));
    return fflush(stdout) == 0 ? 0 : 2;
}
