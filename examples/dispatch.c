/* shahfureel_dispatch: prints the reply to a case file, in steps of 0.1 MW and millionths of the currency.
 * Usage: dispatch CASE_FILE
 *
 *     gcc -std=c99 -O2 -Iinclude -o target/dispatch examples/dispatch.c target/lib/libshahfureel.a
 *     target/dispatch examples/harbour.case
 *
 * Status 0; 1 if the case is refused, whose number and sentence standard error has; 2 if a file or number cannot be read. */
#include "shahfureel.h"

#include <inttypes.h>
#include <stdio.h>

/* Reads the case file; a byte more than any has, so that a longer one is refused. */
static uint8_t file[SHAHFUREEL_FILE_BYTES_MAX + 1];
static size_t file_length;

static int read_case(const char *name)
{
    FILE *in = fopen(name, "rb");
    if (in == NULL) {
        perror(name);
        return 0;
    }
    file_length = fread(file, 1, sizeof file, in);
    int failed = ferror(in);
    if (failed)
        perror(name);
    fclose(in);
    return !failed;
}

static int refused(uint32_t number)
{
    fprintf(stderr, "refused with %" PRIu32 ": %s\n", number, shahfureel_refusal_text(number));
    return 1;
}

int main(int words, char **word)
{
    uint8_t reply[SHAHFUREEL_REPLY_BYTES];
    if (words != 2) {
        fprintf(stderr, "usage: dispatch CASE_FILE\n");
        return 2;
    }
    if (!read_case(word[1]))
        return 2;
    uint32_t answer = shahfureel_dispatch(file, file_length, reply, sizeof reply);
    if (answer < SHAHFUREEL_LENGTH_MIN)
        return refused(answer);
    printf("units %u evaluations %u cost %" PRIu64 " gap %" PRIu64 " surplus %" PRIu64 "\n", (unsigned)shahfureel_reply_count(reply),
           (unsigned)shahfureel_reply_evaluations(reply), shahfureel_reply_cost(reply), shahfureel_reply_gap(reply),
           shahfureel_reply_surplus(reply));
    for (uint32_t i = 0; i < shahfureel_reply_count(reply); i++)
        printf("%" PRIu32 " %u\n", i + 1, (unsigned)shahfureel_reply_output(reply, i));
    return fflush(stdout) == 0 ? 0 : 2;
}
