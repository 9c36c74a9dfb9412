/* shahfureel_day: a day slot by slot, each demand in steps of 0.1 MW; the ramps are carried from one slot to the next.
 * Usage: day CASE_FILE STEPS...
 *
 *     gcc -std=c99 -O2 -Iinclude -o target/day examples/day.c target/lib/libshahfureel.a
 *     target/day examples/harbour.case 165 146 127
 *
 * Status 0; 1 if the case is refused, whose number and sentence standard error has; 2 if a file or number cannot be read. */
#include "shahfureel.h"

#include <inttypes.h>
#include <stdio.h>

/* Reads the case file; a byte more than any has, so that a longer one is refused. */
static uint8_t file[SHAHFUREEL_FILE_BYTES_MAX + 1];
static size_t file_length;

static int read_case(const char *name)
{
    FILE *in = fopen(name, "rb");
    if (in == NULL) {
        perror(name);
        return 0;
    }
    file_length = fread(file, 1, sizeof file, in);
    int failed = ferror(in);
    if (failed)
        perror(name);
    fclose(in);
    return !failed;
}

/* Reads steps of 0.1 MW. A number past those of 32 bits becomes the greatest of them, which no call takes either. */
static int read_steps(const char *word, uint32_t *steps)
{
    uint64_t number = 0;
    const char *at = word;
    for (; *at >= '0' && *at <= '9'; at++)
        number = number > UINT32_MAX ? number : 10 * number + (uint64_t)(*at - '0');
    *steps = number > UINT32_MAX ? UINT32_MAX : (uint32_t)number;
    if (at != word && *at == '\0')
        return 1;
    fprintf(stderr, "%s: this is not a number of steps\n", word);
    return 0;
}

static int refused(uint32_t number)
{
    fprintf(stderr, "refused with %" PRIu32 ": %s\n", number, shahfureel_refusal_text(number));
    return 1;
}

static uint32_t demands[SHAHFUREEL_DEMANDS_MAX + 1]; /* one more than the call takes: a longer list is refused too */
static uint8_t trace[(SHAHFUREEL_DEMANDS_MAX + 1) * SHAHFUREEL_SLOT_BYTES];
static struct shahfureel_history histories[SHAHFUREEL_HISTORIES]; /* 32, however few units there are */
static int64_t total;

/* Dispatches the first slots of the day. Behind that the histories have the outputs of the last slot that is solved. */
static uint32_t plan(size_t slots)
{
    return shahfureel_day(file, file_length, demands, slots, trace, sizeof trace, histories, SHAHFUREEL_HISTORIES, &total, 1);
}

int main(int words, char **word)
{
    size_t count = 0;
    if (words < 2) {
        fprintf(stderr, "usage: day CASE_FILE STEPS...\n");
        return 2;
    }
    for (int i = 2; i < words && count <= SHAHFUREEL_DEMANDS_MAX; i++, count++)
        if (!read_steps(word[i], &demands[count]))
            return 2;
    if (!read_case(word[1]))
        return 2;
    uint32_t number = plan(count);
    if (number != 0)
        return refused(number);
    size_t units = (size_t)shahfureel_big_endian(file + 2, 2);
    for (size_t k = 0; k < count && plan(k + 1) == 0; k++) {
        /* status 11: no permitted outputs cover this slot, from where the units are */
        printf("status %u cost %" PRIu64 " gap %" PRIu64, (unsigned)shahfureel_slot_status(trace, k), shahfureel_slot_cost(trace, k),
               shahfureel_slot_gap(trace, k));
        for (size_t i = 0; i < units && shahfureel_slot_status(trace, k) == 0; i++)
            printf(" %u", (unsigned)histories[i].previous);
        printf("\n");
    }
    printf("total %" PRId64 "\n", total);
    for (size_t i = 0; i < units; i++)
        printf("%zu previous %u starts %u\n", i + 1, (unsigned)histories[i].previous, (unsigned)histories[i].starts);
    return fflush(stdout) == 0 ? 0 : 2;
}
