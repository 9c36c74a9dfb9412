/* shahfureel_floors: what other demands, in steps of 0.1 MW, cost at least, in millionths of the currency an hour.
 * Usage: floors CASE_FILE STEPS...
 *
 *     gcc -std=c99 -O2 -Iinclude -o target/floors examples/floors.c target/lib/libshahfureel.a
 *     target/floors examples/harbour.case 223 247
 *
 * Status 0; 1 if the case is refused, whose number and sentence standard error has; 2 if a file or number cannot be read. */
#include "shahfureel.h"

#include <inttypes.h>
#include <stdio.h>

/* Reads the case file; a byte more than any has, so that a longer one is refused. */
static uint8_t file[SHAHFUREEL_FILE_BYTES_MAX + 1];
static size_t file_length;

static int read_case(const char *name)
{
    FILE *in = fopen(name, "rb");
    if (in == NULL) {
        perror(name);
        return 0;
    }
    file_length = fread(file, 1, sizeof file, in);
    int failed = ferror(in);
    if (failed)
        perror(name);
    fclose(in);
    return !failed;
}

/* Reads steps of 0.1 MW. A number past those of 32 bits becomes the greatest of them, which no call takes either. */
static int read_steps(const char *word, uint32_t *steps)
{
    uint64_t number = 0;
    const char *at = word;
    for (; *at >= '0' && *at <= '9'; at++)
        number = number > UINT32_MAX ? number : 10 * number + (uint64_t)(*at - '0');
    *steps = number > UINT32_MAX ? UINT32_MAX : (uint32_t)number;
    if (at != word && *at == '\0')
        return 1;
    fprintf(stderr, "%s: this is not a number of steps\n", word);
    return 0;
}

static int refused(uint32_t number)
{
    fprintf(stderr, "refused with %" PRIu32 ": %s\n", number, shahfureel_refusal_text(number));
    return 1;
}

int main(int words, char **word)
{
    static uint32_t demands[SHAHFUREEL_DEMANDS_MAX + 1]; /* one more than the call takes: a longer list is refused too */
    static int64_t floors[SHAHFUREEL_DEMANDS_MAX + 1];
    int64_t written;
    size_t count = 0;
    if (words < 2) {
        fprintf(stderr, "usage: floors CASE_FILE STEPS...\n");
        return 2;
    }
    for (int i = 2; i < words && count <= SHAHFUREEL_DEMANDS_MAX; i++, count++)
        if (!read_steps(word[i], &demands[count]))
            return 2;
    if (!read_case(word[1]))
        return 2;
    uint32_t number = shahfureel_floors(file, file_length, demands, count, floors, SHAHFUREEL_DEMANDS_MAX + 1, &written, 1);
    if (number != 0)
        return refused(number);
    for (int64_t i = 0; i < written; i++)
        printf("%" PRIu32 " %" PRId64 "\n", demands[i], floors[i]);
    return fflush(stdout) == 0 ? 0 : 2;
}
