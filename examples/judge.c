/* shahfureel_judge: what outputs cost, one to a unit in steps of 0.1 MW, and how far above the best they are at most.
 * Usage: judge CASE_FILE STEPS...
 *
 *     gcc -std=c99 -O2 -Iinclude -o target/judge examples/judge.c target/lib/libshahfureel.a
 *     target/judge examples/harbour.case 100 86 0 50
 *
 * Status 0, also where the outputs are not accepted; 1 if the case is refused, whose number and sentence standard error has; 2 if a
 * file or number cannot be read. */
#include "shahfureel.h"

#include <inttypes.h>
#include <stdio.h>

/* Reads the case file; a byte more than any has, so that a longer one is refused. */
static uint8_t file[SHAHFUREEL_FILE_BYTES_MAX + 1];
static size_t file_length;

static int read_case(const char *name)
{
    FILE *in = fopen(name, "rb");
    if (in == NULL) {
        perror(name);
        return 0;
    }
    file_length = fread(file, 1, sizeof file, in);
    int failed = ferror(in);
    if (failed)
        perror(name);
    fclose(in);
    return !failed;
}

/* Reads steps of 0.1 MW. A number past those of 32 bits becomes the greatest of them, which no call takes either. */
static int read_steps(const char *word, uint32_t *steps)
{
    uint64_t number = 0;
    const char *at = word;
    for (; *at >= '0' && *at <= '9'; at++)
        number = number > UINT32_MAX ? number : 10 * number + (uint64_t)(*at - '0');
    *steps = number > UINT32_MAX ? UINT32_MAX : (uint32_t)number;
    if (at != word && *at == '\0')
        return 1;
    fprintf(stderr, "%s: this is not a number of steps\n", word);
    return 0;
}

static int refused(uint32_t number)
{
    fprintf(stderr, "refused with %" PRIu32 ": %s\n", number, shahfureel_refusal_text(number));
    return 1;
}

/* Whether outputs that are not accepted are permitted, one by one. */
static int is_permitted(const uint32_t *outputs, size_t count)
{
    int64_t judged[SHAHFUREEL_JUDGE_ANSWERS] = {0};
    for (int i = 4; i < 8; i++)
        file[i] = 0;
    shahfureel_judge(file, file_length, outputs, count, judged, SHAHFUREEL_JUDGE_ANSWERS);
    return judged[SHAHFUREEL_JUDGED_ACCEPTED] == 1;
}

int main(int words, char **word)
{
    static uint32_t outputs[SHAHFUREEL_UNITS_MAX + 1]; /* one more than any case has units: a longer list is refused too */
    size_t count = 0;
    int64_t judged[SHAHFUREEL_JUDGE_ANSWERS];
    if (words < 2) {
        fprintf(stderr, "usage: judge CASE_FILE STEPS...\n");
        return 2;
    }
    for (int i = 2; i < words && count <= SHAHFUREEL_UNITS_MAX; i++, count++)
        if (!read_steps(word[i], &outputs[count]))
            return 2;
    if (!read_case(word[1]))
        return 2;
    uint32_t number = shahfureel_judge(file, file_length, outputs, count, judged, SHAHFUREEL_JUDGE_ANSWERS);
    if (number != 0)
        return refused(number);
    if (judged[SHAHFUREEL_JUDGED_ACCEPTED] == 1)
        printf("accepted cost %" PRId64 " distance %" PRId64 " surplus %" PRId64 "\n", judged[SHAHFUREEL_JUDGED_COST],
               judged[SHAHFUREEL_JUDGED_DISTANCE], judged[SHAHFUREEL_JUDGED_SURPLUS]);
    else /* at a demand of 0, bytes 4 to 7 of the file, everything covers: accepted there, each output is permitted */
        printf("not accepted: %s\n", is_permitted(outputs, count) ? "together they do not cover" : "one is not permitted");
    return fflush(stdout) == 0 ? 0 : 2;
}
