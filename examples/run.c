/* A dispatch that can be watched. Usage: run CASE_FILE [MILLISECONDS]
 *
 * It starts a run of the case and advances it once a tick, of so many milliseconds (0 if they are left out). After each evaluation it
 * prints the cost of the best outputs so far, the floor, below which nobody covers the demand, and the gap; on a terminal in place,
 * with a bar that closes. It reads the file anew each time, as a panel whose users may load another case: the run refuses that with
 * 24 and is started anew. From the repository's root, build and run it by
 *
 *     gcc -std=c99 -O2 -Iinclude -o target/run examples/run.c target/lib/libshahfureel.a
 *     target/run examples/harbour.case 200
 *
 * The status is 0, or 1 if the case cannot be taken, which standard error then explains. */
#define _POSIX_C_SOURCE 200809L /* nanosleep, isatty */
#include "shahfureel.h"

#include <errno.h>
#include <inttypes.h>
#include <stdio.h>
#include <string.h>
#include <time.h>
#include <unistd.h>

enum { BAR = 40, TICK_MAX = 60000 };

static uint8_t file[SHAHFUREEL_FILE_BYTES_MAX + 1]; /* a byte more than any case file has, so that a longer one is refused */
static size_t file_length;
static struct shahfureel_run run; /* zeros, as it is static: not started */

static int wrong(const char *what, const char *why)
{
    fprintf(stderr, "%s: %s\n", what, why);
    return 1;
}

static int refused(const char *name, uint32_t number)
{
    fflush(stdout); /* what was said before comes first */
    fprintf(stderr, "%s: refused with %" PRIu32 ": %s\n", name, number, shahfureel_refusal_text(number));
    return 1;
}

static int read_case(const char *name)
{
    FILE *in = fopen(name, "rb");
    if (in == NULL)
        return wrong(name, strerror(errno));
    file_length = fread(file, 1, sizeof file, in);
    int error = ferror(in) ? errno : 0;
    fclose(in);
    return error == 0 ? 0 : wrong(name, strerror(error));
}

/* Advances the run with the case as it is read; starts it if it is not started, and anew if it is one of another case. */
static uint32_t step(int terminal, int64_t *state)
{
    uint32_t number = shahfureel_advance(&run, file, file_length, state, 1);
    if (number == SHAHFUREEL_CASE_CHANGED)
        printf("%sthe case is another one: started anew\n", terminal ? "\n" : "");
    int start = number == SHAHFUREEL_CASE_CHANGED || (number == 0 && *state == SHAHFUREEL_NOT_STARTED);
    return start ? shahfureel_start(&run, file, file_length) : number;
}

static void print_money(int64_t amount) { printf(" %9" PRId64 ".%06" PRId64, amount / 1000000, amount % 1000000); }

static void print_best(int terminal)
{
    int64_t asked[SHAHFUREEL_RUN_ANSWERS];
    shahfureel_ask(&run, asked, SHAHFUREEL_RUN_ANSWERS); /* with 38 places it is never refused */
    int64_t evaluations = asked[SHAHFUREEL_ASKED_EVALUATIONS], cost = asked[SHAHFUREEL_ASKED_COST], gap = asked[SHAHFUREEL_ASKED_GAP];
    printf("%s", evaluations == 0 ? "evaluations     cost an hour            floor              gap\n" : terminal ? "\r" : "");
    printf("%11" PRId64, evaluations);
    print_money(cost);
    print_money(cost - gap);
    print_money(gap);
    for (int64_t i = 0; i <= BAR && terminal; i++)
        putchar(i == 0 ? ' ' : cost * (i - 1) < gap * BAR ? '#' : '.');
    printf("%s", terminal && asked[SHAHFUREEL_ASKED_STATE] != SHAHFUREEL_FINISHED ? "" : "\n");
    fflush(stdout);
}

int main(int words, char **word)
{
    unsigned tick = 0;
    char end;
    if (words < 2 || words > 3 || (words == 3 && (sscanf(word[2], "%5u%c", &tick, &end) != 1 || tick > TICK_MAX)))
        return wrong("usage", "run CASE_FILE [MILLISECONDS], a case file such as shahfureel case writes, and 0 to 60000");
    struct timespec pause = {tick / 1000, tick % 1000 * 1000000L};
    int terminal = isatty(STDOUT_FILENO);
    for (int64_t state = SHAHFUREEL_NOT_STARTED; state != SHAHFUREEL_FINISHED; nanosleep(&pause, NULL)) {
        if (read_case(word[1]) != 0)
            return 1;
        uint32_t number = step(terminal, &state);
        if (number != 0)
            return refused(word[1], number);
        print_best(terminal);
    }
    return ferror(stdout) ? wrong("standard output", strerror(errno)) : 0;
}
