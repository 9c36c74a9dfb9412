/* Times the reading of cost rows against plain C, on rows that are read: some short, as cases have them, and some of 256 bytes. It first
 * compares the answers of both to such rows and to damaged ones. */
#include "gencosts.h"

#include "agreement.h"
#include "measure.h"
#include "plain.h"

#include <stdio.h>
#include <stdlib.h>
#include <string.h>

enum { ROWS = 1024, PASSES = 40, COMPARED = 400000, ROOM = 4, ROW_ROOM = 320, FILLED = 0xA5 };

typedef uint32_t gencost_call(const char *, size_t, int64_t *, size_t);

struct cost_row {
    char text[ROW_ROOM];
    size_t length;
};

static struct cost_row rows[ROWS];

/* How many rows were read, and how often each number was given. */
static uint64_t rows_read, refused[SHAHFUREEL_LENGTH_MIN];

/* ---- rows */

static void put(struct cost_row *r, const char *text)
{
    memcpy(r->text + r->length, text, strlen(text));
    r->length += strlen(text);
}

/* A number up to the limit in units of so many decimals, at times above it or a decimal finer. */
static void put_number(uint64_t *state, struct cost_row *r, uint32_t limit, int decimals, int any)
{
    char text[64];
    uint32_t unit = 1, value = random_between(state, 0, limit);
    if (any && random_between(state, 0, 7) == 0)
        value += random_between(state, 1, 2) * (limit / 2 + 1);
    for (int i = 0; i < decimals; i++)
        unit *= 10;
    snprintf(text, sizeof text, " %u.%0*u%s", (unsigned)(value / unit), decimals, (unsigned)(value % unit),
             any && random_between(state, 0, 7) == 0 ? "3" : "");
    put(r, text);
}

static void make_row(uint64_t *state, struct cost_row *r, int any)
{
    r->length = 0;
    put(r, "2");
    put_number(state, r, 300000, 2, 0);
    put(r, " 0 3");
    put_number(state, r, 1000, 4, any);
    put_number(state, r, 10000000, 5, any);
    put_number(state, r, 1000000000, 6, any);
}

/* The same row with zeros behind its last decimal, up to this length. */
static void lengthen(struct cost_row *r, size_t length)
{
    memset(r->text + r->length, '0', length - r->length);
    r->length = length;
}

static void damage(uint64_t *state, struct cost_row *r)
{
    static const char bytes[] = " \t\n\r;.,-+e/:0123456789";
    if (random_between(state, 0, 15) == 0)
        lengthen(r, random_between(state, 254, 258));
    if (random_between(state, 0, 1) == 0)
        r->text[random_between(state, 0, (uint32_t)r->length - 1)] = bytes[random_between(state, 0, sizeof bytes - 2)];
    if (random_between(state, 0, 15) == 0)
        r->length = random_between(state, 0, (uint32_t)r->length);
}

/* ---- agreement */

static void compare(const struct cost_row *r, size_t room)
{
    int64_t ours[ROOM], plain[ROOM];
    memset(ours, FILLED, sizeof ours);
    memset(plain, FILLED, sizeof plain);
    uint32_t number = shahfureel_gencost(r->text, r->length, ours, room);
    uint32_t other = plain_gencost(r->text, r->length, plain, room);
    if (number != other || memcmp(ours, plain, sizeof ours) != 0) {
        fprintf(stderr, "gencost: the programs differ, controller %u, plain C %u: %.*s\n", (unsigned)number, (unsigned)other,
                (int)r->length, r->text);
        exit(1);
    }
    if (number == 0)
        rows_read++;
    else
        refused[number]++;
}

static void compare_all(uint64_t *state)
{
    struct cost_row r;
    for (int i = 0; i < COMPARED; i++) {
        make_row(state, &r, 1);
        damage(state, &r);
        compare(&r, random_between(state, 0, 31) == 0 ? random_between(state, 0, 2) : random_between(state, 3, ROOM));
    }
    printf("\ngencost: both programs agree in every answer\n  %llu rows read", (unsigned long long)rows_read);
    print_refusals(refused);
}

/* ---- times */

static double measure(gencost_call *gencost)
{
    static volatile int64_t sink;
    int64_t answers[SHAHFUREEL_GENCOST_ANSWERS];
    double start = processor_nanoseconds();
    for (int pass = 0; pass < PASSES; pass++)
        for (int i = 0; i < ROWS; i++) {
            gencost(rows[i].text, rows[i].length, answers, SHAHFUREEL_GENCOST_ANSWERS);
            sink = answers[0];
        }
    (void)sink;
    return (processor_nanoseconds() - start) / PASSES / ROWS;
}

static void time_rows(int repetitions, const char *what)
{
    static double controller[REPETITIONS_MAX], plain[REPETITIONS_MAX], ratio[REPETITIONS_MAX];
    for (int i = 0; i < repetitions; i++) {
        controller[i] = measure(shahfureel_gencost);
        plain[i] = measure(plain_gencost);
        ratio[i] = controller[i] / plain[i];
    }
    double c = median(controller, repetitions), p = median(plain, repetitions), of_both = median(ratio, repetitions);
    printf("gencost, %s: controller %.0f ns a row, plain C %.0f ns, ratio %.2f, %.2f to %.2f\n", what, c, p, of_both, ratio[0],
           ratio[repetitions - 1]);
}

void time_gencosts(int repetitions)
{
    uint64_t state = 20240614;
    size_t bytes = 0;
    char what[64];
    compare_all(&state);
    for (int i = 0; i < ROWS; i++) {
        make_row(&state, &rows[i], 0);
        bytes += rows[i].length;
    }
    snprintf(what, sizeof what, "rows of %zu bytes on average", bytes / ROWS);
    time_rows(repetitions, what);
    for (int i = 0; i < ROWS; i++)
        lengthen(&rows[i], SHAHFUREEL_GENCOST_BYTES_MAX);
    time_rows(repetitions, "rows of 256 bytes");
}
