/* Times the Modbus view against plain C, on a reply of 32 units: all 46 registers, one register, and a request past the end. It
 * first compares the answers of both to every start and quantity up to 130. */
#include "views.h"

#include "measure.h"
#include "plain.h"
#include "shahfureel.h"

#include <stdio.h>
#include <stdlib.h>
#include <string.h>

enum { REPLY = 92, CALLS = 20000 };

typedef uint32_t view_call(const uint8_t *, size_t, const uint8_t *, size_t, uint8_t *, size_t, int64_t *, size_t);

static uint8_t reply[REPLY];

static uint32_t ask(view_call *view, uint8_t function, unsigned start, unsigned quantity, uint8_t *answer, int64_t *length)
{
    uint8_t request[5] = {function, (uint8_t)(start >> 8), (uint8_t)start, (uint8_t)(quantity >> 8), (uint8_t)quantity};
    return view(reply, sizeof reply, request, sizeof request, answer, SHAHFUREEL_VIEW_ANSWER_BYTES, length, 1);
}

static void compare(uint8_t function, unsigned start, unsigned quantity)
{
    uint8_t one[252], other[252];
    int64_t one_length = -1, other_length = -1;
    memset(one, 0xA5, sizeof one);
    memset(other, 0xA5, sizeof other);
    uint32_t one_number = ask(shahfureel_view, function, start, quantity, one, &one_length);
    uint32_t other_number = ask(plain_view, function, start, quantity, other, &other_length);
    if (one_number != other_number || one_length != other_length || memcmp(one, other, sizeof one) != 0) {
        printf("view: the programs differ at function %u, start %u, quantity %u\n", function, start, quantity);
        exit(1);
    }
}

static double measure(view_call *view, unsigned start, unsigned quantity)
{
    static volatile int64_t sink;
    uint8_t answer[252];
    int64_t length;
    double begin = processor_nanoseconds();
    for (int i = 0; i < CALLS; i++) {
        ask(view, 3, start, quantity, answer, &length);
        sink = length;
    }
    (void)sink;
    return (processor_nanoseconds() - begin) / CALLS;
}

static void time_view(int repetitions, const char *what, unsigned start, unsigned quantity)
{
    static double controller[REPETITIONS_MAX], plain[REPETITIONS_MAX], ratio[REPETITIONS_MAX];
    for (int i = 0; i < repetitions; i++) {
        controller[i] = measure(shahfureel_view, start, quantity);
        plain[i] = measure(plain_view, start, quantity);
        ratio[i] = controller[i] / plain[i];
    }
    double c = median(controller, repetitions), p = median(plain, repetitions);
    printf("view, %s: controller %.1f ns, plain C %.1f ns, ratio %.2f\n", what, c, p, median(ratio, repetitions));
}

void time_views(int repetitions)
{
    for (unsigned i = 0; i < REPLY; i++)
        reply[i] = (uint8_t)(7 * i);
    reply[0] = 0;
    reply[1] = 32;
    for (unsigned start = 0; start <= 130; start++)
        for (unsigned quantity = 0; quantity <= 130; quantity++)
            for (unsigned function = 0; function < 256; function += 3)
                compare((uint8_t)function, start, quantity);
    printf("\nviews: both programs agree in every byte\n");
    time_view(repetitions, "all 46 registers", 0, 46);
    time_view(repetitions, "one register", 45, 1);
    time_view(repetitions, "past the end", 46, 1);
}
