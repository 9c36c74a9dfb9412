/* The Modbus view of docs/SPECIFICATION.md, section 18, as plain C. */
#include "plain.h"

#include <string.h>

static uint32_t read_u16(const uint8_t *s) { return (uint32_t)s[0] << 8 | s[1]; }

static int malformed(const uint8_t *reply, size_t length)
{
    if (length < 30)
        return 1;
    uint32_t n = read_u16(reply);
    return n < 1 || n > 32 || length != 28 + 2 * n;
}

static uint8_t exception_to(const uint8_t *request, size_t registers)
{
    uint32_t start = read_u16(request + 1), quantity = read_u16(request + 3);
    if (request[0] != 3)
        return 1;
    if (quantity < 1 || quantity > 125)
        return 3;
    return start + quantity > registers ? 2 : 0;
}

uint32_t plain_view(const uint8_t *reply, size_t reply_length, const uint8_t *request, size_t request_length, uint8_t *answer,
                    size_t answer_room, int64_t *answers, size_t answers_room)
{
    if (answers_room < 1)
        return 1;
    if (malformed(reply, reply_length))
        return 15;
    if (request_length != 5)
        return 16;
    if (answer_room < 252)
        return 17;
    uint8_t exception = exception_to(request, reply_length / 2);
    size_t count = exception != 0 ? 0 : 2 * read_u16(request + 3);
    answer[0] = exception != 0 ? request[0] | 0x80 : request[0];
    answer[1] = exception != 0 ? exception : (uint8_t)count;
    memcpy(answer + 2, reply + (count != 0 ? 2 * read_u16(request + 1) : 0), count);
    answers[0] = 2 + (int64_t)count;
    return 0;
}
