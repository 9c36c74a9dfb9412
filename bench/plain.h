/* The plain C programs of the specification's dispatch, view, judging, floors, day, refining and cost rows, as the benchmark
 * calls them. */
#ifndef PLAIN_H
#define PLAIN_H

#include "shahfureel.h" /* for the record of a history, and the places of a row */

#include <stddef.h>
#include <stdint.h>

/* As shahfureel_dispatch in include/shahfureel.h: the reply's length, or the number of a refusal, which writes nothing. */
uint32_t plain_dispatch(const uint8_t *file, size_t file_length, uint8_t *reply, size_t reply_length);

/* How many dispatches were answered, and how many of their replies have a unit that was lowered to an output tied with its choice;
 * how many evaluations they made, and in how many of them a unit was lowered. */
struct plain_lowering {
    uint64_t dispatches, dispatches_lowered, evaluations, evaluations_lowered;
};

/* Adds the dispatch of a case to these numbers, and returns 0; or returns the number of its refusal. */
uint32_t plain_lowering(const uint8_t *file, size_t file_length, struct plain_lowering *l);

/* As shahfureel_view in include/shahfureel.h. */
uint32_t plain_view(const uint8_t *reply, size_t reply_length, const uint8_t *request, size_t request_length, uint8_t *answer,
                    size_t answer_room, int64_t *answers, size_t answers_room);

/* As shahfureel_judge in include/shahfureel.h. */
uint32_t plain_judge(const uint8_t *file, size_t file_length, const uint32_t *outputs, size_t outputs_length, int64_t *answers,
                     size_t answers_room);

/* As shahfureel_floors in include/shahfureel.h. */
uint32_t plain_floors(const uint8_t *file, size_t file_length, const uint32_t *demands, size_t demands_length, int64_t *floors,
                      size_t floors_room, int64_t *answers, size_t answers_room);

/* As shahfureel_day in include/shahfureel.h. */
uint32_t plain_day(const uint8_t *file, size_t file_length, const uint32_t *demands, size_t demands_length, uint8_t *trace,
                   size_t trace_room, struct shahfureel_history *histories, size_t histories_room, int64_t *answers,
                   size_t answers_room);

/* As shahfureel_refine in include/shahfureel.h. */
uint32_t plain_refine(const uint8_t *file, size_t file_length, uint32_t budget, uint8_t *reply, size_t reply_room);

/* As shahfureel_gencost in include/shahfureel.h. */
uint32_t plain_gencost(const char *row, size_t row_length, int64_t *answers, size_t answers_room);

#endif
