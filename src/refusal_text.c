/* shahfureel_refusal_text: the one place in C that has a sentence for each refusal. docs/FORMATS.md has the same sentences
 * beside what each number means, and tests/panel/run compares the two. Plain C, tested and not proved. */
#include "shahfureel.h"

static const char *const TEXTS[] = {
    [SHAHFUREEL_BUFFER_TOO_SHORT] = "a buffer is too short for the answer: lend what the header says for this call",
    [SHAHFUREEL_FILE_TOO_SHORT] = "the file is shorter than its head of 8 bytes: was it read whole?",
    [SHAHFUREEL_EDITION_UNKNOWN] = "the file's edition is neither 1 nor 2, or for unpacking not 1: is it a case file?",
    [SHAHFUREEL_COUNT_OUT_OF_RANGE] = "the file's number of units is not from 1 to 32",
    [SHAHFUREEL_DEMAND_OUT_OF_RANGE] = "the demand is above 320,000 steps: is it in steps of 0.1 MW?",
    [SHAHFUREEL_CONTENTS_INVALID] = "the file's contents or its end are not where they must be: was it cut, or its length not exact?",
    [SHAHFUREEL_ZONE_COUNT_INVALID] = "a unit has more than four zones, or a body or row that does not fit their number",
    [SHAHFUREEL_COEFFICIENT_OUT_OF_RANGE] = "c0, c1, c2 or b of a unit is above its limit",
    [SHAHFUREEL_LIMITS_INVALID] = "least, edges and greatest of a unit do not rise, or are not from 1 to 10,000 steps",
    [SHAHFUREEL_RAMP_OR_MARK_OUT_OF_RANGE] = "previous, up or down of a unit is above 10,000 steps, or its mark is neither 0 nor 1",
    [SHAHFUREEL_NO_ALLOCATION] = "no permitted outputs cover the demand after losses: lower it, or widen what the units may give",
    [SHAHFUREEL_ROWS_INVALID] = "the rows are none, above 32, not 19 numbers each, or not one to a b1: are bytes counted?",
    [SHAHFUREEL_FILE_BUFFER_TOO_SHORT] = "the buffer for the case file is too short: lend 1,608 bytes",
    [SHAHFUREEL_MULTIPLIER_OUT_OF_RANGE] = "the multiplier is above 65,536",
    [SHAHFUREEL_REPLY_MALFORMED] = "this is no reply of dispatch with its exact length: is it one of refining?",
    [SHAHFUREEL_REQUEST_LENGTH_INVALID] = "the Modbus request is not 5 bytes: is it of another function, or with its header?",
    [SHAHFUREEL_ANSWER_TOO_SHORT] = "the buffer for the Modbus answer is too short: lend 252 bytes",
    [SHAHFUREEL_LOSSES_OUT_OF_RANGE] = "b1 of a unit is out of range, alone or together with its b",
    [SHAHFUREEL_OUTPUT_COUNT_INVALID] = "there is not one output to each unit: give 0 for a unit that stands",
    [SHAHFUREEL_DEMANDS_INVALID] = "more than 96 demands are asked for, or one above 320,000 steps: ask in several calls",
    [SHAHFUREEL_FLOORS_TOO_SHORT] = "there are fewer places for floors than demands: lend one for each",
    [SHAHFUREEL_DAY_DEMANDS_INVALID] = "a day has more than 96 demands, or one above 320,000 steps: make its slots longer",
    [SHAHFUREEL_DAY_BUFFERS_TOO_SHORT] = "trace or histories are too short: lend 18 bytes for each demand, and 32 histories",
    [SHAHFUREEL_CASE_CHANGED] = "this is not the file that the run was started with: start it anew, or hand over its own",
    [SHAHFUREEL_BUDGET_OUT_OF_RANGE] = "the budget is not from 1 to 100,000 nodes",
    [SHAHFUREEL_GENCOST_MALFORMED] = "the cost row is not 2, startup, shutdown, 3 and three coefficients, or above 256 bytes",
    [SHAHFUREEL_GENCOST_NOT_WHOLE] = "a coefficient of the cost row is finer than a case file holds: round it yourself",
    [SHAHFUREEL_GENCOST_ABOVE_LIMIT] = "a coefficient of the cost row is above its limit: give all costs in a larger unit of money",
};

const char *shahfureel_refusal_text(uint32_t number)
{
    const char *text = number < sizeof TEXTS / sizeof TEXTS[0] ? TEXTS[number] : NULL;
    return text != NULL ? text : "this number is not that of a refusal";
}
