// A row that is plain to see, and changes to it, for calls whose answers are written out.
#ifndef PLAIN_ROW_H
#define PLAIN_ROW_H

#include "row_cases.h"

enum { MOST_CHANGES = 6 };

struct change {
    enum row_field field;
    uint64_t value;
};

#define KEPT {{ROW_NOTHING, 0}}
#define OFFSET(d) {ROW_OFFSET, 600 + (d)}
#define ACCEPTED(step, now) {ROW_ERRORS, 0}, {ROW_NEXT, (step) + 1}, {ROW_LAST_USE, now}
#define OPENED {ROW_STATE, 2}, {ROW_ERRORS, 0}, {ROW_LOCKED_AT, 0}

static inline void apply(uint8_t *row, const struct change changes[MOST_CHANGES])
{
    for (size_t i = 0; i < MOST_CHANGES && changes[i].field != ROW_NOTHING; i++)
        row_put(row, changes[i].field, changes[i].value);
}

// A ready time token of 6 digits with period 30, limit 5, wait 60, and neither errors nor a last use.
static inline void make_plain_row(uint8_t *row, uint8_t algorithm)
{
    static const struct change ready[MOST_CHANGES] = {{ROW_STATE, 2}, {ROW_DIGITS, 6}, {ROW_PERIOD, 30}, {ROW_LIMIT, 5}};
    static const struct change token[MOST_CHANGES] = {{ROW_SERIAL, 7}, OFFSET(0), {ROW_WAIT, 60}, {ROW_EXPIRY, CLOCK_END}};
    memset(row, 0, DL_ROW_BYTES);
    apply(row, ready);
    apply(row, token);
    row_put(row, ROW_ALGORITHM, algorithm);
    row_put_key(row, (const uint8_t *)"a key of 20 letters.", 20);
}

#endif
