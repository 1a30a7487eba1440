// What the first bytes of the fuzzer's input choose: the token's row, the table about it, the clock and the lengths.
#ifndef FUZZ_CHOICES_H
#define FUZZ_CHOICES_H

#include "../library/message_making.h"
#include "../library/row_tables.h"

enum { FUZZ_CHOICES = 3, FUZZ_ROWS = 3, MOST_FUZZED_TABLE = FUZZ_ROWS * DL_ROW_BYTES };

// Byte 0: state, 7 for a row that is not well formed; an event token; SM3; lengths of header and body made right. Byte 1: clock; length of the table;
// the MAC made right, which no fuzzer would guess; too little room for values. Byte 2: the first unused step; one error below the limit; expired.
enum {
    FUZZ_STATE = 7, FUZZ_EVENT = 1 << 3, FUZZ_SM3 = 1 << 4, FUZZ_MEND = 1 << 5,
    FUZZ_CLOCK = 7, FUZZ_TABLE = 7 << 3, FUZZ_SEAL = 1 << 6, FUZZ_FEW_VALUES = 1 << 7,
    FUZZ_NEXT = 7, FUZZ_LAST_ERROR = 1 << 3, FUZZ_EXPIRED = 1 << 4,
};

static inline void fuzz_mend(const uint8_t *choices, uint8_t *message, size_t len)
{
    if (choices[0] & FUZZ_MEND)
        mend_lengths(message, len);
    if (choices[1] & FUZZ_SEAL)
        seal(message, len);
}

// The row of the tests' tables (row_tables.h), whose serial is 7, at step 100.
static inline void fuzz_row(const uint8_t *choices, uint8_t *row)
{
    uint8_t state = choices[0] & FUZZ_STATE;
    make_plain_row(row, choices[0] & FUZZ_SM3 ? DL_ALGORITHM_SM3 : DL_ALGORITHM_SM4);
    row_put(row, ROW_STATE, state);
    row_put(row, ROW_NEXT, TABLE_NEXT + (choices[2] & FUZZ_NEXT));
    if (choices[0] & FUZZ_EVENT) {
        row_put(row, ROW_KIND, DL_EVENT_TOKEN);
        row_put(row, ROW_PERIOD, 0);
    }
    if (state == DL_STATE_LOCKED_BY_ERRORS)
        row_put(row, ROW_LOCKED_AT, 30 * TABLE_STEP - 59);
    if (choices[2] & FUZZ_LAST_ERROR)
        row_put(row, ROW_ERRORS, 4);
    if (choices[2] & FUZZ_EXPIRED)
        row_put(row, ROW_EXPIRY, 30 * TABLE_STEP);
}

// All but the message; lays the table.
static inline struct message_sent fuzz_chosen(const uint8_t *choices, uint8_t *table)
{
    // the second brings the token's step into the large window alone
    static const uint64_t clocks[] = {30 * TABLE_STEP, 30 * (TABLE_STEP - 6), 30 * TABLE_STEP - 1, 30 * TABLE_STEP + 60, 0, CLOCK_END - 1,
                                      CLOCK_END, UINT64_MAX};
    static const size_t lengths[] = {DL_ROW_BYTES, 3 * DL_ROW_BYTES, 2 * DL_ROW_BYTES, DL_ROW_BYTES, 5, 0, DL_ROW_BYTES + 1, DL_ROW_BYTES};
    size_t table_len = lengths[(choices[1] & FUZZ_TABLE) >> 3], rows = table_len / DL_ROW_BYTES;
    memset(table, 0, MOST_FUZZED_TABLE);
    for (size_t i = 0; i < FUZZ_ROWS; i++)
        fuzz_row(choices, table + i * DL_ROW_BYTES);
    // the token's row is the last, behind those of another
    for (size_t i = 0; i + 1 < rows; i++)
        row_put(table + i * DL_ROW_BYTES, ROW_SERIAL, 8 + i);
    return (struct message_sent){.table_len = table_len, .values_len = choices[1] & FUZZ_FEW_VALUES ? DL_MOST_VALUES - 1 : DL_MOST_VALUES + 1,
                                 .now = clocks[choices[1] & FUZZ_CLOCK]};
}

#endif
