// The row of document 01, Part 4: its layout, and when it is well formed; written from the document alone.
#ifndef ROW_REFERENCE_H
#define ROW_REFERENCE_H

#include "window_reference.h"

// ---- the layout

enum row_field {
    ROW_NOTHING, // ends a list
    ROW_STATE, ROW_KIND, ROW_ALGORITHM, ROW_DIGITS, ROW_PERIOD, ROW_LIMIT, ROW_ERRORS, ROW_KEY_LEN, ROW_SERIAL, ROW_KEY,
    ROW_NEXT, ROW_OFFSET, ROW_ZEROS, ROW_WAIT, ROW_EXPIRY, ROW_LOCKED_AT, ROW_LAST_USE, ROW_END,
};

static const struct {
    uint8_t at, bytes;
} row_places[] = {
    [ROW_STATE] = {0, 1}, [ROW_KIND] = {1, 1}, [ROW_ALGORITHM] = {2, 1}, [ROW_DIGITS] = {3, 1}, [ROW_PERIOD] = {4, 1},
    [ROW_LIMIT] = {5, 1}, [ROW_ERRORS] = {6, 1}, [ROW_KEY_LEN] = {7, 1}, [ROW_SERIAL] = {8, 8}, [ROW_KEY] = {16, 32},
    [ROW_NEXT] = {48, 8}, [ROW_OFFSET] = {56, 2}, [ROW_ZEROS] = {58, 2}, [ROW_WAIT] = {60, 4}, [ROW_EXPIRY] = {64, 8},
    [ROW_LOCKED_AT] = {72, 8}, [ROW_LAST_USE] = {80, 8}, [ROW_END] = {88, 8}};

enum {
    ROW_MOST_LIMIT = 10,
    ROW_MOST_ERRORS = 255,
    ROW_MOST_PERIOD = WINDOW_MOST_PERIOD,
    ROW_LEAST_WAIT = 60,
    ROW_MOST_WAIT = 86400,
};

static inline uint64_t row_get(const uint8_t *row, enum row_field field)
{
    uint64_t number = 0;
    for (size_t i = 0; i < row_places[field].bytes; i++)
        number = number << 8 | row[row_places[field].at + i];
    return number;
}

static inline void row_put(uint8_t *row, enum row_field field, uint64_t number)
{
    otp_put_number(row + row_places[field].at, number, row_places[field].bytes);
}

static inline const uint8_t *row_key(const uint8_t *row)
{
    return row + row_places[ROW_KEY].at;
}

// Zeros behind it.
static inline void row_put_key(uint8_t *row, const uint8_t *key, size_t n)
{
    row_put(row, ROW_KEY_LEN, n);
    row_put(row, ROW_KEY, 0);
    memcpy(row + row_places[ROW_KEY].at, key, n);
}

// ---- well formed

static inline int row_has(const uint8_t *row, enum row_field field, uint64_t least, uint64_t most)
{
    uint64_t number = row_get(row, field);
    return least <= number && number <= most;
}

static inline int row_key_filled(const uint8_t *row)
{
    for (uint64_t i = row_get(row, ROW_KEY_LEN); i < OTP_MOST_KEY; i++)
        if (row_key(row)[i] != 0)
            return 0;
    return 1;
}

static inline int row_kind_kept(const uint8_t *row)
{
    if (row_get(row, ROW_KIND) == DL_TIME_TOKEN)
        return row_has(row, ROW_PERIOD, 1, ROW_MOST_PERIOD) && row_has(row, ROW_NEXT, 0, CLOCK_END + WINDOW_FARTHEST)
            && row_has(row, ROW_OFFSET, 0, 2 * WINDOW_FARTHEST);
    return row_get(row, ROW_KIND) == DL_EVENT_TOKEN && row_get(row, ROW_PERIOD) == 0
        && row_has(row, ROW_NEXT, 0, COUNT_END) && row_get(row, ROW_OFFSET) == WINDOW_FARTHEST;
}

static inline int row_times_kept(const uint8_t *row)
{
    int may_have_lock = row_get(row, ROW_STATE) == DL_STATE_LOCKED_BY_ERRORS;
    return row_has(row, ROW_WAIT, ROW_LEAST_WAIT, ROW_MOST_WAIT) && row_has(row, ROW_EXPIRY, 0, CLOCK_END)
        && row_has(row, ROW_LOCKED_AT, 0, may_have_lock ? CLOCK_END - 1 : 0) && row_has(row, ROW_LAST_USE, 0, CLOCK_END - 1);
}

static inline int row_well_formed(const uint8_t *row)
{
    return row_has(row, ROW_STATE, DL_STATE_EMPTY, DL_STATE_VOID) && row_has(row, ROW_ALGORITHM, OTP_SM3, OTP_SM4)
        && row_has(row, ROW_DIGITS, OTP_LEAST_DIGITS, OTP_MOST_DIGITS) && row_has(row, ROW_LIMIT, 1, ROW_MOST_LIMIT)
        && row_has(row, ROW_KEY_LEN, OTP_LEAST_KEY, OTP_MOST_KEY) && row_key_filled(row)
        && row_get(row, ROW_ZEROS) == 0 && row_get(row, ROW_END) == 0 && row_kind_kept(row) && row_times_kept(row);
}

#endif
