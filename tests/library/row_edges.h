// The ends of the ranges of a row's numbers, and what spoils a row that is well formed (document 01, Part 4).
#ifndef ROW_EDGES_H
#define ROW_EDGES_H

#include "row_cases.h"

enum {
    TIME = 1 << DL_TIME_TOKEN,
    COUNTS = 1 << DL_EVENT_TOKEN,
    BOTH = TIME | COUNTS,
    IN_ERROR_LOCK = 1 << DL_STATE_LOCKED_BY_ERRORS,
};

// A value of a field, and the kinds and states of tokens whose rows may have it.
struct edge {
    enum row_field field;
    uint64_t value;
    unsigned kinds, states;
};

static const struct edge edges[] = {
    {ROW_STATE, 1, BOTH, IN_ANY}, {ROW_STATE, 6, BOTH, IN_ANY}, {ROW_STATE, 7, 0, 0}, {ROW_STATE, 255, 0, 0},
    {ROW_KIND, 0, TIME, IN_ANY}, {ROW_KIND, 1, COUNTS, IN_ANY}, {ROW_KIND, 2, 0, 0}, {ROW_KIND, 255, 0, 0},
    {ROW_ALGORITHM, 2, 0, 0}, {ROW_ALGORITHM, 3, BOTH, IN_ANY}, {ROW_ALGORITHM, 4, BOTH, IN_ANY}, {ROW_ALGORITHM, 5, 0, 0},
    {ROW_DIGITS, 5, 0, 0}, {ROW_DIGITS, 6, BOTH, IN_ANY}, {ROW_DIGITS, 10, BOTH, IN_ANY}, {ROW_DIGITS, 11, 0, 0},
    {ROW_PERIOD, 0, COUNTS, IN_ANY}, {ROW_PERIOD, 1, TIME, IN_ANY}, {ROW_PERIOD, 60, TIME, IN_ANY}, {ROW_PERIOD, 61, 0, 0},
    {ROW_LIMIT, 0, 0, 0}, {ROW_LIMIT, 1, BOTH, IN_ANY}, {ROW_LIMIT, 10, BOTH, IN_ANY}, {ROW_LIMIT, 11, 0, 0},
    {ROW_ERRORS, 0, BOTH, IN_ANY}, {ROW_ERRORS, 255, BOTH, IN_ANY},
    {ROW_KEY_LEN, 0, 0, 0}, {ROW_KEY_LEN, 15, 0, 0}, {ROW_KEY_LEN, 16, BOTH, IN_ANY}, {ROW_KEY_LEN, 32, BOTH, IN_ANY},
    {ROW_KEY_LEN, 33, 0, 0}, {ROW_KEY_LEN, 255, 0, 0}, {ROW_SERIAL, 0, BOTH, IN_ANY}, {ROW_SERIAL, UINT64_MAX, BOTH, IN_ANY},
    {ROW_KEY, 0, BOTH, IN_ANY},
    {ROW_NEXT, 0, BOTH, IN_ANY}, {ROW_NEXT, UINT64_C(4294967296), BOTH, IN_ANY}, {ROW_NEXT, UINT64_C(4294967297), TIME, IN_ANY},
    {ROW_NEXT, UINT64_C(1099511628376), TIME, IN_ANY}, {ROW_NEXT, UINT64_C(1099511628377), 0, 0}, {ROW_NEXT, UINT64_MAX, 0, 0},
    {ROW_OFFSET, 0, TIME, IN_ANY}, {ROW_OFFSET, 599, TIME, IN_ANY}, {ROW_OFFSET, 600, BOTH, IN_ANY},
    {ROW_OFFSET, 601, TIME, IN_ANY}, {ROW_OFFSET, 1200, TIME, IN_ANY}, {ROW_OFFSET, 1201, 0, 0}, {ROW_OFFSET, UINT16_MAX, 0, 0},
    {ROW_ZEROS, 0, BOTH, IN_ANY}, {ROW_ZEROS, 1, 0, 0}, {ROW_ZEROS, 0x100, 0, 0},
    {ROW_WAIT, 0, 0, 0}, {ROW_WAIT, 59, 0, 0}, {ROW_WAIT, 60, BOTH, IN_ANY}, {ROW_WAIT, 86400, BOTH, IN_ANY},
    {ROW_WAIT, 86401, 0, 0}, {ROW_WAIT, UINT32_MAX, 0, 0},
    {ROW_EXPIRY, 0, BOTH, IN_ANY}, {ROW_EXPIRY, UINT64_C(1099511627776), BOTH, IN_ANY},
    {ROW_EXPIRY, UINT64_C(1099511627777), 0, 0}, {ROW_EXPIRY, UINT64_MAX, 0, 0},
    {ROW_LOCKED_AT, 0, BOTH, IN_ANY}, {ROW_LOCKED_AT, 1, BOTH, IN_ERROR_LOCK},
    {ROW_LOCKED_AT, UINT64_C(1) << 32, BOTH, IN_ERROR_LOCK}, {ROW_LOCKED_AT, UINT64_MAX, 0, 0},
    {ROW_LOCKED_AT, UINT64_C(1099511627775), BOTH, IN_ERROR_LOCK}, {ROW_LOCKED_AT, UINT64_C(1099511627776), 0, 0},
    {ROW_LAST_USE, 0, BOTH, IN_ANY}, {ROW_LAST_USE, UINT64_C(1099511627775), BOTH, IN_ANY},
    {ROW_LAST_USE, UINT64_C(1099511627776), 0, 0}, {ROW_LAST_USE, UINT64_MAX, 0, 0},
    {ROW_END, 0, BOTH, IN_ANY}, {ROW_END, 1, 0, 0}, {ROW_END, UINT64_C(1) << 56, 0, 0}};

enum { EDGES = sizeof edges / sizeof *edges };

static inline int may_have(const struct edge *edge, const uint8_t *row)
{
    return edge->kinds >> row_get(row, ROW_KIND) & edge->states >> row_get(row, ROW_STATE) & 1;
}

static inline void put_edge(struct row_case *made, const struct edge *edge)
{
    row_put(made->row, edge->field, edge->value);
    if (edge->field == ROW_SERIAL)
        made->call.serial = edge->value;
}

// Puts the value to a row of these kinds and states, or of any if no row may have it; what depends on it follows.
static inline void make_edge(struct row_case *made, const struct edge *edge)
{
    do
        make_case(made, any_token);
    while (row_get(made->row, ROW_STATE) == DL_STATE_EMPTY || (edge->kinds != 0 && !may_have(edge, made->row)));
    put_edge(made, edge);
    if (edge->field == ROW_STATE)
        row_put(made->row, ROW_LOCKED_AT, 0);
    if (edge->field == ROW_KEY_LEN && edge->value < OTP_MOST_KEY)
        memset(made->row + row_places[ROW_KEY].at + edge->value, 0, OTP_MOST_KEY - edge->value);
}

// A place that has to be zero: of 58 and 59, of 88 to 95, or of those behind the key, if there are any.
static inline size_t zero_place(const uint8_t *row)
{
    size_t key_len = row_get(row, ROW_KEY_LEN);
    if (one_in(3) && key_len < OTP_MOST_KEY)
        return row_places[ROW_KEY].at + key_len + random_below(OTP_MOST_KEY - key_len);
    return one_in(2) ? row_places[ROW_ZEROS].at + random_below(2) : row_places[ROW_END].at + random_below(8);
}

#endif
