// Document 01's tables of calls, states and windows, restated with every answer written out.
#ifndef ROW_TABLES_H
#define ROW_TABLES_H

#include "plain_row.h"

// What each call with right passwords answers in each state, 0 to 6.
static const uint16_t state_answers[VARIANTS][STATES] = {
    [CALL_LOAD] = {0x0140, 0x8411, 0x8411, 0x8411, 0x8411, 0x8411, 0x8411},
    [CALL_LOGIN] = {0x8402, 0x8406, 0x0001, 0x8404, 0x8404, 0x8405, 0x8407},
    [CALL_CHALLENGE_LOGIN] = {0x8402, 0x8406, 0x0002, 0x8404, 0x8404, 0x8405, 0x8407},
    [CALL_ACTIVATE] = {0x8402, 0x0101, 0x8409, 0x8404, 0x8404, 0x8405, 0x8407},
    [CALL_LOCK] = {0x8402, 0x8406, 0x0102, 0x8404, 0x8404, 0x8405, 0x8407},
    [CALL_UNLOCK] = {0x8402, 0x8406, 0x8409, 0x0103, 0x0103, 0x8405, 0x8407},
    [CALL_SUSPEND] = {0x8402, 0x8406, 0x0104, 0x0104, 0x0104, 0x8405, 0x8407},
    [CALL_RESUME] = {0x8402, 0x8406, 0x8409, 0x8404, 0x8404, 0x0105, 0x8407},
    [SYNC_MEDIUM] = {0x8402, 0x8406, 0x0108, 0x0108, 0x0108, 0x8405, 0x8407},
    [SYNC_LARGE] = {0x8402, 0x8406, 0x0108, 0x0108, 0x0108, 0x8405, 0x8407},
    [CALL_VOID] = {0x8402, 0x010a, 0x010a, 0x010a, 0x010a, 0x010a, 0x8407},
    [CALL_QUERY] = {0x8402, 0x010b, 0x010b, 0x010b, 0x010b, 0x010b, 0x010b}};

// The state that the call leaves.
static const uint8_t states_after[VARIANTS][STATES] = {
    [CALL_LOAD] = {1, 1, 2, 3, 4, 5, 6}, [CALL_LOGIN] = {0, 1, 2, 3, 4, 5, 6}, [CALL_CHALLENGE_LOGIN] = {0, 1, 2, 3, 4, 5, 6},
    [CALL_ACTIVATE] = {0, 2, 2, 3, 4, 5, 6}, [CALL_LOCK] = {0, 1, 4, 3, 4, 5, 6}, [CALL_UNLOCK] = {0, 1, 2, 2, 2, 5, 6},
    [CALL_SUSPEND] = {0, 1, 5, 5, 5, 5, 6}, [CALL_RESUME] = {0, 1, 2, 3, 4, 2, 6}, [SYNC_MEDIUM] = {0, 1, 2, 3, 4, 5, 6},
    [SYNC_LARGE] = {0, 1, 2, 3, 4, 5, 6}, [CALL_VOID] = {0, 6, 6, 6, 6, 6, 6}, [CALL_QUERY] = {0, 1, 2, 3, 4, 5, 6}};

// The windows of the checked calls: steps either way for a time token, steps ahead for an event token; and the codes of the answers.
struct checked_line {
    size_t call;
    uint8_t state, is_pair;
    int64_t widths[2]; // by kind
    uint16_t success, used, wrong;
};

static const struct checked_line checked_lines[] = {
    {CALL_LOGIN, 2, 0, {2, 10}, 0x0001, 0x8004, 0x8002},
    {CALL_CHALLENGE_LOGIN, 2, 0, {2, 10}, 0x0002, 0x8004, 0x8002},
    {CALL_ACTIVATE, 1, 1, {10, 50}, 0x0101, 0x8104, 0x8102},
    {CALL_UNLOCK, 4, 0, {2, 10}, 0x0103, 0x8104, 0x8102},
    {CALL_RESUME, 5, 0, {2, 10}, 0x0105, 0x8104, 0x8102},
    {SYNC_MEDIUM, 2, 1, {5, 20}, 0x0108, 0x8104, 0x8105},
    {SYNC_LARGE, 2, 1, {10, 50}, 0x0108, 0x8104, 0x8105}};

enum { CHECKED_LINES = sizeof checked_lines / sizeof *checked_lines, TABLE_STEP = 100, TABLE_NEXT = 99, TABLE_REACH = 60 };

// For a token whose clock is at step 100 and whose first unused step is 99.
static inline uint16_t checked_answer(const struct checked_line *line, uint8_t kind, int64_t step)
{
    int64_t width = line->widths[kind];
    int64_t first = kind == DL_TIME_TOKEN ? TABLE_STEP - width : TABLE_NEXT - 1;
    int64_t last = kind == DL_TIME_TOKEN ? TABLE_STEP + width : TABLE_NEXT + width - 1;
    if (step < first || step + line->is_pair > last)
        return line->wrong;
    return step < TABLE_NEXT ? line->used : line->success;
}

// This call on a plain row in this state, with the password of the step and, where it has two, of the one after it.
static inline void make_table_call(struct row_case *made, size_t variant, uint8_t state, uint8_t kind, int64_t step)
{
    struct desk_call *call = &made->call;
    *call = (struct desk_call){.serial = 7, .now = 30 * TABLE_STEP, .table_len = DL_ROW_BYTES, .values_len = DL_QUERY_VALUES,
                               .challenge = {"quay", 4}};
    name_call(call, variant);
    random_load(&call->load);
    make_plain_row(made->row, DL_ALGORITHM_SM4);
    row_put(made->row, ROW_STATE, state);
    row_put(made->row, ROW_KIND, kind);
    row_put(made->row, ROW_PERIOD, kind == DL_TIME_TOKEN ? 30 : 0);
    row_put(made->row, ROW_NEXT, TABLE_NEXT);
    row_put(made->row, ROW_LOCKED_AT, state == 3 ? call->now - 59 : 0);
    struct window_call token = desk_token(made->row, call);
    window_password(&token, step, &call->password);
    window_password(&token, step + 1, &call->following);
}

#endif
