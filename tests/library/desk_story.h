// One list of calls on two rows that goes through every call and most answers, each answer written out without the reference.
#ifndef DESK_STORY_H
#define DESK_STORY_H

#include "row_cases.h"

enum { NO_STEP = -1, STORY_ROWS = 2 };

// Both tokens have the same key, so that a password of one is also the other's.
static const struct desk_load story_token = {
    .kind = DL_TIME_TOKEN, .algorithm = DL_ALGORITHM_SM3, .digits = 6, .period = 30, .limit = 2,
    .key = "the key of both tokens", .key_len = 22, .wait = 60, .expiry = 5000};

struct told_call {
    size_t call; // a variant
    uint64_t serial, now;
    int64_t first, second; // steps whose passwords are typed in
    uint16_t code;
    int64_t values[DL_QUERY_VALUES];
};

static const struct told_call story[] = {
    {CALL_QUERY, 7, 1060, NO_STEP, NO_STEP, 0x8402, {0}},
    {CALL_LOAD, 7, 0, NO_STEP, NO_STEP, 0x0140, {0}},
    {CALL_LOAD, 7, 0, NO_STEP, NO_STEP, 0x8411, {0}},
    {CALL_LOAD, 8, 0, NO_STEP, NO_STEP, 0x0140, {0}},
    {CALL_LOAD, 9, 0, NO_STEP, NO_STEP, 0x8410, {0}},
    {CALL_LOGIN, 7, 1060, 35, NO_STEP, 0x8406, {0}},
    {CALL_ACTIVATE, 7, 1060, 36, 35, 0x8102, {0}},
    {CALL_ACTIVATE, 7, 1060, 35, 36, 0x0101, {36, 1}},
    {CALL_ACTIVATE, 7, 1060, 36, 37, 0x8409, {0}},
    {CALL_LOGIN, 7, 1060, 36, NO_STEP, 0x8004, {0}},
    {CALL_LOGIN, 7, 1060, 37, NO_STEP, 0x0001, {37, 2}},
    // a double press is no error, an older step is one
    {CALL_LOGIN, 7, 1060, 37, NO_STEP, 0x8004, {0}},
    {CALL_QUERY, 7, 1060, NO_STEP, NO_STEP, 0x010b, {2, 0, 1060}},
    {CALL_LOGIN, 7, 1060, 36, NO_STEP, 0x8004, {0}},
    // accepted for the other token all the same
    {CALL_ACTIVATE, 8, 1060, 36, 37, 0x0101, {37, 2}},
    {CALL_QUERY, 7, 1060, NO_STEP, NO_STEP, 0x010b, {2, 1, 1060}},
    // the clock goes back; the second error locks
    {CALL_LOGIN, 7, 1000, 38, NO_STEP, 0x8002, {0}},
    {CALL_LOGIN, 7, 1059, 38, NO_STEP, 0x8404, {0}},
    {CALL_QUERY, 7, 1059, NO_STEP, NO_STEP, 0x010b, {3, 2, 1060}},
    {SYNC_MEDIUM, 7, 1059, 37, 38, 0x8104, {0}},
    {SYNC_MEDIUM, 7, 1059, 42, 43, 0x8105, {0}},
    {SYNC_LARGE, 7, 1059, 38, 39, 0x0108, {39, 4}},
    {CALL_QUERY, 7, 1059, NO_STEP, NO_STEP, 0x010b, {3, 0, 1059}},
    // the wait is over
    {CALL_LOGIN, 7, 1060, 40, NO_STEP, 0x0001, {40, 5}},
    {CALL_LOCK, 7, 1060, NO_STEP, NO_STEP, 0x0102, {0}},
    {CALL_LOGIN, 7, 4000, 41, NO_STEP, 0x8404, {0}},
    {CALL_UNLOCK, 7, 1090, 41, NO_STEP, 0x0103, {41, 5}},
    {CALL_SUSPEND, 7, 1090, NO_STEP, NO_STEP, 0x0104, {0}},
    {CALL_LOGIN, 7, 1120, 42, NO_STEP, 0x8405, {0}},
    {CALL_RESUME, 7, 1120, 42, NO_STEP, 0x0105, {42, 5}},
    {CALL_CHALLENGE_LOGIN, 7, 1150, 41, NO_STEP, 0x8004, {0}},
    {CALL_CHALLENGE_LOGIN, 7, 1150, 43, NO_STEP, 0x0002, {43, 5}},
    {CALL_LOGIN, 7, 5000, 172, NO_STEP, 0x8408, {0}},
    {CALL_VOID, 7, 5000, NO_STEP, NO_STEP, 0x010a, {0}},
    {CALL_LOGIN, 7, 1180, 44, NO_STEP, 0x8407, {0}},
    {CALL_QUERY, 7, 1180, NO_STEP, NO_STEP, 0x010b, {6, 0, 1150}},
    {CALL_LOAD, 7, 0, NO_STEP, NO_STEP, 0x8411, {0}},
    {CALL_LOGIN, 8, 1090, 38, NO_STEP, 0x0001, {38, 2}},
    {CALL_QUERY, 8, CLOCK_END, NO_STEP, NO_STEP, 0x9005, {0}}};

enum { STORY = sizeof story / sizeof *story };

static inline void type_told_step(const struct desk_call *call, int64_t step, struct window_typed *typed)
{
    uint8_t row[DL_ROW_BYTES];
    if (step == NO_STEP)
        return;
    desk_put_token(row, call->serial, &story_token);
    struct window_call token = desk_token(row, call);
    window_password(&token, step, typed);
}

static inline void make_told_call(struct desk_call *call, const struct told_call *told)
{
    *call = (struct desk_call){.table_len = STORY_ROWS * DL_ROW_BYTES, .serial = told->serial, .now = told->now,
                               .values_len = DL_QUERY_VALUES, .challenge = {"quay", 4}, .load = story_token};
    name_call(call, told->call);
    type_told_step(call, told->first, &call->password);
    type_told_step(call, told->second, &call->following);
}

#endif
