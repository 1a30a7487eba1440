// Single calls on one token, with the answers that the documents give them, written out without the reference; double presses have a table of their
// own in desk_presses.h.
#ifndef ROW_CORNERS_H
#define ROW_CORNERS_H

#include "plain_row.h"

// What is typed in where it is not the password of a step. The last three are the password of step 35 with a zero behind it, with
// another last digit, and as it is without a challenge.
enum { NOTHING = -1, WRONG_DIGITS = -2, SEVEN_DIGITS = -3, LAST_DIGIT_WRONG = -4, UNCHALLENGED = -5 };

enum { STEP_OFFSET = 2, REPORT = 3 };

struct corner {
    const char *name;
    struct change before[MOST_CHANGES]; // to the plain row
    size_t call; // a variant
    uint64_t now;
    int64_t first, second; // steps whose passwords are typed in
    uint16_t code;
    struct change after[MOST_CHANGES]; // by the call
    size_t values_set;
    int64_t values[DL_QUERY_VALUES];
};

#define LOCKED {ROW_STATE, 3}, {ROW_ERRORS, 5}, {ROW_LOCKED_AT, 1000}
#define EVENT {ROW_KIND, 1}, {ROW_PERIOD, 0}
#define NO_VALUES 0, {0}

static const struct corner corners[] = {
    {"wait over, then unlock", {LOCKED}, CALL_UNLOCK, 1060, 35, NOTHING, 0x8409, {OPENED}, NO_VALUES},
    {"wait over, then expired, before the digits are counted", {LOCKED, {ROW_EXPIRY, 1000}},
     CALL_LOGIN, 1060, SEVEN_DIGITS, NOTHING, 0x8408, {OPENED}, NO_VALUES},
    {"wait over, then void", {LOCKED}, CALL_VOID, 1060, NOTHING, NOTHING, 0x010a,
     {{ROW_STATE, 6}, {ROW_ERRORS, 0}, {ROW_LOCKED_AT, 0}, {ROW_KEY, 0}}, NO_VALUES},
    {"wait over, then suspend", {LOCKED}, CALL_SUSPEND, 1060, NOTHING, NOTHING, 0x0104,
     {{ROW_STATE, 5}, {ROW_ERRORS, 0}, {ROW_LOCKED_AT, 0}}, NO_VALUES},
    {"wait over, then lock", {LOCKED}, CALL_LOCK, 1060, NOTHING, NOTHING, 0x0102,
     {{ROW_STATE, 4}, {ROW_ERRORS, 0}, {ROW_LOCKED_AT, 0}}, NO_VALUES},
    {"wait not over, suspend", {LOCKED}, CALL_SUSPEND, 1059, NOTHING, NOTHING, 0x0104,
     {{ROW_STATE, 5}, {ROW_LOCKED_AT, 0}}, NO_VALUES},
    {"clock before the lock, suspend", {LOCKED}, CALL_SUSPEND, 999, NOTHING, NOTHING, 0x0104,
     {{ROW_STATE, 5}, {ROW_LOCKED_AT, 0}}, NO_VALUES},
    {"wait not over, void", {LOCKED}, CALL_VOID, 1059, NOTHING, NOTHING, 0x010a,
     {{ROW_STATE, 6}, {ROW_LOCKED_AT, 0}, {ROW_KEY, 0}}, NO_VALUES},
    {"sync of a locked token", {LOCKED}, SYNC_MEDIUM, 1030, 34, 35, 0x0108,
     {ACCEPTED(35, 1030), OFFSET(1)}, STEP_OFFSET, {35, 1}},
    {"unlock of a locked token", {LOCKED}, CALL_UNLOCK, 1030, 35, NOTHING, 0x0103,
     {{ROW_STATE, 2}, {ROW_LOCKED_AT, 0}, ACCEPTED(35, 1030), OFFSET(1)}, STEP_OFFSET, {35, 1}},
    {"wait over, then a wrong login locks anew", {LOCKED, {ROW_LIMIT, 1}}, CALL_LOGIN, 1060, WRONG_DIGITS, NOTHING, 0x8002,
     {{ROW_ERRORS, 1}, {ROW_LOCKED_AT, 1060}}, NO_VALUES},
    {"wait over, query", {LOCKED, {ROW_LAST_USE, 900}}, CALL_QUERY, 1060, NOTHING, NOTHING, 0x010b,
     KEPT, REPORT, {2, 0, 900}},
    {"wait not over, query", {LOCKED, {ROW_LAST_USE, 900}}, CALL_QUERY, 1059, NOTHING, NOTHING, 0x010b,
     KEPT, REPORT, {3, 5, 900}},
    {"clock before the lock, query", {LOCKED}, CALL_QUERY, 999, NOTHING, NOTHING, 0x010b, KEPT, REPORT, {3, 5, 0}},
    {"set case 11, closed at 999", {LOCKED}, CALL_LOGIN, 999, 33, NOTHING, 0x8404, KEPT, NO_VALUES},
    {"set case 11, closed at 1059", {LOCKED}, CALL_LOGIN, 1059, 35, NOTHING, 0x8404, KEPT, NO_VALUES},
    {"set case 11, open at 1060", {LOCKED}, CALL_LOGIN, 1060, 35, NOTHING, 0x0001,
     {OPENED, {ROW_NEXT, 36}, {ROW_LAST_USE, 1060}}, STEP_OFFSET, {35, 0}},
    {"a wait of 61 seconds", {LOCKED, {ROW_WAIT, 61}}, CALL_LOGIN, 1060, 35, NOTHING, 0x8404, KEPT, NO_VALUES},
    {"clock 0 before the lock", {LOCKED}, CALL_LOGIN, 0, 0, NOTHING, 0x8404, KEPT, NO_VALUES},
    {"set case 12", {{ROW_LIMIT, 1}}, CALL_LOGIN, 1060, WRONG_DIGITS, NOTHING, 0x8002,
     {{ROW_STATE, 3}, {ROW_ERRORS, 1}, {ROW_LOCKED_AT, 1060}}, NO_VALUES},
    {"no wait opens a hand lock", {{ROW_STATE, 4}, {ROW_ERRORS, 5}}, CALL_LOGIN, 1060, 35, NOTHING, 0x8404, KEPT, NO_VALUES},
    {"no wait opens a hand lock, query", {{ROW_STATE, 4}, {ROW_ERRORS, 5}}, CALL_QUERY, 1060, NOTHING, NOTHING, 0x010b,
     KEPT, REPORT, {4, 5, 0}},
    {"errors above the limit, right login", {{ROW_ERRORS, 9}, {ROW_LIMIT, 3}}, CALL_LOGIN, 1060, 35, NOTHING, 0x0001,
     {ACCEPTED(35, 1060)}, STEP_OFFSET, {35, 0}},
    {"errors above the limit, wrong login", {{ROW_ERRORS, 9}, {ROW_LIMIT, 3}},
     CALL_LOGIN, 1060, WRONG_DIGITS, NOTHING, 0x8002,
     {{ROW_STATE, 3}, {ROW_ERRORS, 10}, {ROW_LOCKED_AT, 1060}}, NO_VALUES},
    {"one error below the limit, used challenge login", {{ROW_ERRORS, 4}, {ROW_NEXT, 36}},
     CALL_CHALLENGE_LOGIN, 1060, 34,
     NOTHING, 0x8004, {{ROW_STATE, 3}, {ROW_ERRORS, 5}, {ROW_LOCKED_AT, 1060}}, NO_VALUES},
    {"two errors below the limit", {{ROW_ERRORS, 3}}, CALL_LOGIN, 1060, WRONG_DIGITS, NOTHING, 0x8002,
     {{ROW_ERRORS, 4}}, NO_VALUES},
    {"errors 254, wrong login", {{ROW_ERRORS, 254}}, CALL_LOGIN, 1060, WRONG_DIGITS, NOTHING, 0x8002,
     {{ROW_STATE, 3}, {ROW_ERRORS, 255}, {ROW_LOCKED_AT, 1060}}, NO_VALUES},
    {"errors held at 255, wrong login", {{ROW_ERRORS, 255}}, CALL_LOGIN, 1060, WRONG_DIGITS, NOTHING, 0x8002,
     {{ROW_STATE, 3}, {ROW_LOCKED_AT, 1060}}, NO_VALUES},
    {"wrong unlock", {{ROW_STATE, 4}, {ROW_ERRORS, 4}}, CALL_UNLOCK, 1060, WRONG_DIGITS, NOTHING, 0x8102,
     {{ROW_ERRORS, 5}}, NO_VALUES},
    {"wrong unlock of a locked token", {LOCKED}, CALL_UNLOCK, 1030, WRONG_DIGITS, NOTHING, 0x8102,
     {{ROW_ERRORS, 6}}, NO_VALUES},
    {"wrong resume", {{ROW_STATE, 5}, {ROW_ERRORS, 4}}, CALL_RESUME, 1060, WRONG_DIGITS, NOTHING, 0x8102,
     {{ROW_ERRORS, 5}}, NO_VALUES},
    {"wrong activate", {{ROW_STATE, 1}, {ROW_ERRORS, 4}}, CALL_ACTIVATE, 1060, 35, WRONG_DIGITS, 0x8102,
     {{ROW_ERRORS, 5}}, NO_VALUES},
    {"wrong sync", {{ROW_ERRORS, 4}}, SYNC_MEDIUM, 1060, 35, WRONG_DIGITS, 0x8105, {{ROW_ERRORS, 5}}, NO_VALUES},
    {"wrong large sync, errors held at 255", {{ROW_ERRORS, 255}}, SYNC_LARGE, 1060, WRONG_DIGITS, 36, 0x8105,
     KEPT, NO_VALUES},
    {"a pair is fresh by its first step", {{ROW_NEXT, 101}}, SYNC_MEDIUM, 3030, 100, 101, 0x8104,
     {{ROW_ERRORS, 1}}, NO_VALUES},
    {"a pair is fresh by its first step, large", {{ROW_NEXT, 101}}, SYNC_LARGE, 3030, 100, 101, 0x8104,
     {{ROW_ERRORS, 1}}, NO_VALUES},
    {"a pair from next on", {{ROW_NEXT, 101}}, SYNC_MEDIUM, 3030, 101, 102, 0x0108,
     {ACCEPTED(102, 3030), OFFSET(1)}, STEP_OFFSET, {102, 1}},
    {"event, the count before next", {EVENT, {ROW_NEXT, 5}}, CALL_LOGIN, 1060, 4, NOTHING, 0x8004, KEPT, NO_VALUES},
    {"event, the one before it", {EVENT, {ROW_NEXT, 5}, {ROW_ERRORS, 1}}, CALL_LOGIN, 1060, 3, NOTHING, 0x8002,
     {{ROW_ERRORS, 2}}, NO_VALUES},
    {"event, the last count", {EVENT, {ROW_NEXT, COUNT_END - 1}}, CALL_LOGIN, 1060, COUNT_END - 1, NOTHING, 0x0001,
     {ACCEPTED(COUNT_END - 1, 1060)}, STEP_OFFSET, {COUNT_END - 1, 0}},
    {"event, nothing is fresh after it", {EVENT, {ROW_NEXT, COUNT_END}}, CALL_LOGIN, 1060, COUNT_END - 1, NOTHING, 0x8004,
     KEPT, NO_VALUES},
    {"event, no pair after it", {EVENT, {ROW_NEXT, COUNT_END}}, SYNC_LARGE, 1060, COUNT_END - 2, COUNT_END - 1, 0x8105,
     {{ROW_ERRORS, 1}}, NO_VALUES},
    {"event, no pair round the end", {EVENT, {ROW_NEXT, COUNT_END}}, SYNC_LARGE, 1060, COUNT_END - 1, 0, 0x8105,
     {{ROW_ERRORS, 1}}, NO_VALUES},
    {"period 1, d -600, clock 0: no candidates", {{ROW_PERIOD, 1}, OFFSET(-600)}, CALL_LOGIN, 0, 0, NOTHING, 0x8002,
     {{ROW_ERRORS, 1}}, NO_VALUES},
    {"period 1, d -2, clock 0: step 0", {{ROW_PERIOD, 1}, OFFSET(-2), {ROW_LAST_USE, 7}}, CALL_LOGIN, 0, 0, NOTHING, 0x0001,
     {ACCEPTED(0, 0), OFFSET(0)}, STEP_OFFSET, {0, 0}},
    {"period 1, d -2, clock 0: not step 1", {{ROW_PERIOD, 1}, OFFSET(-2)}, CALL_LOGIN, 0, 1, NOTHING, 0x8002,
     {{ROW_ERRORS, 1}}, NO_VALUES},
    {"period 1, d 600: the last step", {{ROW_PERIOD, 1}, OFFSET(600)}, CALL_LOGIN, 1000, 1600, NOTHING, 0x0001,
     {ACCEPTED(1600, 1000)}, STEP_OFFSET, {1600, 600}},
    {"period 1, d 600: the one after it", {{ROW_PERIOD, 1}, OFFSET(600)}, CALL_LOGIN, 1000, 1601, NOTHING, 0x8002,
     {{ROW_ERRORS, 1}}, NO_VALUES},
    {"period 1, d 600: a pair across", {{ROW_PERIOD, 1}, OFFSET(600)}, SYNC_LARGE, 1000, 1600, 1601, 0x8105,
     {{ROW_ERRORS, 1}}, NO_VALUES},
    {"period 1, the last clock: a step past 2^40", {{ROW_PERIOD, 1}}, CALL_LOGIN, CLOCK_END - 1, CLOCK_END + 1, NOTHING, 0x0001,
     {ACCEPTED(CLOCK_END + 1, CLOCK_END - 1), OFFSET(2)}, STEP_OFFSET, {CLOCK_END + 1, 2}},
    {"7 digits, login", KEPT, CALL_LOGIN, 1060, SEVEN_DIGITS, NOTHING, 0x8002, {{ROW_ERRORS, 1}}, NO_VALUES},
    {"7 digits, challenge login", KEPT, CALL_CHALLENGE_LOGIN, 1060, SEVEN_DIGITS, NOTHING, 0x8002,
     {{ROW_ERRORS, 1}}, NO_VALUES},
    {"7 digits, unlock", {{ROW_STATE, 4}}, CALL_UNLOCK, 1060, SEVEN_DIGITS, NOTHING, 0x8102, {{ROW_ERRORS, 1}}, NO_VALUES},
    {"7 digits, resume", {{ROW_STATE, 5}}, CALL_RESUME, 1060, SEVEN_DIGITS, NOTHING, 0x8102, {{ROW_ERRORS, 1}}, NO_VALUES},
    {"7 digits, activate", {{ROW_STATE, 1}}, CALL_ACTIVATE, 1060, 35, SEVEN_DIGITS, 0x8102, {{ROW_ERRORS, 1}}, NO_VALUES},
    {"7 digits, sync", KEPT, SYNC_MEDIUM, 1060, SEVEN_DIGITS, 36, 0x8105, {{ROW_ERRORS, 1}}, NO_VALUES},
    {"7 digits, expired", {{ROW_EXPIRY, 1060}}, SYNC_LARGE, 1060, SEVEN_DIGITS, 36, 0x8408, KEPT, NO_VALUES},
    {"expired at now", {{ROW_EXPIRY, 1060}}, CALL_LOGIN, 1060, 35, NOTHING, 0x8408, KEPT, NO_VALUES},
    {"expired a second later", {{ROW_EXPIRY, 1061}}, CALL_LOGIN, 1060, 35, NOTHING, 0x0001,
     {ACCEPTED(35, 1060)}, STEP_OFFSET, {35, 0}},
    {"expired, but not checked", {{ROW_EXPIRY, 0}}, CALL_LOCK, 1060, NOTHING, NOTHING, 0x0102, {{ROW_STATE, 4}}, NO_VALUES},
    {"state before expiry", {{ROW_STATE, 6}, {ROW_EXPIRY, 0}}, CALL_LOGIN, 1060, 35, NOTHING, 0x8407, KEPT, NO_VALUES},
    {"void twice", {{ROW_STATE, 6}, {ROW_KEY, 0}}, CALL_VOID, 1060, NOTHING, NOTHING, 0x8407, KEPT, NO_VALUES},
    {"void twice, of a row with a key", {{ROW_STATE, 6}}, CALL_VOID, 1060, NOTHING, NOTHING, 0x8407, KEPT, NO_VALUES},
    {"a void row may have a key", {{ROW_STATE, 6}}, CALL_QUERY, 1060, NOTHING, NOTHING, 0x010b, KEPT, REPORT, {6, 0, 0}},
    {"set case 7, step 0", {{ROW_PERIOD, 60}}, CALL_LOGIN, 119, 0, NOTHING, 0x0001,
     {ACCEPTED(0, 119), OFFSET(-1)}, STEP_OFFSET, {0, -1}},
    {"set case 7, step 3", {{ROW_PERIOD, 60}}, CALL_LOGIN, 119, 3, NOTHING, 0x0001,
     {ACCEPTED(3, 119), OFFSET(2)}, STEP_OFFSET, {3, 2}},
    {"set case 7, not step 4", {{ROW_PERIOD, 60}}, CALL_LOGIN, 119, 4, NOTHING, 0x8002, {{ROW_ERRORS, 1}}, NO_VALUES},
    {"set case 8, step 14", {EVENT, {ROW_NEXT, 5}}, CALL_LOGIN, 1060, 14, NOTHING, 0x0001,
     {ACCEPTED(14, 1060)}, STEP_OFFSET, {14, 0}},
    {"set case 8, not step 15", {EVENT, {ROW_NEXT, 5}}, CALL_LOGIN, 1060, 15, NOTHING, 0x8002, {{ROW_ERRORS, 1}}, NO_VALUES},
    {"set case 10, step 1598", {{ROW_PERIOD, 1}, OFFSET(600)}, CALL_LOGIN, 1000, 1598, NOTHING, 0x0001,
     {ACCEPTED(1598, 1000), OFFSET(598)}, STEP_OFFSET, {1598, 598}},
    {"set case 10, not step 1597", {{ROW_PERIOD, 1}, OFFSET(600)}, CALL_LOGIN, 1000, 1597, NOTHING, 0x8002,
     {{ROW_ERRORS, 1}}, NO_VALUES},
    {"the first step of the small window", {OFFSET(3)}, CALL_LOGIN, 3059, 102, NOTHING, 0x0001,
     {ACCEPTED(102, 3059), OFFSET(1)}, STEP_OFFSET, {102, 1}},
    {"the step before it", {OFFSET(3)}, CALL_LOGIN, 3059, 101, NOTHING, 0x8002, {{ROW_ERRORS, 1}}, NO_VALUES},
    {"offset -600", {{ROW_PERIOD, 1}, OFFSET(-599)}, CALL_LOGIN, 1000, 400, NOTHING, 0x0001,
     {ACCEPTED(400, 1000), OFFSET(-600)}, STEP_OFFSET, {400, -600}},
    {"the first step again", {{ROW_NEXT, 36}}, CALL_LOGIN, 1060, 34, NOTHING, 0x8004, {{ROW_ERRORS, 1}}, NO_VALUES},
    {"challenge login", {{ROW_ERRORS, 2}}, CALL_CHALLENGE_LOGIN, 1060, 36, NOTHING, 0x0002,
     {ACCEPTED(36, 1060), OFFSET(1)}, STEP_OFFSET, {36, 1}},
    {"challenge login without its challenge", KEPT, CALL_CHALLENGE_LOGIN, 1060, UNCHALLENGED, NOTHING, 0x8002,
     {{ROW_ERRORS, 1}}, NO_VALUES},
    {"unlock of a hand lock", {{ROW_STATE, 4}, {ROW_ERRORS, 200}}, CALL_UNLOCK, 1060, 35, NOTHING, 0x0103,
     {{ROW_STATE, 2}, ACCEPTED(35, 1060)}, STEP_OFFSET, {35, 0}},
    {"resume", {{ROW_STATE, 5}, {ROW_ERRORS, 5}}, CALL_RESUME, 1060, 33, NOTHING, 0x0105,
     {{ROW_STATE, 2}, ACCEPTED(33, 1060), OFFSET(-2)}, STEP_OFFSET, {33, -2}},
    {"used unlock", {{ROW_STATE, 4}, {ROW_NEXT, 36}}, CALL_UNLOCK, 1060, 35, NOTHING, 0x8104, {{ROW_ERRORS, 1}}, NO_VALUES},
    {"used resume", {{ROW_STATE, 5}, {ROW_NEXT, 36}}, CALL_RESUME, 1060, 35, NOTHING, 0x8104, {{ROW_ERRORS, 1}}, NO_VALUES},
    {"used activate", {{ROW_STATE, 1}, {ROW_NEXT, 36}}, CALL_ACTIVATE, 1060, 35, 36, 0x8104, {{ROW_ERRORS, 1}}, NO_VALUES},
    {"activate, the last pair of the large window", {{ROW_STATE, 1}}, CALL_ACTIVATE, 3030, 110, 111, 0x0101,
     {{ROW_STATE, 2}, ACCEPTED(111, 3030), OFFSET(10)}, STEP_OFFSET, {111, 10}},
    {"activate, the pair behind it", {{ROW_STATE, 1}}, CALL_ACTIVATE, 3030, 111, 112, 0x8102, {{ROW_ERRORS, 1}}, NO_VALUES},
    {"sync, the first pair of the medium window", {{ROW_STATE, 4}}, SYNC_MEDIUM, 3030, 96, 97, 0x0108,
     {ACCEPTED(97, 3030), OFFSET(-4)}, STEP_OFFSET, {97, -4}},
    {"sync, the last pair of the medium window", KEPT, SYNC_MEDIUM, 3030, 105, 106, 0x0108,
     {ACCEPTED(106, 3030), OFFSET(5)}, STEP_OFFSET, {106, 5}},
    {"sync, the pair behind it", KEPT, SYNC_MEDIUM, 3030, 106, 107, 0x8105, {{ROW_ERRORS, 1}}, NO_VALUES},
    {"the same in the large window", KEPT, SYNC_LARGE, 3030, 106, 107, 0x0108,
     {ACCEPTED(107, 3030), OFFSET(6)}, STEP_OFFSET, {107, 6}},
    {"event sync, the last pair of the medium window", {EVENT, {ROW_NEXT, 5}}, SYNC_MEDIUM, 3030, 23, 24, 0x0108,
     {ACCEPTED(24, 3030)}, STEP_OFFSET, {24, 0}},
    {"event sync, the pair behind it", {EVENT, {ROW_NEXT, 5}}, SYNC_MEDIUM, 3030, 24, 25, 0x8105, {{ROW_ERRORS, 1}}, NO_VALUES},
    {"event sync, the last pair of the large window", {EVENT, {ROW_NEXT, 5}}, SYNC_LARGE, 3030, 53, 54, 0x0108,
     {ACCEPTED(54, 3030)}, STEP_OFFSET, {54, 0}},
    {"event sync, the pair behind it in the large window", {EVENT, {ROW_NEXT, 5}}, SYNC_LARGE, 3030, 54, 55, 0x8105,
     {{ROW_ERRORS, 1}}, NO_VALUES},
    {"event sync, the pair at next", {EVENT, {ROW_NEXT, 5}}, SYNC_LARGE, 3030, 4, 5, 0x8104, {{ROW_ERRORS, 1}}, NO_VALUES},
    {"a pair with a step left out", KEPT, SYNC_LARGE, 3030, 100, 102, 0x8105, {{ROW_ERRORS, 1}}, NO_VALUES},
    {"a pair of one step", KEPT, SYNC_LARGE, 3030, 100, 100, 0x8105, {{ROW_ERRORS, 1}}, NO_VALUES},
    {"one digit wrong", KEPT, CALL_LOGIN, 1060, LAST_DIGIT_WRONG, NOTHING, 0x8002, {{ROW_ERRORS, 1}}, NO_VALUES},
    {"login of a token not activated", {{ROW_STATE, 1}}, CALL_LOGIN, 1060, 35, NOTHING, 0x8406, KEPT, NO_VALUES},
    {"login of a suspended token", {{ROW_STATE, 5}}, CALL_LOGIN, 1060, 35, NOTHING, 0x8405, KEPT, NO_VALUES},
    {"activate of a ready token", KEPT, CALL_ACTIVATE, 1060, 35, 36, 0x8409, KEPT, NO_VALUES},
    {"resume of a ready token", KEPT, CALL_RESUME, 1060, 35, NOTHING, 0x8409, KEPT, NO_VALUES},
    {"lock of a locked token", {{ROW_STATE, 4}}, CALL_LOCK, 1060, NOTHING, NOTHING, 0x8404, KEPT, NO_VALUES},
    {"suspend of a suspended token", {{ROW_STATE, 5}}, CALL_SUSPEND, 1060, NOTHING, NOTHING, 0x8405, KEPT, NO_VALUES},
    {"void of a token not activated", {{ROW_STATE, 1}}, CALL_VOID, 1060, NOTHING, NOTHING, 0x010a,
     {{ROW_STATE, 6}, {ROW_KEY, 0}}, NO_VALUES},
    {"query of a token not activated", {{ROW_STATE, 1}, {ROW_ERRORS, 255}, {ROW_LAST_USE, CLOCK_END - 1}}, CALL_QUERY, 0,
     NOTHING, NOTHING, 0x010b, KEPT, REPORT, {1, 255, CLOCK_END - 1}},
    {"query of a suspended token", {{ROW_STATE, 5}, {ROW_EXPIRY, 0}}, CALL_QUERY, 1060, NOTHING, NOTHING, 0x010b,
     KEPT, REPORT, {5, 0, 0}},
    {"not well formed", {{ROW_WAIT, 59}}, CALL_QUERY, 1060, NOTHING, NOTHING, 0x8403, KEPT, NO_VALUES},
    {"not well formed, login", {{ROW_LIMIT, 0}}, CALL_LOGIN, 1060, 35, NOTHING, 0x8403, KEPT, NO_VALUES},
    {"not well formed, before the state is looked at", {{ROW_STATE, 5}, {ROW_LIMIT, 0}}, CALL_LOGIN, 1060, 35, NOTHING, 0x8403,
     KEPT, NO_VALUES},
    {"no password typed, before the row is looked at", {{ROW_LIMIT, 0}}, CALL_LOGIN, 1060, NOTHING, NOTHING, 0x9005,
     KEPT, NO_VALUES},
    {"no second password typed, before the state is looked at", {{ROW_STATE, 6}}, SYNC_LARGE, 1060, 35, NOTHING, 0x9005,
     KEPT, NO_VALUES},
    {"a row with state 0 is no row", {{ROW_STATE, 0}}, CALL_LOGIN, 1060, 35, NOTHING, 0x8402, KEPT, NO_VALUES},
    {"clock past its end, before the row is looked at", {{ROW_WAIT, 59}}, CALL_QUERY, CLOCK_END, NOTHING, NOTHING, 0x9005,
     KEPT, NO_VALUES}};

enum { CORNERS = sizeof corners / sizeof *corners };

static inline struct window_typed typed_as(struct window_call token, int64_t what)
{
    struct window_typed typed = {.bytes = "0000000", .len = what == WRONG_DIGITS ? 6 : 0};
    if (what == NOTHING || what == WRONG_DIGITS)
        return typed;
    if (what == UNCHALLENGED)
        token.challenge_len = 0;
    window_password(&token, what < 0 ? 35 : what, &typed);
    typed.len += what == SEVEN_DIGITS;
    if (what == LAST_DIGIT_WRONG)
        typed.bytes[5] = typed.bytes[5] == '0' ? '1' : '0';
    return typed;
}

// A row that is not well formed has a token all the same: the password's arguments are in range in every corner.
static inline void make_corner(struct row_case *made, const struct corner *corner, uint8_t algorithm)
{
    struct desk_call *call = &made->call;
    *call = (struct desk_call){.serial = 7, .now = corner->now, .table_len = DL_ROW_BYTES, .values_len = DL_QUERY_VALUES,
                               .challenge = {"quay", 4}};
    name_call(call, corner->call);
    make_plain_row(made->row, algorithm);
    apply(made->row, corner->before);
    struct window_call token = desk_token(made->row, call);
    call->password = typed_as(token, corner->first);
    call->following = typed_as(token, corner->second);
}

// The answer as it is written above; the row becomes what the call leaves.
static inline struct desk_answer corner_answer(uint8_t *row, const struct corner *corner)
{
    struct desk_answer answer = {.code = corner->code, .values_set = corner->values_set};
    apply(row, corner->after);
    memcpy(answer.values, corner->values, sizeof answer.values);
    return answer;
}

#endif
