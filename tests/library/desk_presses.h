// Double presses (document 02, request 4): the request's table and calls near it, with the answers and rows that the documents give them,
// written out without the reference.
#ifndef DESK_PRESSES_H
#define DESK_PRESSES_H

#include "desk_calls.h"
#include "row_corners.h"

// ---- the request's table

#define NEXT(step) {ROW_NEXT, step}
#define LIMIT(errors) {ROW_LIMIT, errors}
#define ERRORS(errors) {ROW_ERRORS, errors}
#define LOCKED_SINCE(clock) {ROW_STATE, 3}, {ROW_LOCKED_AT, clock}

// At clock 3000 the step is 100.
static const struct corner press_corners[] = {
    {"limit 1", {NEXT(101), LIMIT(1)}, CALL_LOGIN, 3000, 100, NOTHING, 0x8004, KEPT, NO_VALUES},
    {"limit 1, an older step", {NEXT(101), LIMIT(1)}, CALL_LOGIN, 3000, 99, NOTHING, 0x8004, {ERRORS(1), LOCKED_SINCE(3000)}, NO_VALUES},
    {"an older step below the limit", {NEXT(101)}, CALL_LOGIN, 3000, 98, NOTHING, 0x8004, {ERRORS(1)}, NO_VALUES},
    {"one error below the limit", {NEXT(101), ERRORS(4)}, CALL_LOGIN, 3000, 100, NOTHING, 0x8004, KEPT, NO_VALUES},
    {"errors at the limit", {NEXT(101), ERRORS(5)}, CALL_LOGIN, 3000, 100, NOTHING, 0x8004, KEPT, NO_VALUES},
    {"errors above the limit", {NEXT(101), ERRORS(9), LIMIT(3)}, CALL_LOGIN, 3000, 100, NOTHING, 0x8004, KEPT, NO_VALUES},
    {"errors above the limit, an older step", {NEXT(101), ERRORS(9), LIMIT(3)}, CALL_LOGIN, 3000, 99, NOTHING, 0x8004,
     {ERRORS(10), LOCKED_SINCE(3000)}, NO_VALUES},
    {"errors 255", {NEXT(101), ERRORS(255)}, CALL_LOGIN, 3000, 100, NOTHING, 0x8004, KEPT, NO_VALUES},
    {"errors 255, an older step", {NEXT(101), ERRORS(255)}, CALL_LOGIN, 3000, 99, NOTHING, 0x8004, {LOCKED_SINCE(3000)}, NO_VALUES},
    {"next - 1 is a candidate for the last second", {NEXT(101)}, CALL_LOGIN, 3089, 100, NOTHING, 0x8004, KEPT, NO_VALUES},
    {"next - 1 is a candidate no more", {NEXT(101)}, CALL_LOGIN, 3090, 100, NOTHING, 0x8002, {ERRORS(1)}, NO_VALUES},
    {"next - 1 is a candidate for the first second", {NEXT(101)}, CALL_LOGIN, 2940, 100, NOTHING, 0x8004, KEPT, NO_VALUES},
    {"next - 1 is no candidate yet", {NEXT(101)}, CALL_LOGIN, 2939, 100, NOTHING, 0x8002, {ERRORS(1)}, NO_VALUES},
    {"next - 1 is a candidate by the offset", {NEXT(101), OFFSET(-7)}, CALL_LOGIN, 3210, 100, NOTHING, 0x8004, KEPT, NO_VALUES},
    {"next far ahead", {NEXT(200)}, CALL_LOGIN, 3000, 100, NOTHING, 0x8004, {ERRORS(1)}, NO_VALUES},
    {"next just past the window", {NEXT(104)}, CALL_LOGIN, 3000, 102, NOTHING, 0x8004, {ERRORS(1)}, NO_VALUES},
    {"a fresh step", {NEXT(101), ERRORS(4)}, CALL_LOGIN, 3000, 101, NOTHING, 0x0001, {ACCEPTED(101, 3000), OFFSET(1)}, STEP_OFFSET, {101, 1}},

    {"wait not over", {NEXT(101), ERRORS(5), LOCKED_SINCE(2990)}, CALL_LOGIN, 3000, 100, NOTHING, 0x8404, KEPT, NO_VALUES},
    {"wait not over by a second", {NEXT(101), ERRORS(5), LOCKED_SINCE(2941)}, CALL_LOGIN, 3000, 100, NOTHING, 0x8404, KEPT, NO_VALUES},
    {"clock before the lock", {NEXT(101), ERRORS(5), LOCKED_SINCE(3001)}, CALL_LOGIN, 3000, 100, NOTHING, 0x8404, KEPT, NO_VALUES},
    {"wait just over", {NEXT(101), ERRORS(5), LOCKED_SINCE(2940)}, CALL_LOGIN, 3000, 100, NOTHING, 0x8004, {OPENED}, NO_VALUES},
    {"wait over", {NEXT(101), ERRORS(5), LOCKED_SINCE(2900)}, CALL_LOGIN, 3000, 100, NOTHING, 0x8004, {OPENED}, NO_VALUES},
    {"wait over, limit 1", {NEXT(101), ERRORS(255), LOCKED_SINCE(2900), LIMIT(1)}, CALL_LOGIN, 3000, 100, NOTHING, 0x8004, {OPENED}, NO_VALUES},
    {"wait over, limit 1, an older step", {NEXT(101), ERRORS(5), LOCKED_SINCE(2900), LIMIT(1)}, CALL_LOGIN, 3000, 99, NOTHING, 0x8004,
     {ERRORS(1), LOCKED_SINCE(3000)}, NO_VALUES},
    {"wait over, expired", {NEXT(101), ERRORS(5), LOCKED_SINCE(2900), {ROW_EXPIRY, 3000}}, CALL_LOGIN, 3000, 100, NOTHING, 0x8408,
     {OPENED}, NO_VALUES},

    {"challenge login", {NEXT(101), LIMIT(1)}, CALL_CHALLENGE_LOGIN, 3000, 100, NOTHING, 0x8004, KEPT, NO_VALUES},
    {"challenge login, an older step", {NEXT(101), LIMIT(1)}, CALL_CHALLENGE_LOGIN, 3000, 99, NOTHING, 0x8004,
     {ERRORS(1), LOCKED_SINCE(3000)}, NO_VALUES},
    {"challenge login, errors 255", {NEXT(101), ERRORS(255)}, CALL_CHALLENGE_LOGIN, 3000, 100, NOTHING, 0x8004, KEPT, NO_VALUES},
    {"challenge login, wait over", {NEXT(101), ERRORS(5), LOCKED_SINCE(2900)}, CALL_CHALLENGE_LOGIN, 3000, 100, NOTHING, 0x8004,
     {OPENED}, NO_VALUES},
    {"challenge login, expired", {NEXT(101), {ROW_EXPIRY, 3000}}, CALL_CHALLENGE_LOGIN, 3000, 100, NOTHING, 0x8408, KEPT, NO_VALUES},
    {"challenge login without its challenge", {NEXT(36)}, CALL_CHALLENGE_LOGIN, 1060, UNCHALLENGED, NOTHING, 0x8002, {ERRORS(1)}, NO_VALUES},
    {"7 digits that begin so", {NEXT(36)}, CALL_LOGIN, 1060, SEVEN_DIGITS, NOTHING, 0x8002, {ERRORS(1)}, NO_VALUES},
    {"one digit wrong", {NEXT(36)}, CALL_LOGIN, 1060, LAST_DIGIT_WRONG, NOTHING, 0x8002, {ERRORS(1)}, NO_VALUES},

    {"unlock", {NEXT(101), {ROW_STATE, 4}}, CALL_UNLOCK, 3000, 100, NOTHING, 0x8104, {ERRORS(1)}, NO_VALUES},
    {"unlock of a lock by errors", {NEXT(101), ERRORS(5), LOCKED_SINCE(2990)}, CALL_UNLOCK, 3000, 100, NOTHING, 0x8104, {ERRORS(6)}, NO_VALUES},
    {"unlock, wait over", {NEXT(101), ERRORS(5), LOCKED_SINCE(2900)}, CALL_UNLOCK, 3000, 100, NOTHING, 0x8409, {OPENED}, NO_VALUES},
    {"resume", {NEXT(101), {ROW_STATE, 5}}, CALL_RESUME, 3000, 100, NOTHING, 0x8104, {ERRORS(1)}, NO_VALUES},
    {"medium sync", {NEXT(101)}, SYNC_MEDIUM, 3000, 100, 101, 0x8104, {ERRORS(1)}, NO_VALUES},
    {"large sync", {NEXT(101)}, SYNC_LARGE, 3000, 100, 101, 0x8104, {ERRORS(1)}, NO_VALUES},
    {"activate", {NEXT(101), {ROW_STATE, 1}}, CALL_ACTIVATE, 3000, 100, 101, 0x8104, {ERRORS(1)}, NO_VALUES},

    {"expired", {NEXT(101), {ROW_EXPIRY, 3000}}, CALL_LOGIN, 3000, 100, NOTHING, 0x8408, KEPT, NO_VALUES},
    {"expired a second later", {NEXT(101), {ROW_EXPIRY, 3001}}, CALL_LOGIN, 3000, 100, NOTHING, 0x8004, KEPT, NO_VALUES},
    {"not activated", {NEXT(101), {ROW_STATE, 1}}, CALL_LOGIN, 3000, 100, NOTHING, 0x8406, KEPT, NO_VALUES},
    {"locked by hand", {NEXT(101), {ROW_STATE, 4}}, CALL_LOGIN, 3000, 100, NOTHING, 0x8404, KEPT, NO_VALUES},
    {"suspended", {NEXT(101), {ROW_STATE, 5}}, CALL_LOGIN, 3000, 100, NOTHING, 0x8405, KEPT, NO_VALUES},
    {"void", {NEXT(101), {ROW_STATE, 6}}, CALL_LOGIN, 3000, 100, NOTHING, 0x8407, KEPT, NO_VALUES},
    {"not well formed", {NEXT(101), {ROW_WAIT, 59}}, CALL_LOGIN, 3000, 100, NOTHING, 0x8403, KEPT, NO_VALUES},

    {"no step used", KEPT, CALL_LOGIN, 29, 0, NOTHING, 0x0001, {ACCEPTED(0, 29)}, STEP_OFFSET, {0, 0}},
    {"step 0", {NEXT(1), LIMIT(1)}, CALL_LOGIN, 29, 0, NOTHING, 0x8004, KEPT, NO_VALUES},
    {"600 steps from the clock's", {NEXT(1601), {ROW_PERIOD, 1}, OFFSET(600)}, CALL_LOGIN, 1000, 1600, NOTHING, 0x8004, KEPT, NO_VALUES},
    {"601 steps from it", {NEXT(1602), {ROW_PERIOD, 1}, OFFSET(600)}, CALL_LOGIN, 1000, 1601, NOTHING, 0x8002, {ERRORS(1)}, NO_VALUES},
    {"the last step of all", {NEXT(CLOCK_END + 600), {ROW_PERIOD, 1}, OFFSET(600)}, CALL_LOGIN, CLOCK_END - 1, CLOCK_END + 599, NOTHING,
     0x8004, KEPT, NO_VALUES},

    {"event", {EVENT, NEXT(5)}, CALL_LOGIN, 3000, 4, NOTHING, 0x8004, KEPT, NO_VALUES},
    {"event, limit 1", {EVENT, NEXT(101), LIMIT(1)}, CALL_LOGIN, 3000, 100, NOTHING, 0x8004, KEPT, NO_VALUES},
    {"event, limit 1, an older count", {EVENT, NEXT(101), LIMIT(1)}, CALL_LOGIN, 3000, 99, NOTHING, 0x8002,
     {ERRORS(1), LOCKED_SINCE(3000)}, NO_VALUES},
    {"event, errors above the limit", {EVENT, NEXT(101), ERRORS(9), LIMIT(3)}, CALL_LOGIN, 3000, 100, NOTHING, 0x8004, KEPT, NO_VALUES},
    {"event, errors 255", {EVENT, NEXT(101), ERRORS(255)}, CALL_LOGIN, 3000, 100, NOTHING, 0x8004, KEPT, NO_VALUES},
    {"event, wait not over", {EVENT, NEXT(101), ERRORS(5), LOCKED_SINCE(2990)}, CALL_LOGIN, 3000, 100, NOTHING, 0x8404, KEPT, NO_VALUES},
    {"event, wait over", {EVENT, NEXT(101), ERRORS(5), LOCKED_SINCE(2900)}, CALL_LOGIN, 3000, 100, NOTHING, 0x8004, {OPENED}, NO_VALUES},
    {"event, challenge login", {EVENT, NEXT(101), LIMIT(1)}, CALL_CHALLENGE_LOGIN, 3000, 100, NOTHING, 0x8004, KEPT, NO_VALUES},
    {"event, unlock", {EVENT, NEXT(101), {ROW_STATE, 4}}, CALL_UNLOCK, 3000, 100, NOTHING, 0x8104, {ERRORS(1)}, NO_VALUES},
    {"event, resume", {EVENT, NEXT(101), {ROW_STATE, 5}}, CALL_RESUME, 3000, 100, NOTHING, 0x8104, {ERRORS(1)}, NO_VALUES},
    {"event, sync", {EVENT, NEXT(101)}, SYNC_MEDIUM, 3000, 100, 101, 0x8104, {ERRORS(1)}, NO_VALUES},
    {"event, activate", {EVENT, NEXT(101), {ROW_STATE, 1}}, CALL_ACTIVATE, 3000, 100, 101, 0x8104, {ERRORS(1)}, NO_VALUES},
    {"event, expired", {EVENT, NEXT(101), {ROW_EXPIRY, 3000}}, CALL_LOGIN, 3000, 100, NOTHING, 0x8408, KEPT, NO_VALUES},
    {"event, no count used", {EVENT}, CALL_LOGIN, 3000, 0, NOTHING, 0x0001, {ACCEPTED(0, 3000)}, STEP_OFFSET, {0, 0}},
    {"event, count 0", {EVENT, NEXT(1), LIMIT(1)}, CALL_LOGIN, 3000, 0, NOTHING, 0x8004, KEPT, NO_VALUES},
    {"event, the last count", {EVENT, NEXT(COUNT_END), LIMIT(1)}, CALL_LOGIN, 3000, COUNT_END - 1, NOTHING, 0x8004, KEPT, NO_VALUES}};

enum { PRESS_CORNERS = sizeof press_corners / sizeof *press_corners };

// By both algorithms.
static inline void fixed_presses(void)
{
    struct row_case made;
    for (size_t i = 0; i < 2 * PRESS_CORNERS; i++) {
        const struct corner *corner = &press_corners[i / 2];
        make_corner(&made, corner, i % 2 == 0 ? DL_ALGORITHM_SM3 : DL_ALGORITHM_SM4);
        lay_row(made.row, 1);
        struct desk_answer answer = corner_answer(expect_kept_table(&made.call), corner);
        expect_written(&made.call, &answer, corner->name);
    }
    came_up(LOGGED_IN | OTHER_STATE | EXPIRED | USED);
}

// ---- lists of calls on a token of limit 1 and wait 60

static const struct change nothing[MOST_CHANGES] = KEPT, locked_at_3000[MOST_CHANGES] = {ERRORS(1), LOCKED_SINCE(3000)},
                           opened[MOST_CHANGES] = {OPENED};

// A token of either kind and algorithm, the login that is pressed twice, and the last step used.
struct presser {
    struct desk_load load;
    enum desk_name login;
    int64_t last_used;
};

enum { PRESSERS = 2 * 2 * 2 };

static inline struct presser presser_at(size_t number)
{
    uint8_t kind = (uint8_t)take(&number, 2), algorithm = (uint8_t)(DL_ALGORITHM_SM3 + take(&number, 2));
    return (struct presser){
        .load = {.kind = kind, .algorithm = algorithm, .digits = 6, .period = kind == DL_TIME_TOKEN ? 30 : 0, .limit = 1,
                 .key = "a key of 20 letters.", .key_len = 20, .wait = 60, .expiry = CLOCK_END},
        .login = number == 0 ? CALL_LOGIN : CALL_CHALLENGE_LOGIN, .last_used = kind == DL_TIME_TOKEN ? 101 : 41};
}

// With the password of the step and, for an activate, of the one after it.
static inline void make_press_call(struct desk_call *call, const struct presser *presser, enum desk_name name, uint64_t clock, int64_t step)
{
    uint8_t row[DL_ROW_BYTES];
    *call = (struct desk_call){.name = name, .serial = 7, .now = clock, .table_len = DL_ROW_BYTES, .values_len = DL_QUERY_VALUES,
                               .challenge = {"quay", 4}, .load = presser->load};
    desk_put_token(row, 7, &presser->load);
    struct window_call token = desk_token(row, call);
    window_password(&token, step, &call->password);
    window_password(&token, step + 1, &call->following);
}

// The refusal of the call, and what it changes of the row.
static inline void expect_refused(const struct desk_call *call, uint16_t code, const struct change changes[MOST_CHANGES])
{
    const struct desk_answer answer = {.code = code};
    apply(expect_kept_table(call), changes);
    expect_written(call, &answer, "a call of a list with double presses");
}

static inline void expect_login(const struct presser *presser, uint64_t clock, int64_t step, uint16_t code, const struct change changes[MOST_CHANGES])
{
    struct desk_call call;
    make_press_call(&call, presser, presser->login, clock, step);
    expect_refused(&call, code, changes);
}

// Activated at 3000 with the last two steps used.
static inline void begin_pressing(const struct presser *presser)
{
    struct desk_call call;
    clear_table(1);
    make_press_call(&call, presser, CALL_LOAD, 0, 0);
    require(compare(&call) == 0x0140, "the token is not loaded");
    make_press_call(&call, presser, CALL_ACTIVATE, 3000, presser->last_used - 1);
    require(compare(&call) == 0x0101 && lent_signed_words[0] == presser->last_used, "the token is not activated");
}

// An older step locks, of a time token as used, of an event token as no candidate.
static inline void expect_lock(const struct presser *presser)
{
    expect_login(presser, 3000, presser->last_used - 1, presser->load.kind == DL_TIME_TOKEN ? 0x8004 : 0x8002, locked_at_3000);
}

// At all clocks for which the step is a candidate of the time token.
static inline void thousand_presses(void)
{
    for (size_t i = 0; i < PRESSERS; i++) {
        struct presser presser = presser_at(i);
        begin_pressing(&presser);
        for (uint64_t press = 0; press < (full_run ? 1000 : cases); press++)
            expect_login(&presser, 2940 + press % 150, presser.last_used, 0x8004, nothing);
        expect_lock(&presser);
        expect_login(&presser, 3059, presser.last_used, 0x8404, nothing);
        expect_login(&presser, 3060, presser.last_used, 0x8004, opened);
    }
    came_up(LOADED);
}

// ---- a list with its presses struck or replaced

// What a press may be replaced by: a ready token refuses it, and a wait has run out all the same.
static inline struct desk_call idle_call(const struct desk_call *press)
{
    struct desk_call call = *press;
    call.name = CALL_ACTIVATE;
    call.password = call.following = (struct window_typed){"000000", 6};
    return call;
}

enum instead { PRESSED, STRUCK, IDLED };

// The press at 3060 lets the wait run out; then the clock goes back to 3030, at which a token locked at 3000 is still locked.
static inline uint16_t answer_after(const struct presser *presser, enum instead instead)
{
    struct desk_call call;
    begin_pressing(presser);
    expect_lock(presser);
    make_press_call(&call, presser, presser->login, 3060, presser->last_used);
    if (instead == IDLED)
        call = idle_call(&call);
    if (instead != STRUCK)
        expect_refused(&call, instead == PRESSED ? 0x8004 : 0x8409, opened);
    make_press_call(&call, presser, presser->login, 3030, presser->last_used + 1);
    return compare(&call);
}

static inline void one_press_struck(void)
{
    uint8_t row[DL_ROW_BYTES];
    for (size_t i = 0; i < PRESSERS; i++) {
        struct presser presser = presser_at(i);
        uint16_t success = presser.login == CALL_LOGIN ? 0x0001 : 0x0002;
        check(answer_after(&presser, PRESSED) == success, "refused after the press");
        memcpy(row, table, DL_ROW_BYTES);
        check(answer_after(&presser, STRUCK) == 0x8404 && memcmp(row, table, DL_ROW_BYTES) != 0, "not locked without the press");
        check(answer_after(&presser, IDLED) == success && memcmp(row, table, DL_ROW_BYTES) == 0, "another row after an activate in its place");
    }
    came_up(LOADED | LOGGED_IN);
}

#endif
