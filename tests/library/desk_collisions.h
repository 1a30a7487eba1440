// Calls with one password on tokens that show it at two steps or three: those of collisions.h, with the answers and rows that document 02,
// request 5, gives them, written out without the reference.
#ifndef DESK_COLLISIONS_H
#define DESK_COLLISIONS_H

#include "collisions.h"
#include "desk_calls.h"
#include "plain_row.h"

// A ready token of limit 3 with two errors, so that one more locks it.
static inline void make_collision_row(uint8_t *row, const struct collision *collision, uint64_t next)
{
    static const struct change standing[MOST_CHANGES] = {{ROW_STATE, 2}, {ROW_LIMIT, 3}, {ROW_ERRORS, 2}, {ROW_SERIAL, 7},
                                                         {ROW_WAIT, 60}, {ROW_EXPIRY, CLOCK_END}};
    struct window_call token = collision_token(collision, DL_SMALL);
    put_token(row, &token);
    apply(row, standing);
    row_put(row, ROW_NEXT, next);
}

static inline void make_collision_call(struct desk_call *call, enum desk_name name, const struct collision *collision, uint64_t now)
{
    *call = (struct desk_call){.name = name, .serial = 7, .now = now, .table_len = DL_ROW_BYTES, .values_len = DL_QUERY_VALUES,
                               .password = collision_password(collision)};
    call->challenge.len = strlen(collision->challenge);
    memcpy(call->challenge.bytes, collision->challenge, call->challenge.len);
}

// ---- the request's table

// A call in its state, and what it answers where the check answers DL_DONE, 8001, 8004 or 8002.
static const struct single_call {
    enum desk_name name;
    uint8_t state;
    uint16_t done, next_wanted, used, wrong;
} single_calls[] = {
    {CALL_LOGIN, 2, 0x0001, 0x8001, 0x8004, 0x8002},
    {CALL_UNLOCK, 4, 0x0103, 0x8101, 0x8104, 0x8102},
    {CALL_RESUME, 5, 0x0105, 0x8101, 0x8104, 0x8102}};

enum { SINGLE_CALLS = sizeof single_calls / sizeof *single_calls };

static inline int64_t told_offset(const struct told_check *told)
{
    return told_tokens[told->token].kind == DL_TIME_TOKEN ? (int64_t)told->answer.step - (int64_t)told->now / COLLISION_PERIOD : 0;
}

static inline struct desk_answer told_answer(const struct single_call *line, const struct told_check *told)
{
    switch (told->answer.code) {
    case DL_DONE: return (struct desk_answer){line->done, 2, {(int64_t)told->answer.step, told_offset(told)}};
    case 0x8001: return (struct desk_answer){.code = line->next_wanted};
    case 0x8004: return (struct desk_answer){.code = line->used};
    default: return (struct desk_answer){.code = line->wrong};
    }
}

// A used password that the candidate next - 1 has: a login's double press (request 4).
static inline int is_told_press(const struct single_call *line, const struct told_check *told)
{
    const struct collision *token = &told_tokens[told->token];
    int64_t last_used = (int64_t)told->next - 1;
    if (token->kind == DL_TIME_TOKEN && window_distance(last_used, (int64_t)told->now / COLLISION_PERIOD) > 2)
        return 0;
    return line->name == CALL_LOGIN && told->answer.code == 0x8004 && (token->steps[0] == last_used || token->steps[1] == last_used);
}

// Accepted: marked. Asked for the following password, or pressed twice: as it was. Used or wrong: a third error, by which a login locks.
static inline void change_told_row(uint8_t *row, const struct single_call *line, const struct told_check *told)
{
    const struct change accepted[MOST_CHANGES] = {{ROW_STATE, 2}, ACCEPTED(told->answer.step, told->now), OFFSET(told_offset(told))};
    const struct change locked[MOST_CHANGES] = {{ROW_STATE, 3}, {ROW_ERRORS, 3}, {ROW_LOCKED_AT, told->now}};
    if (told->answer.code == 0x8001 || is_told_press(line, told))
        return;
    if (told->answer.code == DL_DONE)
        apply(row, accepted);
    else if (line->name == CALL_LOGIN)
        apply(row, locked);
    else
        row_put(row, ROW_ERRORS, 3);
}

static inline void told_rows(void)
{
    for (size_t i = 0; i < SINGLE_CALLS * TOLD_CHECKS; i++) {
        const struct single_call *line = &single_calls[i % SINGLE_CALLS];
        const struct told_check *told = &told_checks[i / SINGLE_CALLS];
        const struct collision *collision = &told_tokens[told->token];
        struct row_case made;
        make_collision_row(made.row, collision, told->next);
        row_put(made.row, ROW_STATE, line->state);
        make_collision_call(&made.call, line->name, collision, told->now);
        lay_row(made.row, 1);
        change_told_row(expect_kept_table(&made.call), line, told);
        struct desk_answer answer = told_answer(line, told);
        expect_written(&made.call, &answer, "a row of request 5's table");
    }
    came_up(LOGGED_IN | NEXT_WANTED | USED);
}

// ---- its place among the other refusals, at clock 3000 and with no step used

static const struct collision_corner {
    const char *name;
    struct change before[MOST_CHANGES];
    enum desk_name call;
    uint16_t code;
    struct change after[MOST_CHANGES];
} collision_corners[] = {
    {"wait over, then login", {{ROW_STATE, 3}, {ROW_ERRORS, 3}, {ROW_LOCKED_AT, 2940}}, CALL_LOGIN, 0x8001, {OPENED}},
    {"wait over, then unlock", {{ROW_STATE, 3}, {ROW_ERRORS, 3}, {ROW_LOCKED_AT, 2940}}, CALL_UNLOCK, 0x8409, {OPENED}},
    {"wait not over, login", {{ROW_STATE, 3}, {ROW_ERRORS, 3}, {ROW_LOCKED_AT, 2941}}, CALL_LOGIN, 0x8404, KEPT},
    {"wait not over, unlock", {{ROW_STATE, 3}, {ROW_ERRORS, 3}, {ROW_LOCKED_AT, 2941}}, CALL_UNLOCK, 0x8101, KEPT},
    {"expired login", {{ROW_EXPIRY, 3000}}, CALL_LOGIN, 0x8408, KEPT},
    {"login, expired a second later", {{ROW_EXPIRY, 3001}}, CALL_LOGIN, 0x8001, KEPT},
    {"expired unlock", {{ROW_STATE, 4}, {ROW_EXPIRY, 3000}}, CALL_UNLOCK, 0x8408, KEPT},
    {"login of a suspended token", {{ROW_STATE, 5}}, CALL_LOGIN, 0x8405, KEPT},
    {"resume of a ready token", KEPT, CALL_RESUME, 0x8409, KEPT},
    {"login, errors above the limit", {{ROW_ERRORS, 9}}, CALL_LOGIN, 0x8001, KEPT},
    {"login, errors 255 and limit 1", {{ROW_ERRORS, 255}, {ROW_LIMIT, 1}}, CALL_LOGIN, 0x8001, KEPT},
    {"unlock, errors 255", {{ROW_STATE, 4}, {ROW_ERRORS, 255}}, CALL_UNLOCK, 0x8101, KEPT},
    {"not well formed", {{ROW_WAIT, 59}}, CALL_LOGIN, 0x8403, KEPT}};

enum { COLLISION_CORNERS = sizeof collision_corners / sizeof *collision_corners };

static inline void collision_places(void)
{
    for (size_t i = 0; i < TOLD_TOKENS * COLLISION_CORNERS; i++) {
        const struct collision *collision = &told_tokens[i % TOLD_TOKENS];
        const struct collision_corner *corner = &collision_corners[i / TOLD_TOKENS];
        const struct desk_answer answer = {.code = corner->code};
        struct row_case made;
        make_collision_row(made.row, collision, 0);
        apply(made.row, corner->before);
        make_collision_call(&made.call, corner->call, collision, 3000);
        lay_row(made.row, 1);
        apply(expect_kept_table(&made.call), corner->after);
        expect_written(&made.call, &answer, corner->name);
    }
    came_up(NEXT_WANTED | EXPIRED | DAMAGED);
}

// ---- every token that was found

// All its steps are fresh, then all but the first.
static inline void expect_found(const struct collision *collision, const struct single_call *line)
{
    struct row_case made;
    uint64_t clock = collision_token(collision, DL_SMALL).now;
    int is_pair = collision->steps[2] == NO_THIRD;
    make_collision_row(made.row, collision, (uint64_t)first_equal(collision));
    row_put(made.row, ROW_STATE, line->state);
    make_collision_call(&made.call, line->name, collision, clock);
    lay_row(made.row, 1);
    require(compare(&made.call) == line->next_wanted && memcmp(table, made.row, DL_ROW_BYTES) == 0, "all fresh: not asked for the next");
    row_put(table, ROW_NEXT, (uint64_t)first_equal(collision) + 1);
    require(compare(&made.call) == (is_pair ? line->done : line->next_wanted), "all but one fresh: another answer");
    require(!is_pair || lent_signed_words[0] == last_equal(collision), "not the one fresh step");
}

static inline void expect_found_by_all(const struct collision *collision)
{
    static const struct single_call challenged = {CALL_CHALLENGE_LOGIN, 2, 0x0002, 0x8001, 0x8004, 0x8002};
    if (collision->challenge[0] != '\0') {
        expect_found(collision, &challenged);
        return;
    }
    for (size_t i = 0; i < SINGLE_CALLS; i++)
        expect_found(collision, &single_calls[i]);
}

// Three steps of a time token lie in no small window.
static inline void found_tokens(void)
{
    for (size_t i = 0; i < COLLISIONS; i++)
        expect_found_by_all(&collisions[i]);
    for (size_t i = 0; i < TRIPLES; i++)
        if (triples[i].kind == DL_EVENT_TOKEN)
            expect_found_by_all(&triples[i]);
    came_up(LOGGED_IN | NEXT_WANTED);
}

#endif
