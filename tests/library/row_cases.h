// Calls on rows that are well formed, in every state and with every sort of password; what spoils such a row stands in row_edges.h.
#ifndef ROW_CASES_H
#define ROW_CASES_H

#include "desk_passwords.h"
#include "window_tokens.h"

// A sync of either window counts as a call of its own.
enum { SYNC_MEDIUM = CALL_SYNC, SYNC_LARGE = CALLS, VARIANTS };

enum { STATES = DL_STATE_VOID + 1 };

// One call on a table of one row.
struct row_case {
    struct desk_call call;
    uint8_t row[DL_ROW_BYTES];
};

static inline void name_call(struct desk_call *call, size_t variant)
{
    call->name = variant == SYNC_LARGE ? CALL_SYNC : (enum desk_name)variant;
    call->choice = variant == SYNC_LARGE ? DL_SYNC_LARGE : DL_SYNC_MEDIUM;
}

static inline size_t any_call(void)
{
    return random_below(VARIANTS);
}

// ---- the row's token

static inline void put_token(uint8_t *row, const struct window_call *token)
{
    memset(row, 0, DL_ROW_BYTES);
    row_put(row, ROW_KIND, token->kind);
    row_put(row, ROW_ALGORITHM, token->algorithm);
    row_put(row, ROW_DIGITS, token->digits);
    row_put(row, ROW_PERIOD, token->period);
    row_put_key(row, token->key, token->key_len);
    row_put(row, ROW_NEXT, token->next);
    row_put(row, ROW_OFFSET, token->offset);
}

// ---- the row's standing

static inline uint64_t any_time(void)
{
    return one_in(8) ? (one_in(2) ? 0 : CLOCK_END - 1) : random_long(CLOCK_END);
}

// Zero seconds and one either way from the instant, or any other.
static inline uint64_t time_near(uint64_t instant)
{
    int64_t near = random_around((int64_t)instant, 1);
    return near < 0 || near >= CLOCK_END || one_in(4) ? any_time() : (uint64_t)near;
}

// The wait is over about now, the lock is about now, or both are anywhere.
static inline void put_lock(uint8_t *row, uint64_t clock)
{
    uint64_t wait = row_get(row, ROW_WAIT);
    int can_be_over = clock >= wait && !one_in(4);
    row_put(row, ROW_LOCKED_AT, time_near(can_be_over ? clock - wait : clock));
}

// What is no part of the token; the limit is put first, for errors are made about it.
static inline void put_standing(uint8_t *row, uint64_t clock, uint8_t state)
{
    uint64_t limit = random_between(1, ROW_MOST_LIMIT);
    const uint64_t waits[] = {ROW_LEAST_WAIT, ROW_MOST_WAIT, ROW_LEAST_WAIT + random_below(ROW_MOST_WAIT - ROW_LEAST_WAIT)};
    const uint64_t errors[] = {0, limit - 1, limit, 254, ROW_MOST_ERRORS, random_below(256)};
    row_put(row, ROW_STATE, state);
    row_put(row, ROW_LIMIT, limit);
    row_put(row, ROW_ERRORS, errors[random_below(sizeof errors / sizeof *errors)]);
    row_put(row, ROW_WAIT, waits[random_below(sizeof waits / sizeof *waits)]);
    row_put(row, ROW_EXPIRY, one_in(4) ? time_near(clock) : CLOCK_END - random_below(CLOCK_END - clock));
    row_put(row, ROW_LAST_USE, any_time());
    row_put(row, ROW_LOCKED_AT, 0);
    if (state == DL_STATE_LOCKED_BY_ERRORS)
        put_lock(row, clock);
}

// ---- calls

static inline void random_load(struct desk_load *load)
{
    load->kind = random_between(DL_TIME_TOKEN, DL_EVENT_TOKEN);
    load->algorithm = random_between(DL_ALGORITHM_SM3, DL_ALGORITHM_SM4);
    load->digits = one_in(2) ? OTP_LEAST_DIGITS : random_between(OTP_LEAST_DIGITS, OTP_MOST_DIGITS);
    load->period = load->kind == DL_TIME_TOKEN ? random_between(1, ROW_MOST_PERIOD) : 0;
    load->limit = random_between(1, ROW_MOST_LIMIT);
    load->key_len = random_between(OTP_LEAST_KEY, OTP_MOST_KEY);
    random_bytes(load->key, sizeof load->key);
    load->wait = (uint32_t)(ROW_LEAST_WAIT + random_below(ROW_MOST_WAIT - ROW_LEAST_WAIT + 1));
    load->expiry = random_below(CLOCK_END + 1);
}

// This call on a token of this make, with a password of this sort, but for the row's standing.
static inline void make_typed(struct row_case *made, size_t variant, token_maker *make, enum sort sort)
{
    struct window_call token;
    made->call = (struct desk_call){.table_len = DL_ROW_BYTES};
    name_call(&made->call, variant);
    made->call.values_len = DL_MOST_VALUES + random_below(3);
    random_load(&made->call.load);
    do {
        make(&token);
        put_token(made->row, &token);
        made->call.now = token.now;
    } while (!type_password(&made->call, made->row, sort == ANY_SORT ? any_sort() : sort));
    made->call.serial = random_number();
    row_put(made->row, ROW_SERIAL, made->call.serial);
}

// One that the call needs, or any.
static inline uint8_t any_state(enum desk_name name)
{
    unsigned needed = name == CALL_LOAD ? 1 << DL_STATE_EMPTY : desk_rules[name].states;
    unsigned states = one_in(3) ? IN_ANY | 1 << DL_STATE_EMPTY : needed;
    uint8_t state;
    do
        state = (uint8_t)random_below(STATES);
    while (!(states >> state & 1));
    return state;
}

// One call in 32 names another serial than the row's.
static inline void make_case(struct row_case *made, token_maker *make)
{
    make_typed(made, any_call(), make, ANY_SORT);
    put_standing(made->row, made->call.now, any_state(made->call.name));
    if (one_in(32))
        made->call.serial ^= UINT64_C(1) << random_below(64);
}

// ---- tokens whose windows have every sort of password

static inline void common_token(struct window_call *token)
{
    if (one_in(2)) {
        next_inside(token);
        return;
    }
    event_token(token);
    set_next(token, 1 + (int64_t)random_long(COUNT_END - 100));
    token->now = 2000 + random_long(CLOCK_END - 2000);
}

#endif
