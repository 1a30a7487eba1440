// The arguments of the desk's calls at the ends of their ranges and past them.
#ifndef DESK_ARGUMENTS_H
#define DESK_ARGUMENTS_H

#include "row_cases.h"

typedef void setter(struct desk_call *, uint64_t);

// ---- setters

static inline void set_table_len(struct desk_call *call, uint64_t value) { call->table_len = value; }
static inline void set_serial(struct desk_call *call, uint64_t value) { call->serial = value; }
static inline void set_now(struct desk_call *call, uint64_t value) { call->now = value; }
static inline void set_choice(struct desk_call *call, uint64_t value) { call->choice = (uint8_t)value; }
static inline void set_values_len(struct desk_call *call, uint64_t value) { call->values_len = value; }
static inline void set_algorithm(struct desk_call *call, uint64_t value) { call->load.algorithm = (uint8_t)value; }
static inline void set_digits(struct desk_call *call, uint64_t value) { call->load.digits = (uint8_t)value; }
static inline void set_limit(struct desk_call *call, uint64_t value) { call->load.limit = (uint8_t)value; }
static inline void set_key_len(struct desk_call *call, uint64_t value) { call->load.key_len = value; }
static inline void set_wait(struct desk_call *call, uint64_t value) { call->load.wait = (uint32_t)value; }
static inline void set_expiry(struct desk_call *call, uint64_t value) { call->load.expiry = value; }

static inline void set_time_period(struct desk_call *call, uint64_t value)
{
    call->load.kind = DL_TIME_TOKEN;
    call->load.period = (uint8_t)value;
}

static inline void set_event_period(struct desk_call *call, uint64_t value)
{
    call->load.kind = DL_EVENT_TOKEN;
    call->load.period = (uint8_t)value;
}

// A kind that there is not, with either period.
static inline void set_kind(struct desk_call *call, uint64_t value) { call->load.kind = (uint8_t)value; }

static inline void set_len(struct window_typed *typed, size_t n, uint8_t least, uint8_t most)
{
    typed->len = n;
    random_bytes_between(typed->bytes, n, least, most);
}

// At any place of a password or challenge, which is made first if there is none.
static inline void set_byte(struct window_typed *typed, uint64_t value)
{
    if (typed->len == 0)
        set_len(typed, OTP_LEAST_DIGITS, '0', '9');
    typed->bytes[random_below(typed->len)] = (uint8_t)value;
}

static inline void set_password_len(struct desk_call *call, uint64_t value) { set_len(&call->password, value, '0', '9'); }
static inline void set_following_len(struct desk_call *call, uint64_t value) { set_len(&call->following, value, '0', '9'); }
static inline void set_challenge_len(struct desk_call *call, uint64_t value) { set_len(&call->challenge, value, 0x21, 0x7e); }
static inline void set_password_byte(struct desk_call *call, uint64_t value) { set_byte(&call->password, value); }
static inline void set_following_byte(struct desk_call *call, uint64_t value) { set_byte(&call->following, value); }
static inline void set_challenge_byte(struct desk_call *call, uint64_t value) { set_byte(&call->challenge, value); }

// ---- values

enum {
    OF_LOAD = 1 << CALL_LOAD,
    OF_CHALLENGE = 1 << CALL_CHALLENGE_LOGIN,
    OF_SYNC = 1 << CALL_SYNC,
    OF_QUERY = 1 << CALL_QUERY,
    OF_PAIRS = OF_SYNC | 1 << CALL_ACTIVATE,
    OF_CHECKED = OF_PAIRS | OF_CHALLENGE | 1 << CALL_LOGIN | 1 << CALL_UNLOCK | 1 << CALL_RESUME,
    OF_ALL = (1 << CALLS) - 1,
    OF_NAMED = OF_ALL & ~OF_LOAD,
};

// A value of an argument, and the calls that have the argument.
struct argument {
    unsigned calls;
    setter *set;
    uint64_t value;
};

static const struct argument inside[] = {
    {OF_ALL, set_table_len, DL_ROW_BYTES}, {OF_ALL, set_table_len, DL_ROW_BYTES * DL_MOST_ROWS}, {OF_ALL, set_serial, 0},
    {OF_ALL, set_serial, UINT64_MAX}, {OF_NAMED, set_now, 0}, {OF_NAMED, set_now, CLOCK_END - 1},
    {OF_SYNC, set_choice, 1}, {OF_SYNC, set_choice, 2}, {OF_CHECKED | OF_QUERY, set_values_len, DL_MOST_VALUES},
    {OF_CHECKED, set_password_len, 6}, {OF_CHECKED, set_password_len, 10}, {OF_CHECKED, set_password_byte, '0'},
    {OF_CHECKED, set_password_byte, '9'}, {OF_PAIRS, set_following_len, 6}, {OF_PAIRS, set_following_len, 10},
    {OF_PAIRS, set_following_byte, '0'}, {OF_PAIRS, set_following_byte, '9'}, {OF_CHALLENGE, set_challenge_len, 4},
    {OF_CHALLENGE, set_challenge_len, 32}, {OF_CHALLENGE, set_challenge_byte, 0x21}, {OF_CHALLENGE, set_challenge_byte, 0x7e},
    {OF_LOAD, set_algorithm, 3}, {OF_LOAD, set_algorithm, 4}, {OF_LOAD, set_digits, 6}, {OF_LOAD, set_digits, 10},
    {OF_LOAD, set_time_period, 1}, {OF_LOAD, set_time_period, 60}, {OF_LOAD, set_event_period, 0}, {OF_LOAD, set_limit, 1},
    {OF_LOAD, set_limit, 10}, {OF_LOAD, set_key_len, 16}, {OF_LOAD, set_key_len, 32}, {OF_LOAD, set_wait, 60},
    {OF_LOAD, set_wait, 86400}, {OF_LOAD, set_expiry, 0}, {OF_LOAD, set_expiry, CLOCK_END}};

// Just out of range, or far; some have their low byte or their low 32 bits in range.
static const struct argument outside[] = {
    {OF_ALL, set_table_len, 0}, {OF_ALL, set_table_len, 1}, {OF_ALL, set_table_len, 95}, {OF_ALL, set_table_len, 97},
    {OF_ALL, set_table_len, 191}, {OF_ALL, set_table_len, 128}, {OF_ALL, set_table_len, DL_ROW_BYTES * DL_MOST_ROWS - 1},
    {OF_ALL, set_table_len, DL_ROW_BYTES * DL_MOST_ROWS + 1}, {OF_ALL, set_table_len, DL_ROW_BYTES * (DL_MOST_ROWS + 1)},
    {OF_NAMED, set_now, CLOCK_END}, {OF_NAMED, set_now, UINT64_C(1) << 63}, {OF_NAMED, set_now, UINT64_MAX},
    {OF_SYNC, set_choice, 0}, {OF_SYNC, set_choice, 3}, {OF_SYNC, set_choice, 255},
    {OF_CHECKED | OF_QUERY, set_values_len, 0}, {OF_CHECKED | OF_QUERY, set_values_len, 1}, {OF_CHECKED | OF_QUERY, set_values_len, 2},
    {OF_CHECKED, set_password_len, 0}, {OF_CHECKED, set_password_len, 5}, {OF_CHECKED, set_password_len, 11},
    {OF_CHECKED, set_password_len, 256}, {OF_CHECKED, set_password_len, 262}, {OF_CHECKED, set_password_byte, '/'},
    {OF_CHECKED, set_password_byte, ':'}, {OF_CHECKED, set_password_byte, 'a'}, {OF_CHECKED, set_password_byte, 0},
    {OF_CHECKED, set_password_byte, 0xb5}, {OF_PAIRS, set_following_len, 0}, {OF_PAIRS, set_following_len, 5},
    {OF_PAIRS, set_following_len, 11}, {OF_PAIRS, set_following_len, 256}, {OF_PAIRS, set_following_len, 262},
    {OF_PAIRS, set_following_byte, '/'}, {OF_PAIRS, set_following_byte, ':'}, {OF_PAIRS, set_following_byte, 'a'},
    {OF_PAIRS, set_following_byte, 0}, {OF_PAIRS, set_following_byte, 0xb5},
    {OF_CHALLENGE, set_challenge_len, 0}, {OF_CHALLENGE, set_challenge_len, 3}, {OF_CHALLENGE, set_challenge_len, 33},
    {OF_CHALLENGE, set_challenge_len, 256}, {OF_CHALLENGE, set_challenge_len, 260}, {OF_CHALLENGE, set_challenge_byte, ' '},
    {OF_CHALLENGE, set_challenge_byte, 0x7f}, {OF_CHALLENGE, set_challenge_byte, 0}, {OF_CHALLENGE, set_challenge_byte, 0xa1},
    {OF_LOAD, set_kind, 2}, {OF_LOAD, set_kind, 255}, {OF_LOAD, set_algorithm, 2}, {OF_LOAD, set_algorithm, 5},
    {OF_LOAD, set_algorithm, 255}, {OF_LOAD, set_digits, 5}, {OF_LOAD, set_digits, 11}, {OF_LOAD, set_digits, 255},
    {OF_LOAD, set_time_period, 0}, {OF_LOAD, set_time_period, 61}, {OF_LOAD, set_time_period, 255},
    {OF_LOAD, set_event_period, 1}, {OF_LOAD, set_event_period, 30}, {OF_LOAD, set_event_period, 255}, {OF_LOAD, set_limit, 0},
    {OF_LOAD, set_limit, 11}, {OF_LOAD, set_limit, 255}, {OF_LOAD, set_key_len, 0}, {OF_LOAD, set_key_len, 15},
    {OF_LOAD, set_key_len, 33}, {OF_LOAD, set_key_len, 256 + 16}, {OF_LOAD, set_wait, 0}, {OF_LOAD, set_wait, 59},
    {OF_LOAD, set_wait, 86401}, {OF_LOAD, set_wait, UINT32_MAX}, {OF_LOAD, set_expiry, CLOCK_END + 1},
    {OF_LOAD, set_expiry, UINT64_C(1) << 63}, {OF_LOAD, set_expiry, UINT64_MAX}};

enum { INSIDE = sizeof inside / sizeof *inside, OUTSIDE = sizeof outside / sizeof *outside };

static inline int has_argument(enum desk_name name, const struct argument *argument)
{
    return argument->calls >> name & 1;
}

// Any one of its arguments out of range.
static inline void spoil_argument(struct desk_call *call)
{
    const struct argument *argument;
    do
        argument = &outside[random_below(OUTSIDE)];
    while (!has_argument(call->name, argument));
    argument->set(call, argument->value);
}

#endif
