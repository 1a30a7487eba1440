// The arguments of the check at the ends of their ranges and past them, and lengths past 32 bits.
#ifndef WINDOW_EDGES_H
#define WINDOW_EDGES_H

#include "window_calls.h"
#include "window_tokens.h"
#include "window_typing.h"

enum { BYTES = 256 };

// ---- arguments at the ends of their ranges

typedef void setter(struct window_call *, uint64_t);

// The token made one of this kind; its other numbers stay in range.
static inline void be_time(struct window_call *call)
{
    if (call->kind == DL_TIME_TOKEN)
        return;
    call->kind = DL_TIME_TOKEN;
    call->period = random_between(1, WINDOW_MOST_PERIOD);
}

static inline void be_event(struct window_call *call)
{
    call->kind = DL_EVENT_TOKEN;
    call->period = 0;
    call->offset = WINDOW_FARTHEST;
    call->next %= COUNT_END + 1;
}

static inline void set_kind(struct window_call *call, uint64_t value)
{
    if (value == DL_TIME_TOKEN)
        be_time(call);
    else if (value == DL_EVENT_TOKEN)
        be_event(call);
    call->kind = (uint8_t)value;
}

static inline void set_algorithm(struct window_call *call, uint64_t value) { call->algorithm = (uint8_t)value; }
static inline void set_digits(struct window_call *call, uint64_t value) { call->digits = (uint8_t)value; }
static inline void set_size(struct window_call *call, uint64_t value) { call->size = (uint8_t)value; }
static inline void set_now(struct window_call *call, uint64_t value) { call->now = value; }
static inline void set_key_len(struct window_call *call, uint64_t value) { call->key_len = value; }
static inline void set_step_len(struct window_call *call, uint64_t value) { call->step_len = value; }
static inline void set_computed_len(struct window_call *call, uint64_t value) { call->computed_len = value; }
static inline void set_fresh_len(struct window_call *call, uint64_t value) { call->fresh_len = value; }

static inline void set_time_period(struct window_call *call, uint64_t value)
{
    be_time(call);
    call->period = (uint8_t)value;
}

static inline void set_event_period(struct window_call *call, uint64_t value)
{
    be_event(call);
    call->period = (uint8_t)value;
}

static inline void set_time_next(struct window_call *call, uint64_t value)
{
    be_time(call);
    call->next = value;
}

static inline void set_event_next(struct window_call *call, uint64_t value)
{
    be_event(call);
    call->next = value;
}

static inline void set_time_offset(struct window_call *call, uint64_t value)
{
    be_time(call);
    call->offset = (uint16_t)value;
}

static inline void set_event_offset(struct window_call *call, uint64_t value)
{
    be_event(call);
    call->offset = (uint16_t)value;
}

// A pair becomes a single check, for it has no challenge.
static inline void set_challenge_len(struct window_call *call, uint64_t value)
{
    call->following.len = 0;
    make_challenge(call, value);
}

// At any place.
static inline void set_challenge_byte(struct window_call *call, uint64_t value)
{
    if (call->challenge_len == 0)
        set_challenge_len(call, random_between(4, 32));
    call->challenge[random_below(call->challenge_len)] = (uint8_t)value;
}

static inline void set_presented_len(struct window_call *call, uint64_t value) { type_random_digits(&call->presented, value); }

static inline void set_presented_byte(struct window_call *call, uint64_t value)
{
    if (call->presented.len == 0)
        set_presented_len(call, OTP_LEAST_DIGITS);
    call->presented.bytes[random_below(call->presented.len)] = (uint8_t)value;
}

// A single check becomes a pair, without a challenge.
static inline void set_following_len(struct window_call *call, uint64_t value)
{
    call->challenge_len = 0;
    type_random_digits(&call->following, value);
}

static inline void set_following_byte(struct window_call *call, uint64_t value)
{
    if (call->following.len == 0)
        set_following_len(call, OTP_LEAST_DIGITS);
    call->following.bytes[random_below(call->following.len)] = (uint8_t)value;
}

static inline void set_pair_challenge_len(struct window_call *call, uint64_t value)
{
    if (call->following.len == 0)
        set_following_len(call, OTP_LEAST_DIGITS);
    make_challenge(call, value);
}

struct edge {
    setter *set;
    uint64_t value;
};

// Set before the passwords are typed in.
static const struct edge inside[] = {
    {set_kind, 0}, {set_kind, 1}, {set_algorithm, 3}, {set_algorithm, 4}, {set_digits, 6}, {set_digits, 10},
    {set_time_period, 1}, {set_time_period, 60}, {set_event_period, 0}, {set_time_next, 0},
    {set_time_next, (UINT64_C(1) << 40) + 600}, {set_event_next, 0}, {set_event_next, UINT64_C(1) << 32},
    {set_time_offset, 0}, {set_time_offset, 1200}, {set_event_offset, 600}, {set_now, 0}, {set_now, (UINT64_C(1) << 40) - 1},
    {set_size, 1}, {set_size, 3}, {set_key_len, 16}, {set_key_len, 32}, {set_challenge_len, 0}, {set_challenge_len, 4},
    {set_challenge_len, 32}, {set_challenge_byte, 0x21}, {set_challenge_byte, 0x7e}, {set_step_len, 1},
    {set_computed_len, 1}, {set_fresh_len, 1}};

// Passwords, set in place of those typed in.
static const struct edge typed_inside[] = {
    {set_presented_len, 6}, {set_presented_len, 10}, {set_presented_byte, '0'}, {set_presented_byte, '9'},
    {set_following_len, 0}, {set_following_len, 6}, {set_following_len, 10}, {set_following_byte, '0'},
    {set_following_byte, '9'}, {set_pair_challenge_len, 0}};

// Values just out of range, and some that are far.
static const struct edge outside[] = {
    {set_kind, 2}, {set_kind, 255}, {set_algorithm, 2}, {set_algorithm, 5}, {set_algorithm, 255}, {set_digits, 5},
    {set_digits, 11}, {set_digits, 0}, {set_digits, 255}, {set_time_period, 0}, {set_time_period, 61}, {set_time_period, 255},
    {set_event_period, 1}, {set_event_period, 60}, {set_event_period, 255}, {set_time_next, (UINT64_C(1) << 40) + 601},
    {set_time_next, UINT64_C(1) << 63}, {set_time_next, UINT64_MAX}, {set_event_next, (UINT64_C(1) << 32) + 1},
    {set_event_next, (UINT64_C(1) << 40) + 600}, {set_event_next, UINT64_MAX}, {set_time_offset, 1201},
    {set_time_offset, UINT16_MAX}, {set_event_offset, 599}, {set_event_offset, 601}, {set_event_offset, 0},
    {set_event_offset, 1200}, {set_event_offset, UINT16_MAX}, {set_now, UINT64_C(1) << 40}, {set_now, UINT64_C(1) << 63},
    {set_now, UINT64_MAX}, {set_size, 0}, {set_size, 4}, {set_size, 255}, {set_key_len, 15}, {set_key_len, 33},
    {set_key_len, 0}, {set_key_len, 16 + BYTES}, {set_challenge_len, 1}, {set_challenge_len, 2}, {set_challenge_len, 3},
    {set_challenge_len, 33}, {set_challenge_len, BYTES}, {set_challenge_len, 4 + BYTES}, {set_challenge_byte, 0x20},
    {set_challenge_byte, 0x7f}, {set_challenge_byte, 0}, {set_challenge_byte, 0xa1}, {set_presented_len, 0},
    {set_presented_len, 5}, {set_presented_len, 11}, {set_presented_len, 6 + BYTES}, {set_presented_byte, '0' - 1},
    {set_presented_byte, '9' + 1}, {set_presented_byte, 'a'}, {set_presented_byte, '0' + 0x80}, {set_following_len, 1},
    {set_following_len, 5}, {set_following_len, 11}, {set_following_len, BYTES}, {set_following_len, 6 + BYTES},
    {set_following_byte, '0' - 1}, {set_following_byte, '9' + 1}, {set_following_byte, 'a'}, {set_following_byte, '0' + 0x80},
    {set_pair_challenge_len, 4}, {set_pair_challenge_len, 32}, {set_pair_challenge_len, 33}, {set_step_len, 0},
    {set_computed_len, 0}, {set_fresh_len, 0}};

enum {
    INSIDE = sizeof inside / sizeof *inside,
    TYPED_INSIDE = sizeof typed_inside / sizeof *typed_inside,
    OUTSIDE = sizeof outside / sizeof *outside,
};

static inline void just_inside(void)
{
    struct window_call call;
    for (size_t i = 0; i < cases; i++) {
        const struct edge *edge = &inside[i % INSIDE];
        do {
            any_token(&call);
            edge->set(&call, edge->value);
        } while (!(call.challenge_len == 0 ? anything : any_single)(&call));
        compare(&call);
        require(window_in_range(&call), "the reference refuses an argument that is in range");
    }
    came_up(DONE | USED | WRONG);
}

static inline void just_inside_typed(void)
{
    struct window_call call;
    for (size_t i = 0; i < cases; i++) {
        const struct edge *edge = &typed_inside[i % TYPED_INSIDE];
        make_call(&call, any_token, anything);
        edge->set(&call, edge->value);
        compare(&call);
        require(window_in_range(&call), "the reference refuses a password that is in range");
    }
    came_up(DONE | USED | WRONG);
}

// Whatever the answer is without the fault; both calls are counted.
static inline void just_outside(void)
{
    struct window_call call;
    for (size_t i = 0; i < cases; i++) {
        const struct edge *edge = &outside[i % OUTSIDE];
        make_call(&call, one_in(8) ? empty_window : any_token, anything);
        compare(&call);
        edge->set(&call, edge->value);
        expect(&call, bad_argument);
        require(!window_in_range(&call), "the reference takes an argument that is out of range");
    }
    came_up(DONE | USED | WRONG | BAD);
}

static inline void two_outside(void)
{
    struct window_call call;
    for (size_t i = 0; i < cases; i++) {
        const struct edge *one = &outside[i % OUTSIDE], *other = &outside[i / OUTSIDE % OUTSIDE];
        make_call(&call, any_token, anything);
        one->set(&call, one->value);
        other->set(&call, other->value);
        expect(&call, bad_argument);
    }
    came_up(BAD);
}

static inline void every_value(void)
{
    static setter *const setters[] = {set_kind, set_algorithm, set_digits, set_time_period, set_event_period, set_size};
    struct window_call call;
    for (size_t i = 0; i < BYTES * sizeof setters / sizeof *setters; i++) {
        setter *set = setters[i / BYTES];
        make_call(&call, pair_token, anything);
        set(&call, i % BYTES);
        while (window_in_range(&call) && !anything(&call))
            ;
        compare(&call);
    }
    came_up(DONE | USED | WRONG | BAD);
}

// ---- lengths whose low 32 bits are in range

enum { PAGE = 4096 };

static const size_t over = (size_t)1 << 32;

// Key, challenge and passwords each start a page of the room and reach over the others.
static inline uint16_t run_long(const uint8_t *room, const size_t lengths[4])
{
    lend_all();
    uint16_t code = dl_check(DL_EVENT_TOKEN, DL_ALGORITHM_SM4, 8, 0, 0, WINDOW_FARTHEST, 0, DL_SMALL,
                             room, lengths[0], room + PAGE, lengths[1], room + 2 * PAGE, lengths[2],
                             room + 3 * PAGE, lengths[3], lent_long_words, 1, lent_computed, 1, lent_fresh, 1);
    count_answer(code);
    return code;
}

// The passwords of the counts 0 and 1 under a key of zeros.
static inline void long_buffers(void)
{
    const struct window_call call = {.kind = DL_EVENT_TOKEN, .algorithm = DL_ALGORITHM_SM4, .digits = 8, .key_len = 16};
    const struct {
        size_t lengths[4];
        struct window_answer answer;
    } runs[] = {{{over + 16, 0, 8, 0}, bad_argument}, {{16, over, 8, 0}, bad_argument},
                {{16, over + 8, 8, 0}, bad_argument}, {{16, 0, over + 8, 0}, bad_argument},
                {{16, 0, 8, over}, bad_argument}, {{16, 0, 8, over + 8}, bad_argument}, {{16, 0, 8, 8}, done(1, 2)}};
    struct window_typed password;
    uint8_t *room = map_zeros(over + 4 * PAGE, PROT_READ | PROT_WRITE);
    memset(room + PAGE, 'q', 8);
    for (int64_t count = 0; count < 2; count++) {
        window_password(&call, count, &password);
        memcpy(room + (2 + count) * PAGE, password.bytes, password.len);
    }
    for (size_t i = 0; i < sizeof runs / sizeof *runs; i++) {
        uint16_t code = run_long(room, runs[i].lengths);
        check(answered(code, runs[i].answer), "dl_check with long buffers, run %zu: %04x", i, code);
    }
    munmap(room, over + 4 * PAGE);
    came_up(DONE | BAD);
}

#endif
