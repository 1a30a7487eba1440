// Tokens, anywhere and at the edges of document 01, Part 3; what is typed in for them stands in window_typing.h.
#ifndef WINDOW_TOKENS_H
#define WINDOW_TOKENS_H

#include "testing.h"
#include "window_reference.h"

typedef void token_maker(struct window_call *);

enum { MOST_STEPS = 60, MOST_COUNTS = 4 }; // elements lent for them

static const int64_t most_next = CLOCK_END + WINDOW_FARTHEST;

// ---- tokens, without the passwords that are typed in

static inline void make_challenge(struct window_call *call, size_t n)
{
    call->challenge_len = n;
    random_bytes_between(call->challenge, n, 0x21, 0x7e);
}

static inline int64_t random_around(int64_t middle, size_t most)
{
    return middle - (int64_t)most + (int64_t)random_below(2 * most + 1);
}

// Numbers of every length.
static inline uint64_t random_long(int64_t bound)
{
    return random_below((size_t)bound) >> random_below(41);
}

static inline void set_next(struct window_call *call, int64_t next)
{
    call->next = (uint64_t)(next < 0 ? 0 : next > most_next ? most_next : next);
}

// Any second of the step.
static inline void set_clock_step(struct window_call *call, int64_t step)
{
    call->now = (uint64_t)step * call->period + random_below(call->period);
}

static inline void set_offset(struct window_call *call, int64_t offset)
{
    call->offset = (uint16_t)(offset + WINDOW_FARTHEST);
}

// Next about the window's centre, the step T + d.
static inline void set_next_near(struct window_call *call)
{
    struct window window = window_of(call);
    set_next(call, random_around(window.clock_step + window.offset, 2 * (size_t)window.width));
}

static inline void make_token(struct window_call *call, uint8_t kind)
{
    *call = (struct window_call){.kind = kind};
    call->algorithm = random_between(DL_ALGORITHM_SM3, DL_ALGORITHM_SM4);
    call->digits = random_between(6, DL_MOST_DIGITS);
    call->size = random_between(DL_SMALL, DL_LARGE);
    call->key_len = random_between(16, 32);
    random_bytes(call->key, sizeof call->key);
    make_challenge(call, one_in(2) ? 0 : random_between(4, 32));
    call->step_len = 1 + random_below(MOST_STEPS);
    call->computed_len = 1 + random_below(MOST_COUNTS);
    call->fresh_len = 1 + random_below(MOST_COUNTS);
    call->offset = WINDOW_FARTHEST;
    call->now = random_long(CLOCK_END);
}

static inline void time_token(struct window_call *call)
{
    make_token(call, DL_TIME_TOKEN);
    call->period = random_between(1, WINDOW_MOST_PERIOD);
    call->offset = (uint16_t)random_below(2 * WINDOW_FARTHEST + 1);
    if (one_in(4))
        call->next = random_long(most_next + 1);
    else
        set_next_near(call);
}

// Its period and its d are 0, and its clock is anything in range, for nothing depends on it.
static inline void event_token(struct window_call *call)
{
    make_token(call, DL_EVENT_TOKEN);
    call->next = random_long(COUNT_END + 1);
}

static inline void token_of(struct window_call *call, uint8_t kind)
{
    if (kind == DL_TIME_TOKEN)
        time_token(call);
    else
        event_token(call);
}

static inline void any_token(struct window_call *call)
{
    token_of(call, one_in(2) ? DL_TIME_TOKEN : DL_EVENT_TOKEN);
}

static inline size_t take(size_t *number, size_t n)
{
    size_t part = *number % n;
    *number /= n;
    return part;
}

// Another kind, algorithm or size for each number below 12; what is left of the number is for other choices.
static inline void take_token(struct window_call *call, size_t *number)
{
    token_of(call, (uint8_t)take(number, 2));
    call->algorithm = (uint8_t)(DL_ALGORITHM_SM3 + take(number, 2));
    call->size = (uint8_t)(DL_SMALL + take(number, 3));
}

// Pairs have no challenge.
static inline void pair_token(struct window_call *call)
{
    any_token(call);
    call->challenge_len = 0;
}

static inline void challenged_token(struct window_call *call)
{
    any_token(call);
    make_challenge(call, random_between(4, 32));
}

// ---- tokens at the edges

// A time token whose window is cut neither at 0 nor by its distance from the clock.
static inline void whole_window(struct window_call *call)
{
    time_token(call);
    set_clock_step(call, 2000 + (int64_t)random_below(1000000));
    set_offset(call, random_around(0, 590));
    set_next_near(call);
}

// All of T + d - w to T + d + w is below 0.
static inline void empty_window(struct window_call *call)
{
    time_token(call);
    int64_t width = window_of(call).width, step = (int64_t)random_below((size_t)(WINDOW_FARTHEST - width));
    set_clock_step(call, step);
    set_offset(call, -step - width - 1 - (int64_t)random_below((size_t)(WINDOW_FARTHEST - step - width)));
    set_next(call, (int64_t)random_below(20));
}

static inline void farthest_offset(struct window_call *call)
{
    whole_window(call);
    set_offset(call, one_in(2) ? -WINDOW_FARTHEST : WINDOW_FARTHEST);
    set_next_near(call);
}

// Some of T + d - w to T + d + w is more than 600 from T.
static inline void cut_window(struct window_call *call)
{
    whole_window(call);
    int64_t offset = WINDOW_FARTHEST - (int64_t)random_below((size_t)window_of(call).width);
    set_offset(call, one_in(2) ? -offset : offset);
    set_next_near(call);
}

static inline void next_above(struct window_call *call)
{
    whole_window(call);
    struct window window = window_of(call);
    int64_t end = window.clock_step + window.offset + window.width + 1;
    set_next(call, one_in(4) ? most_next - (int64_t)random_below(3) : end + (int64_t)random_below(1000));
}

static inline void next_inside(struct window_call *call)
{
    whole_window(call);
    struct window window = window_of(call);
    int64_t first = window.clock_step + window.offset - window.width;
    set_next(call, first + 1 + (int64_t)random_below(2 * (size_t)window.width));
}

static inline void next_below(struct window_call *call)
{
    whole_window(call);
    struct window window = window_of(call);
    int64_t first = window.clock_step + window.offset - window.width;
    set_next(call, one_in(4) ? 0 : first - (int64_t)random_below(1000));
}

static inline void latest_clock(struct window_call *call)
{
    time_token(call);
    call->period = 1;
    call->now = CLOCK_END - 1 - (one_in(2) ? 0 : random_below(20));
    set_next_near(call);
}

// The token's last step is 2^40 + 599.
static inline void last_next(struct window_call *call)
{
    latest_clock(call);
    call->now = CLOCK_END - 1;
    set_offset(call, WINDOW_FARTHEST - (int64_t)random_below(12));
    set_next(call, most_next);
}

static inline void clock_zero(struct window_call *call)
{
    time_token(call);
    call->now = 0;
    set_offset(call, random_around(0, 12));
    set_next(call, (int64_t)random_below(20));
}

// The window is cut at 0, or nearly.
static inline void early_clock(struct window_call *call)
{
    time_token(call);
    int64_t step = (int64_t)random_below(WINDOW_FARTHEST - 12);
    set_clock_step(call, step);
    set_offset(call, random_around(-step, 12));
    set_next(call, (int64_t)random_below(20));
}

// The first and the last second of a step.
static inline void period_edge(struct window_call *call)
{
    static const uint8_t periods[] = {1, WINDOW_MOST_PERIOD};
    whole_window(call);
    call->period = periods[random_below(sizeof periods)];
    call->now = (2000 + random_below(1000000)) * call->period + (one_in(2) ? 0 : call->period - 1);
    set_next_near(call);
}

static inline void first_counts(struct window_call *call)
{
    event_token(call);
    set_next(call, (int64_t)random_below(3));
}

static inline void last_counts(struct window_call *call)
{
    event_token(call);
    set_next(call, COUNT_END - (int64_t)random_below(61));
}

static inline void counts_at_end(struct window_call *call)
{
    event_token(call);
    set_next(call, COUNT_END);
}

#endif
