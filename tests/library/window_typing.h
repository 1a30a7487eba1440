// The passwords that are typed in for a token, one or two in a row: those of steps in its window or near it, and wrong ones.
#ifndef WINDOW_TYPING_H
#define WINDOW_TYPING_H

#include "testing.h"
#include "window_reference.h"

typedef int typist(struct window_call *);

enum { MOST_NEAR = 30 };

// ---- steps

typedef int step_test(const struct window *, int64_t);

static inline int is_fresh(const struct window *window, int64_t step)
{
    return window_has(window, step) && step >= window->next;
}

static inline int is_used(const struct window *window, int64_t step)
{
    return window_has(window, step) && step < window->next;
}

static inline int is_before(const struct window *window, int64_t step)
{
    return !window_has(window, step) && window_has(window, step + 1);
}

static inline int is_behind(const struct window *window, int64_t step)
{
    return !window_has(window, step) && window_has(window, step - 1);
}

// Of the window or not.
static inline int is_near(const struct window *window, int64_t step)
{
    int64_t centre = window->is_time ? window->clock_step + window->offset : window->next;
    return window_distance(step, centre) <= MOST_NEAR;
}

static inline int is_last(const struct window *window, int64_t step)
{
    return window_has(window, step) && !window_has(window, step + 1);
}

static inline int is_fresh_pair(const struct window *window, int64_t step)
{
    return is_fresh(window, step) && window_has(window, step + 1);
}

static inline int is_used_pair(const struct window *window, int64_t step)
{
    return is_used(window, step) && window_has(window, step + 1);
}

static inline int is_border_pair(const struct window *window, int64_t step)
{
    return is_used_pair(window, step) && step == window->next - 1;
}

// Any one of the steps that fit; gives 0 if there is none.
static inline int pick_step(const struct window_call *call, step_test *fits, int64_t *picked)
{
    struct window window = window_of(call);
    int64_t middle = window_middle(&window);
    size_t found = 0;
    for (int64_t step = middle - WINDOW_STRETCH; step <= middle + WINDOW_STRETCH; step++)
        if (fits(&window, step) && one_in(++found))
            *picked = step;
    return found > 0;
}

// ---- what is typed in for a single check; each sort gives 0 if the token has no such password

static inline int type_step(struct window_call *call, step_test *fits)
{
    int64_t step = 0;
    call->following.len = 0;
    if (!pick_step(call, fits, &step))
        return 0;
    window_password(call, step, &call->presented);
    return 1;
}

// These four give 1 always, so as to follow the making of a right password.
static inline int type_random_digits(struct window_typed *typed, size_t n)
{
    typed->len = n;
    random_bytes_between(typed->bytes, n, '0', '9');
    return 1;
}

// 6 to 10 digits, but not as many as the token's; those that both have are the same.
static inline int change_count(struct window_typed *typed)
{
    size_t n = random_between(OTP_LEAST_DIGITS, OTP_MOST_DIGITS - 1);
    n += n >= typed->len;
    for (size_t i = typed->len; i < n; i++)
        typed->bytes[i] = random_between('0', '9');
    typed->len = n;
    return 1;
}

// Shorter or longer at either end, or so long that the length's low byte is right or 0.
static inline int change_length(struct window_typed *typed)
{
    size_t len = typed->len, fewer = 1 + random_below(len - 1);
    switch (random_below(5)) {
    case 0:
        typed->len = fewer;
        break;
    case 1:
        typed->len = fewer;
        memmove(typed->bytes, typed->bytes + len - fewer, fewer);
        break;
    case 2:
        typed->len = len + fewer;
        random_bytes_between(typed->bytes + len, fewer, '0', '9');
        break;
    case 3:
        typed->len = len + fewer;
        memmove(typed->bytes + fewer, typed->bytes, len);
        memset(typed->bytes, '0', fewer);
        break;
    default:
        typed->len = 256 + (one_in(2) ? len : 0);
    }
    return 1;
}

// One byte no digit, at times one with the low half of the digit that it was.
static inline int spoil_byte(struct window_typed *typed)
{
    static const uint8_t no_digits[] = {0, '/', ':', ' ', '\n', 'a', 0x7f, 0x80, 0xff};
    uint8_t *byte = typed->bytes + random_below(typed->len);
    *byte = one_in(2) ? no_digits[random_below(sizeof no_digits)] : (uint8_t)(*byte ^ 0x10 << random_below(4));
    return 1;
}

static inline int fresh_step(struct window_call *call) { return type_step(call, is_fresh); }
static inline int used_step(struct window_call *call) { return type_step(call, is_used); }
static inline int step_before(struct window_call *call) { return type_step(call, is_before); }
static inline int step_behind(struct window_call *call) { return type_step(call, is_behind); }
static inline int step_near(struct window_call *call) { return type_step(call, is_near); }
static inline int other_count(struct window_call *call) { return fresh_step(call) && change_count(&call->presented); }
static inline int other_length(struct window_call *call) { return fresh_step(call) && change_length(&call->presented); }
static inline int no_digit(struct window_call *call) { return fresh_step(call) && spoil_byte(&call->presented); }

static inline int random_digits(struct window_call *call)
{
    call->following.len = 0;
    return type_random_digits(&call->presented, call->digits);
}

static inline int no_byte(struct window_call *call)
{
    call->presented.len = call->following.len = 0;
    return 1;
}

// ---- what is typed in for a pair

// The password of a step that fits, and the one of the step so much later.
static inline int type_pair(struct window_call *call, step_test *fits, int64_t later)
{
    int64_t step = 0;
    if (!pick_step(call, fits, &step))
        return 0;
    window_password(call, step, &call->presented);
    window_password(call, step + later, &call->following);
    return 1;
}

static inline int fresh_pair(struct window_call *call) { return type_pair(call, is_fresh_pair, 1); }
static inline int used_pair(struct window_call *call) { return type_pair(call, is_used_pair, 1); }
static inline int border_pair(struct window_call *call) { return type_pair(call, is_border_pair, 1); }
static inline int pair_near(struct window_call *call) { return type_pair(call, is_near, 1); }
static inline int second_behind(struct window_call *call) { return type_pair(call, is_last, 1); }
static inline int first_before(struct window_call *call) { return type_pair(call, is_before, 1); }
static inline int same_twice(struct window_call *call) { return type_pair(call, is_fresh, 0); }
static inline int turned_round(struct window_call *call) { return type_pair(call, is_fresh, -1); }
static inline int one_left_out(struct window_call *call) { return type_pair(call, is_fresh, 2); }

static inline int wrong_first(struct window_call *call)
{
    return fresh_pair(call) && type_random_digits(&call->presented, call->digits);
}

static inline int wrong_second(struct window_call *call)
{
    return fresh_pair(call) && type_random_digits(&call->following, call->digits);
}

static inline int pair_other_count(struct window_call *call)
{
    return fresh_pair(call) && change_count(one_in(2) ? &call->presented : &call->following);
}

static inline int second_other_length(struct window_call *call)
{
    return fresh_pair(call) && change_length(&call->following);
}

// Or empty.
static inline int first_other_length(struct window_call *call)
{
    if (!fresh_pair(call))
        return 0;
    if (!one_in(4))
        return change_length(&call->presented);
    call->presented.len = 0;
    return 1;
}

static inline int pair_no_digit(struct window_call *call)
{
    return fresh_pair(call) && spoil_byte(one_in(2) ? &call->presented : &call->following);
}

// ---- any sort

// 6 to 10 digits each.
static typist *const singles[] = {fresh_step, used_step, step_before, step_behind, step_near, random_digits, other_count};
static typist *const pairs[] = {fresh_pair, used_pair, border_pair, pair_near, second_behind, first_before, same_twice,
                                turned_round, one_left_out, wrong_second, wrong_first, pair_other_count};

// Of another length, or with a byte that is no digit.
static typist *const misfits[] = {other_length, no_digit, no_byte, second_other_length, first_other_length, pair_no_digit};

static inline int any_single(struct window_call *call)
{
    return singles[random_below(sizeof singles / sizeof *singles)](call);
}

static inline int type_any_pair(struct window_call *call)
{
    return pairs[random_below(sizeof pairs / sizeof *pairs)](call);
}

static inline int any_pair(struct window_call *call)
{
    call->challenge_len = 0;
    return type_any_pair(call);
}

// A pair and a challenge; the passwords are those of the challenge or of none.
static inline int challenged_pair(struct window_call *call)
{
    size_t len = call->challenge_len;
    call->challenge_len = one_in(2) ? len : 0;
    int is_typed = type_any_pair(call);
    call->challenge_len = len;
    return is_typed;
}

static inline int any_misfit(struct window_call *call)
{
    return misfits[random_below(sizeof misfits / sizeof *misfits)](call);
}

static inline int anything(struct window_call *call)
{
    return one_in(2) ? any_single(call) : any_pair(call);
}

static inline int anything_or_misfit(struct window_call *call)
{
    return one_in(8) ? any_misfit(call) : anything(call);
}

#endif
