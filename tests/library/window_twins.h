// Steps that share a password of 6 digits, found by a search, and windows that have both.
#ifndef WINDOW_TWINS_H
#define WINDOW_TWINS_H

#include "window_tokens.h"
#include "window_typing.h"

// So near to each other that one window of the token's has both and the step behind them.
struct twins {
    struct window_call token;
    int64_t first, second;
};

enum {
    ALONE = -1, // no second password is typed in
    RING = 64, // more steps than any window has
    COMBINED = 2 * 2 * 3, // kinds, algorithms, sizes
    TWINS = 2 * COMBINED,
};

static struct twins twins[TWINS];
static size_t twins_found;

// ---- the search

// The password's digits in one number, which is never 0.
static inline uint64_t password_number(const struct window_call *call, int64_t step)
{
    struct window_typed password;
    uint64_t number = 0;
    window_password(call, step, &password);
    memcpy(&number, password.bytes, 6);
    return number;
}

// How many steps before this one the same password stands in the ring, or 0.
static inline int64_t find_earlier(const uint64_t *ring, int64_t step, int64_t reach, uint64_t password)
{
    for (int64_t back = 1; back <= reach; back++)
        if (ring[(step - back) % RING] == password)
            return back;
    return 0;
}

static inline void find_twins(struct twins *pair)
{
    uint64_t ring[RING] = {0};
    struct window window = window_of(&pair->token);
    int64_t reach = window.is_time ? 2 * window.width - 1 : window.width - 2, back = 0;
    for (pair->second = 2000 + (int64_t)random_below(1000000); back == 0; pair->second++) {
        uint64_t password = password_number(&pair->token, pair->second);
        back = find_earlier(ring, pair->second, reach, password);
        ring[pair->second % RING] = password;
    }
    pair->first = --pair->second - back;
}

// Once for all tests. The short run has the large windows alone, where twins are found soonest.
static inline void find_all_twins(void)
{
    size_t most = twins_found > 0 ? 0 : full_run ? TWINS : COMBINED;
    for (size_t i = 0; i < most; i++) {
        struct window_call *token = &twins[twins_found].token;
        size_t number = i;
        take_token(token, &number);
        token->digits = 6;
        token->challenge_len = 0;
        if (full_run || token->size == DL_LARGE)
            find_twins(&twins[twins_found++]);
    }
}

// ---- neighbours

// Steps with the password of the step behind them, under the key 00 to 0f: one in a million, so searched for beforehand.
static inline void make_neighbours(struct twins *pair, size_t number)
{
    static const int64_t steps[2][2] = {{402940, 237447}, {73754, 1154179}};
    size_t kind = take(&number, 2), algorithm = take(&number, 2);
    token_of(&pair->token, (uint8_t)kind);
    pair->token.algorithm = (uint8_t)(DL_ALGORITHM_SM3 + algorithm);
    pair->token.digits = 6;
    pair->token.challenge_len = 0;
    pair->token.key_len = 16;
    for (uint8_t i = 0; i < 16; i++)
        pair->token.key[i] = i;
    pair->first = steps[kind][algorithm];
    pair->second = pair->first + 1;
}

// ---- windows about them

// Clock, offset and next such that the token's window is somewhere near the step.
static inline void place(struct window_call *token, int64_t step)
{
    if (token->kind == DL_EVENT_TOKEN) {
        set_next(token, random_around(step, 50));
        return;
    }
    int64_t offset = random_around(0, WINDOW_FARTHEST);
    set_offset(token, offset);
    set_clock_step(token, random_around(step - offset, 10));
    set_next(token, random_around(step, 30));
}

typedef int twins_test(const struct window *, const struct twins *);

static inline int both_fresh(const struct window *window, const struct twins *pair)
{
    return is_fresh(window, pair->first) && is_fresh_pair(window, pair->second);
}

static inline int used_and_fresh(const struct window *window, const struct twins *pair)
{
    return is_used(window, pair->first) && is_fresh_pair(window, pair->second);
}

static inline int both_used(const struct window *window, const struct twins *pair)
{
    return is_used(window, pair->first) && is_used(window, pair->second);
}

static inline int first_fresh(const struct window *window, const struct twins *pair)
{
    return is_fresh_pair(window, pair->first);
}

static inline int first_at_border(const struct window *window, const struct twins *pair)
{
    return is_border_pair(window, pair->first);
}

static inline void place_twins(struct window_call *call, const struct twins *pair, twins_test *fits)
{
    struct window window;
    *call = pair->token;
    do {
        place(call, pair->first);
        window = window_of(call);
    } while (!fits(&window, pair));
}

#endif
