// The check of document 01, Part 3, over the password of otp_reference.h, written from the documents alone: the arguments are held against
// Parts 2 to 4, and each step of a wide stretch against the document's own inequalities. The passwords that it computes are counted as
// document 02, request 2, says, and the fresh steps that match as its request 5 does.
#ifndef WINDOW_REFERENCE_H
#define WINDOW_REFERENCE_H

#include "dykeladder.h"
#include "otp_reference.h"

enum {
    WINDOW_LENGTHS = 300, // of key, challenge and password, those that are too long included
    WINDOW_MOST_PERIOD = 60, // in seconds
    WINDOW_FARTHEST = 600, // from the clock's step, and the document's d, either way
    WINDOW_STRETCH = 700, // no candidate is so far from the clock's step or from next
};

#define CLOCK_END (INT64_C(1) << 40)
#define COUNT_END (INT64_C(1) << 32)

// A password as it is typed in, right or not.
struct window_typed {
    uint8_t bytes[WINDOW_LENGTHS];
    size_t len;
};

// The arguments of dl_check.
struct window_call {
    uint8_t kind, algorithm, digits, period, size;
    uint16_t offset; // d + 600
    uint64_t next, now;
    uint8_t key[WINDOW_LENGTHS], challenge[WINDOW_LENGTHS];
    size_t key_len, challenge_len, step_len, computed_len, fresh_len;
    struct window_typed presented, following; // nothing following: a single check
};

struct window_answer {
    uint16_t code;
    uint64_t step; // with DL_DONE
    uint64_t computed; // how many passwords, with every code but DL_BAD_ARGUMENT
    uint64_t fresh; // how many fresh steps match, likewise
};

// ---- the arguments

static inline struct otp_arguments window_password_arguments(const struct window_call *call, int64_t step)
{
    return (struct otp_arguments){
        .algorithm = call->algorithm, .key = call->key, .key_len = call->key_len,
        .has_time = call->kind == DL_TIME_TOKEN, .has_count = call->kind == DL_EVENT_TOKEN,
        .time = (uint64_t)step, .count = (uint32_t)step,
        .challenge = call->challenge, .challenge_len = call->challenge_len, .digits = call->digits};
}

static inline int window_bytes_between(const struct window_typed *typed, uint8_t least, uint8_t most)
{
    for (size_t i = 0; i < typed->len; i++)
        if (typed->bytes[i] < least || typed->bytes[i] > most)
            return 0;
    return 1;
}

// 6 to 10 ASCII digits, as many as the token's or not.
static inline int window_is_password(const struct window_typed *typed)
{
    return OTP_LEAST_DIGITS <= typed->len && typed->len <= OTP_MOST_DIGITS && window_bytes_between(typed, '0', '9');
}

// One password, or two, which have no challenge.
static inline int window_is_typed(const struct window_call *call)
{
    if (!window_is_password(&call->presented))
        return 0;
    return call->following.len == 0 || (window_is_password(&call->following) && call->challenge_len == 0);
}

// Part 4's ranges for a token of either kind.
static inline int window_is_token(const struct window_call *call)
{
    if (call->kind == DL_TIME_TOKEN)
        return 1 <= call->period && call->period <= WINDOW_MOST_PERIOD && call->next <= CLOCK_END + WINDOW_FARTHEST
            && call->offset <= 2 * WINDOW_FARTHEST;
    return call->kind == DL_EVENT_TOKEN && call->period == 0 && call->next <= COUNT_END && call->offset == WINDOW_FARTHEST;
}

static inline int window_in_range(const struct window_call *call)
{
    struct otp_arguments arguments = window_password_arguments(call, 0);
    return otp_in_range(&arguments) && call->now < CLOCK_END
        && (call->size == DL_SMALL || call->size == DL_MEDIUM || call->size == DL_LARGE)
        && window_is_token(call) && window_is_typed(call) && call->step_len > 0 && call->computed_len > 0 && call->fresh_len > 0;
}

// ---- the candidates

// The document's T, d, w and next, which may be subtracted from one another.
struct window {
    int is_time;
    int64_t clock_step, offset, width, next;
};

static inline struct window window_of(const struct window_call *call)
{
    static const int64_t time_widths[] = {[DL_SMALL] = 2, [DL_MEDIUM] = 5, [DL_LARGE] = 10};
    static const int64_t event_widths[] = {[DL_SMALL] = 10, [DL_MEDIUM] = 20, [DL_LARGE] = 50};
    int is_time = call->kind == DL_TIME_TOKEN;
    return (struct window){
        .is_time = is_time, .clock_step = is_time ? (int64_t)(call->now / call->period) : 0,
        .offset = (int64_t)call->offset - WINDOW_FARTHEST,
        .width = is_time ? time_widths[call->size] : event_widths[call->size], .next = (int64_t)call->next};
}

static inline int64_t window_distance(int64_t one, int64_t other)
{
    return one > other ? one - other : other - one;
}

static inline int window_has(const struct window *window, int64_t step)
{
    if (step < 0)
        return 0;
    if (window->is_time)
        return window_distance(step, window->clock_step + window->offset) <= window->width
            && window_distance(step, window->clock_step) <= WINDOW_FARTHEST;
    return window->next - 1 <= step && step <= window->next + window->width - 1 && step < COUNT_END;
}

// The middle of a stretch that has all candidates.
static inline int64_t window_middle(const struct window *window)
{
    return window->is_time ? window->clock_step : window->next;
}

// ---- the check

// The password of any step; one that the token cannot have is wrapped round as an unsigned number would be.
static inline void window_password(const struct window_call *call, int64_t step, struct window_typed *password)
{
    struct otp_arguments arguments = window_password_arguments(call, step);
    password->len = call->digits;
    otp_require(otp_password(&arguments, password->bytes));
}

// A digit count that is not the token's is not searched.
static inline int window_is_searched(const struct window_call *call)
{
    return call->presented.len == call->digits && (call->following.len == 0 || call->following.len == call->digits);
}

static inline int window_is_same(const struct window_typed *one, const struct window_typed *other)
{
    return one->len == other->len && memcmp(one->bytes, other->bytes, one->len) == 0;
}

// A search on its way up the steps.
struct window_search {
    uint64_t computed; // passwords so far
    int is_begun; // the step before is a candidate with the first password of a pair
    uint64_t fresh; // matches that are fresh
    int64_t first_fresh; // the first of them
    int has_used; // a match that is not
};

// The step is a candidate with the password, computed this once; of a pair it has the following one, and the step before has the first.
static inline int window_matches(struct window_search *search, const struct window *window, const struct window_call *call, int64_t step)
{
    struct window_typed password;
    int was_begun = search->is_begun;
    search->is_begun = 0;
    if (!window_has(window, step))
        return 0;
    window_password(call, step, &password);
    search->computed++;
    search->is_begun = window_is_same(&password, &call->presented);
    if (call->following.len == 0)
        return search->is_begun;
    return was_begun && window_is_same(&password, &call->following);
}

static inline void window_add_match(struct window_search *search, int64_t step, int is_fresh_match)
{
    if (is_fresh_match && search->fresh++ == 0)
        search->first_fresh = step;
    search->has_used |= !is_fresh_match;
}

// Up the candidates: of one password all of them, of a pair to the first match that is fresh.
static inline void window_sweep(struct window_search *search, const struct window_call *call)
{
    struct window window = window_of(call);
    int64_t last = window_middle(&window) + WINDOW_STRETCH, is_pair = call->following.len > 0;
    for (int64_t step = last - 2 * WINDOW_STRETCH; step <= last && !(is_pair && search->fresh > 0); step++)
        if (window_matches(search, &window, call, step))
            window_add_match(search, step, step - is_pair >= window.next);
}

// One fresh match is accepted; two or more ask for the following password.
static inline struct window_answer window_judge(const struct window_search *search)
{
    struct window_answer answer = {search->has_used ? DL_USED : DL_WRONG, 0, search->computed, search->fresh};
    if (search->fresh > 1)
        answer.code = DL_NEXT_WANTED;
    if (search->fresh == 1) {
        answer.code = DL_DONE;
        answer.step = (uint64_t)search->first_fresh;
    }
    return answer;
}

static inline struct window_answer window_check(const struct window_call *call)
{
    struct window_search search = {0};
    if (!window_in_range(call))
        return (struct window_answer){.code = DL_BAD_ARGUMENT};
    if (window_is_searched(call))
        window_sweep(&search, call);
    return window_judge(&search);
}

#endif
