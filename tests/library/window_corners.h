// Checks whose answers are plain without the reference: of steps that share a password, and of every step about a window.
#ifndef WINDOW_CORNERS_H
#define WINDOW_CORNERS_H

#include "window_calls.h"
#include "window_tokens.h"
#include "window_twins.h"
#include "window_typing.h"

// ---- plain answers

// The password of a step, alone or with the one of another.
static inline void type_steps(struct window_call *call, int64_t presented, int64_t following)
{
    window_password(call, presented, &call->presented);
    call->following.len = 0;
    if (following != ALONE)
        window_password(call, following, &call->following);
}

// The reference must give it too.
static inline void expect_plain(const struct window_call *call, struct window_answer answer)
{
    struct window_answer said = window_check(call);
    require(said.code == answer.code && said.step == answer.step && said.computed == answer.computed && said.fresh == answer.fresh,
            "the reference's plain answer");
    expect(call, answer);
}

// ---- steps that share a password of 6 digits

// How many candidates there are up to a step.
static inline uint64_t candidates_to(const struct window_call *call, int64_t last)
{
    struct window window = window_of(call);
    int64_t middle = window_middle(&window);
    uint64_t found = 0;
    for (int64_t step = middle - WINDOW_STRETCH; step <= middle + WINDOW_STRETCH && step <= last; step++)
        found += window_has(&window, step);
    return found;
}

// The password of both, alone or with the one of a step behind either.
static inline void expect_done(struct window_call *call, const struct twins *pair, int64_t following, int64_t accepted)
{
    type_steps(call, pair->first, following);
    expect_plain(call, done(accepted, candidates_to(call, following == ALONE ? INT64_MAX : accepted)));
}

static inline void expect_used(struct window_call *call, const struct twins *pair, int64_t following)
{
    type_steps(call, pair->first, following);
    expect_plain(call, used(candidates_to(call, INT64_MAX)));
}

static inline void neither_of_two(const struct twins *pair)
{
    struct window_call call;
    place_twins(&call, pair, both_fresh);
    type_steps(&call, pair->first, ALONE);
    expect_plain(&call, next_wanted(candidates_to(&call, INT64_MAX), 2));
}

static inline void fresh_wins(const struct twins *pair)
{
    struct window_call call;
    place_twins(&call, pair, used_and_fresh);
    expect_done(&call, pair, ALONE, pair->second);
}

// An event token has only one used candidate.
static inline void no_fresh(const struct twins *pair)
{
    struct window_call call;
    if (pair->token.kind == DL_EVENT_TOKEN)
        return;
    place_twins(&call, pair, both_used);
    expect_used(&call, pair, ALONE);
}

// The second password tells which of the two steps is meant.
static inline void second_decides(const struct twins *pair)
{
    struct window_call call;
    place_twins(&call, pair, both_fresh);
    expect_done(&call, pair, pair->first + 1, pair->first + 1);
    expect_done(&call, pair, pair->second + 1, pair->second + 1);
    place_twins(&call, pair, used_and_fresh);
    expect_used(&call, pair, pair->first + 1);
    expect_done(&call, pair, pair->second + 1, pair->second + 1);
}

// Where two steps in a row have the same password, that password twice is a right pair.
static inline void pair_of_neighbours(const struct twins *pair)
{
    struct window_call call;
    place_twins(&call, pair, first_fresh);
    expect_done(&call, pair, pair->second, pair->second);
    place_twins(&call, pair, first_at_border);
    expect_used(&call, pair, pair->second);
}

static inline void with_twins(void (*test)(const struct twins *), unsigned wanted)
{
    find_all_twins();
    for (size_t i = 0; i < cases; i++)
        test(&twins[i % twins_found]);
    came_up(wanted);
}

static inline void twins_fresh(void) { with_twins(neither_of_two, NEXT_WANTED); }
static inline void twins_used_and_fresh(void) { with_twins(fresh_wins, DONE); }
static inline void twins_used(void) { with_twins(no_fresh, USED); }
static inline void twins_in_pairs(void) { with_twins(second_decides, DONE | USED); }

static inline void equal_neighbours(void)
{
    struct twins pair;
    for (size_t i = 0; i < cases; i++) {
        make_neighbours(&pair, i);
        pair_of_neighbours(&pair);
    }
    came_up(DONE | USED);
}

// ---- windows given step by step, without the reference's word for them

// The candidates are first to last, or none.
struct listed {
    uint8_t kind, period, size;
    int64_t now, offset, next, first, last;
};

// Document 01, set cases 7 to 10: kind, period, size, now, d, next, and the candidates.
static const struct listed set_case_7 = {DL_TIME_TOKEN, 60, DL_SMALL, 119, 0, 0, 0, 3};
static const struct listed set_case_8 = {DL_EVENT_TOKEN, 0, DL_SMALL, 0, 0, 5, 4, 14};
static const struct listed set_case_9 = {DL_EVENT_TOKEN, 0, DL_SMALL, 0, 0, COUNT_END - 1, COUNT_END - 2, COUNT_END - 1};
static const struct listed set_case_10 = {DL_TIME_TOKEN, 1, DL_SMALL, 1000, 600, 0, 1598, 1600};

static const struct listed further[] = {
    {DL_TIME_TOKEN, 1, DL_SMALL, 0, -600, 0, 0, -1},
    {DL_TIME_TOKEN, 1, DL_SMALL, 0, -3, 0, 0, -1},
    {DL_TIME_TOKEN, 1, DL_SMALL, 0, -2, 0, 0, 0},
    {DL_TIME_TOKEN, 60, DL_LARGE, 59, 0, 0, 0, 10},
    {DL_TIME_TOKEN, 30, DL_MEDIUM, 3000, 0, 101, 95, 105},
    {DL_TIME_TOKEN, 30, DL_LARGE, 30029, -600, 500, 400, 410},
    {DL_TIME_TOKEN, 1, DL_LARGE, CLOCK_END - 1, 600, CLOCK_END + 595, CLOCK_END + 589, CLOCK_END + 599},
    {DL_EVENT_TOKEN, 0, DL_SMALL, 0, 0, 0, 0, 9},
    {DL_EVENT_TOKEN, 0, DL_MEDIUM, 0, 0, 1, 0, 20},
    {DL_EVENT_TOKEN, 0, DL_LARGE, 0, 0, 1000, 999, 1049},
    {DL_EVENT_TOKEN, 0, DL_LARGE, 0, 0, COUNT_END, COUNT_END - 1, COUNT_END - 1}};

static inline void make_listed(struct window_call *call, const struct listed *window)
{
    *call = (struct window_call){.kind = window->kind, .digits = 10, .period = window->period, .size = window->size,
                                 .next = (uint64_t)window->next, .now = (uint64_t)window->now, .key = "dykeladder",
                                 .key_len = 16, .step_len = 1, .computed_len = 1, .fresh_len = 1};
    set_offset(call, window->offset);
}

// Of a password that belongs to the step, or to none of the window. All candidates are counted, or those up to a pair's accepted step.
static inline struct window_answer listed_answer(const struct listed *window, int is_listed, int is_fresh_step, int64_t step, int is_pair)
{
    uint64_t all = (uint64_t)(window->last - window->first + 1);
    int64_t accepted = step + is_pair;
    if (!is_listed)
        return wrong(all);
    return is_fresh_step ? done(accepted, is_pair ? (uint64_t)(accepted - window->first + 1) : all) : used(all);
}

// The step's password alone and then as the first of a pair; those of 10 digits are all different here.
static inline void expect_step(struct window_call *call, const struct listed *window, int64_t step)
{
    int is_fresh_step = step >= window->next;
    int is_listed = window->first <= step && step <= window->last;
    type_steps(call, step, ALONE);
    expect(call, listed_answer(window, is_listed, is_fresh_step, step, 0));
    type_steps(call, step, step + 1);
    expect(call, listed_answer(window, is_listed && step < window->last, is_fresh_step, step, 1));
}

// Every step far around the window; those below 0 or past the last count wrap round, and are none of the window's.
static inline void every_step(const struct listed *window)
{
    struct window_call call;
    int64_t far = full_run ? WINDOW_STRETCH : 2 * MOST_NEAR;
    make_listed(&call, window);
    for (int algorithm = DL_ALGORITHM_SM3; algorithm <= DL_ALGORITHM_SM4; algorithm++) {
        call.algorithm = (uint8_t)algorithm;
        for (int64_t step = window->first - far; step <= window->last + far; step++)
            expect_step(&call, window, step);
    }
}

static inline void one_window(const struct listed *window, unsigned wanted)
{
    every_step(window);
    came_up(wanted);
}

static inline void steps_of_case_7(void) { one_window(&set_case_7, DONE | WRONG); }
static inline void steps_of_case_8(void) { one_window(&set_case_8, DONE | USED | WRONG); }
static inline void steps_of_case_9(void) { one_window(&set_case_9, DONE | USED | WRONG); }
static inline void steps_of_case_10(void) { one_window(&set_case_10, DONE | WRONG); }

static inline void steps_of_further(void)
{
    for (size_t i = 0; i < sizeof further / sizeof *further; i++)
        every_step(&further[i]);
    came_up(DONE | USED | WRONG);
}

#endif
