// Checks of tokens with one password at two steps or three: those of collisions.h, whose answers are plain without the reference.
#ifndef WINDOW_COLLISIONS_H
#define WINDOW_COLLISIONS_H

#include "collisions.h"
#include "window_corners.h"

// ---- what was found

static inline int is_shown(const struct collision *collision, int64_t step)
{
    struct window_call token = collision_token(collision, DL_SMALL);
    struct window_typed password, shared = collision_password(collision);
    window_password(&token, step, &password);
    return window_is_same(&password, &shared);
}

// Its steps rise, and all of them have the password.
static inline void expect_equal(const struct collision *collision)
{
    const int64_t *steps = collision->steps;
    int is_third = steps[2] == NO_THIRD || (steps[1] < steps[2] && is_shown(collision, steps[2]));
    check(steps[0] < steps[1] && is_shown(collision, steps[0]) && is_shown(collision, steps[1]) && is_third,
          "key %" PRIu64 " does not show %s at its steps", collision->key, collision->password);
}

static inline void equal_passwords(void)
{
    for (size_t i = 0; i < COLLISIONS; i++)
        expect_equal(&collisions[i]);
    for (size_t i = 0; i < TRIPLES; i++)
        expect_equal(&triples[i]);
}

// Fifty tokens of each kind and algorithm; those with a challenge do not count.
static inline void enough_were_found(void)
{
    int found[2][2] = {{0}};
    for (size_t i = 0; i < COLLISIONS; i++)
        found[collisions[i].kind][collisions[i].algorithm - DL_ALGORITHM_SM3] += collisions[i].challenge[0] == '\0';
    for (int i = 0; i < 4; i++)
        check(found[i / 2][i % 2] >= 50, "only %d tokens of kind %d, algorithm %d", found[i / 2][i % 2], i / 2, DL_ALGORITHM_SM3 + i % 2);
}

static inline int is_found(const struct collision *told)
{
    for (size_t i = 0; i < COLLISIONS; i++)
        if (collisions[i].kind == told->kind && collisions[i].algorithm == told->algorithm && collisions[i].key == told->key
            && collisions[i].challenge[0] == '\0' && memcmp(collisions[i].steps, told->steps, sizeof told->steps) == 0
            && strcmp(collisions[i].password, told->password) == 0)
            return 1;
    return 0;
}

static inline void told_tokens_were_found(void)
{
    for (size_t i = 0; i < TOLD_TOKENS; i++)
        check(is_found(&told_tokens[i]), "key %" PRIu64 " of the request's table was not found", told_tokens[i].key);
}

// ---- checks

static inline void told_answers(void)
{
    for (size_t i = 0; i < TOLD_CHECKS; i++) {
        const struct told_check *told = &told_checks[i];
        struct window_call call = collision_token(&told_tokens[told->token], DL_SMALL);
        call.presented = collision_password(&told_tokens[told->token]);
        call.next = told->next;
        call.now = told->now;
        expect_plain(&call, told->answer);
    }
    came_up(DONE | NEXT_WANTED | USED | WRONG);
}

// With this first unused step; of the window's steps, `equal` unused ones have the password, the last of them this one.
static inline void expect_fresh(struct window_call call, int64_t next, uint64_t equal, int64_t last)
{
    set_next(&call, next);
    uint64_t all = candidates_to(&call, INT64_MAX);
    expect_plain(&call, equal > 1 ? next_wanted(all, equal) : equal == 1 ? done(last, all) : used(all));
}

// From the first unused step at the first of the equal ones to behind the last of them.
static inline void expect_single(const struct collision *collision, uint8_t size)
{
    struct window_call call = collision_token(collision, size);
    const int64_t *steps = collision->steps, last = last_equal(collision);
    int is_triple = steps[2] != NO_THIRD;
    call.presented = collision_password(collision);
    expect_fresh(call, steps[0], 2 + (uint64_t)is_triple, last);
    expect_fresh(call, steps[0] + 1, 1 + (uint64_t)is_triple, last);
    expect_fresh(call, steps[1], 1 + (uint64_t)is_triple, last);
    expect_fresh(call, steps[1] + 1, (uint64_t)is_triple, last);
    expect_fresh(call, last + 1, 0, last);
}

// Two passwords tell the steps apart, as they did.
static inline void expect_pairs(const struct collision *collision)
{
    struct window_call call = collision_token(collision, DL_LARGE);
    struct twins pair = {.first = collision->steps[0], .second = collision->steps[1]};
    call.next = (uint64_t)pair.first;
    if (call.challenge_len > 0)
        return;
    expect_done(&call, &pair, pair.first + 1, pair.first + 1);
    expect_done(&call, &pair, pair.second + 1, pair.second + 1);
    call.next++;
    expect_done(&call, &pair, pair.second + 1, pair.second + 1);
    expect_used(&call, &pair, pair.first + 1);
}

static inline void found_tokens(void)
{
    for (size_t i = 0; i < COLLISIONS; i++) {
        expect_single(&collisions[i], DL_SMALL);
        expect_pairs(&collisions[i]);
    }
    came_up(DONE | NEXT_WANTED | USED);
}

static inline void three_steps(void)
{
    for (size_t i = 0; i < TRIPLES; i++) {
        expect_single(&triples[i], triples[i].kind == DL_TIME_TOKEN ? DL_LARGE : DL_SMALL);
        expect_pairs(&triples[i]);
    }
    came_up(DONE | NEXT_WANTED | USED);
}

// The clock, next and the window's size about the equal steps, with their password or that of a step near them.
static inline void make_near(struct window_call *call, const struct collision *collision)
{
    *call = collision_token(collision, random_between(DL_SMALL, DL_LARGE));
    set_next(call, random_around(first_equal(collision) + 3, 6));
    if (call->kind == DL_TIME_TOKEN)
        set_clock_step(call, random_around((int64_t)call->now / COLLISION_PERIOD, 3));
    call->presented = collision_password(collision);
    if (one_in(4))
        window_password(call, random_around(first_equal(collision) + 3, 6), &call->presented);
}

static inline void near_equal_steps(void)
{
    struct window_call call;
    for (size_t i = 0; i < 20 * cases; i++) {
        make_near(&call, &collisions[random_below(COLLISIONS)]);
        compare(&call);
    }
    came_up(DONE | NEXT_WANTED | USED | WRONG);
}

#endif
