// A token that shows one password of six digits at two steps, or at three, of one window; those that were found stand in collisions.h.
#ifndef COLLISION_H
#define COLLISION_H

#include "window_reference.h"

enum { MOST_EQUAL = 3, NO_THIRD = -1, COLLISION_DIGITS = 6, COLLISION_PERIOD = 30 };

struct collision {
    uint8_t kind, algorithm;
    uint64_t key; // a number, in 16 bytes
    const char *challenge; // "": none
    int64_t steps[MOST_EQUAL]; // rising
    const char *password; // of each of them
};

static inline int64_t first_equal(const struct collision *collision)
{
    return collision->steps[0];
}

static inline int64_t last_equal(const struct collision *collision)
{
    return collision->steps[collision->steps[2] == NO_THIRD ? 1 : 2];
}

// With no step used, and a clock whose window of the size has all the steps.
static inline struct window_call collision_token(const struct collision *collision, uint8_t size)
{
    int is_time = collision->kind == DL_TIME_TOKEN;
    uint64_t centre = (uint64_t)(first_equal(collision) + last_equal(collision)) / 2;
    struct window_call token = {
        .kind = collision->kind, .algorithm = collision->algorithm, .digits = COLLISION_DIGITS, .size = size,
        .period = is_time ? COLLISION_PERIOD : 0, .offset = WINDOW_FARTHEST, .now = centre * COLLISION_PERIOD,
        .key_len = OTP_LEAST_KEY, .challenge_len = strlen(collision->challenge), .step_len = 1, .computed_len = 1, .fresh_len = 1};
    otp_put_number(token.key, collision->key, OTP_LEAST_KEY);
    memcpy(token.challenge, collision->challenge, token.challenge_len);
    return token;
}

static inline struct window_typed collision_password(const struct collision *collision)
{
    struct window_typed typed = {.len = COLLISION_DIGITS};
    memcpy(typed.bytes, collision->password, COLLISION_DIGITS);
    return typed;
}

#endif
