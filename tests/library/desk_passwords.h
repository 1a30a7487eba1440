// The sorts of passwords that are typed in for the desk's checked calls.
#ifndef DESK_PASSWORDS_H
#define DESK_PASSWORDS_H

#include "desk_reference.h"
#include "window_typing.h"

// The last three may be bad arguments.
enum sort {
    RIGHT, ONE_USED, GUESSED, JUST_BEFORE, JUST_BEHIND, OTHER_COUNT, OTHER_LENGTH, NO_DIGIT, NOT_TYPED, SORTS,
    ANY_SORT = SORTS,
};

// ---- typists

static inline int pair_other_length(struct window_call *token)
{
    return one_in(2) ? first_other_length(token) : second_other_length(token);
}

static inline int pair_not_typed(struct window_call *token)
{
    if (!fresh_pair(token))
        return 0;
    *(one_in(2) ? &token->presented.len : &token->following.len) = 0;
    return 1;
}

// One of the two, or both in another order than the token shows them; two random ones where the window has no step for that.
static inline int pair_guessed(struct window_call *token)
{
    static typist *const sorts[] = {wrong_first, wrong_second, same_twice, turned_round, one_left_out};
    if (sorts[random_below(sizeof sorts / sizeof *sorts)](token))
        return 1;
    return type_random_digits(&token->presented, token->digits) && type_random_digits(&token->following, token->digits);
}

// A pair that only its second step would make fresh, or one that is older.
static inline int pair_one_used(struct window_call *token)
{
    return one_in(2) ? border_pair(token) : used_pair(token);
}

static typist *const typists[][SORTS] = {
    [SINGLE] = {[RIGHT] = fresh_step, [ONE_USED] = used_step, [GUESSED] = random_digits, [JUST_BEFORE] = step_before,
                [JUST_BEHIND] = step_behind, [OTHER_COUNT] = other_count, [OTHER_LENGTH] = other_length, [NO_DIGIT] = no_digit,
                [NOT_TYPED] = no_byte},
    [PAIR] = {[RIGHT] = fresh_pair, [ONE_USED] = pair_one_used, [GUESSED] = pair_guessed, [JUST_BEFORE] = first_before,
              [JUST_BEHIND] = second_behind, [OTHER_COUNT] = pair_other_count, [OTHER_LENGTH] = pair_other_length,
              [NO_DIGIT] = pair_no_digit, [NOT_TYPED] = pair_not_typed}};

// More of those that get past the check.
static inline enum sort any_sort(void)
{
    return one_in(2) ? RIGHT : one_in(2) ? ONE_USED : (enum sort)random_below(SORTS);
}

// ---- typing

static inline void random_challenge(struct window_typed *challenge)
{
    challenge->len = random_between(OTP_LEAST_CHALLENGE, OTP_MOST_CHALLENGE);
    random_bytes_between(challenge->bytes, challenge->len, 0x21, 0x7e);
}

// What this sort makes of a token, which is a well-formed row's; gives 0 if the token has no such password.
static inline int type_for_token(struct desk_call *call, struct window_call *token, typist *type)
{
    if (!type(token))
        return 0;
    call->password = token->presented;
    call->following = token->following;
    return 1;
}

// For the call on a row that is well formed. A call without a check has nothing to type.
static inline int type_password(struct desk_call *call, const uint8_t *row, enum sort sort)
{
    enum desk_check kind = desk_rules[call->name].check;
    random_challenge(&call->challenge);
    if (kind == NO_CHECK)
        return 1;
    struct window_call token = desk_token(row, call);
    return type_for_token(call, &token, typists[kind][sort]);
}

#endif
