// Random lists of calls on tokens of collisions.h, all of one list alike: the clocks are about the steps with one password, back and forth, and
// that password is typed in most of the time.
#ifndef COLLISION_LISTS_H
#define COLLISION_LISTS_H

#include "collisions.h"
#include "desk_lists.h"

struct collision_list {
    struct list base;
    const struct collision *collision;
};

// ---- the clock

// The period of a time token; of the clocks of an event token, which are any, the same.
static inline uint64_t collision_period(const struct collision_list *list)
{
    return list->collision->kind == DL_TIME_TOKEN ? list->base.models[0].period : COLLISION_PERIOD;
}

// From six steps before the equal ones to three behind them; far away at times.
static inline uint64_t clock_near_equal(const struct collision_list *list)
{
    uint64_t before = list->collision->kind == DL_TIME_TOKEN ? (uint64_t)first_equal(list->collision) - 6 : 100;
    uint64_t steps = (uint64_t)(last_equal(list->collision) - first_equal(list->collision)) + 9;
    return one_in(32) ? any_time() : before * collision_period(list) + random_below(steps * collision_period(list));
}

// ---- the list

static inline void make_collision_load(struct desk_load *load, const struct collision *collision)
{
    make_model(load);
    load->kind = collision->kind;
    load->algorithm = collision->algorithm;
    load->digits = COLLISION_DIGITS;
    load->period = collision->kind == DL_EVENT_TOKEN ? 0 : one_in(2) ? 60 : random_between(1, ROW_MOST_PERIOD);
    load->limit = random_between(1, 3);
    load->key_len = OTP_LEAST_KEY;
    otp_put_number(load->key, collision->key, OTP_LEAST_KEY);
}

// On zero rows.
static inline void begin_collision_list(struct collision_list *list, size_t rows)
{
    begin_list(&list->base, rows);
    list->collision = &collisions[random_below(COLLISIONS)];
    make_collision_load(&list->base.models[0], list->collision);
    for (size_t i = 1; i < MODELS; i++)
        list->base.models[i] = list->base.models[0];
    list->base.now = clock_near_equal(list);
}

// Tokens in any state but void, some of whose steps may be used, in the places of zero rows.
static inline void lay_collision_rows(const struct collision_list *list)
{
    struct window_call token = collision_token(list->collision, DL_SMALL);
    for (size_t place = 0; place < list->base.rows; place++) {
        uint8_t *row = table_row(place);
        token.period = list->base.models[0].period;
        set_next(&token, random_around(first_equal(list->collision), 3));
        if (token.kind == DL_TIME_TOKEN)
            set_offset(&token, random_around(0, 2));
        put_token(row, &token);
        put_standing(row, list->base.now, random_between(DL_STATE_NOT_ACTIVATED, DL_STATE_SUSPENDED));
        row_put(row, ROW_SERIAL, serial_at(&list->base, place));
    }
}

// ---- passwords

// The last ones before the equal steps, those of the clock, or one of the equal steps and the one behind it.
static inline int type_equal_pair(const struct collision *collision, struct desk_call *call, const uint8_t *row)
{
    struct window_call token = desk_token(row, call);
    const int64_t first = first_equal(collision), starts[] = {first - 2, window_of(&token).clock_step - 1, first, last_equal(collision)};
    int64_t step = starts[random_below(sizeof starts / sizeof *starts)];
    if (step < 0)
        return 0;
    window_password(&token, step, &call->password);
    window_password(&token, step + 1, &call->following);
    return 1;
}

// The password of the equal steps, where the call has their challenge or both have none.
static inline int type_equal(const struct collision *collision, struct desk_call *call, const uint8_t *row)
{
    if (row == NULL || !row_well_formed(row))
        return 0;
    if (desk_rules[call->name].check == PAIR)
        return type_equal_pair(collision, call, row);
    if ((call->name == CALL_CHALLENGE_LOGIN) != (collision->challenge[0] != '\0'))
        return 0;
    call->challenge.len = strlen(collision->challenge);
    memcpy(call->challenge.bytes, collision->challenge, call->challenge.len);
    call->password = collision_password(collision);
    return 1;
}

// ---- the call

// Of a ready token mostly a login, with a challenge if the equal steps have one.
static inline void take_collision_name(struct desk_call *call, const struct collision *collision, uint64_t state)
{
    take_name(call, state);
    if (state == DL_STATE_READY && !one_in(3))
        call->name = collision->challenge[0] == '\0' ? CALL_LOGIN : CALL_CHALLENGE_LOGIN;
}

static inline void next_collision_call(struct collision_list *list, struct desk_call *call)
{
    struct list *base = &list->base;
    uint8_t *row = any_taken_row(base);
    base->now = clock_near_equal(list);
    *call = (struct desk_call){.table_len = base->rows * DL_ROW_BYTES, .now = base->now, .values_len = DL_QUERY_VALUES};
    if (row == NULL || one_in(16)) {
        take_load(base, call);
        return;
    }
    call->serial = row_get(row, ROW_SERIAL);
    take_collision_name(call, list->collision, row_get(row, ROW_STATE));
    if (desk_rules[call->name].check != NO_CHECK && (one_in(3) || !type_equal(list->collision, call, row)))
        take_password(base, call, row);
}

#endif
