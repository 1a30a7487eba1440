// Random lists of calls on one table: each call is made for the table as the last one left it.
#ifndef DESK_LISTS_H
#define DESK_LISTS_H

#include "desk_arguments.h"
#include "desk_calls.h"
#include "row_edges.h"

enum { MODELS = 2, REMEMBERED = 8 };

struct list {
    size_t rows;
    uint64_t now;
    uint64_t serials, shift; // a serial differs from the others in two bytes at most
    struct desk_load models[MODELS]; // most tokens are like one of these, key and all
    struct desk_call typed[REMEMBERED]; // calls whose passwords may be typed in again
};

static inline void make_model(struct desk_load *load)
{
    random_load(load);
    if (load->kind == DL_TIME_TOKEN && !one_in(4))
        load->period = one_in(2) ? 30 : 60;
    load->limit = one_in(2) ? random_between(1, 3) : load->limit;
    load->wait = one_in(4) ? load->wait : ROW_LEAST_WAIT;
    load->expiry = CLOCK_END;
}

static inline void begin_list(struct list *list, size_t rows)
{
    memset(list, 0, sizeof *list);
    clear_table(rows);
    list->rows = rows;
    list->now = one_in(8) ? random_below(100) : random_long(CLOCK_END);
    list->serials = one_in(4) ? 0 : random_number();
    list->shift = 8 * random_below(rows < 128 ? 8 : 7);
    for (size_t i = 0; i < MODELS; i++)
        make_model(&list->models[i]);
}

// ---- the clock

// On by up to three minutes, so that waits run out; at times back, or far away.
static inline uint64_t next_clock(uint64_t clock)
{
    int64_t next = (int64_t)clock;
    switch (random_below(16)) {
    case 0: next -= (int64_t)random_below(200); break;
    case 1: next -= (int64_t)random_below(100000); break;
    case 2: next += (int64_t)random_below(100000); break;
    case 3: case 4: case 5: next += (int64_t)random_below(200); break;
    case 6: next = one_in(8) ? (int64_t)any_time() : next; break;
    default: next += (int64_t)random_below(45);
    }
    return next < 0 ? 0 : next < CLOCK_END ? (uint64_t)next : CLOCK_END - 1;
}

// One clock in ten is this call's alone.
static inline uint64_t take_clock(struct list *list)
{
    uint64_t clock = next_clock(list->now);
    if (!one_in(10))
        list->now = clock;
    return clock;
}

// ---- the token

static inline uint64_t serial_at(const struct list *list, size_t place)
{
    return list->serials ^ (uint64_t)place << list->shift;
}

// There are two more serials than rows.
static inline uint64_t any_serial(const struct list *list)
{
    return serial_at(list, one_in(4) ? list->rows + random_below(2) : random_below(list->rows));
}

// Any row that is not empty, or NULL if none is found soon.
static inline uint8_t *any_taken_row(const struct list *list)
{
    for (size_t tries = 0; tries < 4 * list->rows; tries++) {
        uint8_t *row = table_row(random_below(list->rows));
        if (row_get(row, ROW_STATE) != DL_STATE_EMPTY)
            return row;
    }
    return NULL;
}

static inline void take_load(struct list *list, struct desk_call *call)
{
    call->name = CALL_LOAD;
    call->serial = any_serial(list);
    call->load = list->models[random_below(MODELS)];
    if (one_in(4))
        make_model(&call->load);
    if (one_in(8))
        call->load.expiry = list->now + random_below(2000);
    if (call->load.expiry > (uint64_t)CLOCK_END)
        call->load.expiry = CLOCK_END;
}

// Mostly one that the state allows, and seldom a void or a query. All are tried on a void token, and on a row in no state.
static inline void take_name(struct desk_call *call, uint64_t state)
{
    int allowed = state < DL_STATE_VOID && !one_in(4);
    do
        name_call(call, CALL_LOGIN + random_below(VARIANTS - CALL_LOGIN));
    while ((allowed && !(desk_rules[call->name].states >> state & 1))
           || (call->name == CALL_VOID && !one_in(30)) || (call->name == CALL_QUERY && !one_in(5)));
}

// ---- the password

// Of any row of the table, the call's own or not.
static inline int type_for_row(struct desk_call *call, const uint8_t *row, typist *single, typist *pair)
{
    if (row == NULL || !row_well_formed(row))
        return 0;
    struct window_call token = desk_token(row, call);
    return type_for_token(call, &token, desk_rules[call->name].check == SINGLE ? single : pair);
}

// What was typed in before, in one call or in two.
static inline int type_again(const struct list *list, struct desk_call *call)
{
    const struct desk_call *earlier = &list->typed[random_below(REMEMBERED)], *other = &list->typed[random_below(REMEMBERED)];
    call->challenge = earlier->challenge;
    call->password = one_in(4) ? earlier->following : earlier->password;
    call->following = one_in(4) ? other->password : earlier->following;
    return call->password.len > 0;
}

static inline int type_anything(struct desk_call *call)
{
    type_random_digits(&call->password, random_between(OTP_LEAST_DIGITS, OTP_MOST_DIGITS));
    return type_random_digits(&call->following, random_between(OTP_LEAST_DIGITS, OTP_MOST_DIGITS));
}

static inline int try_typing(const struct list *list, struct desk_call *call, const uint8_t *row)
{
    switch (random_below(12)) {
    case 0:
        return type_again(list, call);
    case 1:
        return type_for_row(call, row, step_near, pair_near);
    case 2:
        return type_for_row(call, any_taken_row(list), fresh_step, fresh_pair);
    case 3:
        return type_for_row(call, row, used_step, used_pair);
    case 4:
        return row != NULL && row_well_formed(row) && type_password(call, row, any_sort());
    default:
        return type_for_row(call, row, fresh_step, fresh_pair);
    }
}

static inline void take_password(struct list *list, struct desk_call *call, const uint8_t *row)
{
    random_challenge(&call->challenge);
    if (!try_typing(list, call, row))
        type_anything(call);
    list->typed[random_below(REMEMBERED)] = *call;
}

// ---- the call

// A load if there is no token, and at times later on.
static inline void next_call(struct list *list, struct desk_call *call)
{
    uint8_t *row = any_taken_row(list);
    *call = (struct desk_call){.table_len = list->rows * DL_ROW_BYTES, .now = take_clock(list),
                               .values_len = DL_QUERY_VALUES + random_below(3)};
    if (row == NULL || one_in(8)) {
        take_load(list, call);
    } else {
        call->serial = one_in(16) ? any_serial(list) : row_get(row, ROW_SERIAL);
        take_name(call, row_get(row, ROW_STATE));
        if (desk_rules[call->name].check != NO_CHECK)
            take_password(list, call, row);
    }
    if (one_in(16))
        spoil_argument(call);
}

// ---- damage

static inline void damage_table(const struct list *list)
{
    uint8_t *row = table_row(random_below(list->rows)), *other = table_row(random_below(list->rows));
    const struct edge *edge = &edges[random_below(EDGES)];
    switch (random_below(8)) {
    case 0:
        memmove(other, row, DL_ROW_BYTES);
        break;
    case 1:
        row_put(other, ROW_SERIAL, row_get(row, ROW_SERIAL));
        break;
    case 2:
        row_put(row, ROW_STATE, one_in(2) ? DL_STATE_EMPTY : random_below(256));
        break;
    case 3:
        random_bytes(row, DL_ROW_BYTES);
        break;
    case 4: case 5:
        row_put(row, edge->field, edge->value);
        break;
    default:
        row[random_below(DL_ROW_BYTES)] ^= (uint8_t)(1 << random_below(8));
    }
}

#endif
