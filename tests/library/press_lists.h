// Random lists of calls with double presses (document 02, request 4): the clocks of a list lie within some minutes, back and forth, so that waits
// run out in between, and the last used password is typed in again and again.
#ifndef PRESS_LISTS_H
#define PRESS_LISTS_H

#include "desk_lists.h"

enum { STRETCH = 200 }; // seconds, of which the list's clock is the first

// On zero rows.
static inline void begin_press_list(struct list *list, size_t rows)
{
    begin_list(list, rows);
    list->now = random_long(CLOCK_END - 100 * STRETCH);
}

// Tokens in any state but void, about whose first unused steps the clocks lie, in the places of zero rows.
static inline void lay_press_rows(const struct list *list)
{
    for (size_t place = 0; place < list->rows; place++) {
        const struct desk_load *load = &list->models[random_below(MODELS)];
        uint64_t clock = list->now + random_below(STRETCH);
        uint64_t step = load->kind == DL_TIME_TOKEN ? clock / load->period : random_long(COUNT_END - 3);
        uint8_t *row = table_row(place);
        desk_put_token(row, serial_at(list, place), load);
        put_standing(row, clock, one_in(2) ? DL_STATE_READY : random_between(DL_STATE_NOT_ACTIVATED, DL_STATE_SUSPENDED));
        row_put(row, ROW_NEXT, step + random_below(4));
    }
}

// Of a token that is ready, or will be, mostly a login of either sort.
static inline void take_press_name(struct desk_call *call, uint64_t state)
{
    take_name(call, state);
    if ((state == DL_STATE_READY || state == DL_STATE_LOCKED_BY_ERRORS) && !one_in(4))
        call->name = one_in(2) ? CALL_LOGIN : CALL_CHALLENGE_LOGIN;
}

// The password of the step before the first unused one, or of the one before that.
static inline int type_last_used(struct desk_call *call, const uint8_t *row)
{
    uint64_t back = one_in(4) ? 2 : 1;
    if (!row_well_formed(row) || desk_rules[call->name].check != SINGLE || row_get(row, ROW_NEXT) < back)
        return 0;
    random_challenge(&call->challenge);
    struct window_call token = desk_token(row, call);
    window_password(&token, (int64_t)(token.next - back), &call->password);
    return 1;
}

static inline void next_press_call(struct list *list, struct desk_call *call)
{
    uint8_t *row = any_taken_row(list);
    if (one_in(16))
        list->now += random_below(STRETCH);
    *call = (struct desk_call){.table_len = list->rows * DL_ROW_BYTES, .now = list->now + random_below(STRETCH),
                               .values_len = DL_QUERY_VALUES};
    if (row == NULL || one_in(32)) {
        take_load(list, call);
        return;
    }
    call->serial = row_get(row, ROW_SERIAL);
    take_press_name(call, row_get(row, ROW_STATE));
    if (desk_rules[call->name].check != NO_CHECK && (one_in(3) || !type_last_used(call, row)))
        take_password(list, call, row);
}

#endif
