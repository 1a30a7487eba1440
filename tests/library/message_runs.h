// Random lists of messages on one table: of each call that the lists of desk_lists.h and its like make, the right message and damaged ones.
#ifndef MESSAGE_RUNS_H
#define MESSAGE_RUNS_H

#include "collision_lists.h"
#include "desk_watch.h"
#include "message_calls.h"
#include "message_damage.h"
#include "press_lists.h"

enum { DAMAGED_EACH = 12, LEAST_LENGTH = 10, MORE_LENGTH = 20 };

// What is lent beside the message, out of its range.
static inline void spoil_lent(struct message_sent *sent)
{
    static const uint64_t clocks[] = {CLOCK_END, CLOCK_END + 1060, UINT64_C(1) << 63, UINT64_MAX};
    static const size_t lengths[] = {0, 1, 5, 95, 97, 128, 191, DL_ROW_BYTES * DL_MOST_ROWS + 1, DL_ROW_BYTES * (DL_MOST_ROWS + 1)};
    switch (random_below(4)) {
    case 0: sent->values_len = random_below(DL_MOST_VALUES); break;
    case 1: sent->table_len = lengths[random_below(sizeof lengths / sizeof *lengths)]; break;
    default: sent->now = clocks[random_below(sizeof clocks / sizeof *clocks)];
    }
}

// ---- one call of a list, of which so many rows are watched: none, unless it began on zero rows

static inline void serve_watched(const struct message_sent *sent, size_t rows)
{
    struct desk_call call;
    watch_before(rows);
    uint16_t code = compare_message(sent);
    if (rows == 0)
        return;
    if (message_call(sent, &call) == DL_DONE)
        watch_after(&call, code, rows);
    else
        watch_rows(rows, SIZE_MAX);
}

// The damaged ones first, since they may be served as well.
static inline void serve_call(const struct desk_call *call, size_t rows)
{
    struct made_message made;
    struct message_bytes message;
    struct message_sent sent;
    make_message(&made, call, one_in(2) ? REQUEST : REQUEST_WITH_MAC);
    for (size_t i = 0; i < DAMAGED_EACH; i++) {
        write_damaged(&message, &made);
        sent = sent_bytes(&message, call);
        if (one_in(16))
            spoil_lent(&sent);
        serve_watched(&sent, rows);
    }
    order_items(&made, random_below(orders(made.items)));
    write_message(&message, &made);
    sent = sent_bytes(&message, call);
    serve_watched(&sent, rows);
}

// There is no message for a load: the reference puts the token into the table.
static inline void serve_or_load(const struct desk_call *call, size_t rows)
{
    if (call->name != CALL_LOAD) {
        serve_call(call, rows);
        return;
    }
    watch_before(rows);
    uint16_t code = desk_answer_to(table, call).code;
    if (rows > 0)
        watch_after(call, code, rows);
}

// ---- the tests

static inline void message_lists_on_zero_rows(void)
{
    struct list list;
    struct desk_call call;
    for (size_t i = 0; i < (full_run ? cases * 3 / 5 : cases / 4); i++) {
        begin_list(&list, 1 + random_below(8));
        begin_watch();
        for (size_t n = LEAST_LENGTH + random_below(MORE_LENGTH); n > 0; n--) {
            next_call(&list, &call);
            serve_or_load(&call, list.rows);
        }
    }
    messages_came_up(UNSERVED | (BY_MESSAGES & ~DAMAGED));
}

static inline void message_lists_on_damaged_rows(void)
{
    struct list list;
    struct desk_call call;
    for (size_t i = 0; i < (full_run ? cases / 5 : cases / 4); i++) {
        begin_list(&list, 1 + random_below(8));
        for (size_t n = LEAST_LENGTH + random_below(MORE_LENGTH); n > 0; n--) {
            if (one_in(4))
                damage_table(&list);
            next_call(&list, &call);
            serve_or_load(&call, 0);
        }
    }
    messages_came_up(UNSERVED | BY_MESSAGES);
}

// Double presses (document 02, request 4).
static inline void message_lists_of_presses(void)
{
    struct list list;
    struct desk_call call;
    for (size_t i = 0; i < (full_run ? cases / 5 : cases / 8); i++) {
        begin_press_list(&list, 1 + random_below(3));
        lay_press_rows(&list);
        for (size_t n = LEAST_LENGTH; n > 0; n--) {
            next_press_call(&list, &call);
            serve_or_load(&call, 0);
        }
    }
    messages_came_up(UNSERVED | LOGGED_IN | USED | WRONG);
}

// Tokens with one password at two steps (document 02, request 5).
static inline void message_lists_of_collisions(void)
{
    struct collision_list list;
    struct desk_call call;
    for (size_t i = 0; i < (full_run ? cases / 5 : cases / 8); i++) {
        begin_collision_list(&list, 1 + random_below(2));
        lay_collision_rows(&list);
        for (size_t n = LEAST_LENGTH; n > 0; n--) {
            next_collision_call(&list, &call);
            serve_or_load(&call, 0);
        }
    }
    messages_came_up(UNSERVED | NEXT_WANTED);
}

// On a table of one token, and of any bytes.
static inline void messages_of_anything(void)
{
    struct row_case made;
    struct message_bytes message;
    for (size_t i = 0; i < (full_run ? 20 * cases : cases); i++) {
        make_case(&made, any_token);
        lay_row(made.row, 1);
        if (one_in(4))
            random_bytes(table, DL_ROW_BYTES);
        write_anything(&message);
        struct message_sent sent = sent_bytes(&message, &made.call);
        compare_message(&sent);
    }
    messages_came_up(UNSERVED);
}

#endif
