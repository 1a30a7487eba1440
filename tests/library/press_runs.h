// Lists of press_lists.h as they are run: how often each sort of double press came up, and what becomes of a list when its presses are struck
// or replaced.
#ifndef PRESS_RUNS_H
#define PRESS_RUNS_H

#include "desk_presses.h"
#include "desk_watch.h"
#include "press_lists.h"

// ---- counts

enum { PRESSES_AT_LEAST = 2000 };

static long presses[2][2][2]; // by call, kind and algorithm
static long presses_at_limit, presses_after_a_wait, presses_while_locked, older_steps;

// The row as it was before the press.
static inline void count_press(const struct desk_call *call, const uint8_t *row)
{
    presses[call->name == CALL_CHALLENGE_LOGIN][row_get(row, ROW_KIND)][row_get(row, ROW_ALGORITHM) - DL_ALGORITHM_SM3]++;
    if (row_get(row, ROW_STATE) == DL_STATE_LOCKED_BY_ERRORS)
        presses_after_a_wait++;
    else
        presses_at_limit += row_get(row, ROW_ERRORS) >= row_get(row, ROW_LIMIT);
}

static inline void at_least(long least, long times, const char *what)
{
    printf("     %ld %s\n", times, what);
    check(times >= least, "too seldom: %s", what);
}

// ---- a list that is remembered

enum { MOST_CALLS = 40, MOST_PRESS_ROWS = 3 };

static struct {
    size_t calls, presses;
    int waited; // a press found its token locked by errors
    struct desk_call call[MOST_CALLS];
    struct desk_answer answer[MOST_CALLS];
    int is_press[MOST_CALLS];
    uint8_t first[MOST_PRESS_ROWS * DL_ROW_BYTES], last[MOST_PRESS_ROWS * DL_ROW_BYTES]; // the table
} run;

static inline struct desk_answer answer_made(const struct desk_call *call, uint16_t code)
{
    struct desk_answer answer = {.code = code, .values_set = code < 0x8000 ? desk_values(call->name) : 0};
    memcpy(answer.values, lent_signed_words, answer.values_set * sizeof *answer.values);
    return answer;
}

// Compares the call with the reference, and remembers it; gives its code.
static inline uint16_t run_press_call(const struct desk_call *call, size_t rows)
{
    watch_before(rows);
    uint16_t code = compare(call);
    const uint8_t *row = desk_find(table_before, rows * DL_ROW_BYTES, call->serial);
    int is_press = code == 0x8004 && desk_is_press(row, call);
    older_steps += code == 0x8004 && !is_press;
    presses_while_locked += code == 0x8404 && desk_is_press(row, call);
    if (is_press) {
        count_press(call, row);
        run.presses++;
        run.waited |= row_get(row, ROW_STATE) == DL_STATE_LOCKED_BY_ERRORS;
    }
    run.call[run.calls] = *call;
    run.answer[run.calls] = answer_made(call, code);
    run.is_press[run.calls++] = is_press;
    return code;
}

// ---- the list without its presses

// Runs the list again; whether the other answers, and the table in the end, are those that it had.
static inline int is_same_run(enum instead instead, size_t rows)
{
    int same = 1, kept;
    memcpy(table, run.first, rows * DL_ROW_BYTES);
    for (size_t i = 0; i < run.calls; i++) {
        if (run.is_press[i] && instead == STRUCK)
            continue;
        struct desk_call call = run.is_press[i] ? idle_call(&run.call[i]) : run.call[i];
        uint16_t code = make_call(&call, &kept);
        struct desk_answer answer = answer_made(&call, code);
        same &= kept && (run.is_press[i] ? code == 0x8409 : same_answer(&answer, &run.answer[i]));
    }
    return same && memcmp(table, run.last, rows * DL_ROW_BYTES) == 0;
}

static long lists_idled, lists_struck, lists_changed;

// Replaced by an activate, the presses are never missed; struck, only where a wait ran out by one.
static inline void expect_run_without(size_t rows)
{
    if (run.presses == 0)
        return;
    lists_idled++;
    require(is_same_run(IDLED, rows), "an activate in the place of each press changes the list");
    if (run.waited) {
        lists_changed += !is_same_run(STRUCK, rows);
        return;
    }
    lists_struck++;
    require(is_same_run(STRUCK, rows), "the list without its presses is another one");
}

// ---- the tests

// Watched only if the list began on zero rows.
static inline void press_calls(struct list *list, size_t n, int is_watched)
{
    struct desk_call call;
    run.calls = run.presses = 0;
    run.waited = 0;
    memcpy(run.first, table, list->rows * DL_ROW_BYTES);
    while (n-- > 0) {
        next_press_call(list, &call);
        uint16_t code = run_press_call(&call, list->rows);
        if (is_watched)
            watch_after(&call, code, list->rows);
    }
    memcpy(run.last, table, list->rows * DL_ROW_BYTES);
    expect_run_without(list->rows);
}

static inline void press_lists_on_zero_rows(void)
{
    struct list list;
    for (size_t i = 0; i < (full_run ? 3 * cases : cases / 2); i++) {
        begin_press_list(&list, 1 + random_below(2));
        begin_watch();
        press_calls(&list, 16 + random_below(16), 1);
    }
    came_up(LOADED | TAKEN | ON_A_TOKEN);
}

static inline void press_lists_in_any_state(void)
{
    struct list list;
    for (size_t i = 0; i < (full_run ? 10 * cases : cases); i++) {
        begin_press_list(&list, 1 + random_below(MOST_PRESS_ROWS));
        lay_press_rows(&list);
        press_calls(&list, 4 + random_below(12), 0);
    }
    came_up(TAKEN | ON_A_TOKEN);
}

// Compared alone: what is damaged between two calls is not part of the list.
static inline void press_lists_on_damaged_rows(void)
{
    struct list list;
    struct desk_call call;
    for (size_t i = 0; i < (full_run ? 4 * cases : cases / 4); i++) {
        begin_press_list(&list, 1 + random_below(MOST_PRESS_ROWS));
        lay_press_rows(&list);
        for (size_t n = 4 + random_below(12); n > 0; n--) {
            if (one_in(8))
                damage_table(&list);
            next_press_call(&list, &call);
            compare(&call);
        }
    }
    came_up(ON_A_TOKEN | DAMAGED);
}

static inline void pressed_often(void)
{
    static const char *const names[] = {"presses of a time token by SM3, login", "by SM4", "of an event token by SM3", "by SM4",
                                        "presses of a time token by SM3, challenge login", "by SM4", "of an event token by SM3", "by SM4"};
    for (size_t i = 0; i < 8; i++)
        at_least(PRESSES_AT_LEAST, presses[i / 4][i / 2 % 2][i % 2], names[i]);
    at_least(PRESSES_AT_LEAST, presses_at_limit, "with errors at the limit or above");
    at_least(PRESSES_AT_LEAST, presses_after_a_wait, "after a wait");
    at_least(PRESSES_AT_LEAST, presses_while_locked, "times 8404 in their place");
    at_least(PRESSES_AT_LEAST, older_steps, "times 8004 with an error");
    at_least(PRESSES_AT_LEAST, lists_idled, "lists with an activate in the place of each press, and the same");
    at_least(PRESSES_AT_LEAST, lists_struck, "lists without their presses, and the same");
    at_least(1, lists_changed, "lists that a press struck after a wait changed");
}

#endif
