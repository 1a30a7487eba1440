// The desk of document 01, Part 5 and "What a turned-down call says", with the double press of document 02, request 4, and 8001 and 8101 of its
// request 5, over a table of bytes, written from the documents alone. Its row is that of row_reference.h and its check that of window_reference.h.
#ifndef DESK_REFERENCE_H
#define DESK_REFERENCE_H

#include "row_reference.h"

// ---- calls

enum desk_name {
    CALL_LOAD, CALL_LOGIN, CALL_CHALLENGE_LOGIN, CALL_ACTIVATE, CALL_LOCK, CALL_UNLOCK, CALL_SUSPEND, CALL_RESUME, CALL_SYNC,
    CALL_VOID, CALL_QUERY, CALLS,
};

// What a load sets.
struct desk_load {
    uint8_t kind, algorithm, digits, period, limit;
    uint8_t key[WINDOW_LENGTHS];
    size_t key_len;
    uint32_t wait;
    uint64_t expiry;
};

// The arguments of a call, but for the bytes of the table; each call looks at those that it has.
struct desk_call {
    enum desk_name name;
    size_t table_len, values_len;
    uint64_t serial, now;
    uint8_t choice; // of a sync
    struct window_typed challenge, password, following;
    struct desk_load load;
};

struct desk_answer {
    uint16_t code;
    size_t values_set; // none if the call is refused
    int64_t values[DL_QUERY_VALUES]; // the most that there are
};

// ---- Part 5's table

enum desk_check { NO_CHECK, SINGLE, PAIR };

enum {
    IN_NOT_ACTIVATED = 1 << DL_STATE_NOT_ACTIVATED,
    IN_READY = 1 << DL_STATE_READY,
    IN_LOCKED = 1 << DL_STATE_LOCKED_BY_ERRORS | 1 << DL_STATE_LOCKED_BY_HAND,
    IN_SUSPENDED = 1 << DL_STATE_SUSPENDED,
    IN_ALL_BUT_VOID = IN_NOT_ACTIVATED | IN_READY | IN_LOCKED | IN_SUSPENDED,
    IN_ANY = IN_ALL_BUT_VOID | 1 << DL_STATE_VOID,
};

// A line of the table.
static const struct desk_rule {
    unsigned states;
    enum desk_check check;
    uint8_t size; // of the window; a sync has it from its choice
    uint16_t success;
    uint8_t becomes; // DL_STATE_EMPTY: the state is kept
} desk_rules[CALLS] = {
    [CALL_LOAD] = {0, NO_CHECK, 0, DL_LOADED, DL_STATE_NOT_ACTIVATED},
    [CALL_LOGIN] = {IN_READY, SINGLE, DL_SMALL, DL_LOGGED_IN, DL_STATE_EMPTY},
    [CALL_CHALLENGE_LOGIN] = {IN_READY, SINGLE, DL_SMALL, DL_CHALLENGE_MET, DL_STATE_EMPTY},
    [CALL_ACTIVATE] = {IN_NOT_ACTIVATED, PAIR, DL_LARGE, DL_ACTIVATED, DL_STATE_READY},
    [CALL_LOCK] = {IN_READY, NO_CHECK, 0, DL_LOCKED, DL_STATE_LOCKED_BY_HAND},
    [CALL_UNLOCK] = {IN_LOCKED, SINGLE, DL_SMALL, DL_UNLOCKED, DL_STATE_READY},
    [CALL_SUSPEND] = {IN_READY | IN_LOCKED, NO_CHECK, 0, DL_SUSPENDED, DL_STATE_SUSPENDED},
    [CALL_RESUME] = {IN_SUSPENDED, SINGLE, DL_SMALL, DL_RESUMED, DL_STATE_READY},
    [CALL_SYNC] = {IN_READY | IN_LOCKED, PAIR, 0, DL_SYNCHRONIZED, DL_STATE_EMPTY},
    [CALL_VOID] = {IN_ALL_BUT_VOID, NO_CHECK, 0, DL_VOIDED, DL_STATE_VOID},
    [CALL_QUERY] = {IN_ANY, NO_CHECK, 0, DL_QUERIED, DL_STATE_EMPTY}};

// How many values a success carries.
static inline size_t desk_values(enum desk_name name)
{
    return name == CALL_QUERY ? DL_QUERY_VALUES : desk_rules[name].check == NO_CHECK ? 0 : DL_CHECKED_VALUES;
}

static inline uint8_t desk_window_size(const struct desk_call *call)
{
    if (call->name != CALL_SYNC)
        return desk_rules[call->name].size;
    return call->choice == DL_SYNC_MEDIUM ? DL_MEDIUM : DL_LARGE;
}

// ---- codes of refusals

static const uint16_t desk_state_codes[] = {
    [DL_STATE_READY] = DL_TOKEN_READY, [DL_STATE_LOCKED_BY_ERRORS] = DL_TOKEN_LOCKED,
    [DL_STATE_LOCKED_BY_HAND] = DL_TOKEN_LOCKED, [DL_STATE_SUSPENDED] = DL_TOKEN_SUSPENDED,
    [DL_STATE_NOT_ACTIVATED] = DL_TOKEN_NOT_ACTIVATED, [DL_STATE_VOID] = DL_TOKEN_VOID};

static inline int desk_is_login(enum desk_name name)
{
    return name == CALL_LOGIN || name == CALL_CHALLENGE_LOGIN;
}

static inline uint16_t desk_next_code(enum desk_name name)
{
    return desk_is_login(name) ? DL_NEXT_WANTED : DL_MANAGEMENT_NEXT_WANTED;
}

static inline uint16_t desk_used_code(enum desk_name name)
{
    return desk_is_login(name) ? DL_USED : DL_MANAGEMENT_USED;
}

static inline uint16_t desk_wrong_code(enum desk_name name)
{
    return desk_is_login(name) ? DL_WRONG : name == CALL_SYNC ? DL_SYNC_WRONG : DL_MANAGEMENT_WRONG;
}

// ---- arguments

static inline int desk_challenge_in_range(const struct window_typed *typed)
{
    return OTP_LEAST_CHALLENGE <= typed->len && typed->len <= OTP_MOST_CHALLENGE && window_bytes_between(typed, 0x21, 0x7e);
}

static inline int desk_load_in_range(const struct desk_load *load)
{
    if (load->kind != DL_TIME_TOKEN && load->kind != DL_EVENT_TOKEN)
        return 0;
    if (load->kind == DL_TIME_TOKEN ? load->period < 1 || load->period > ROW_MOST_PERIOD : load->period != 0)
        return 0;
    return (load->algorithm == OTP_SM3 || load->algorithm == OTP_SM4)
        && OTP_LEAST_DIGITS <= load->digits && load->digits <= OTP_MOST_DIGITS
        && 1 <= load->limit && load->limit <= ROW_MOST_LIMIT
        && OTP_LEAST_KEY <= load->key_len && load->key_len <= OTP_MOST_KEY
        && ROW_LEAST_WAIT <= load->wait && load->wait <= ROW_MOST_WAIT && load->expiry <= (uint64_t)CLOCK_END;
}

static inline int desk_in_range(const struct desk_call *call)
{
    const struct desk_rule *rule = &desk_rules[call->name];
    if (call->table_len % DL_ROW_BYTES != 0 || call->table_len < DL_ROW_BYTES || call->table_len > DL_ROW_BYTES * DL_MOST_ROWS)
        return 0;
    if (call->name == CALL_LOAD)
        return desk_load_in_range(&call->load);
    return call->now < CLOCK_END && (desk_values(call->name) == 0 || call->values_len >= DL_MOST_VALUES)
        && (call->name != CALL_CHALLENGE_LOGIN || desk_challenge_in_range(&call->challenge))
        && (call->name != CALL_SYNC || call->choice == 1 || call->choice == 2)
        && (rule->check == NO_CHECK || window_is_password(&call->password))
        && (rule->check != PAIR || window_is_password(&call->following));
}

// ---- rows of the table

// The first row that is not empty and has the serial, or NULL.
static inline uint8_t *desk_find(uint8_t *table, size_t table_len, uint64_t serial)
{
    for (uint8_t *row = table; row < table + table_len; row += DL_ROW_BYTES)
        if (row_get(row, ROW_STATE) != DL_STATE_EMPTY && row_get(row, ROW_SERIAL) == serial)
            return row;
    return NULL;
}

static inline uint8_t *desk_find_empty(uint8_t *table, size_t table_len)
{
    for (uint8_t *row = table; row < table + table_len; row += DL_ROW_BYTES)
        if (row_get(row, ROW_STATE) == DL_STATE_EMPTY)
            return row;
    return NULL;
}

static inline void desk_put_token(uint8_t *row, uint64_t serial, const struct desk_load *load)
{
    memset(row, 0, DL_ROW_BYTES);
    row_put(row, ROW_STATE, DL_STATE_NOT_ACTIVATED);
    row_put(row, ROW_KIND, load->kind);
    row_put(row, ROW_ALGORITHM, load->algorithm);
    row_put(row, ROW_DIGITS, load->digits);
    row_put(row, ROW_PERIOD, load->period);
    row_put(row, ROW_LIMIT, load->limit);
    row_put(row, ROW_SERIAL, serial);
    row_put_key(row, load->key, load->key_len);
    row_put(row, ROW_OFFSET, WINDOW_FARTHEST);
    row_put(row, ROW_WAIT, load->wait);
    row_put(row, ROW_EXPIRY, load->expiry);
}

static inline uint16_t desk_load(uint8_t *table, const struct desk_call *call)
{
    if (desk_find(table, call->table_len, call->serial) != NULL)
        return DL_SERIAL_TAKEN;
    uint8_t *row = desk_find_empty(table, call->table_len);
    if (row == NULL)
        return DL_TABLE_FULL;
    desk_put_token(row, call->serial, &call->load);
    return DL_LOADED;
}

// ---- the check of a call with a password

// The row's numbers as the window's, with the call's clock, window and challenge, and no password yet.
static inline struct window_call desk_token(const uint8_t *row, const struct desk_call *call)
{
    struct window_call token = {
        .kind = (uint8_t)row_get(row, ROW_KIND), .algorithm = (uint8_t)row_get(row, ROW_ALGORITHM),
        .digits = (uint8_t)row_get(row, ROW_DIGITS), .period = (uint8_t)row_get(row, ROW_PERIOD),
        .size = desk_window_size(call), .offset = (uint16_t)row_get(row, ROW_OFFSET), .next = row_get(row, ROW_NEXT),
        .now = call->now, .key_len = row_get(row, ROW_KEY_LEN), .step_len = 1, .computed_len = 1, .fresh_len = 1};
    memcpy(token.key, row_key(row), OTP_MOST_KEY);
    if (call->name == CALL_CHALLENGE_LOGIN) {
        token.challenge_len = call->challenge.len;
        memcpy(token.challenge, call->challenge.bytes, call->challenge.len);
    }
    return token;
}

static inline void desk_accept(uint8_t *row, uint64_t now, uint64_t step)
{
    row_put(row, ROW_NEXT, step + 1);
    row_put(row, ROW_ERRORS, 0);
    row_put(row, ROW_LAST_USE, now);
    if (row_get(row, ROW_KIND) == DL_TIME_TOKEN)
        row_put(row, ROW_OFFSET, WINDOW_FARTHEST + step - now / row_get(row, ROW_PERIOD));
}

// Only the two logins lock.
static inline void desk_add_error(uint8_t *row, const struct desk_call *call)
{
    uint64_t errors = row_get(row, ROW_ERRORS);
    errors += errors < ROW_MOST_ERRORS;
    row_put(row, ROW_ERRORS, errors);
    if (!desk_is_login(call->name) || errors < row_get(row, ROW_LIMIT))
        return;
    row_put(row, ROW_STATE, DL_STATE_LOCKED_BY_ERRORS);
    row_put(row, ROW_LOCKED_AT, call->now);
}

// Document 01's 8106: a match that would set d past 600 either way. Document 02, request 13, takes it out, since it never comes: how often it did, and
// how far from the clock's step the accepted steps lay at most.
static long desk_too_far;
static int64_t desk_farthest;

static inline int desk_is_too_far(const uint8_t *row, uint64_t now, uint64_t step)
{
    if (row_get(row, ROW_KIND) != DL_TIME_TOKEN)
        return 0;
    int64_t distance = window_distance((int64_t)step, (int64_t)(now / row_get(row, ROW_PERIOD)));
    if (desk_farthest < distance)
        desk_farthest = distance;
    return distance > WINDOW_FARTHEST;
}

static inline struct window_answer desk_search(const uint8_t *row, const struct desk_call *call)
{
    struct window_call token = desk_token(row, call);
    token.presented = call->password;
    if (desk_rules[call->name].check == PAIR)
        token.following = call->following;
    return window_check(&token);
}

// Document 02, request 4: a login or challenge login whose password is that of the candidate next - 1. It is a double press if it is used.
static inline int desk_is_press(const uint8_t *row, const struct desk_call *call)
{
    struct window_call token = desk_token(row, call);
    struct window window = window_of(&token);
    struct window_typed password;
    if (!desk_is_login(call->name) || !window_has(&window, window.next - 1))
        return 0;
    window_password(&token, window.next - 1, &password);
    return window_is_same(&password, &call->password);
}

// What becomes of the row by what the search found: the refusal, or DL_DONE. Where the following password is asked for, and by a double
// press, the row stays.
static inline uint16_t desk_judge(uint8_t *row, const struct desk_call *call, struct window_answer found)
{
    if (found.code == DL_NEXT_WANTED)
        return desk_next_code(call->name);
    if (found.code == DL_DONE && desk_is_too_far(row, call->now, found.step)) {
        desk_too_far++;
        return 0x8106;
    }
    if (found.code == DL_DONE) {
        desk_accept(row, call->now, found.step);
        return DL_DONE;
    }
    if (found.code != DL_USED || !desk_is_press(row, call))
        desk_add_error(row, call);
    return found.code == DL_USED ? desk_used_code(call->name) : desk_wrong_code(call->name);
}

// The refusal, or DL_DONE.
static inline uint16_t desk_check(uint8_t *row, const struct desk_call *call)
{
    if (desk_rules[call->name].check == NO_CHECK)
        return DL_DONE;
    if (call->now >= row_get(row, ROW_EXPIRY))
        return DL_TOKEN_EXPIRED;
    return desk_judge(row, call, desk_search(row, call));
}

// ---- a call on its row

static inline void desk_let_wait_run_out(uint8_t *row, uint64_t now)
{
    uint64_t locked_at = row_get(row, ROW_LOCKED_AT);
    if (row_get(row, ROW_STATE) != DL_STATE_LOCKED_BY_ERRORS || now < locked_at || now - locked_at < row_get(row, ROW_WAIT))
        return;
    row_put(row, ROW_STATE, DL_STATE_READY);
    row_put(row, ROW_ERRORS, 0);
    row_put(row, ROW_LOCKED_AT, 0);
}

static inline void desk_become(uint8_t *row, uint8_t state)
{
    if (state == DL_STATE_EMPTY)
        return;
    row_put(row, ROW_STATE, state);
    row_put(row, ROW_LOCKED_AT, 0);
    if (state == DL_STATE_VOID)
        row_put(row, ROW_KEY, 0);
}

// Of the row after the call.
static inline void desk_carry_values(struct desk_answer *answer, const uint8_t *row, const struct desk_call *call)
{
    int64_t offset = (int64_t)row_get(row, ROW_OFFSET) - WINDOW_FARTHEST, accepted = (int64_t)row_get(row, ROW_NEXT) - 1;
    const int64_t checked[] = {accepted, offset};
    const int64_t query[] = {(int64_t)row_get(row, ROW_STATE), (int64_t)row_get(row, ROW_ERRORS),
                             (int64_t)row_get(row, ROW_LAST_USE)};
    answer->values_set = desk_values(call->name);
    memcpy(answer->values, call->name == CALL_QUERY ? query : checked, answer->values_set * sizeof *answer->values);
}

static inline struct desk_answer desk_serve(uint8_t *row, const struct desk_call *call)
{
    const struct desk_rule *rule = &desk_rules[call->name];
    struct desk_answer answer = {.code = DL_DAMAGED_ROW};
    if (!row_well_formed(row))
        return answer;
    desk_let_wait_run_out(row, call->now);
    uint64_t state = row_get(row, ROW_STATE);
    answer.code = rule->states >> state & 1 ? desk_check(row, call) : desk_state_codes[state];
    if (answer.code != DL_DONE)
        return answer;
    answer.code = rule->success;
    desk_become(row, rule->becomes);
    desk_carry_values(&answer, row, call);
    return answer;
}

// The answer; the table is what the call leaves of it.
static inline struct desk_answer desk_answer_to(uint8_t *table, const struct desk_call *call)
{
    if (!desk_in_range(call))
        return (struct desk_answer){.code = DL_BAD_ARGUMENT};
    if (call->name == CALL_LOAD)
        return (struct desk_answer){.code = desk_load(table, call)};
    uint8_t *row = desk_find(table, call->table_len, call->serial);
    if (row == NULL)
        return (struct desk_answer){.code = DL_NO_TOKEN};
    if (call->name != CALL_QUERY)
        return desk_serve(row, call);
    // a query reports from a copy, and so writes nothing
    uint8_t copy[DL_ROW_BYTES];
    memcpy(copy, row, DL_ROW_BYTES);
    return desk_serve(copy, call);
}

#endif
