// The desk's calls through the C interface, compared with those of desk_reference.h: code, values, and every lent byte.
#ifndef DESK_CALLS_H
#define DESK_CALLS_H

#include "desk_answers.h"
#include "desk_reference.h"
#include "lending.h"

// ---- the table

enum { AROUND = 32, MOST_TABLE = DL_ROW_BYTES * DL_MOST_ROWS, TABLE_ROOM = AROUND + MOST_TABLE + DL_ROW_BYTES + AROUND };

// The lent table starts AROUND bytes into its room, so that a write on either side of it shows. The other room has what a call
// should leave of all these bytes.
static uint8_t table_room[TABLE_ROOM], expected_room[TABLE_ROOM];

static uint8_t *const table = table_room + AROUND;

static inline uint8_t *table_row(size_t place)
{
    return table + place * DL_ROW_BYTES;
}

static inline size_t room_of(size_t table_len)
{
    return AROUND + table_len + AROUND;
}

// Zero rows amid random bytes.
static inline void clear_table(size_t rows)
{
    random_bytes(table_room, AROUND);
    memset(table, 0, rows * DL_ROW_BYTES);
    random_bytes(table + rows * DL_ROW_BYTES, AROUND);
}

// This row, and zero rows behind it.
static inline void lay_row(const uint8_t *row, size_t rows)
{
    clear_table(rows);
    memcpy(table, row, DL_ROW_BYTES);
}

// ---- calls

// Bytes that a call may read and must not change.
struct lent_bytes {
    uint8_t *key, *challenge, *password, *following;
};

static inline uint16_t run_checked(const struct desk_call *call, uint8_t *to, const struct lent_bytes *lends)
{
    const uint8_t *password = lends->password, *following = lends->following;
    size_t n = call->table_len, len = call->password.len, following_len = call->following.len, most = call->values_len;
    uint64_t serial = call->serial, clock = call->now;
    int64_t *values = lent_signed_words;
    switch (call->name) {
    case CALL_LOGIN:
        return dl_login(to, n, serial, clock, password, len, values, most);
    case CALL_CHALLENGE_LOGIN:
        return dl_challenge_login(to, n, serial, clock, lends->challenge, call->challenge.len, password, len, values, most);
    case CALL_ACTIVATE:
        return dl_activate(to, n, serial, clock, password, len, following, following_len, values, most);
    case CALL_UNLOCK:
        return dl_unlock(to, n, serial, clock, password, len, values, most);
    case CALL_RESUME:
        return dl_resume(to, n, serial, clock, password, len, values, most);
    default:
        return dl_sync(to, n, serial, clock, call->choice, password, len, following, following_len, values, most);
    }
}

static inline uint16_t run_call(const struct desk_call *call, uint8_t *to, const struct lent_bytes *lends)
{
    const struct desk_load *load = &call->load;
    switch (call->name) {
    case CALL_LOAD:
        return dl_load(to, call->table_len, call->serial, load->kind, load->algorithm, load->digits, load->period, load->limit,
                       lends->key, load->key_len, load->wait, load->expiry);
    case CALL_LOCK:
        return dl_lock(to, call->table_len, call->serial, call->now);
    case CALL_SUSPEND:
        return dl_suspend(to, call->table_len, call->serial, call->now);
    case CALL_VOID:
        return dl_void(to, call->table_len, call->serial, call->now);
    case CALL_QUERY:
        return dl_query(to, call->table_len, call->serial, call->now, lent_signed_words, call->values_len);
    default:
        return run_checked(call, to, lends);
    }
}

// In the short run the table has memory of its own, so that valgrind sees a read past it; what becomes of it is copied back.
static inline uint16_t run_on_table(const struct desk_call *call, const struct lent_bytes *lends)
{
    if (full_run)
        return run_call(call, table, lends);
    uint8_t *alone = copy_of(table, call->table_len);
    uint16_t code = run_call(call, alone, lends);
    memcpy(table, alone, call->table_len);
    free(alone);
    return code;
}

// Takes bytes back that were lent, and gives 1 if one of them has changed.
static inline int has_changed(uint8_t *lends, const uint8_t *bytes, size_t n)
{
    int changed = memcmp(lends, bytes, n) != 0;
    free(lends);
    return changed;
}

// Makes the call on the table. Gives its code, and whether it left the other bytes that it was lent as they were.
static inline uint16_t make_call(const struct desk_call *call, int *kept)
{
    const struct lent_bytes lends = {
        copy_of(call->load.key, call->load.key_len), copy_of(call->challenge.bytes, call->challenge.len),
        copy_of(call->password.bytes, call->password.len), copy_of(call->following.bytes, call->following.len)};
    lend();
    uint16_t code = run_on_table(call, &lends);
    *kept = has_changed(lends.key, call->load.key, call->load.key_len)
            + has_changed(lends.challenge, call->challenge.bytes, call->challenge.len)
            + has_changed(lends.password, call->password.bytes, call->password.len)
            + has_changed(lends.following, call->following.bytes, call->following.len) == 0;
    add_answer(answers, ANSWERS, code);
    return code;
}

// ---- comparison

static inline int same_answer(const struct desk_answer *one, const struct desk_answer *other)
{
    return one->code == other->code && one->values_set == other->values_set
        && memcmp(one->values, other->values, sizeof one->values) == 0;
}

enum { NONE = -AROUND - 1 }; // before the room's first byte

// Of the table and around it, the first byte that is not as it should be, counted from the table's start.
static inline int first_wrong_byte(size_t table_len)
{
    size_t n = room_of(table_len), i = 0;
    if (memcmp(table_room, expected_room, n) == 0)
        return NONE;
    while (table_room[i] == expected_room[i])
        i++;
    return (int)i - AROUND;
}

// Makes the call on the table and holds it against this answer and the bytes of `expected_room`; gives the code.
static inline uint16_t expect(const struct desk_call *call, const struct desk_answer *answer)
{
    int kept;
    uint16_t code = make_call(call, &kept);
    int byte = first_wrong_byte(call->table_len), values_right = wrote(answer->values, answer->values_set * sizeof *answer->values);
    check(code == answer->code && byte == NONE && values_right && kept,
          "call %d, serial %" PRIu64 ", now %" PRIu64 ", choice %d, lengths %zu %zu %zu %zu %zu %zu: %04x, not %04x; values %s; "
          "table %s %d; arguments %s", call->name, call->serial, call->now, call->choice, call->table_len, call->load.key_len,
          call->challenge.len, call->password.len, call->following.len, call->values_len, code, answer->code,
          values_right ? "right" : "wrong", byte == NONE ? "right" : "wrong at", byte == NONE ? 0 : byte,
          kept ? "kept" : "changed");
    return code;
}

// The bytes of the table, as a call should leave them if it leaves them all.
static inline uint8_t *expect_kept_bytes(size_t table_len)
{
    memcpy(expected_room, table_room, room_of(table_len));
    return expected_room + AROUND;
}

static inline uint8_t *expect_kept_table(const struct desk_call *call)
{
    return expect_kept_bytes(call->table_len);
}

static inline uint16_t compare(const struct desk_call *call)
{
    struct desk_answer answer = desk_answer_to(expect_kept_table(call), call);
    return expect(call, &answer);
}

// A named call whose answer is written out, and whose table after it stands in `expected_room`: the reference must agree, too.
static inline void expect_written(const struct desk_call *call, const struct desk_answer *answer, const char *name)
{
    static uint8_t after[MOST_TABLE];
    long before = differences;
    memcpy(after, table, call->table_len);
    struct desk_answer said = desk_answer_to(after, call);
    require(same_answer(answer, &said) && memcmp(after, expected_room + AROUND, call->table_len) == 0,
            "the reference's answer to a corner");
    expect(call, answer);
    if (differences > before)
        printf("     corner: %s\n", name);
}

#endif
