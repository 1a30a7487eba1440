// Single calls on small tables, with the answers and rows that document 01 gives them, written out without the reference.
#ifndef DESK_CORNERS_H
#define DESK_CORNERS_H

#include "plain_row.h"

// The rows are the plain row, whose serial is 7, with these changes; but for zeros, and leftovers in a row that is empty.
enum corner_row {
    NO_ROW, TOKEN_7, TOKEN_8, TOKEN_0, DAMAGED_7, DAMAGED_8, UNKNOWN_7, VOID_7, EMPTY_7, ZEROS, LEFTOVERS, CORNER_ROWS,
};

static const struct change row_changes[CORNER_ROWS][2] = {
    [TOKEN_8] = {{ROW_SERIAL, 8}}, [TOKEN_0] = {{ROW_SERIAL, 0}}, [DAMAGED_7] = {{ROW_WAIT, 59}},
    [DAMAGED_8] = {{ROW_SERIAL, 8}, {ROW_END, 1}}, [UNKNOWN_7] = {{ROW_STATE, 255}}, [VOID_7] = {{ROW_STATE, 6}},
    [EMPTY_7] = {{ROW_STATE, 0}}};

enum { CORNER_TABLE = 4, NO_CHANGE = -1 };

// A login is at 1060 with the password of step 35, which is right; a load is of the token below.
struct table_corner {
    const char *name;
    enum corner_row rows[CORNER_TABLE];
    enum desk_name call;
    uint64_t serial;
    uint16_t code;
    int changed; // the place of the row that the call changes
};

static const struct table_corner table_corners[] = {
    {"load on zero rows", {ZEROS, ZEROS}, CALL_LOAD, 7, 0x0140, 0},
    {"load of serial 0 on zero rows", {ZEROS}, CALL_LOAD, 0, 0x0140, 0},
    {"load into the first empty row", {TOKEN_8, ZEROS, ZEROS}, CALL_LOAD, 7, 0x0140, 1},
    {"load into the only empty row", {TOKEN_8, VOID_7, TOKEN_0, ZEROS}, CALL_LOAD, 9, 0x0140, 3},
    {"load over what an empty row holds", {LEFTOVERS}, CALL_LOAD, 7, 0x0140, 0},
    {"load, an empty row has the serial", {EMPTY_7, ZEROS}, CALL_LOAD, 7, 0x0140, 0},
    {"load beside damaged rows", {DAMAGED_7, UNKNOWN_7, ZEROS}, CALL_LOAD, 9, 0x0140, 2},
    {"load of a serial that is there", {TOKEN_7, ZEROS}, CALL_LOAD, 7, 0x8411, NO_CHANGE},
    {"load of a serial behind an empty row", {ZEROS, TOKEN_7}, CALL_LOAD, 7, 0x8411, NO_CHANGE},
    {"load of a serial that is there, no row empty", {TOKEN_8, TOKEN_7}, CALL_LOAD, 7, 0x8411, NO_CHANGE},
    {"load of a damaged row's serial", {DAMAGED_7, ZEROS}, CALL_LOAD, 7, 0x8411, NO_CHANGE},
    {"load of a serial in an unknown state", {UNKNOWN_7, ZEROS}, CALL_LOAD, 7, 0x8411, NO_CHANGE},
    {"load of a void token's serial", {VOID_7, ZEROS}, CALL_LOAD, 7, 0x8411, NO_CHANGE},
    {"load, no row empty", {TOKEN_7, TOKEN_8}, CALL_LOAD, 9, 0x8410, NO_CHANGE},
    {"load, no row empty and all damaged", {DAMAGED_7, UNKNOWN_7, DAMAGED_8}, CALL_LOAD, 9, 0x8410, NO_CHANGE},
    {"serial 0 among zero rows", {ZEROS, ZEROS}, CALL_QUERY, 0, 0x8402, NO_CHANGE},
    {"serial 0 behind zero rows", {ZEROS, TOKEN_0}, CALL_LOGIN, 0, 0x0001, 1},
    {"no row of the serial", {TOKEN_7, TOKEN_8}, CALL_LOGIN, 9, 0x8402, NO_CHANGE},
    {"no row of the serial, and a damaged one", {DAMAGED_7}, CALL_VOID, 9, 0x8402, NO_CHANGE},
    {"an empty row is no row", {EMPTY_7}, CALL_LOGIN, 7, 0x8402, NO_CHANGE},
    {"an empty row is passed over", {EMPTY_7, TOKEN_7}, CALL_LOGIN, 7, 0x0001, 1},
    {"the first of two rows", {TOKEN_7, TOKEN_7}, CALL_LOGIN, 7, 0x0001, 0},
    {"the first of two rows, void", {TOKEN_8, TOKEN_7, TOKEN_7}, CALL_VOID, 7, 0x010a, 1},
    {"a damaged first row, a good one later", {DAMAGED_7, TOKEN_7}, CALL_LOGIN, 7, 0x8403, NO_CHANGE},
    {"an unknown state first, a good row later", {UNKNOWN_7, TOKEN_7}, CALL_VOID, 7, 0x8403, NO_CHANGE},
    {"a good first row, a damaged one later", {TOKEN_7, DAMAGED_7}, CALL_LOGIN, 7, 0x0001, 0},
    {"a void first row, a good one later", {VOID_7, TOKEN_7}, CALL_LOGIN, 7, 0x8407, NO_CHANGE},
    {"damaged rows of other tokens", {DAMAGED_8, TOKEN_7, DAMAGED_8}, CALL_LOGIN, 7, 0x0001, 1},
    {"another token with the same password", {TOKEN_8, TOKEN_7}, CALL_LOGIN, 7, 0x0001, 1},
    {"serial 0 among others", {TOKEN_8, TOKEN_0, VOID_7, TOKEN_8}, CALL_VOID, 0, 0x010a, 1},
    {"lock in the last row", {TOKEN_0, TOKEN_8, ZEROS, TOKEN_7}, CALL_LOCK, 7, 0x0102, 3}};

enum { TABLE_CORNERS = sizeof table_corners / sizeof *table_corners };

// What the load of a corner leaves, byte by byte, but for the serial.
static const uint8_t loaded_row[DL_ROW_BYTES] = {
    1, 0, 4, 8, 30, 5, 0, 18, 0, 0, 0, 0, 0, 0, 0, 0,
    'a', ' ', 'k', 'e', 'y', ' ', 'o', 'f', ' ', '1', '8', ' ', 'b', 'y', 't', 'e',
    's', '.', 0, 0, 0, 0, 0, 0, 0, 0, 0, 0, 0, 0, 0, 0,
    0, 0, 0, 0, 0, 0, 0, 0, 0x02, 0x58, 0, 0, 0, 1, 0x51, 0x80,
    0, 0, 0, 0x12, 0x34, 0x56, 0x78, 0x9a, 0, 0, 0, 0, 0, 0, 0, 0,
    0, 0, 0, 0, 0, 0, 0, 0, 0, 0, 0, 0, 0, 0, 0, 0};

static inline void make_load_of_corner(struct desk_load *load)
{
    *load = (struct desk_load){.kind = DL_TIME_TOKEN, .algorithm = DL_ALGORITHM_SM4, .digits = 8, .period = 30, .limit = 5,
                               .key = "a key of 18 bytes.and more", .key_len = 18, .wait = 86400,
                               .expiry = UINT64_C(0x123456789a)};
}

static inline void make_corner_row(uint8_t *row, enum corner_row which)
{
    struct change changes[MOST_CHANGES] = {row_changes[which][0], row_changes[which][1]};
    memset(row, which == LEFTOVERS ? 0xa5 : 0, DL_ROW_BYTES);
    row[0] = 0;
    if (which == ZEROS || which == LEFTOVERS)
        return;
    make_plain_row(row, DL_ALGORITHM_SM3);
    apply(row, changes);
}

// Lays the corner's table, and makes its call.
static inline void make_table_corner(uint8_t *to, struct desk_call *call, const struct table_corner *corner)
{
    *call = (struct desk_call){.name = corner->call, .serial = corner->serial, .now = 1060, .values_len = DL_QUERY_VALUES};
    for (size_t i = 0; i < CORNER_TABLE && corner->rows[i] != NO_ROW; i++, call->table_len += DL_ROW_BYTES)
        make_corner_row(to + call->table_len, corner->rows[i]);
    make_load_of_corner(&call->load);
    uint8_t plain[DL_ROW_BYTES];
    make_plain_row(plain, DL_ALGORITHM_SM3);
    struct window_call token = desk_token(plain, call);
    window_password(&token, 35, &call->password);
}

// The row that changes, after the call.
static inline void change_corner_row(uint8_t *row, const struct table_corner *corner)
{
    static const struct change locked[MOST_CHANGES] = {{ROW_STATE, 4}}, voided[MOST_CHANGES] = {{ROW_STATE, 6}, {ROW_KEY, 0}},
                               logged_in[MOST_CHANGES] = {ACCEPTED(35, 1060)};
    if (corner->code == 0x0140) {
        memcpy(row, loaded_row, DL_ROW_BYTES);
        row_put(row, ROW_SERIAL, corner->serial);
    } else {
        apply(row, corner->code == 0x0001 ? logged_in : corner->code == 0x010a ? voided : locked);
    }
}

static inline struct desk_answer table_corner_answer(const struct table_corner *corner)
{
    struct desk_answer answer = {.code = corner->code};
    if (corner->code == 0x0001)
        answer = (struct desk_answer){.code = corner->code, .values_set = 2, .values = {35, 0}};
    return answer;
}

#endif
