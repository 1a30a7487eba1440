// The lines of the desk's benchmark, and what each gives its contestants: a table, a call, and the same for liboath.
#ifndef DESK_SCENES_H
#define DESK_SCENES_H

#include "desk_peer.h"
#include "racing.h"

#include <liboath/oath.h>

enum {
    KEY_LEN = 16, DIGITS = 6, PERIOD = 30,
    CLOCK = 1800000000,
    CENTRE = CLOCK / PERIOD,
    LONG_AGO = 1000, // the next step of a token whose candidates are all fresh, and of the event token
    OUTSIDE = 1000, // steps: past every window
    FIRST_SERIAL = 100,
};

static uint8_t key[KEY_LEN];
static const char *const secret = (const char *)key; // liboath's name and type for it

// ---- the lines of the report

enum line_name {
    LOGIN_SM3, LOGIN_SM4, WRONG_SM3, WRONG_SM4, WRONG_EVENT_SM3, WRONG_EVENT_SM4, ACTIVATE_SM3, ACTIVATE_SM4, MEDIUM_SM3, MEDIUM_SM4,
    LARGE_SM3, LARGE_SM4, QUERY_1, QUERY_16, QUERY_256, LINES,
};

// A call on a table whose last row is the token's. What is right is the centre step or, of a pair, the window's last two.
static const struct line {
    const char *what;
    uint64_t calls; // in a round
    enum desk_name name;
    uint8_t choice; // of a sync
    uint8_t kind, algorithm;
    uint64_t next; // the first unused step
    size_t rows;
    int is_right;
    double target; // beside C over OpenSSL; 0: none
} lines[LINES] = {
    [LOGIN_SM3] = {"Login, SM3", 600, CALL_LOGIN, 0, DL_TIME_TOKEN, OTP_SM3, LONG_AGO, 1, 1, 1.5},
    [LOGIN_SM4] = {"Login, SM4", 600, CALL_LOGIN, 0, DL_TIME_TOKEN, OTP_SM4, LONG_AGO, 1, 1, 1.5},
    [WRONG_SM3] = {"Wrong login, SM3", 600, CALL_LOGIN, 0, DL_TIME_TOKEN, OTP_SM3, LONG_AGO, 1, 0, 1.5},
    [WRONG_SM4] = {"Wrong login, SM4", 600, CALL_LOGIN, 0, DL_TIME_TOKEN, OTP_SM4, LONG_AGO, 1, 0, 1.5},
    [WRONG_EVENT_SM3] = {"Wrong login, events, SM3", 300, CALL_LOGIN, 0, DL_EVENT_TOKEN, OTP_SM3, LONG_AGO, 1, 0, 1.5},
    [WRONG_EVENT_SM4] = {"Wrong login, events, SM4", 300, CALL_LOGIN, 0, DL_EVENT_TOKEN, OTP_SM4, LONG_AGO, 1, 0, 1.5},
    [ACTIVATE_SM3] = {"Activate, last pair, SM3", 150, CALL_ACTIVATE, 0, DL_TIME_TOKEN, OTP_SM3, LONG_AGO, 1, 1, 1.3},
    [ACTIVATE_SM4] = {"Activate, last pair, SM4", 150, CALL_ACTIVATE, 0, DL_TIME_TOKEN, OTP_SM4, LONG_AGO, 1, 1, 0.9},
    [MEDIUM_SM3] = {"Wrong sync, medium, SM3", 300, CALL_SYNC, DL_SYNC_MEDIUM, DL_TIME_TOKEN, OTP_SM3, LONG_AGO, 1, 0, 1.3},
    [MEDIUM_SM4] = {"Wrong sync, medium, SM4", 300, CALL_SYNC, DL_SYNC_MEDIUM, DL_TIME_TOKEN, OTP_SM4, LONG_AGO, 1, 0, 0.9},
    [LARGE_SM3] = {"Wrong sync, large, SM3", 150, CALL_SYNC, DL_SYNC_LARGE, DL_TIME_TOKEN, OTP_SM3, LONG_AGO, 1, 0, 1.3},
    [LARGE_SM4] = {"Wrong sync, large, SM4", 150, CALL_SYNC, DL_SYNC_LARGE, DL_TIME_TOKEN, OTP_SM4, LONG_AGO, 1, 0, 0.9},
    [QUERY_1] = {"Query, 1 row", 20000, CALL_QUERY, 0, DL_TIME_TOKEN, OTP_SM3, LONG_AGO, 1, 1, 0},
    [QUERY_16] = {"Query, last of 16 rows", 10000, CALL_QUERY, 0, DL_TIME_TOKEN, OTP_SM3, LONG_AGO, 16, 1, 0},
    [QUERY_256] = {"Query, last of 256 rows", 2000, CALL_QUERY, 0, DL_TIME_TOKEN, OTP_SM3, LONG_AGO, DL_MOST_ROWS, 1, 1.3},
};

// What a line's contestants are given.
struct scene {
    struct desk_call call;
    union {
        uint8_t bytes[DL_MOST_ROWS * DL_ROW_BYTES];
        struct peer_row rows[DL_MOST_ROWS];
    } table;
    struct peer_row *token, kept; // its row, and what this was before the call
    uint8_t kind;
    size_t oath_window; // the steps on either side of the clock's, or behind an event token's first
    char oath_password[DIGITS + 1], oath_following[DIGITS + 1];
};

// ---- making a scene

// Loaded tokens, the last of which is made ready unless it is to be activated.
static inline void fill_table(struct scene *to, const struct line *line)
{
    uint8_t period = line->kind == DL_TIME_TOKEN ? PERIOD : 0;
    for (size_t i = 0; i < line->rows; i++)
        if (dl_load(to->table.bytes, line->rows * DL_ROW_BYTES, FIRST_SERIAL + i, line->kind, line->algorithm, DIGITS, period,
                    ROW_MOST_LIMIT, key, KEY_LEN, ROW_LEAST_WAIT, CLOCK_END) != DL_LOADED)
            die("dl_load refuses");
    to->token = &to->table.rows[line->rows - 1];
    to->token->next = htobe64(line->next);
    if (line->name != CALL_ACTIVATE)
        to->token->state = DL_STATE_READY;
    to->kept = *to->token;
}

// The password of a step, as the desk's token shows it and as liboath's does.
static inline void type(struct window_typed *typed, char *oath_typed, const struct line *line, uint64_t step)
{
    int is_time = line->kind == DL_TIME_TOKEN;
    typed->len = DIGITS;
    if (dl_password(line->algorithm, key, KEY_LEN, is_time, step, !is_time, (uint32_t)step, NULL, 0, DIGITS, typed->bytes,
                    DIGITS) != DL_DONE
        || oath_hotp_generate(secret, KEY_LEN, step, DIGITS, 0, OATH_HOTP_DYNAMIC_TRUNCATION, oath_typed) != OATH_OK)
        die("no password");
}

static inline uint64_t shown_step(const struct line *line)
{
    if (!line->is_right)
        return CENTRE + OUTSIDE;
    return line->name == CALL_ACTIVATE ? CENTRE + 9 : CENTRE;
}

static inline void make_scene(struct scene *to, const struct line *line)
{
    static const size_t oath_windows[] = {[DL_SMALL] = 2, [DL_MEDIUM] = 5, [DL_LARGE] = 10};
    uint64_t step = shown_step(line);
    fill_table(to, line);
    to->call.name = line->name;
    to->call.choice = line->choice;
    to->call.table_len = line->rows * DL_ROW_BYTES;
    to->call.values_len = DL_MOST_VALUES;
    to->call.serial = FIRST_SERIAL + line->rows - 1;
    to->call.now = CLOCK;
    to->kind = line->kind;
    to->oath_window = line->kind == DL_TIME_TOKEN ? oath_windows[desk_window_size(&to->call)] : 10;
    type(&to->call.password, to->oath_password, line, step);
    type(&to->call.following, to->oath_following, line, step + 1);
}

static inline void make_key(void)
{
    for (size_t i = 0; i < KEY_LEN; i++)
        key[i] = (uint8_t)(i * 7);
}

#endif
