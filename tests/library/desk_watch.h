// What holds of every list of calls begun on zero rows: a token's accepted steps rise, a void token has none accepted, and a call
// changes no row but that of the token it names. This is told from the calls and their answers alone, without the reference.
#ifndef DESK_WATCH_H
#define DESK_WATCH_H

#include "desk_calls.h"

struct watched {
    uint64_t serial;
    int64_t last_step;
    int is_void;
};

// The tokens in the order of their loads, which is the order of their rows.
static struct watched watched[DL_MOST_ROWS];
static size_t tokens_watched;
static uint8_t table_before[MOST_TABLE];

static inline void begin_watch(void)
{
    tokens_watched = 0;
}

static inline void watch_before(size_t rows)
{
    memcpy(table_before, table, rows * DL_ROW_BYTES);
}

// The place of the serial's row, or one that no row has.
static inline size_t watched_place(uint64_t serial)
{
    size_t place = 0;
    while (place < tokens_watched && watched[place].serial != serial)
        place++;
    return place < tokens_watched ? place : SIZE_MAX;
}

static inline void watch_rows(size_t rows, size_t named)
{
    for (size_t i = 0; i < rows; i++)
        if (i != named && memcmp(table_before + i * DL_ROW_BYTES, table_row(i), DL_ROW_BYTES) != 0)
            require(0, "a call changed the row of a token that it does not name");
}

static inline int is_checked_success(uint16_t code)
{
    return code == 0x0001 || code == 0x0002 || code == 0x0101 || code == 0x0103 || code == 0x0105 || code == 0x0108;
}

static inline void watch_step(struct watched *token, int64_t step)
{
    require(!token->is_void, "a void token's password was accepted");
    require(step > token->last_step, "a token's accepted steps do not rise");
    token->last_step = step;
}

// After the call; its first value is the accepted step.
static inline void watch_after(const struct desk_call *call, uint16_t code, size_t rows)
{
    if (code == 0x0140 && tokens_watched < rows)
        watched[tokens_watched++] = (struct watched){.serial = call->serial, .last_step = -1};
    size_t named = watched_place(call->serial);
    watch_rows(rows, named);
    int succeeded = is_checked_success(code) || code == 0x0140 || code == 0x010a;
    require(named != SIZE_MAX || !succeeded, "a call succeeded on a token that was never loaded");
    if (named == SIZE_MAX)
        return;
    if (is_checked_success(code))
        watch_step(&watched[named], lent_signed_words[0]);
    watched[named].is_void |= code == 0x010a;
}

#endif
