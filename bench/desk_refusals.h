// Which refusals write to the table, be it the bytes that stand there already: the table may only be read, and a write is caught.
#ifndef DESK_REFUSALS_H
#define DESK_REFUSALS_H

#include "../tests/library/desk_reference.h"
#include "racing.h"

#include <setjmp.h>
#include <signal.h>
#include <sys/mman.h>

// A row for each state, with the state as its serial; then a damaged one. None is empty.
enum {
    DAMAGED_SERIAL = DL_STATE_VOID + 1,
    NO_SERIAL,
    REFUSING_TABLE = DAMAGED_SERIAL * DL_ROW_BYTES,
    EXPIRES = ROW_LEAST_WAIT / 2, // before a wait can have run out
    MOST_REFUSALS = 9, // and a zero
};

// Every token shows this at the counts 3 and 6, its key being the number 3403.
#define TWO_COUNTS "547160"

static const struct refusals {
    const char *keep; // what they leave as it was
    struct refusal {
        uint16_t code;
        enum desk_name name;
        uint64_t serial, now;
        const char *password;
    } all[MOST_REFUSALS];
} refusals[] = {
    {"every byte",
     {{DL_BAD_ARGUMENT, CALL_LOGIN, DL_STATE_READY, 0, "12345x"},
      {DL_SERIAL_TAKEN, CALL_LOAD, DL_STATE_READY, 0, ""},
      {DL_TABLE_FULL, CALL_LOAD, NO_SERIAL, 0, ""},
      {DL_NO_TOKEN, CALL_LOGIN, NO_SERIAL, 0, "123456"},
      {DL_DAMAGED_ROW, CALL_LOGIN, DAMAGED_SERIAL, 0, "123456"}}},
    {"all but a wait run out; none has",
     {{DL_TOKEN_READY, CALL_ACTIVATE, DL_STATE_READY, 0, "123456"},
      {DL_TOKEN_LOCKED, CALL_LOGIN, DL_STATE_LOCKED_BY_ERRORS, 0, "123456"},
      {DL_TOKEN_SUSPENDED, CALL_LOGIN, DL_STATE_SUSPENDED, 0, "123456"},
      {DL_TOKEN_NOT_ACTIVATED, CALL_LOGIN, DL_STATE_NOT_ACTIVATED, 0, "123456"},
      {DL_TOKEN_VOID, CALL_LOGIN, DL_STATE_VOID, 0, "123456"},
      {DL_TOKEN_EXPIRED, CALL_LOGIN, DL_STATE_READY, EXPIRES, "123456"},
      {DL_NEXT_WANTED, CALL_LOGIN, DL_STATE_READY, 0, TWO_COUNTS},
      {DL_MANAGEMENT_NEXT_WANTED, CALL_UNLOCK, DL_STATE_LOCKED_BY_HAND, 0, TWO_COUNTS}}},
};

// ---- the calls

static inline uint16_t load_token(uint8_t *table, uint64_t serial)
{
    uint8_t of_3403[OTP_LEAST_KEY];
    otp_put_number(of_3403, 3403, sizeof of_3403);
    return dl_load(table, REFUSING_TABLE, serial, DL_EVENT_TOKEN, OTP_SM3, OTP_LEAST_DIGITS, 0, ROW_MOST_LIMIT, of_3403,
                   sizeof of_3403, ROW_LEAST_WAIT, EXPIRES);
}

static inline uint16_t refused(uint8_t *table, const struct refusal *refusal)
{
    const uint8_t *password = (const uint8_t *)refusal->password;
    size_t n = strlen(refusal->password);
    int64_t carried[DL_MOST_VALUES];
    if (refusal->name == CALL_LOAD)
        return load_token(table, refusal->serial);
    if (refusal->name == CALL_ACTIVATE)
        return dl_activate(table, REFUSING_TABLE, refusal->serial, refusal->now, password, n, password, n, carried, DL_MOST_VALUES);
    return (refusal->name == CALL_UNLOCK ? dl_unlock : dl_login)(table, REFUSING_TABLE, refusal->serial, refusal->now, password, n,
                                                                 carried, DL_MOST_VALUES);
}

static inline uint8_t *read_only_table(void)
{
    uint8_t *table = mmap(NULL, REFUSING_TABLE, PROT_READ | PROT_WRITE, MAP_PRIVATE | MAP_ANONYMOUS, -1, 0);
    if (table == MAP_FAILED)
        die("no memory for a table");
    for (uint64_t serial = 1; serial <= DAMAGED_SERIAL; serial++) {
        load_token(table, serial);
        row_put(table + (serial - 1) * DL_ROW_BYTES, ROW_STATE, serial);
    }
    mprotect(table, REFUSING_TABLE, PROT_READ);
    return table;
}

// ---- the writes

static sigjmp_buf before_write;

static inline void catch_write(int signal_number)
{
    (void)signal_number;
    siglongjmp(before_write, 1);
}

static inline int writes(uint8_t *table, const struct refusal *refusal)
{
    if (sigsetjmp(before_write, 1) != 0)
        return 1;
    if (refused(table, refusal) != refusal->code)
        die("a refusal has another code");
    return 0;
}

static inline void print_refusals_of(uint8_t *table, const struct refusals *some)
{
    int written = 0;
    char codes[MOST_REFUSALS * 5 + 1] = "", writers[MOST_REFUSALS * 5 + 1] = "";
    for (const struct refusal *refusal = some->all; refusal->code != 0; refusal++) {
        int is_writer = writes(table, refusal);
        sprintf(codes + strlen(codes), "%04x ", refusal->code);
        if (is_writer)
            sprintf(writers + strlen(writers), "%04x ", refusal->code);
        written |= is_writer;
    }
    printf("| %-40s | %-32s | %-40s | %-3s |\n", codes, some->keep, written ? writers : "none", written ? "NO" : "yes");
}

static inline void print_refusals(void)
{
    uint8_t *table = read_only_table();
    signal(SIGSEGV, catch_write);
    printf("\n| %-40s | %-32s | %-40s | %-3s |\n|---|---|---|---|\n", "Refusals", "Leave as it was", "Write nonetheless", "Met");
    for (size_t i = 0; i < sizeof refusals / sizeof *refusals; i++)
        print_refusals_of(table, &refusals[i]);
    signal(SIGSEGV, SIG_DFL);
    munmap(table, REFUSING_TABLE);
}

#endif
