// The desk's login, activate, sync and query, and the check alone, in C over OpenSSL, as a good program without the proved library would have
// them: the benchmark's peer. The rules and codes are those of tests/library/desk_reference.h; all that takes time is written for speed here.
#ifndef DESK_PEER_H
#define DESK_PEER_H

#include "../tests/library/desk_reference.h"

#include <endian.h>

// ---- the row, laid over the table's bytes; its numbers are big-endian

struct peer_row {
    uint8_t state, kind, algorithm, digits, period, limit, errors, key_len;
    uint64_t serial;
    uint8_t key[OTP_MOST_KEY];
    uint64_t next;
    uint16_t offset, zeros;
    uint32_t wait;
    uint64_t expiry, locked_at, last_use, end;
};

_Static_assert(sizeof(struct peer_row) == DL_ROW_BYTES, "the row is laid out as document 01 says");

// The first row that is not empty and has the serial, or NULL.
static inline struct peer_row *peer_find(struct peer_row *table, size_t table_len, uint64_t serial)
{
    uint64_t wanted = htobe64(serial);
    for (struct peer_row *row = table; row < table + table_len / DL_ROW_BYTES; row++)
        if (row->serial == wanted && row->state != DL_STATE_EMPTY)
            return row;
    return NULL;
}

static inline int peer_kind_kept(const struct peer_row *row)
{
    uint64_t next = be64toh(row->next);
    uint16_t offset = be16toh(row->offset);
    if (row->kind == DL_TIME_TOKEN)
        return 1 <= row->period && row->period <= ROW_MOST_PERIOD && next <= CLOCK_END + WINDOW_FARTHEST
            && offset <= 2 * WINDOW_FARTHEST;
    return row->kind == DL_EVENT_TOKEN && row->period == 0 && next <= COUNT_END && offset == WINDOW_FARTHEST;
}

// What a check needs to know of the row.
static inline int peer_track_kept(const struct peer_row *row)
{
    return (row->algorithm == OTP_SM3 || row->algorithm == OTP_SM4) && OTP_LEAST_DIGITS <= row->digits && row->digits <= OTP_MOST_DIGITS
        && OTP_LEAST_KEY <= row->key_len && row->key_len <= OTP_MOST_KEY && peer_kind_kept(row);
}

static inline int peer_times_kept(const struct peer_row *row)
{
    uint32_t wait = be32toh(row->wait);
    return ROW_LEAST_WAIT <= wait && wait <= ROW_MOST_WAIT && be64toh(row->expiry) <= CLOCK_END
        && (row->state == DL_STATE_LOCKED_BY_ERRORS ? be64toh(row->locked_at) < CLOCK_END : row->locked_at == 0)
        && be64toh(row->last_use) < CLOCK_END;
}

static inline int peer_well_formed(const struct peer_row *row)
{
    static const uint8_t zeros[OTP_MOST_KEY - OTP_LEAST_KEY];
    return row->state <= DL_STATE_VOID && 1 <= row->limit && row->limit <= ROW_MOST_LIMIT && peer_track_kept(row)
        && memcmp(row->key + row->key_len, zeros, OTP_MOST_KEY - row->key_len) == 0
        && row->zeros == 0 && row->end == 0 && peer_times_kept(row);
}

// ---- the password, with what all candidates share laid ready once a call

struct peer_token {
    const struct peer_row *row;
    uint64_t modulus; // 10^digits
    uint8_t message[OTP_MOST_KEY + OTP_BLOCK]; // the key, then ID, in which only the step changes
};

static inline void peer_prepare(struct peer_token *token, const struct peer_row *row)
{
    static const uint64_t moduli[] = {[6] = 1000000, 10000000, 100000000, 1000000000, 10000000000};
    token->row = row;
    token->modulus = moduli[row->digits];
    memcpy(token->message, row->key, row->key_len);
    memset(token->message + row->key_len, 0, OTP_BLOCK);
    otp_require(row->algorithm == OTP_SM3 || EVP_EncryptInit_ex2(otp_library.cipher, NULL, row->key, NULL, NULL));
}

// The sum of the output's n words.
static inline uint32_t peer_cut(const uint32_t *output, size_t n)
{
    uint32_t sum = 0;
    for (size_t i = 0; i < n; i++)
        sum += be32toh(output[i]);
    return sum;
}

// As a number: its digits need not be written to be compared.
static inline uint64_t peer_password(struct peer_token *token, uint64_t step)
{
    uint8_t *id = token->message + token->row->key_len;
    uint64_t factor = htobe64(token->row->kind == DL_TIME_TOKEN ? step : step << 32);
    uint32_t output[8];
    int n;
    memcpy(id, &factor, sizeof factor);
    if (token->row->algorithm == OTP_SM4) {
        otp_require(EVP_EncryptUpdate(otp_library.cipher, (uint8_t *)output, &n, id, OTP_BLOCK));
        return peer_cut(output, 4) % token->modulus;
    }
    otp_require(EVP_DigestInit_ex2(otp_library.digest, otp_library.sm3, NULL)
                && EVP_DigestUpdate(otp_library.digest, token->message, token->row->key_len + OTP_BLOCK)
                && EVP_DigestFinal_ex(otp_library.digest, (uint8_t *)output, NULL));
    return peer_cut(output, 8) % token->modulus;
}

// ---- the check

// The candidates are the steps from first up to, not including, end.
struct peer_window {
    int64_t first, end;
};

static inline int64_t peer_larger(int64_t one, int64_t other)
{
    return one > other ? one : other;
}

static inline int64_t peer_smaller(int64_t one, int64_t other)
{
    return one < other ? one : other;
}

static inline struct peer_window peer_window(const struct peer_row *row, uint8_t size, uint64_t now)
{
    static const int64_t time_widths[] = {[DL_SMALL] = 2, [DL_MEDIUM] = 5, [DL_LARGE] = 10};
    static const int64_t event_widths[] = {[DL_SMALL] = 10, [DL_MEDIUM] = 20, [DL_LARGE] = 50};
    int64_t next = (int64_t)be64toh(row->next);
    if (row->kind == DL_EVENT_TOKEN)
        return (struct peer_window){peer_larger(next - 1, 0), peer_smaller(next + event_widths[size], COUNT_END)};
    int64_t clock_step = (int64_t)now / row->period, centre = clock_step + be16toh(row->offset) - WINDOW_FARTHEST;
    int64_t first = peer_larger(centre - time_widths[size], clock_step - WINDOW_FARTHEST);
    return (struct peer_window){
        peer_larger(first, 0), peer_smaller(centre + time_widths[size], clock_step + WINDOW_FARTHEST) + 1};
}

// A password that was typed in, as a number.
struct peer_typed {
    uint64_t number;
    size_t digits;
};

// What a check is given beside the row.
struct peer_asked {
    uint8_t size; // of the window
    int is_pair;
    uint64_t now;
    struct peer_typed password, following;
};

// What a check finds: DL_DONE with the accepted step, DL_NEXT_WANTED, DL_USED, of one password with the last step that matches, or DL_WRONG; how
// many passwords it computed, and how many fresh steps match.
struct peer_found {
    uint16_t code;
    int64_t accepted;
    uint64_t computed, fresh;
};

static inline int peer_read_password(const struct window_typed *typed, struct peer_typed *read)
{
    *read = (struct peer_typed){0, typed->len};
    if (typed->len < OTP_LEAST_DIGITS || typed->len > OTP_MOST_DIGITS)
        return 0;
    for (size_t i = 0; i < typed->len; i++) {
        unsigned digit = typed->bytes[i] - '0';
        if (digit > 9)
            return 0;
        read->number = read->number * 10 + digit;
    }
    return 1;
}

// Each sweep begins a page, as each call does below.
#define PEER_SWEEP __attribute__((noinline, aligned(4096))) static struct peer_found

// One password: up all candidates, each computed once. The used ones come before the fresh ones.
PEER_SWEEP peer_sweep_single(struct peer_token *token, const struct peer_asked *asked, struct peer_window window)
{
    struct peer_found found = {.code = DL_WRONG};
    int64_t next = (int64_t)be64toh(token->row->next);
    for (int64_t step = window.first; step < window.end; step++) {
        found.computed++;
        if (peer_password(token, (uint64_t)step) != asked->password.number)
            continue;
        found.accepted = step;
        found.fresh += step >= next;
        found.code = found.fresh == 0 ? DL_USED : found.fresh == 1 ? DL_DONE : DL_NEXT_WANTED;
    }
    return found;
}

// Two passwords: up the candidates, each computed at most once, to the accepted one. This is the second step, and the first has to be fresh.
PEER_SWEEP peer_sweep_pair(struct peer_token *token, const struct peer_asked *asked, struct peer_window window)
{
    struct peer_found found = {.code = DL_WRONG};
    int64_t next = (int64_t)be64toh(token->row->next);
    int is_begun = 0; // the step before has the first password
    for (int64_t step = window.first; step < window.end; step++) {
        uint64_t password = peer_password(token, (uint64_t)step);
        found.computed++;
        if (is_begun && password == asked->following.number) {
            if (step > next)
                return (struct peer_found){DL_DONE, step, found.computed, 1};
            found.code = DL_USED;
        }
        is_begun = password == asked->password.number;
    }
    return found;
}

static inline struct peer_found peer_check(const struct peer_row *row, const struct peer_asked *asked)
{
    struct peer_token token;
    if (asked->password.digits != row->digits || (asked->is_pair && asked->following.digits != row->digits))
        return (struct peer_found){.code = DL_WRONG};
    peer_prepare(&token, row);
    struct peer_window window = peer_window(row, asked->size, asked->now);
    return asked->is_pair ? peer_sweep_pair(&token, asked, window) : peer_sweep_single(&token, asked, window);
}

// ---- a call on its row

static inline int peer_wait_is_over(const struct peer_row *row, uint64_t now)
{
    uint64_t locked_at = be64toh(row->locked_at);
    return row->state == DL_STATE_LOCKED_BY_ERRORS && now >= locked_at && now - locked_at >= be32toh(row->wait);
}

static inline void peer_become(struct peer_row *row, uint8_t state)
{
    row->state = state;
    row->locked_at = 0;
}

static inline void peer_add_error(struct peer_row *row, const struct desk_call *call)
{
    row->errors += row->errors < ROW_MOST_ERRORS;
    if (!desk_is_login(call->name) || row->errors < row->limit)
        return;
    row->state = DL_STATE_LOCKED_BY_ERRORS;
    row->locked_at = htobe64(call->now);
}

static inline void peer_accept(struct peer_row *row, const struct desk_call *call, int64_t step, int64_t *values)
{
    int64_t offset = row->kind == DL_TIME_TOKEN ? step - (int64_t)(call->now / row->period) : 0;
    if (desk_rules[call->name].becomes != DL_STATE_EMPTY)
        peer_become(row, desk_rules[call->name].becomes);
    row->errors = 0;
    row->next = htobe64((uint64_t)step + 1);
    row->offset = htobe16((uint16_t)(offset + WINDOW_FARTHEST));
    row->last_use = htobe64(call->now);
    values[0] = step;
    values[1] = offset;
}

static inline uint16_t peer_serve(struct peer_row *row, const struct desk_call *call, const struct peer_asked *asked, int64_t *values)
{
    if (peer_wait_is_over(row, call->now)) {
        peer_become(row, DL_STATE_READY);
        row->errors = 0;
    }
    if (!(desk_rules[call->name].states >> row->state & 1))
        return desk_state_codes[row->state];
    if (call->now >= be64toh(row->expiry))
        return DL_TOKEN_EXPIRED;
    struct peer_found found = peer_check(row, asked);
    if (found.code == DL_DONE) {
        peer_accept(row, call, found.accepted, values);
        return desk_rules[call->name].success;
    }
    if (found.code == DL_NEXT_WANTED)
        return desk_next_code(call->name);
    // a double press is no error
    if (found.code == DL_USED && desk_is_login(call->name) && (uint64_t)found.accepted + 1 == be64toh(row->next))
        return DL_USED;
    peer_add_error(row, call);
    return found.code == DL_USED ? desk_used_code(call->name) : desk_wrong_code(call->name);
}

// ---- the calls; compiled apart from their caller, as a library's are. Each begins a page: where it lies beside OpenSSL's functions decides a tenth of
// its time, which would else move with every header that is included here.

#define PEER_CALL __attribute__((noipa, unused, aligned(4096))) static uint16_t

static inline int peer_lent_ok(const struct desk_call *call)
{
    return call->table_len % DL_ROW_BYTES == 0 && call->table_len >= DL_ROW_BYTES
        && call->table_len <= DL_ROW_BYTES * DL_MOST_ROWS && call->now < CLOCK_END && call->values_len >= DL_MOST_VALUES;
}

// A login, an activate or a sync: its code. A success sets the values.
PEER_CALL peer_checked_call(struct peer_row *table, const struct desk_call *call, int64_t *values)
{
    struct peer_asked asked = {
        .size = desk_window_size(call), .is_pair = desk_rules[call->name].check == PAIR, .now = call->now};
    if (!peer_lent_ok(call) || !peer_read_password(&call->password, &asked.password)
        || (asked.is_pair && !peer_read_password(&call->following, &asked.following))
        || (call->name == CALL_SYNC && call->choice != DL_SYNC_MEDIUM && call->choice != DL_SYNC_LARGE))
        return DL_BAD_ARGUMENT;
    struct peer_row *row = peer_find(table, call->table_len, call->serial);
    if (row == NULL)
        return DL_NO_TOKEN;
    return peer_well_formed(row) ? peer_serve(row, call, &asked, values) : DL_DAMAGED_ROW;
}

// The check of one password, on the row's numbers alone.
PEER_CALL peer_single_check(const struct peer_row *row, uint8_t size, uint64_t now, const struct window_typed *presented,
                            uint64_t *step, uint64_t *computed, uint64_t *fresh)
{
    struct peer_asked asked = {.size = size, .now = now};
    if (!peer_track_kept(row) || size < DL_SMALL || size > DL_LARGE || now >= CLOCK_END
        || !peer_read_password(presented, &asked.password))
        return DL_BAD_ARGUMENT;
    struct peer_found found = peer_check(row, &asked);
    *computed = found.computed;
    *fresh = found.fresh;
    if (found.code == DL_DONE)
        *step = (uint64_t)found.accepted;
    return found.code;
}

PEER_CALL peer_query(struct peer_row *table, const struct desk_call *call, int64_t *values)
{
    if (!peer_lent_ok(call))
        return DL_BAD_ARGUMENT;
    const struct peer_row *row = peer_find(table, call->table_len, call->serial);
    if (row == NULL)
        return DL_NO_TOKEN;
    if (!peer_well_formed(row))
        return DL_DAMAGED_ROW;
    int opened = peer_wait_is_over(row, call->now);
    values[0] = opened ? DL_STATE_READY : row->state;
    values[1] = opened ? 0 : row->errors;
    values[2] = (int64_t)be64toh(row->last_use);
    return DL_QUERIED;
}

#endif
