/*
 * Dykeladder: the hash SM3 (GB/T 32905-2016), the cipher SM4
 * (GB/T 32907-2016), the one-time password (GM/T 0021-2012) and the
 * release-signing token desk over a table of tokens.
 *
 * Every call returns a code. A success is DL_DONE or, at the desk, the code of
 * its call: the result is written, and every byte past it is as it was. All
 * other codes are refusals, and dl_refused tells them apart. DL_BAD_ARGUMENT
 * is the refusal of a length or a value out of range, and nothing is written.
 * So a caller has nothing to test beforehand; what he owes is this:
 *
 * Buffers. Each is lent as a pointer and a length, counted in elements. The
 * pointer leads to that many elements, aligned as their type is; it may be
 * null if the length is 0. A buffer that the call may write, one that is not
 * const, must not overlap another argument. Those that are only read may.
 *
 * Threads. The library has no state of its own, so calls on buffers of their
 * own may run at the same time. While a call may write a buffer, nothing else
 * may read or write it: a table is in one call at a time, but for dl_query,
 * which only reads it.
 *
 * Memory. No call allocates, and none keeps a pointer when it has returned. A
 * call may leave copies of keys on the stack, and its time may depend on what
 * it reads.
 */
#ifndef DYKELADDER_H
#define DYKELADDER_H

#include <stddef.h>
#include <stdint.h>

#ifdef __cplusplus
extern "C" {
#endif

/* The version of this header; as a number 0xMMmmpp, to be compared. */
#define DL_VERSION        "0.7.0"
#define DL_VERSION_NUMBER 0x000700

/* The version that the program was compiled with, DL_VERSION. */
static inline const char *dl_version(void)
{
    return DL_VERSION;
}

/* Success of the hash, the cipher, the password, the check and of messages read and written. */
#define DL_DONE 0x0000 /* the result is written */

/* Successes of the desk, one for each call. */
#define DL_LOGGED_IN     0x0001 /* dl_login */
#define DL_CHALLENGE_MET 0x0002 /* dl_challenge_login */
#define DL_ACTIVATED     0x0101 /* dl_activate */
#define DL_LOCKED        0x0102 /* dl_lock */
#define DL_UNLOCKED      0x0103 /* dl_unlock */
#define DL_SUSPENDED     0x0104 /* dl_suspend */
#define DL_RESUMED       0x0105 /* dl_resume */
#define DL_SYNCHRONIZED  0x0108 /* dl_sync */
#define DL_VOIDED        0x010a /* dl_void */
#define DL_QUERIED       0x010b /* dl_query */
#define DL_LOADED        0x0140 /* dl_load */

/*
 * Refusals, in the order in which they are tested. Those down to
 * DL_DAMAGED_ROW leave every byte as it was, the next ones, down to
 * DL_MANAGEMENT_NEXT_WANTED, all but what a wait that has run out sets (see
 * "The desk" below).
 */
#define DL_BAD_MESSAGE         0x9001 /* the message is not made as one is; dl_serve_message: as a request is */
#define DL_BAD_MAC             0x9002 /* the MAC is not that of the message */
#define DL_NO_SERVICE          0x9004 /* dl_serve_message: the service has no call */
#define DL_BAD_ARGUMENT        0x9005 /* a length or a value is out of range */
#define DL_SERIAL_TAKEN        0x8411 /* dl_load: a row that is not empty has the serial */
#define DL_TABLE_FULL          0x8410 /* dl_load: no row is empty */
#define DL_NO_TOKEN            0x8402 /* no row that is not empty has the serial */
#define DL_DAMAGED_ROW         0x8403 /* the token's row is not well formed */
#define DL_TOKEN_READY         0x8409 /* the call needs another state: the token is ready */
#define DL_TOKEN_LOCKED        0x8404 /* the same: it is locked, by errors or by hand */
#define DL_TOKEN_SUSPENDED     0x8405 /* the same: it is suspended */
#define DL_TOKEN_NOT_ACTIVATED 0x8406 /* the same: it is not activated */
#define DL_TOKEN_VOID          0x8407 /* the same: it is void */
#define DL_TOKEN_EXPIRED       0x8408 /* a checked call at or after the expiry */

/*
 * In the place of a success: two or more unused steps of the window match the
 * one password, which does not tell them apart, and none is accepted. The
 * following password is asked for, as in GM/T 0021-2012, Table D.7, and there
 * is no call of its own for it: the captain types the password that the token
 * shows next in the same call, or both passwords go to dl_sync, which takes
 * neither a challenge nor a suspended token.
 */
#define DL_NEXT_WANTED            0x8001 /* two or more unused steps match: dl_check and the two logins */
#define DL_MANAGEMENT_NEXT_WANTED 0x8101 /* as DL_NEXT_WANTED, of dl_unlock, dl_resume */

/*
 * The last refusals are those of a password that is used or wrong. At the desk
 * each of them adds 1 to the token's errors, which end at 255; if it was one of
 * the two logins and the errors are then at or above the limit, the token is
 * locked by errors at now.
 *
 * A double press is no error: where the used password of one of the two logins
 * is that of the step just before the first unused one, the last step accepted,
 * and that step is in the window, DL_USED leaves all but what a wait that has
 * run out sets, and locks nothing, whatever the errors are.
 */
#define DL_USED             0x8004 /* only steps before the first unused one match: dl_check and the two logins */
#define DL_WRONG            0x8002 /* no step of the window matches: the same */
#define DL_MANAGEMENT_USED  0x8104 /* as DL_USED, of the other checked calls */
#define DL_MANAGEMENT_WRONG 0x8102 /* as DL_WRONG, of dl_activate, dl_unlock, dl_resume */
#define DL_SYNC_WRONG       0x8105 /* as DL_WRONG, of dl_sync */

/* 1 if the code is a refusal, 0 if it is a success. */
static inline int dl_refused(uint16_t code)
{
    return code >= 0x8000;
}

/* A code in a few English words, for logs and messages; of any other number "unknown code". */
static inline const char *dl_code_text(uint16_t code)
{
    switch (code) {
    case DL_DONE: return "done";
    case DL_LOGGED_IN: return "logged in";
    case DL_CHALLENGE_MET: return "logged in by challenge";
    case DL_ACTIVATED: return "activated";
    case DL_LOCKED: return "locked by hand";
    case DL_UNLOCKED: return "unlocked";
    case DL_SUSPENDED: return "suspended";
    case DL_RESUMED: return "resumed";
    case DL_SYNCHRONIZED: return "synchronized";
    case DL_VOIDED: return "made void";
    case DL_QUERIED: return "queried";
    case DL_LOADED: return "loaded";
    case DL_BAD_MESSAGE: return "bad message";
    case DL_BAD_MAC: return "the message's MAC is wrong";
    case DL_NO_SERVICE: return "no such service";
    case DL_BAD_ARGUMENT: return "bad argument";
    case DL_SERIAL_TAKEN: return "the serial is taken";
    case DL_TABLE_FULL: return "the table is full";
    case DL_NO_TOKEN: return "no token has the serial";
    case DL_DAMAGED_ROW: return "the token's row is damaged";
    case DL_TOKEN_READY: return "the token is ready";
    case DL_TOKEN_LOCKED: return "the token is locked";
    case DL_TOKEN_SUSPENDED: return "the token is suspended";
    case DL_TOKEN_NOT_ACTIVATED: return "the token is not activated";
    case DL_TOKEN_VOID: return "the token is void";
    case DL_TOKEN_EXPIRED: return "the token has expired";
    case DL_NEXT_WANTED: return "the next password is wanted";
    case DL_MANAGEMENT_NEXT_WANTED: return "the next password is wanted for a management call";
    case DL_USED: return "used password";
    case DL_WRONG: return "wrong password";
    case DL_MANAGEMENT_USED: return "used password for a management call";
    case DL_MANAGEMENT_WRONG: return "wrong password for a management call";
    case DL_SYNC_WRONG: return "wrong passwords for a sync";
    default: return "unknown code";
    }
}

/* Lengths. */
#define DL_SM3_DIGEST_BYTES 32
#define DL_SM4_KEY_BYTES    16
#define DL_SM4_BLOCK_BYTES  16
#define DL_SM4_ROUND_KEYS   32 /* words of 32 bits */
#define DL_MOST_DIGITS      10 /* of a password */

/* Algorithms of a password. */
#define DL_ALGORITHM_SM3 3
#define DL_ALGORITHM_SM4 4

/* Kinds of tokens. */
#define DL_TIME_TOKEN  0
#define DL_EVENT_TOKEN 1

/* Sizes of dl_check's windows: 2, 5 and 10 steps either way for a time token, 10, 20 and 50 ahead for an event token. */
#define DL_SMALL  1
#define DL_MEDIUM 2
#define DL_LARGE  3

/*
 * The SM3 hash of a message.
 *
 *   message  any bytes; message_len is 0 to 2^32 - 1
 *   digest   takes the hash in its first 32 bytes; digest_len is 32 or more
 *
 * Returns DL_DONE or DL_BAD_ARGUMENT.
 */
uint16_t dl_sm3(const uint8_t *message, size_t message_len,
                uint8_t *digest, size_t digest_len);

/*
 * One block encrypted by SM4, its round keys made for this block alone.
 *
 *   key    key_len is 16
 *   block  block_len is 16
 *   out    takes the encrypted block in its first 16 bytes; out_len is 16 or
 *          more
 *
 * Returns DL_DONE or DL_BAD_ARGUMENT.
 */
uint16_t dl_sm4(const uint8_t *key, size_t key_len,
                const uint8_t *block, size_t block_len,
                uint8_t *out, size_t out_len);

/*
 * The round keys of an SM4 key, for dl_sm4_encrypt. They are as secret as the
 * key: wipe them after use.
 *
 *   key   key_len is 16
 *   keys  takes the round keys in its first 32 words; keys_len is 32 or more
 *
 * Returns DL_DONE or DL_BAD_ARGUMENT.
 */
uint16_t dl_sm4_keys(const uint8_t *key, size_t key_len,
                     uint32_t *keys, size_t keys_len);

/*
 * One block encrypted by SM4 under round keys that dl_sm4_keys made.
 *
 *   keys   the round keys in their order; keys_len is 32, neither less nor
 *          more
 *   block  block_len is 16
 *   out    takes the encrypted block in its first 16 bytes; out_len is 16 or
 *          more
 *
 * Returns DL_DONE or DL_BAD_ARGUMENT.
 */
uint16_t dl_sm4_encrypt(const uint32_t *keys, size_t keys_len,
                        const uint8_t *block, size_t block_len,
                        uint8_t *out, size_t out_len);

/*
 * The one-time password of GM/T 0021-2012, clause 6, from a key and a time
 * step, a count or both, with or without a challenge. At clock `now` a time
 * token shows the one of the time step now / period alone; an event token
 * shows those of the counts 0, 1, 2 and so on.
 *
 *   algorithm  DL_ALGORITHM_SM3 or DL_ALGORITHM_SM4
 *   key        key_len is 16 to 32; SM4 uses the first 16 bytes
 *   has_time   0: the time step is absent, and `time` is not looked at;
 *              anything else: it is present
 *   time       the time step T, any value
 *   has_count  as has_time, for `count`; a time step or a count is needed
 *   count      the count C, any value
 *   challenge  the challenge Q; challenge_len is 4 to 32 and each byte 0x21 to
 *              0x7e, or challenge_len is 0 and the challenge absent
 *   digits     6 to 10
 *   out        takes the password as `digits` ASCII digits, leading zeros
 *              included, in its first bytes, with no zero byte behind them;
 *              out_len is `digits` or more
 *
 * Returns DL_DONE or DL_BAD_ARGUMENT.
 */
uint16_t dl_password(uint8_t algorithm, const uint8_t *key, size_t key_len,
                     uint8_t has_time, uint64_t time,
                     uint8_t has_count, uint32_t count,
                     const uint8_t *challenge, size_t challenge_len,
                     uint8_t digits, uint8_t *out, size_t out_len);

/*
 * The check of a presented password, or of two in a row, against the window
 * of a token whose numbers the caller keeps. It changes nothing: after
 * DL_DONE the caller has to set `next` to the accepted step plus 1 and, for a
 * time token, `offset` to that step minus now / period plus 600.
 *
 * The search goes up the steps of the window once, for one password to the
 * last step, for two to the accepted one. It computes the password of each
 * step that it comes to, once, and of no other.
 *
 *   kind       DL_TIME_TOKEN or DL_EVENT_TOKEN
 *   algorithm  DL_ALGORITHM_SM3 or DL_ALGORITHM_SM4
 *   digits     of the token's passwords, 6 to 10
 *   period     in seconds, 1 to 60 for a time token, 0 for an event token
 *   next       the first unused step, at most 2^40 + 600 for a time token, at
 *              most 2^32 for an event token
 *   offset     the token's offset d plus 600: 0 to 1200 for a time token, 600
 *              for an event token
 *   now        the clock in seconds, below 2^40
 *   size       DL_SMALL, DL_MEDIUM or DL_LARGE
 *   key        key_len is 16 to 32; SM4 uses the first 16 bytes
 *   challenge  the challenge Q of a single password: challenge_len is 4 to 32
 *              and each byte 0x21 to 0x7e, or challenge_len is 0 and the
 *              challenge absent, as it always is for two passwords
 *   presented  the password typed in; presented_len is 6 to 10 and each byte
 *              an ASCII digit. A number of digits that is not `digits` is in
 *              range, and wrong without a search
 *   following  the password of the step after it, likewise; following_len is
 *              0 where only one password is checked
 *   step       takes the accepted step in its first element: the only unused
 *              one that matches or, for two passwords, the one after the
 *              smallest unused one that matches; step_len is 1 or more
 *   computed   takes in its first element how many passwords were computed:
 *              those of all the window's steps or, for two passwords that
 *              are accepted, of those up to the accepted one; 0 if a password
 *              has not `digits` digits; computed_len is 1 or more
 *   fresh      takes in its first element how many unused steps match; for
 *              two passwords 1 if they are accepted, else 0; fresh_len is 1
 *              or more
 *
 * Returns DL_BAD_ARGUMENT if an argument is out of its range; DL_NEXT_WANTED
 * if two or more unused steps of the window match one password; DL_DONE if one
 * does or, for two passwords, any; DL_USED if only used ones do, DL_WRONG if
 * none does. Only DL_DONE writes `step`; every code but DL_BAD_ARGUMENT writes
 * `computed` and `fresh`.
 */
uint16_t dl_check(uint8_t kind, uint8_t algorithm, uint8_t digits,
                  uint8_t period, uint64_t next, uint16_t offset,
                  uint64_t now, uint8_t size,
                  const uint8_t *key, size_t key_len,
                  const uint8_t *challenge, size_t challenge_len,
                  const uint8_t *presented, size_t presented_len,
                  const uint8_t *following, size_t following_len,
                  uint64_t *step, size_t step_len,
                  uint64_t *computed, size_t computed_len,
                  uint64_t *fresh, size_t fresh_len);

/*
 * The desk: tokens in a table, each known by its serial.
 *
 * The table is the caller's and lent to every call: 1 to 256 rows of 96 bytes
 * (document 01, Part 4, has their layout). A row whose first byte is 0 is
 * empty, so a new table is all zeros, and a table may be stored and read back
 * as it is. It holds the tokens' keys: keep it as secret as they are.
 *
 * Every call but dl_load goes to the row of the serial that it names, which is
 * the first one with that serial that is not empty, and changes no other row.
 * A row that is not well formed is refused and left as it is.
 *
 * These arguments mean the same in every call:
 *
 *   table      table_len is 96 times 1 to 256
 *   serial     the token's, any value
 *   now        the clock in seconds, below 2^40; it may go back
 *   password   the password typed in; password_len is 6 to 10 and each byte an
 *              ASCII digit. A number of digits that is not the token's is in
 *              range, and wrong
 *   following  the password of the step after it, likewise
 *   values     takes what a success carries in its first elements; all others
 *              stay as they were, and all of them when the call is refused;
 *              values_len is DL_MOST_VALUES or more
 *
 * A call with a password is a checked call. It carries two values: the
 * accepted step, and the token's offset d from the clock's step, -600 to 600
 * (0 for an event token).
 *
 * A token locked by errors becomes ready, with errors 0, once its wait has run
 * out: when now is after the time of the lock by the wait or more. Every call
 * but dl_load and dl_query writes this to the row before it looks at the
 * state, also if it then refuses.
 */

/* Lengths of the desk. */
#define DL_ROW_BYTES      96
#define DL_MOST_ROWS      256
#define DL_CHECKED_VALUES 2 /* the accepted step, the offset */
#define DL_QUERY_VALUES   3 /* the state, the errors, the last use */
#define DL_MOST_VALUES    3

/* States of a token. */
#define DL_STATE_EMPTY            0 /* no token */
#define DL_STATE_NOT_ACTIVATED    1
#define DL_STATE_READY            2
#define DL_STATE_LOCKED_BY_ERRORS 3
#define DL_STATE_LOCKED_BY_HAND   4
#define DL_STATE_SUSPENDED        5
#define DL_STATE_VOID             6

/* Windows of dl_sync; their numbers are not those of dl_check's sizes. */
#define DL_SYNC_MEDIUM 1
#define DL_SYNC_LARGE  2

/*
 * Puts a new token into the first empty row, all of whose bytes are set. The
 * token is not activated; it has no errors, offset 0 and no step used. Of the
 * rows only states and serials are looked at.
 *
 *   kind       DL_TIME_TOKEN or DL_EVENT_TOKEN
 *   algorithm  DL_ALGORITHM_SM3 or DL_ALGORITHM_SM4
 *   digits     of the token's passwords, 6 to 10
 *   period     in seconds, 1 to 60 for a time token; 0 for an event token
 *   limit      the errors at which a login locks the token, 1 to 10
 *   key        key_len is 16 to 32
 *   wait       the seconds after which a lock by errors opens, 60 to 86,400
 *   expiry     the clock from which on checked calls are refused, at most 2^40
 *
 * Returns DL_LOADED, DL_BAD_ARGUMENT, DL_SERIAL_TAKEN or DL_TABLE_FULL.
 */
uint16_t dl_load(uint8_t *table, size_t table_len, uint64_t serial,
                 uint8_t kind, uint8_t algorithm, uint8_t digits,
                 uint8_t period, uint8_t limit,
                 const uint8_t *key, size_t key_len,
                 uint32_t wait, uint64_t expiry);

/*
 * Checks a password against the small window of a ready token.
 *
 * Returns DL_LOGGED_IN, with the step and the offset as values, or
 * DL_BAD_ARGUMENT, DL_NO_TOKEN, DL_DAMAGED_ROW, DL_TOKEN_LOCKED,
 * DL_TOKEN_SUSPENDED, DL_TOKEN_NOT_ACTIVATED, DL_TOKEN_VOID,
 * DL_TOKEN_EXPIRED, DL_NEXT_WANTED, DL_USED or DL_WRONG.
 */
uint16_t dl_login(uint8_t *table, size_t table_len, uint64_t serial,
                  uint64_t now,
                  const uint8_t *password, size_t password_len,
                  int64_t *values, size_t values_len);

/*
 * As dl_login, with a password that was made with a challenge.
 *
 *   challenge  challenge_len is 4 to 32 and each byte 0x21 to 0x7e
 *
 * Returns DL_CHALLENGE_MET, with the step and the offset as values, or what
 * dl_login returns instead of DL_LOGGED_IN.
 */
uint16_t dl_challenge_login(uint8_t *table, size_t table_len, uint64_t serial,
                            uint64_t now,
                            const uint8_t *challenge, size_t challenge_len,
                            const uint8_t *password, size_t password_len,
                            int64_t *values, size_t values_len);

/*
 * Makes a token that is not activated ready, if two passwords in a row belong
 * to its large window. The accepted step is that of the second one.
 *
 * Returns DL_ACTIVATED, with the step and the offset as values, or
 * DL_BAD_ARGUMENT, DL_NO_TOKEN, DL_DAMAGED_ROW, DL_TOKEN_READY,
 * DL_TOKEN_LOCKED, DL_TOKEN_SUSPENDED, DL_TOKEN_VOID, DL_TOKEN_EXPIRED,
 * DL_MANAGEMENT_USED or DL_MANAGEMENT_WRONG.
 */
uint16_t dl_activate(uint8_t *table, size_t table_len, uint64_t serial,
                     uint64_t now,
                     const uint8_t *password, size_t password_len,
                     const uint8_t *following, size_t following_len,
                     int64_t *values, size_t values_len);

/*
 * Locks a ready token by hand; no wait opens this lock.
 *
 * Returns DL_LOCKED, DL_BAD_ARGUMENT, DL_NO_TOKEN, DL_DAMAGED_ROW,
 * DL_TOKEN_LOCKED, DL_TOKEN_SUSPENDED, DL_TOKEN_NOT_ACTIVATED or
 * DL_TOKEN_VOID.
 */
uint16_t dl_lock(uint8_t *table, size_t table_len, uint64_t serial,
                 uint64_t now);

/*
 * Makes a locked token ready, if the password belongs to its small window.
 *
 * Returns DL_UNLOCKED, with the step and the offset as values, or
 * DL_BAD_ARGUMENT, DL_NO_TOKEN, DL_DAMAGED_ROW, DL_TOKEN_READY,
 * DL_TOKEN_SUSPENDED, DL_TOKEN_NOT_ACTIVATED, DL_TOKEN_VOID,
 * DL_TOKEN_EXPIRED, DL_MANAGEMENT_NEXT_WANTED, DL_MANAGEMENT_USED or
 * DL_MANAGEMENT_WRONG.
 */
uint16_t dl_unlock(uint8_t *table, size_t table_len, uint64_t serial,
                   uint64_t now,
                   const uint8_t *password, size_t password_len,
                   int64_t *values, size_t values_len);

/*
 * Suspends a token that is ready or locked.
 *
 * Returns DL_SUSPENDED, DL_BAD_ARGUMENT, DL_NO_TOKEN, DL_DAMAGED_ROW,
 * DL_TOKEN_SUSPENDED, DL_TOKEN_NOT_ACTIVATED or DL_TOKEN_VOID.
 */
uint16_t dl_suspend(uint8_t *table, size_t table_len, uint64_t serial,
                    uint64_t now);

/*
 * Makes a suspended token ready, if the password belongs to its small window.
 *
 * Returns DL_RESUMED, with the step and the offset as values, or
 * DL_BAD_ARGUMENT, DL_NO_TOKEN, DL_DAMAGED_ROW, DL_TOKEN_READY,
 * DL_TOKEN_LOCKED, DL_TOKEN_NOT_ACTIVATED, DL_TOKEN_VOID, DL_TOKEN_EXPIRED,
 * DL_MANAGEMENT_NEXT_WANTED, DL_MANAGEMENT_USED or DL_MANAGEMENT_WRONG.
 */
uint16_t dl_resume(uint8_t *table, size_t table_len, uint64_t serial,
                   uint64_t now,
                   const uint8_t *password, size_t password_len,
                   int64_t *values, size_t values_len);

/*
 * Takes over the offset of a token that is ready or locked, if two passwords
 * in a row belong to its medium or large window. The accepted step is that of
 * the second one, and the state is kept.
 *
 *   choice     DL_SYNC_MEDIUM or DL_SYNC_LARGE
 *
 * Returns DL_SYNCHRONIZED, with the step and the offset as values, or
 * DL_BAD_ARGUMENT, DL_NO_TOKEN, DL_DAMAGED_ROW, DL_TOKEN_SUSPENDED,
 * DL_TOKEN_NOT_ACTIVATED, DL_TOKEN_VOID, DL_TOKEN_EXPIRED,
 * DL_MANAGEMENT_USED or DL_SYNC_WRONG.
 */
uint16_t dl_sync(uint8_t *table, size_t table_len, uint64_t serial,
                 uint64_t now, uint8_t choice,
                 const uint8_t *password, size_t password_len,
                 const uint8_t *following, size_t following_len,
                 int64_t *values, size_t values_len);

/*
 * Makes a token void for good and wipes its key from the row, which stays
 * taken.
 *
 * Returns DL_VOIDED, DL_BAD_ARGUMENT, DL_NO_TOKEN, DL_DAMAGED_ROW or
 * DL_TOKEN_VOID.
 */
uint16_t dl_void(uint8_t *table, size_t table_len, uint64_t serial,
                 uint64_t now);

/*
 * Reports a token in any state, as it is once a wait has run out by now. It
 * writes nothing to the table.
 *
 *   values     takes the state (DL_STATE_NOT_ACTIVATED to DL_STATE_VOID), the
 *              errors and the clock of the last accepted password, 0 if there
 *              was none
 *
 * Returns DL_QUERIED, DL_BAD_ARGUMENT, DL_NO_TOKEN or DL_DAMAGED_ROW.
 */
uint16_t dl_query(const uint8_t *table, size_t table_len, uint64_t serial,
                  uint64_t now, int64_t *values, size_t values_len);

/*
 * Messages of GM/T 0021-2012, Annex D: requests that are served, and messages
 * read and written.
 *
 * A message is a header and a body, with nothing behind them. Their fields, in
 * this order and each with the number of its bytes, are big-endian numbers;
 * those below are hexadecimal, but for the header's length:
 *
 *   header     its own length (1), 21, or 25 with a MAC; type (1), 00 for a
 *              request, 01 for a reply, 80 and 81 for the same with a MAC;
 *              version (1), 01; caller (8) and call number (8), of any value;
 *              length of the body (2); MAC (4), if the type has one
 *   body       service (2); options (2), of a reply its result; number of
 *              items (1); the items
 *   item       attribute (1), 00; identifier (2); length of the content (1);
 *              content
 *
 * The MAC is the last four bytes of the SM3 hash of the header without the MAC
 * and the body behind it. It has no key: it shows damage and not who sent the
 * message. Anybody can make one, and can send again what he has seen. Whom to
 * serve is for the caller to know before he hands the message over.
 */

/* Types of a message. */
#define DL_REQUEST          0x00
#define DL_REPLY            0x01
#define DL_REQUEST_WITH_MAC 0x80
#define DL_REPLY_WITH_MAC   0x81

/* Numbers of messages. */
#define DL_MESSAGE_FIELDS 6     /* of dl_message_read */
#define DL_ITEM_FIELDS    3     /* of dl_message_item */
#define DL_MOST_ITEMS     255
#define DL_MOST_CONTENT   255   /* bytes of an item's content */
#define DL_MOST_MESSAGE   65560 /* bytes of a message: 25, and a body of 65,535 */

/*
 * Serves a request that comes as a message: reads it and makes the call that it
 * asks for. Answer, values and table are those of the call. There is no message
 * for dl_load.
 *
 *   message    the bytes as they came, of any length; they are only read
 *   now        the clock of whoever runs the reader: no message carries one
 *   values     takes the step and the offset of a checked call, the state, the
 *              errors and the last use of a query, nothing of another call;
 *              values_len is DL_MOST_VALUES or more, whatever the message is
 *
 * Ten services have a call. Each needs its options and its items, every item
 * once, in any order:
 *
 *   service                   options  items
 *   0001  dl_login            0        0002 serial, 0003 password
 *   0002  dl_challenge_login  0        0002 serial, 0006 challenge,
 *                                      0007 response: the call's password
 *   0101  dl_activate         0        0002 serial, 0003 password,
 *                                      0004 following
 *   0102  dl_lock             0        0002 serial
 *   0103  dl_unlock           0        0002 serial, 0003 password
 *   0104  dl_suspend          0        0002 serial
 *   0105  dl_resume           0        0002 serial, 0003 password
 *   0108  dl_sync             1 or 2:  0002 serial, 0003 password,
 *                             choice   0004 following
 *   010a  dl_void             0        0002 serial
 *   010b  dl_query            0        0002 serial
 *
 * The serial has 8 bytes. How long the other contents are, and of what bytes,
 * is for the call to judge.
 *
 * Returns DL_BAD_ARGUMENT if values_len is too small. Next come these, in their
 * order, before all that the call tests; they leave every byte as it was:
 *
 *   DL_BAD_MESSAGE  a type or version not named above, lengths that do not add
 *                   up, a reply, an attribute other than 00 or, if the service
 *                   has a call, options, items or a serial other than above
 *   DL_BAD_MAC      a MAC that differs
 *   DL_NO_SERVICE   a service without a call
 *
 * Else it returns what the call returns: DL_LOGGED_IN, DL_CHALLENGE_MET,
 * DL_ACTIVATED, DL_LOCKED, DL_UNLOCKED, DL_SUSPENDED, DL_RESUMED,
 * DL_SYNCHRONIZED, DL_VOIDED, DL_QUERIED, DL_BAD_ARGUMENT, DL_NO_TOKEN,
 * DL_DAMAGED_ROW, DL_TOKEN_READY, DL_TOKEN_LOCKED, DL_TOKEN_SUSPENDED,
 * DL_TOKEN_NOT_ACTIVATED, DL_TOKEN_VOID, DL_TOKEN_EXPIRED, DL_NEXT_WANTED,
 * DL_MANAGEMENT_NEXT_WANTED, DL_USED, DL_WRONG, DL_MANAGEMENT_USED,
 * DL_MANAGEMENT_WRONG or DL_SYNC_WRONG.
 */
uint16_t dl_serve_message(uint8_t *table, size_t table_len,
                          const uint8_t *message, size_t message_len,
                          uint64_t now, int64_t *values, size_t values_len);

/*
 * Reads a message, request or reply, and serves nothing. Services, options and
 * items are not judged: any number is read, items in any order and repeated.
 *
 *   message    the bytes as they came, of any length
 *   fields     takes the type, the caller, the call number, the service, the
 *              options and the number of items in its first six elements; all
 *              others stay as they were, and all of them when the message is
 *              refused; fields_len is DL_MESSAGE_FIELDS or more
 *
 * Returns DL_BAD_ARGUMENT if fields_len is too small; else DL_BAD_MESSAGE for a
 * type or version not named above, lengths that do not add up or an attribute
 * other than 00; else DL_BAD_MAC for a MAC that differs; else DL_DONE.
 */
uint16_t dl_message_read(const uint8_t *message, size_t message_len,
                         uint64_t *fields, size_t fields_len);

/*
 * Finds an item of a message. The message is read anew, its MAC too.
 *
 *   index      of the item, 0 for the first
 *   fields     takes the item's identifier, the place in the message where its
 *              content starts, which is the message's end if a last content is
 *              empty, and the content's length in its first three elements; all
 *              others stay as they were, and all of them when the call is
 *              refused; fields_len is DL_ITEM_FIELDS or more
 *
 * Returns DL_BAD_ARGUMENT if fields_len is too small; else DL_BAD_MESSAGE or
 * DL_BAD_MAC, where dl_message_read does; else DL_BAD_ARGUMENT if the message
 * has no item of that index; else DL_DONE.
 */
uint16_t dl_message_item(const uint8_t *message, size_t message_len,
                         size_t index, uint64_t *fields, size_t fields_len);

/*
 * Writes a message, request or reply, with version 01, attributes 00 and, if
 * its type has one, a MAC. What is written is read again as it was given.
 *
 * Numbers are wider than the fields that take them, so that one too large is
 * refused and not cut off.
 *
 *   type         DL_REQUEST, DL_REPLY, DL_REQUEST_WITH_MAC or DL_REPLY_WITH_MAC
 *   caller, number  of any value
 *   service, options  at most 65,535; the options of a reply are its result
 *   identifiers  of the items, each at most 65,535 and above the one before;
 *                at most DL_MOST_ITEMS
 *   lengths      of their contents, each at most DL_MOST_CONTENT; as many as
 *                there are identifiers
 *   contents     one behind the other, as many bytes as the lengths say; the
 *                body has at most 65,535 bytes: 5, 4 for each item, and these
 *   out          takes the message at its front; all behind it stays as it was,
 *                and all of it when the call is refused; out_len is the
 *                message's length, 21 or 25 and the body's, or more
 *   written      takes the message's length in its first element; it stays as
 *                it was when the call is refused; written_len is 1 or more
 *
 * Returns DL_DONE, or DL_BAD_ARGUMENT if an argument is out of its range.
 */
uint16_t dl_message_write(uint32_t type, uint64_t caller, uint64_t number,
                          uint32_t service, uint32_t options,
                          const uint32_t *identifiers, size_t identifiers_len,
                          const uint32_t *lengths, size_t lengths_len,
                          const uint8_t *contents, size_t contents_len,
                          uint8_t *out, size_t out_len,
                          uint64_t *written, size_t written_len);

#ifdef __cplusplus
}
#endif

#endif
