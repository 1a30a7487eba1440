/*
 * A captain signs a flight release, from the token's first day to its last:
 *
 *   cc sign_release.c $(pkg-config --cflags --libs dykeladder) -o sign_release
 *
 * The desk keeps its tokens in a table that this program lends to every call.
 * The token in the captain's hand is played by `shown`, which makes the code
 * on its display. The clock is set by hand, so that every run prints the same.
 */
#include <dykeladder.h>

#include <inttypes.h>
#include <stdio.h>
#include <stdlib.h>
#include <string.h>

enum { ROWS = 4, DIGITS = 6, PERIOD = 30, LIMIT = 2, WAIT = 300 };

static const uint64_t serial = 4711, expiry = 2000000000;
static const uint8_t key[] = "the captain's own secret";

/* What the desk keeps: a table of four rows, none of them taken yet. */
static uint8_t table[ROWS * DL_ROW_BYTES];

/* What a success carries. */
static int64_t values[DL_MOST_VALUES];

/* The clock in seconds. */
static uint64_t now = 1700000000;

/* One code on the token's display; typed in, it has no zero byte at its end. */
struct code {
    uint8_t digits[DIGITS];
};

/* The code on the display at a clock, for a challenge if the desk gave one. */
static struct code shown(uint64_t clock, const char *challenge)
{
    struct code code;
    uint16_t made = dl_password(DL_ALGORITHM_SM3, key, sizeof key - 1, 1, clock / PERIOD, 0, 0,
                                (const uint8_t *)challenge, strlen(challenge), DIGITS, code.digits, DIGITS);
    if (made != DL_DONE) {
        fprintf(stderr, "the token shows no code: %s\n", dl_code_text(made));
        exit(1);
    }
    return code;
}

static void say(const char *deed, uint16_t code)
{
    printf("%" PRIu64 "  %-45s %04x %s%s\n", now, deed, code, dl_refused(code) ? "refused: " : "", dl_code_text(code));
}

static uint16_t sign(struct code code)
{
    return dl_login(table, sizeof table, serial, now, code.digits, DIGITS, values, DL_MOST_VALUES);
}

/* ---- the token's days */

/* Two codes in a row show the desk that the captain holds the token. */
static void hand_out_the_token(void)
{
    say("load the token",
        dl_load(table, sizeof table, serial, DL_TIME_TOKEN, DL_ALGORITHM_SM3, DIGITS, PERIOD, LIMIT, key, sizeof key - 1, WAIT,
                expiry));
    struct code first = shown(now, ""), second = shown(now + PERIOD, "");
    say("sign with a token that is not activated", sign(first));
    now += PERIOD;
    say("activate it with two codes in a row",
        dl_activate(table, sizeof table, serial, now, first.digits, DIGITS, second.digits, DIGITS, values, DL_MOST_VALUES));
}

static void sign_a_release(void)
{
    now += 600;
    struct code code = shown(now, "");
    say("sign a release with the code on the display", sign(code));
    printf("            the code was that of step %" PRId64 ", %" PRId64 " from the clock's\n", values[0], values[1]);
    say("press Sign twice: refused, and no error", sign(code));
}

/* The operator's system may send the signature as a message of the standard's Annex D: header, body, and its two items. */
static void sign_by_message(void)
{
    uint8_t message[] = "\x15\x00\x01" "\0\0\0\0\0\0\0\0" "12345678" "\x00\x1b" /* 27 bytes of body follow */
                        "\x00\x01\x00\x00\x02"                            /* a login with two items: */
                        "\x00\x00\x02\x08" "\0\0\0\0\0\0\x12\x67"        /* the serial, 4711 */
                        "\x00\x00\x03\x06" "000000";                      /* the code, put there below */
    size_t len = sizeof message - 1;
    now += PERIOD;
    struct code code = shown(now, "");
    memcpy(message + len - DIGITS, code.digits, DIGITS);
    say("send one byte less of the signed message", dl_serve_message(table, sizeof table, message, len - 1, now, values, DL_MOST_VALUES));
    say("send all of it", dl_serve_message(table, sizeof table, message, len, now, values, DL_MOST_VALUES));
}

/* LIMIT errors without a success between them lock the token. */
static void lock_by_errors(void)
{
    now += PERIOD;
    struct code right = shown(now, ""), wrong = right;
    wrong.digits[0] = right.digits[0] == '9' ? '0' : right.digits[0] + 1;
    say("mistype the code, the first error", sign(wrong));
    say("mistype it again, the second: this locks", sign(wrong));
    say("type the right code, too late", sign(right));
}

/* A lock by errors opens by itself. A challenge binds the code to the release that is signed. */
static void sign_after_the_wait(void)
{
    const char *release = "AB123/0417";
    now += WAIT;
    struct code code = shown(now, release);
    say("wait, then sign with the release as challenge",
        dl_challenge_login(table, sizeof table, serial, now, (const uint8_t *)release, strlen(release), code.digits, DIGITS,
                           values, DL_MOST_VALUES));
}

/* Six digits are seldom those of two steps near the clock's. The desk then accepts neither and asks for the next code. */
static void sign_with_the_next_code(void)
{
    now = 1772824890;
    say("years later, sign with a code of two steps", sign(shown(now, "")));
    now += PERIOD;
    say("sign with the next one, as the desk asks", sign(shown(now, "")));
}

static void take_the_token_back(void)
{
    static const char *const states[] = {"empty", "not activated", "ready", "locked by errors", "locked by hand",
                                         "suspended", "void"};
    now += 86400;
    say("make the token void", dl_void(table, sizeof table, serial, now));
    say("sign with a void token", sign(shown(now, "")));
    say("ask how the token stands", dl_query(table, sizeof table, serial, now, values, DL_MOST_VALUES));
    printf("            %s, errors %" PRId64 ", last used at %" PRId64 "\n", states[values[0]], values[1], values[2]);
}

int main(void)
{
    printf("Dykeladder %s\n%-10s  %-45s %s\n", dl_version(), "clock", "what is done", "the desk's answer");
    hand_out_the_token();
    sign_a_release();
    sign_by_message();
    lock_by_errors();
    sign_after_the_wait();
    sign_with_the_next_code();
    take_the_token_back();
    return 0;
}
