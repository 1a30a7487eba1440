// A login that comes as a message beside the call itself, and beside a program in C over OpenSSL that reads it and does the same (message_peer.h): prints
// rows of the report's table, then what a message costs more than its call, and how much of that is the hash.
#define _DEFAULT_SOURCE
#include "desk_scenes.h"
#include "message_peer.h"

enum { PASSES = 10, ROUNDS = 30, UNKNOWN_SERIAL = 7, MOST_LOGIN = 64 };

// ---- the rows

enum row_name { PLAIN_SM3, SEALED_SM3, PLAIN_SM4, SEALED_SM4, PLAIN_READ, SEALED_READ, ROWS };

// Reading alone is seen where no token has the serial, so that the call ends at once.
static const struct row {
    const char *what;
    enum line_name line; // of the desk's, with the same call
    int with_mac, is_read_alone;
    uint64_t calls; // in a round
    double target; // beside C over OpenSSL
    double most; // nanoseconds more than the call; 0: none
} rows[ROWS] = {
    [PLAIN_SM3] = {"Login message, SM3", LOGIN_SM3, 0, 0, 600, 0.7, 40},
    [SEALED_SM3] = {"Login message, MAC, SM3", LOGIN_SM3, 1, 0, 600, 1.3, 250},
    [PLAIN_SM4] = {"Login message, SM4", LOGIN_SM4, 0, 0, 600, 0.7, 40},
    [SEALED_SM4] = {"Login message, MAC, SM4", LOGIN_SM4, 1, 0, 600, 1.3, 250},
    [PLAIN_READ] = {"Message of no token", LOGIN_SM3, 0, 1, 10000, 0.7, 40},
    [SEALED_READ] = {"Message of no token, MAC", LOGIN_SM3, 1, 1, 3000, 1.3, 250},
};

static struct scene scenes[ROWS];
static struct message_sent messages[ROWS];
static struct race races[ROWS];
static struct scene *scene; // of the race that is running
static const struct message_sent *message;
static int64_t values[DL_MOST_VALUES];

// ---- the contestants

// The row is set back within the time of each.
static void put_answer(uint16_t code)
{
    uint64_t answer = code;
    memcpy(out, &answer, sizeof answer);
    *scene->token = scene->kept;
}

static void ours(uint64_t number)
{
    (void)number;
    put_answer(dl_serve_message(scene->table.bytes, message->table_len, message->bytes, message->len, message->now, values, DL_MOST_VALUES));
}

static void openssl(uint64_t number)
{
    (void)number;
    put_answer(peer_serve_message(scene->table.rows, message, values));
}

static void ours_login(uint64_t number)
{
    const struct desk_call *call = &scene->call;
    (void)number;
    put_answer(dl_login(scene->table.bytes, call->table_len, call->serial, call->now, call->password.bytes, call->password.len, values,
                        DL_MOST_VALUES));
}

// What no reader of a MAC can be without: the hash of as many bytes.
static void ours_hash_and_login(uint64_t number)
{
    static uint8_t digest[DL_SM3_DIGEST_BYTES];
    dl_sm3(message->bytes, message->len - MESSAGE_MAC, digest, sizeof digest);
    ours_login(number);
}

enum { OURS, PEER, LOGIN, COMPARED, HASH_AND_LOGIN = COMPARED, IN_A_RACE };

static const struct contestant contestants[IN_A_RACE] = {
    [OURS] = {"dl_serve_message", ours, 0, 0},
    [PEER] = {"C over OpenSSL EVP", openssl, 0, 0},
    [LOGIN] = {"dl_login", ours_login, 0, 0},
    [HASH_AND_LOGIN] = {"dl_sm3, dl_login", ours_hash_and_login, 0, 0}};

// ---- before the timing

// The call's message, as GM/T 0021-2012, Annex D, has it.
static struct message_sent write_login(uint8_t *to, const struct desk_call *call, int with_mac)
{
    size_t n = 0, body_len = 5 + 4 + MESSAGE_SERIAL_LEN + 4 + call->password.len;
    n += otp_put_number(to + n, with_mac ? 0x198001 : 0x150001, 3);
    n += otp_put_number(to + n, 1, 8);
    n += otp_put_number(to + n, 2, 8);
    n += otp_put_number(to + n, body_len, 2);
    n += otp_put_number(to + n, 0, with_mac ? MESSAGE_MAC : 0);
    n += otp_put_number(to + n, UINT64_C(0x0001000002), 5);
    n += otp_put_number(to + n, 0x00000208, 4);
    n += otp_put_number(to + n, call->serial, MESSAGE_SERIAL_LEN);
    n += otp_put_number(to + n, 0x00000300 | call->password.len, 4);
    memcpy(to + n, call->password.bytes, call->password.len);
    n += call->password.len;
    if (with_mac)
        message_make_mac(to, n, to + MESSAGE_HEAD);
    return (struct message_sent){to, n, call->table_len, call->values_len, call->now};
}

struct outcome {
    uint64_t code;
    int64_t values[DL_MOST_VALUES];
    struct peer_row row;
};

static void take_outcome(struct outcome *outcome, uint16_t code)
{
    outcome->code = code;
    memcpy(outcome->values, values, sizeof values);
    outcome->row = *scene->token;
    memset(values, 0, sizeof values);
    *scene->token = scene->kept;
}

// Ours, the peer, the call itself and the tests' reference give one answer and leave one table.
static void compare(uint16_t expected)
{
    const struct desk_call *call = &scene->call;
    struct outcome of[COMPARED], by_reference;
    memset(values, 0, sizeof values);
    take_outcome(&of[OURS], dl_serve_message(scene->table.bytes, message->table_len, message->bytes, message->len, message->now, values,
                                             DL_MOST_VALUES));
    take_outcome(&of[PEER], peer_serve_message(scene->table.rows, message, values));
    take_outcome(&of[LOGIN], dl_login(scene->table.bytes, call->table_len, call->serial, call->now, call->password.bytes, call->password.len,
                                      values, DL_MOST_VALUES));
    struct desk_answer answer = message_answer_to(scene->table.bytes, message);
    memcpy(values, answer.values, sizeof values);
    take_outcome(&by_reference, answer.code);
    for (size_t i = 0; i < COMPARED; i++)
        if (of[i].code != expected || memcmp(&of[i], &by_reference, sizeof by_reference) != 0)
            die("a message's answer or table is not as it should be");
}

static void set_up(void)
{
    static uint8_t bytes[ROWS][MOST_LOGIN];
    make_key();
    otp_open_library();
    if (oath_init() != OATH_OK)
        die("liboath does not start");
    for (size_t i = 0; i < ROWS; i++) {
        const struct row *row = &rows[i];
        scene = &scenes[i];
        make_scene(scene, &lines[row->line]);
        if (row->is_read_alone)
            scene->call.serial = UNKNOWN_SERIAL;
        messages[i] = write_login(bytes[i], &scene->call, row->with_mac);
        message = &messages[i];
        races[i] = (struct race){.what = row->what, .rounds = ROUNDS, .calls = row->calls, .in_a_call = 1, .target = {[PEER] = row->target}};
        memcpy(races[i].contestants, contestants, sizeof contestants);
        if (!row->with_mac)
            races[i].contestants[HASH_AND_LOGIN].call = NULL;
        compare(row->is_read_alone ? DL_NO_TOKEN : DL_LOGGED_IN);
    }
}

// ---- the tables

static void print_more(size_t at)
{
    const struct contestant *all = races[at].contestants;
    double served = all[OURS].best, call = all[LOGIN].best, more = served - call;
    double hash = rows[at].with_mac ? all[HASH_AND_LOGIN].best - call : 0;
    printf("| %-28s | %8.0f | %12.0f | %8.0f | %15.0f | %7.0f | %-3s |\n", rows[at].what, served, call, more, hash, rows[at].most,
           more <= rows[at].most ? "yes" : "NO");
}

int main(void)
{
    set_up();
    for (size_t i = 0; i < PASSES * ROWS; i++) {
        scene = &scenes[i % ROWS];
        message = &messages[i % ROWS];
        run_race(&races[i % ROWS]);
    }
    for (size_t i = 0; i < ROWS; i++)
        print_race(&races[i]);
    printf("\n| %-28s | %8s | %12s | %8s | %15s | %7s | %-3s |\n", "A message", "Ours, ns", "dl_login, ns", "More, ns", "Of it dl_sm3, ns", "At most", "Met");
    puts("|---|--:|--:|--:|--:|--:|---|");
    for (size_t i = 0; i < ROWS; i++)
        print_more(i);
    return 0;
}
