// The desk beside the same calls in C over OpenSSL (desk_peer.h) and beside liboath, which has passwords and windows but no table:
// prints rows of the report's table, then how the cost grows with the rows, what a login costs beside a wrong one, and which refusals write.
#define _DEFAULT_SOURCE
#include "desk_scenes.h"
#include "desk_refusals.h"

enum { PASSES = 10, ROUNDS = 30 };

static struct race races[LINES];
static struct scene scenes[LINES];
static struct scene *scene; // of the race that is running
static int64_t values[DL_MOST_VALUES];

// ---- the contestants

static void put_answer(uint16_t code)
{
    uint64_t answer = code;
    memcpy(out, &answer, sizeof answer);
}

// A checked call changes the token's row. It is set back within the time of ours and of the peer alike; liboath has no row.
static void set_row_back(void)
{
    *scene->token = scene->kept;
}

static void ours_login(uint64_t number)
{
    const struct desk_call *call = &scene->call;
    (void)number;
    set_row_back();
    put_answer(dl_login(scene->table.bytes, call->table_len, call->serial, call->now, call->password.bytes, call->password.len,
                        values, DL_MOST_VALUES));
}

static void ours_activate(uint64_t number)
{
    const struct desk_call *call = &scene->call;
    (void)number;
    set_row_back();
    put_answer(dl_activate(scene->table.bytes, call->table_len, call->serial, call->now, call->password.bytes,
                           call->password.len, call->following.bytes, call->following.len, values, DL_MOST_VALUES));
}

static void ours_sync(uint64_t number)
{
    const struct desk_call *call = &scene->call;
    (void)number;
    set_row_back();
    put_answer(dl_sync(scene->table.bytes, call->table_len, call->serial, call->now, call->choice, call->password.bytes,
                       call->password.len, call->following.bytes, call->following.len, values, DL_MOST_VALUES));
}

static void ours_query(uint64_t number)
{
    const struct desk_call *call = &scene->call;
    (void)number;
    put_answer(dl_query(scene->table.bytes, call->table_len, call->serial, call->now, values, DL_MOST_VALUES));
}

static void openssl_checked(uint64_t number)
{
    (void)number;
    set_row_back();
    put_answer(peer_checked_call(scene->table.rows, &scene->call, values));
}

static void openssl_query(uint64_t number)
{
    (void)number;
    put_answer(peer_query(scene->table.rows, &scene->call, values));
}

// As the desk would answer, so that the results can be compared.
static void put_oath_answer(int is_valid)
{
    enum desk_name name = scene->call.name;
    put_answer(is_valid ? desk_rules[name].success : desk_wrong_code(name));
}

static void oath_single(uint64_t number)
{
    (void)number;
    int found = scene->kind == DL_TIME_TOKEN
        ? oath_totp_validate(secret, KEY_LEN, CLOCK, PERIOD, 0, scene->oath_window, scene->oath_password)
        : oath_hotp_validate(secret, KEY_LEN, LONG_AGO - 1, scene->oath_window, scene->oath_password);
    put_oath_answer(found >= 0);
}

// liboath has no pairs: the second password is held against the step behind the one that it found.
static void oath_pair(uint64_t number)
{
    int steps;
    (void)number;
    put_oath_answer(
        oath_totp_validate2(secret, KEY_LEN, CLOCK, PERIOD, 0, scene->oath_window, &steps, scene->oath_password) >= 0
        && oath_totp_validate(secret, KEY_LEN, CLOCK + (steps + 1) * PERIOD, PERIOD, 0, 0, scene->oath_following) >= 0);
}

#define OPENSSL "C over OpenSSL EVP"
#define OATH "liboath: no table"

static const struct contestant contestants[CALLS][CONTESTANTS] = {
    [CALL_LOGIN] = {{"dl_login", ours_login, 0, 0}, {OPENSSL, openssl_checked, 0, 0}, {OATH, oath_single, 0, 0}},
    [CALL_ACTIVATE] = {{"dl_activate", ours_activate, 0, 0}, {OPENSSL, openssl_checked, 0, 0}, {OATH, oath_pair, 0, 0}},
    [CALL_SYNC] = {{"dl_sync", ours_sync, 0, 0}, {OPENSSL, openssl_checked, 0, 0}, {OATH, oath_pair, 0, 0}},
    [CALL_QUERY] = {{"dl_query", ours_query, 0, 0}, {"C, rows as a struct", openssl_query, 0, 0}},
};

// Queries of fewer rows stand there for what a row more costs, and have no target. liboath is what a user would otherwise link.
static struct race race_of(const struct line *line)
{
    struct race race = {.what = line->what, .rounds = ROUNDS, .calls = line->calls, .in_a_call = 1};
    memcpy(race.contestants, contestants[line->name], sizeof race.contestants);
    race.target[1] = line->target;
    race.target[2] = 1.0;
    return race;
}

// ---- before the timing: ours, the peer and the tests' reference give one answer and leave one table

static struct outcome {
    uint64_t code;
    int64_t values[DL_MOST_VALUES];
    uint8_t table[sizeof scenes->table];
} by_ours, by_peer, by_reference;

static void take_outcome(struct outcome *outcome, const struct contestant *contestant)
{
    memset(values, 0, sizeof values);
    contestant->call(0);
    memcpy(&outcome->code, out, sizeof outcome->code);
    memcpy(outcome->values, values, sizeof values);
    memcpy(outcome->table, scene->table.bytes, sizeof outcome->table);
    set_row_back();
}

static void take_reference(struct outcome *outcome)
{
    memcpy(outcome->table, scene->table.bytes, sizeof outcome->table);
    struct desk_answer answer = desk_answer_to(outcome->table, &scene->call);
    outcome->code = answer.code;
    memcpy(outcome->values, answer.values, sizeof outcome->values);
}

static void compare(const struct line *line, const struct race *race)
{
    uint16_t expected = line->is_right ? desk_rules[line->name].success : desk_wrong_code(line->name);
    take_outcome(&by_ours, &race->contestants[0]);
    take_outcome(&by_peer, &race->contestants[1]);
    take_reference(&by_reference);
    if (by_ours.code != expected || memcmp(&by_ours, &by_peer, sizeof by_ours) != 0
        || memcmp(&by_ours, &by_reference, sizeof by_ours) != 0)
        die("a call's answer or table is not as it should be");
}

static void set_up(void)
{
    make_key();
    otp_open_library();
    if (oath_init() != OATH_OK)
        die("liboath does not start");
    for (size_t i = 0; i < LINES; i++) {
        make_scene(&scenes[i], &lines[i]);
        races[i] = race_of(&lines[i]);
        scene = &scenes[i];
        compare(&lines[i], &races[i]);
    }
}

// ---- growth with the rows

enum { SIZES = 3 };

#define MOST_GROWTH 1.3

static const enum line_name queries[SIZES] = {QUERY_1, QUERY_16, QUERY_256};

// What one row more costs, between a size and the one before it.
static double one_more(size_t size, size_t contestant)
{
    enum line_name before = queries[size - 1], after = queries[size];
    return (races[after].contestants[contestant].best - races[before].contestants[contestant].best)
        / (double)(lines[after].rows - lines[before].rows);
}

// The second size and the third say what one more costs; the cost is linear if that is no more among many than among few.
static void print_size(size_t size)
{
    const struct contestant *all = races[queries[size]].contestants;
    printf("| %-28s | %5zu | %8.0f | %8.0f |", "rows: query, the serial last", lines[queries[size]].rows, all[0].best, all[1].best);
    if (size == 0)
        printf(" %12s | %12s |", "-", "-");
    else
        printf(" %12.1f | %12.1f |", one_more(size, 0), one_more(size, 1));
    if (size < SIZES - 1) {
        printf(" %6s | %7s | %-3s |\n", "-", "-", "-");
        return;
    }
    double times = one_more(size, 0) / one_more(size - 1, 0);
    printf(" %6.2f | %7.1f | %-3s |\n", times, MOST_GROWTH, times <= MOST_GROWTH ? "yes" : "NO");
}

static void print_growth(void)
{
    printf("\n| %-28s | %5s | %8s | %8s | %12s | %12s | %6s | %7s | %-3s |\n", "Cost by", "Count", "Ours, ns", "Peer, ns",
           "One more, ns", "Peer's, ns", "Growth", "At most", "Met");
    puts("|---|--:|--:|--:|--:|--:|--:|--:|---|");
    for (size_t size = 0; size < SIZES; size++)
        print_size(size);
}

// ---- a login beside a wrong one

#define MOST_BESIDE_WRONG 1.05

// Both compute every candidate, so that the time tells nothing of the password.
static void print_beside_wrong(enum line_name right, enum line_name wrong)
{
    double ours = races[right].contestants[0].best, wrongs = races[wrong].contestants[0].best, ratio = ours / wrongs;
    printf("| %-28s | %8.0f | %-28s | %8.0f | %5.2f | %7.2f | %-3s |\n", lines[right].what, ours, lines[wrong].what, wrongs, ratio,
           MOST_BESIDE_WRONG, ratio <= MOST_BESIDE_WRONG ? "yes" : "NO");
}

static void print_logins(void)
{
    printf("\n| %-28s | %8s | %-28s | %8s | %5s | %7s | %-3s |\n", "A login", "Ours, ns", "Beside", "Ours, ns", "Ratio", "At most", "Met");
    puts("|---|--:|---|--:|--:|--:|---|");
    print_beside_wrong(LOGIN_SM3, WRONG_SM3);
    print_beside_wrong(LOGIN_SM4, WRONG_SM4);
}

int main(void)
{
    set_up();
    for (size_t i = 0; i < PASSES * LINES; i++) {
        scene = &scenes[i % LINES];
        run_race(&races[i % LINES]);
    }
    for (size_t i = 0; i < LINES; i++)
        print_race(&races[i]);
    print_growth();
    print_logins();
    print_refusals();
    return 0;
}
