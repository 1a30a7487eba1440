// What a candidate costs: dl_check of a wrong password on windows of 5 to 51 candidates, beside the same search in C over OpenSSL
// (desk_peer.h). Prints a table of its own.
#define _DEFAULT_SOURCE
#include "desk_peer.h"
#include "racing.h"

#include <inttypes.h>

enum {
    PASSES = 10, ROUNDS = 30,
    KEY_LEN = 16, DIGITS = 6, PERIOD = 30,
    CLOCK = 1800000000,
    LONG_AGO = 1000, // the next step: all candidates of the time token are fresh, and all but one of the event token
    OUTSIDE = 1000, // steps: past every window
    SIZES = 4, ALGORITHMS = 2, SCENES = ALGORITHMS * SIZES,
};

// The largest time a candidate over that of the smallest window. It falls where what all candidates share weighs less.
#define MOST_GROWTH 1.3

static const struct size {
    uint8_t kind, size;
    uint64_t candidates;
    uint64_t calls; // in a round
} sizes[SIZES] = {
    {DL_TIME_TOKEN, DL_SMALL, 5, 600},
    {DL_TIME_TOKEN, DL_MEDIUM, 11, 300},
    {DL_TIME_TOKEN, DL_LARGE, 21, 150},
    {DL_EVENT_TOKEN, DL_LARGE, 51, 60},
};

static const struct algorithm {
    const char *what;
    uint8_t algorithm;
} algorithms[ALGORITHMS] = {{"Wrong check, SM3", OTP_SM3}, {"Wrong check, SM4", OTP_SM4}};

// The arguments of a check, and for the peer as a row.
static struct scene {
    struct window_call call;
    struct peer_row row;
} scenes[SCENES];
static const struct scene *scene; // of the race that is running
static struct race races[SCENES];

// ---- the contestants

static uint64_t answer_of(uint16_t code, uint64_t computed, uint64_t fresh)
{
    return (uint64_t)code << 32 | fresh << 16 | computed;
}

static void put_answer(uint16_t code, uint64_t computed, uint64_t fresh)
{
    uint64_t answer = answer_of(code, computed, fresh);
    memcpy(out, &answer, sizeof answer);
}

static void ours(uint64_t number)
{
    const struct window_call *call = &scene->call;
    uint64_t step, computed = 0, fresh = 0;
    (void)number;
    uint16_t code = dl_check(call->kind, call->algorithm, call->digits, call->period, call->next, call->offset, call->now,
                             call->size, call->key, call->key_len, NULL, 0, call->presented.bytes, call->presented.len, NULL, 0,
                             &step, 1, &computed, 1, &fresh, 1);
    put_answer(code, computed, fresh);
}

static void openssl(uint64_t number)
{
    const struct window_call *call = &scene->call;
    uint64_t step, computed = 0, fresh = 0;
    (void)number;
    uint16_t code = peer_single_check(&scene->row, call->size, call->now, &call->presented, &step, &computed, &fresh);
    put_answer(code, computed, fresh);
}

// ---- before the timing

static void make_scene(struct scene *to, const struct size *size, uint8_t algorithm)
{
    struct window_call *call = &to->call;
    int is_time = size->kind == DL_TIME_TOKEN;
    *call = (struct window_call){
        .kind = size->kind, .algorithm = algorithm, .digits = DIGITS, .period = is_time ? PERIOD : 0, .size = size->size,
        .offset = WINDOW_FARTHEST, .next = LONG_AGO, .now = CLOCK, .key_len = KEY_LEN, .step_len = 1, .computed_len = 1, .fresh_len = 1};
    for (size_t i = 0; i < KEY_LEN; i++)
        call->key[i] = (uint8_t)(i * 7);
    window_password(call, CLOCK / PERIOD + OUTSIDE, &call->presented);
    to->row = (struct peer_row){
        .kind = call->kind, .algorithm = algorithm, .digits = DIGITS, .period = call->period, .key_len = KEY_LEN,
        .next = htobe64(call->next), .offset = htobe16(call->offset)};
    memcpy(to->row.key, call->key, KEY_LEN);
}

// Ours, the peer and the tests' reference find it wrong after all candidates.
static void compare(const struct race *race, uint64_t candidates)
{
    uint64_t wrong = answer_of(DL_WRONG, candidates, 0), said;
    struct window_answer answer = window_check(&scene->call);
    for (int i = 0; i < 2; i++) {
        race->contestants[i].call(0);
        memcpy(&said, out, sizeof said);
        if (said != wrong || answer_of(answer.code, answer.computed, answer.fresh) != wrong)
            die("a check's answer or counts are not as they should be");
    }
}

static void set_up(void)
{
    otp_open_library();
    for (size_t i = 0; i < SCENES; i++) {
        const struct size *size = &sizes[i % SIZES];
        make_scene(&scenes[i], size, algorithms[i / SIZES].algorithm);
        races[i] = (struct race){
            algorithms[i / SIZES].what, ROUNDS, size->calls, 1,
            {{"dl_check", ours, 0, 0}, {"C over OpenSSL EVP", openssl, 0, 0}}, {0}};
        scene = &scenes[i];
        compare(&races[i], size->candidates);
    }
}

// ---- the table

static double each(size_t at, size_t contestant)
{
    return races[at].contestants[contestant].best / (double)sizes[at % SIZES].candidates;
}

// Of an algorithm's sizes, of which this one is the last.
static double growth(size_t last)
{
    size_t first = last - (SIZES - 1);
    double most = each(last, 0);
    for (size_t at = first + 1; at < last; at++)
        most = each(at, 0) > most ? each(at, 0) : most;
    return most / each(first, 0);
}

static void print_scene(size_t at)
{
    const struct contestant *all = races[at].contestants;
    printf("| %-28s | %10" PRIu64 " | %8.0f | %8.0f | %8.1f | %10.1f |", races[at].what, sizes[at % SIZES].candidates, all[0].best,
           all[1].best, each(at, 0), each(at, 1));
    if (at % SIZES < SIZES - 1)
        printf(" %6s | %7s | %-3s |\n", "-", "-", "-");
    else
        printf(" %6.2f | %7.1f | %-3s |\n", growth(at), MOST_GROWTH, growth(at) <= MOST_GROWTH ? "yes" : "NO");
}

int main(void)
{
    set_up();
    for (size_t i = 0; i < PASSES * SCENES; i++) {
        scene = &scenes[i % SCENES];
        run_race(&races[i % SCENES]);
    }
    printf("\n| %-28s | %10s | %8s | %8s | %8s | %10s | %6s | %7s | %-3s |\n", "Cost a candidate", "Candidates", "Ours, ns", "Peer, ns",
           "Each, ns", "Peer's, ns", "Growth", "At most", "Met");
    puts("|---|--:|--:|--:|--:|--:|--:|--:|---|");
    for (size_t i = 0; i < SCENES; i++)
        print_scene(i);
    return 0;
}
