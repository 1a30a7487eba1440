// The desk's calls on one token, through the C interface and on a table of one row, compared with those of desk_reference.h: rows
// that are well formed or not, every state, every check. Each test prints how often each answer came up, and fails if one that it is
// made for never did.
//   row         the full run: some 1,700,000 rows, each amid random bytes
//   row COUNT   the short run, for valgrind: COUNT cases to a test, the row in exactly its length
#define _DEFAULT_SOURCE
#include "desk_calls.h"
#include "row_bytes.h"
#include "row_corners.h"
#include "row_edges.h"
#include "row_tables.h"
#include "window_twins.h"

static uint16_t compare_case(const struct row_case *made)
{
    lay_row(made->row, 1);
    return compare(&made->call);
}

// ---- fixed calls

static void fixed_corners(void)
{
    struct row_case made;
    for (size_t i = 0; i < 2 * CORNERS; i++) {
        const struct corner *corner = &corners[i / 2];
        make_corner(&made, corner, i % 2 == 0 ? DL_ALGORITHM_SM3 : DL_ALGORITHM_SM4);
        lay_row(made.row, 1);
        struct desk_answer answer = corner_answer(expect_kept_table(&made.call), corner);
        expect_written(&made.call, &answer, corner->name);
    }
    came_up(ON_A_TOKEN | NO_TOKEN | DAMAGED | BAD);
}

// ---- document 01's tables, for both kinds

static void every_state(void)
{
    struct row_case made;
    for (size_t i = 0; i < 2 * VARIANTS * STATES; i++) {
        size_t variant = i / 2 / STATES;
        uint8_t kind = i % 2, state = (uint8_t)(i / 2 % STATES);
        make_table_call(&made, variant, state, kind, TABLE_STEP);
        uint16_t code = compare_case(&made), expected = state_answers[variant][state];
        check(code == expected && table[0] == states_after[variant][state], "call %zu in state %d: %04x, not %04x; then state %d",
              variant, state, code, expected, table[0]);
    }
    came_up(REACHABLE & ~(BAD | FULL | DAMAGED | EXPIRED | USED | WRONG));
}

static void every_window(void)
{
    struct row_case made;
    for (size_t i = 0; i < 2 * CHECKED_LINES; i++) {
        const struct checked_line *line = &checked_lines[i / 2];
        uint8_t kind = i % 2;
        for (int64_t step = TABLE_STEP - TABLE_REACH; step <= TABLE_STEP + TABLE_REACH; step++) {
            make_table_call(&made, line->call, line->state, kind, step);
            uint16_t code = compare_case(&made), expected = checked_answer(line, kind, step);
            check(code == expected, "call %zu, kind %d, step %" PRId64 ": %04x, not %04x", line->call, kind, step, code, expected);
        }
    }
    came_up(LOGGED_IN | CHECKED | USED | WRONG);
}

// ---- one row byte by byte

static void expect_bytes(const struct desk_call *call, struct desk_answer answer, const struct new_byte *bytes, const char *name)
{
    lay_row(ready_row, 1);
    uint8_t *expected = expect_kept_table(call);
    for (size_t i = 0; i < NEW_BYTES; i++)
        expected[bytes[i].at] = bytes[i].byte;
    expect_written(call, &answer, name);
}

static void every_byte_ff(struct desk_call *call)
{
    call->name = CALL_QUERY;
    for (size_t i = 0; i < DL_ROW_BYTES; i++) {
        uint16_t expected = with_ff[i] == 'd' ? 0x8403 : with_ff[i] == 's' ? 0x8402 : 0x010b;
        lay_row(ready_row, 1);
        table[i] = 0xff;
        uint16_t code = compare(call);
        check(code == expected, "byte %zu of the row is ff: %04x, not %04x", i, code, expected);
    }
}

static void row_bytes(void)
{
    const struct otp_arguments password = {.algorithm = OTP_SM3, .key = (const uint8_t *)"a key of 16 byte", .key_len = 16,
                                           .has_time = 1, .time = READY_CLOCK + 5, .digits = 6};
    struct desk_call call = {.name = CALL_LOGIN, .table_len = DL_ROW_BYTES, .values_len = DL_QUERY_VALUES, .serial = READY_SERIAL,
                             .now = READY_CLOCK, .password = {"000000", 6}};
    expect_bytes(&call, (struct desk_answer){.code = 0x8002}, by_wrong_login, "a wrong login, byte by byte");
    otp_require(otp_password(&password, call.password.bytes));
    expect_bytes(&call, (struct desk_answer){0x0001, 2, {READY_CLOCK + 5, 5}}, by_right_login, "a right login, byte by byte");
    every_byte_ff(&call);
    came_up(LOGGED_IN | DAMAGED | NO_TOKEN);
}

// ---- rows that are well formed

static void well_formed_rows(void)
{
    struct row_case made;
    for (size_t i = 0; i < 20 * cases; i++) {
        make_case(&made, any_token);
        require(row_well_formed(made.row), "the reference refuses a row that is made well formed");
        compare_case(&made);
    }
    came_up(REACHABLE & ~DAMAGED);
}

static void edge_tokens(void)
{
    static token_maker *const makers[] = {
        whole_window, empty_window, farthest_offset, cut_window, next_above, next_inside, next_below, latest_clock,
        last_next, clock_zero, early_clock, period_edge, first_counts, last_counts, counts_at_end};
    struct row_case made;
    for (size_t i = 0; i < 6 * cases; i++) {
        make_case(&made, makers[i % (sizeof makers / sizeof *makers)]);
        compare_case(&made);
    }
    came_up(ON_A_TOKEN);
}

// Each number is another one of these calls, states, sorts of passwords, waits, expiries and errors.
enum { WAITS = 5, EXPIRIES = 4, ERRORS = 6, COMBINATIONS = VARIANTS * STATES * SORTS * WAITS * EXPIRIES * ERRORS };

static void take_times(uint8_t *row, uint64_t clock, size_t *number)
{
    uint64_t wait = row_get(row, ROW_WAIT);
    const uint64_t locks[WAITS] = {clock - wait + 1, clock - wait, clock - wait - 1, clock, clock + 1};
    const uint64_t expiries[EXPIRIES] = {clock - 1, clock, clock + 1, CLOCK_END};
    uint64_t locked_at = locks[take(number, WAITS)];
    row_put(row, ROW_EXPIRY, expiries[take(number, EXPIRIES)]);
    row_put(row, ROW_LOCKED_AT, row_get(row, ROW_STATE) == DL_STATE_LOCKED_BY_ERRORS ? locked_at : 0);
}

// A wait that the clock of any common token is past.
static void make_combination(struct row_case *made, size_t number)
{
    size_t variant = take(&number, VARIANTS), state = take(&number, STATES);
    make_typed(made, variant, common_token, (enum sort)take(&number, SORTS));
    put_standing(made->row, made->call.now, (uint8_t)state);
    row_put(made->row, ROW_WAIT, ROW_LEAST_WAIT + random_below(1000));
    take_times(made->row, made->call.now, &number);
    uint64_t limit = row_get(made->row, ROW_LIMIT);
    const uint64_t errors[ERRORS] = {0, limit - 1, limit, limit + 1, 254, ROW_MOST_ERRORS};
    row_put(made->row, ROW_ERRORS, errors[number]);
}

static void every_combination(void)
{
    struct row_case made;
    size_t n = full_run ? COMBINATIONS : 20 * cases;
    for (size_t i = 0; i < n; i++) {
        make_combination(&made, full_run ? i : random_below(COMBINATIONS));
        compare_case(&made);
    }
    came_up(ON_A_TOKEN | LOADED | TAKEN | NO_TOKEN | BAD);
}

// ---- two steps in a row with one password, both fresh or the first one used

// A call in its state, and what it answers.
static const struct sharing {
    enum desk_name name;
    uint8_t state;
    uint16_t both, second; // fresh
} sharings[] = {
    {CALL_LOGIN, DL_STATE_READY, 0x8001, 0x0001},
    {CALL_UNLOCK, DL_STATE_LOCKED_BY_HAND, 0x8101, 0x0103},
    {CALL_RESUME, DL_STATE_SUSPENDED, 0x8101, 0x0105}};

enum { SHARINGS = sizeof sharings / sizeof *sharings };

static void make_shared_password(struct row_case *made, const struct sharing *sharing, const struct twins *pair, twins_test *fits)
{
    struct window_call token;
    place_twins(&token, pair, fits);
    made->call = (struct desk_call){.name = sharing->name, .now = token.now, .table_len = DL_ROW_BYTES, .values_len = DL_QUERY_VALUES};
    put_token(made->row, &token);
    put_standing(made->row, token.now, sharing->state);
    row_put(made->row, ROW_EXPIRY, CLOCK_END);
    window_password(&token, pair->first, &made->call.password);
}

static void shared_passwords(void)
{
    struct twins pair;
    struct row_case made;
    for (size_t i = 0; i < cases; i++) {
        const struct sharing *sharing = &sharings[i / 4 % SHARINGS];
        make_neighbours(&pair, i);
        pair.token.size = DL_SMALL;
        make_shared_password(&made, sharing, &pair, both_fresh);
        require(compare_case(&made) == sharing->both && memcmp(table, made.row, DL_ROW_BYTES) == 0, "two fresh steps with one password");
        make_shared_password(&made, sharing, &pair, used_and_fresh);
        require(compare_case(&made) == sharing->second && lent_signed_words[0] == pair.second, "a used and a fresh step with one password");
    }
    came_up(LOGGED_IN | NEXT_WANTED);
}

// ---- rows that are not well formed, or just so

// Half of them in a state that there is. Every call is in range.
static void random_rows(void)
{
    struct row_case made;
    make_typed(&made, SYNC_LARGE, common_token, RIGHT);
    made.call.values_len = DL_QUERY_VALUES;
    for (size_t i = 0; i < 20 * cases; i++) {
        name_call(&made.call, any_call());
        random_bytes(made.row, DL_ROW_BYTES);
        if (one_in(2))
            made.row[0] = (uint8_t)random_below(STATES);
        if (!one_in(16))
            made.call.serial = row_get(made.row, ROW_SERIAL);
        compare_case(&made);
    }
    came_up(LOADED | TAKEN | FULL | NO_TOKEN | DAMAGED);
}

// To its neighbours, to both ends, and to any value. The call's serial follows, but for one time in four.
static void change_byte(struct row_case *made, size_t at)
{
    uint8_t byte = made->row[at];
    const uint8_t values[] = {(uint8_t)(byte + 1), (uint8_t)(byte - 1), 0, 255, (uint8_t)random_number()};
    for (size_t i = 0; i < sizeof values; i++) {
        made->row[at] = values[i];
        if (!one_in(4))
            made->call.serial = row_get(made->row, ROW_SERIAL);
        compare_case(made);
    }
}

static void one_byte_changed(void)
{
    struct row_case made;
    for (size_t i = 0; i < cases / 8 * DL_ROW_BYTES; i++) {
        make_case(&made, any_token);
        change_byte(&made, i % DL_ROW_BYTES);
    }
    came_up(REACHABLE);
}

// The reference must tell the two sides of each edge as they are written down.
static void ends_of_ranges(void)
{
    struct row_case made;
    for (size_t i = 0; i < 12 * cases; i++) {
        const struct edge *edge = &edges[i % EDGES];
        make_edge(&made, edge);
        require(row_well_formed(made.row) == (edge->kinds != 0), "the reference's word for a row at an edge");
        compare_case(&made);
    }
    came_up(ON_A_TOKEN | DAMAGED);
}

// The same value on any row: where the row's kind or state may not have it, the row is no longer well formed.
static void edges_of_another(void)
{
    struct row_case made;
    for (size_t i = 0; i < 4 * cases; i++) {
        const struct edge *edge = &edges[i % EDGES];
        make_case(&made, any_token);
        int is_another = row_get(made.row, ROW_STATE) != DL_STATE_EMPTY && !may_have(edge, made.row);
        put_edge(&made, edge);
        require(!is_another || !row_well_formed(made.row), "the reference takes a row at another's edge");
        compare_case(&made);
    }
    came_up(ON_A_TOKEN | DAMAGED);
}

static void bytes_behind(void)
{
    struct row_case made;
    for (size_t i = 0; i < 4 * cases; i++) {
        make_case(&made, any_token);
        made.row[zero_place(made.row)] = (uint8_t)(1 << random_below(8));
        require(!row_well_formed(made.row), "the reference takes a row with a byte behind");
        compare_case(&made);
    }
    came_up(DAMAGED);
}

// Every second token is one whose window reaches up to 600 from the clock's step and would go on beyond.
static void never_too_far(void)
{
    struct row_case made;
    for (size_t i = 0; i < 1000000; i++) {
        make_case(&made, i % 2 == 0 ? any_token : cut_window);
        compare_case(&made);
    }
    check(desk_farthest == WINDOW_FARTHEST, "the farthest accepted step is %" PRId64 " from the clock's", desk_farthest);
    check(desk_too_far == 0, "8106 came up %ld times", desk_too_far);
    came_up(REACHABLE & ~DAMAGED);
}

static const struct test tests[] = {
    {"single calls with their answers written out", fixed_corners, 0},
    {"every call in every state", every_state, 0},
    {"every step about the window of each checked call", every_window, 0},
    {"one row byte by byte", row_bytes, 0},
    {"every call, state, sort of password, end of the wait, expiry and number of errors", every_combination, 0},
    {"random rows that are well formed", well_formed_rows, 0},
    {"tokens at the edges of their windows", edge_tokens, 0},
    {"two steps in a row with one password", shared_passwords, 0},
    {"random bytes as a row", random_rows, 0},
    {"one byte changed, at each offset", one_byte_changed, 0},
    {"each number at the ends of its range and past them", ends_of_ranges, 0},
    {"the same on rows of any kind and state", edges_of_another, 0},
    {"a byte that is not zero behind the key, at 58, 59 or 88 to 95", bytes_behind, 0},
    {"a million rows, clocks and calls, and never 8106", never_too_far, 1},
    {"every answer but 8106 came up", every_answer, 0},
};

int main(int argc, char **argv)
{
    return run_tests(tests, sizeof tests / sizeof *tests, 5000, argc, argv);
}
