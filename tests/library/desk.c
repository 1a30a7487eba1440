// The desk over tables of tokens, through the C interface, compared with the one of desk_reference.h: lists of calls, damaged
// tables, bad arguments. Each test prints how often each answer came up, and fails if one that it is made for never did.
//   desk         the full run: 20,000 lists on 1 to 8 zero rows, 100,000 on tokens with one password at two steps, 85,000 with double presses, and
//                others
//   desk COUNT   the short run, for valgrind: fewer lists, every table in exactly its length, no long buffers
#define _DEFAULT_SOURCE
#include "collision_lists.h"
#include "desk_collisions.h"
#include "desk_corners.h"
#include "desk_lists.h"
#include "desk_presses.h"
#include "desk_story.h"
#include "desk_watch.h"
#include "press_runs.h"

// ---- fixed calls

static void fixed_corners(void)
{
    struct desk_call call;
    for (size_t i = 0; i < TABLE_CORNERS; i++) {
        const struct table_corner *corner = &table_corners[i];
        clear_table(CORNER_TABLE);
        make_table_corner(table, &call, corner);
        uint8_t *expected = expect_kept_table(&call);
        if (corner->changed != NO_CHANGE)
            change_corner_row(expected + corner->changed * DL_ROW_BYTES, corner);
        struct desk_answer answer = table_corner_answer(corner);
        expect_written(&call, &answer, corner->name);
    }
    came_up(LOADED | TAKEN | FULL | NO_TOKEN | DAMAGED);
}

// The story's codes are all those that there are, but for 8403.
static void one_story(void)
{
    struct desk_call call;
    clear_table(STORY_ROWS);
    for (size_t i = 0; i < STORY; i++) {
        const struct told_call *told = &story[i];
        make_told_call(&call, told);
        uint16_t code = compare(&call);
        size_t carried = code < 0x8000 ? desk_values(call.name) * sizeof *told->values : 0;
        check(code == told->code && wrote(told->values, carried), "line %zu of the story: %04x", i, code);
    }
    came_up(REACHABLE & ~DAMAGED);
}

// ---- lists of calls

enum { LEAST_CALLS = 30, MORE_CALLS = 40 };

static void watched_call(const struct list *list, const struct desk_call *call)
{
    watch_before(list->rows);
    uint16_t code = compare(call);
    watch_after(call, code, list->rows);
}

static void watched_calls(struct list *list, size_t n)
{
    struct desk_call call;
    for (size_t i = 0; i < n; i++) {
        next_call(list, &call);
        watched_call(list, &call);
    }
}

static void lists_on_few_rows(void)
{
    struct list list;
    for (size_t i = 0; i < (full_run ? 4 * cases : cases); i++) {
        begin_list(&list, 1 + random_below(8));
        begin_watch();
        watched_calls(&list, LEAST_CALLS + random_below(MORE_CALLS));
    }
    came_up(REACHABLE & ~DAMAGED);
}

// The first calls load all serials but one in turn, so that later loads find the table full.
static void fill_table(struct list *list)
{
    struct desk_call call;
    for (size_t i = 0; i < list->rows; i++) {
        call = (struct desk_call){.table_len = list->rows * DL_ROW_BYTES};
        take_load(list, &call);
        call.serial = serial_at(list, i);
        watched_call(list, &call);
    }
}

static void lists_on_many_rows(void)
{
    struct list list;
    for (size_t i = 0; i < (full_run ? 20 : 1); i++) {
        begin_list(&list, DL_MOST_ROWS);
        begin_watch();
        fill_table(&list);
        watched_calls(&list, full_run ? 2000 : cases);
    }
    came_up(LOADED | TAKEN | NO_TOKEN | FULL);
}

static void lists_on_damaged_rows(void)
{
    struct list list;
    struct desk_call call;
    for (size_t i = 0; i < (full_run ? cases : cases / 4); i++) {
        begin_list(&list, 1 + random_below(8));
        for (size_t n = LEAST_CALLS + random_below(MORE_CALLS); n > 0; n--) {
            next_call(&list, &call);
            if (one_in(6))
                damage_table(&list);
            compare(&call);
        }
    }
    came_up(REACHABLE);
}

// ---- lists of calls on tokens with one password at two steps

enum { FEW_CALLS = 4, MORE_THAN_FEW = 7, ASKED_AT_LEAST = 2000 };

// How often the following password was asked for, at the two logins and at other calls, by kind and algorithm.
static long asked[2][2][2], asked_by_challenge;

static void count_asked(const struct desk_call *call, const struct collision *collision, uint16_t code)
{
    if (code != 0x8001 && code != 0x8101)
        return;
    asked[code == 0x8101][collision->kind][collision->algorithm - DL_ALGORITHM_SM3]++;
    asked_by_challenge += call->name == CALL_CHALLENGE_LOGIN;
}

// Watched only if the list began on zero rows.
static void collision_calls(struct collision_list *list, int is_watched)
{
    struct desk_call call;
    for (size_t n = FEW_CALLS + random_below(MORE_THAN_FEW); n > 0; n--) {
        next_collision_call(list, &call);
        watch_before(list->base.rows);
        uint16_t code = compare(&call);
        count_asked(&call, list->collision, code);
        if (is_watched)
            watch_after(&call, code, list->base.rows);
    }
}

static void collision_lists_on_zero_rows(void)
{
    struct collision_list list;
    for (size_t i = 0; i < (full_run ? 10 * cases : cases); i++) {
        begin_collision_list(&list, 1 + random_below(2));
        begin_watch();
        collision_calls(&list, 1);
    }
    came_up(LOADED | TAKEN | ON_A_TOKEN | NEXT_WANTED);
}

static void collision_lists_in_any_state(void)
{
    struct collision_list list;
    for (size_t i = 0; i < (full_run ? 10 * cases : cases); i++) {
        begin_collision_list(&list, 1 + random_below(2));
        lay_collision_rows(&list);
        collision_calls(&list, 0);
    }
    came_up(TAKEN | ON_A_TOKEN | NEXT_WANTED);
}

static void asked_often(void)
{
    for (size_t i = 0; i < 2; i++) {
        long times = asked[i][0][0] + asked[i][0][1] + asked[i][1][0] + asked[i][1][1];
        printf("     %s: time %ld and %ld, event %ld and %ld\n", i == 0 ? "8001" : "8101", asked[i][0][0], asked[i][0][1], asked[i][1][0],
               asked[i][1][1]);
        check(times >= ASKED_AT_LEAST, "%ld times in all", times);
        check(asked[i][0][0] && asked[i][0][1] && asked[i][1][0] && asked[i][1][1], "a kind or an algorithm was never asked");
    }
    check(asked_by_challenge > 0, "no challenge login was asked for the next");
}

// ---- arguments

// Of a call that has this argument, all in range.
static void make_case_with(struct row_case *made, const struct argument *argument)
{
    do
        make_case(made, any_token);
    while (!has_argument(made->call.name, argument) || !desk_in_range(&made->call));
}

// A token's serial is its row's as well.
static void just_inside(void)
{
    struct row_case made;
    for (size_t i = 0; i < 4 * cases; i++) {
        const struct argument *argument = &inside[i % INSIDE];
        make_case_with(&made, argument);
        argument->set(&made.call, argument->value);
        row_put(made.row, ROW_SERIAL, made.call.serial);
        lay_row(made.row, DL_MOST_ROWS);
        require(compare(&made.call) != 0x9005, "an argument in range is refused");
    }
    came_up(ON_A_TOKEN | LOADED | TAKEN | NO_TOKEN);
}

// Whatever the answer is without the fault, also of a row that is not well formed; at times with a second fault.
static void just_outside(void)
{
    static const struct desk_answer bad_argument = {.code = 0x9005};
    struct row_case made;
    for (size_t i = 0; i < 8 * cases; i++) {
        const struct argument *argument = &outside[i % OUTSIDE];
        make_case_with(&made, argument);
        if (one_in(8))
            made.row[random_below(DL_ROW_BYTES)] ^= 0xff;
        lay_row(made.row, DL_MOST_ROWS);
        argument->set(&made.call, argument->value);
        if (one_in(4))
            spoil_argument(&made.call);
        require(!desk_in_range(&made.call), "the reference takes an argument that is out of range");
        expect_kept_table(&made.call);
        expect(&made.call, &bad_argument);
    }
    came_up(BAD);
}

// ---- lengths whose low 32 bits are in range

enum { PAGE = 4096, LONG_BUFFERS = 5, LONG_TABLE = 2 * DL_ROW_BYTES };

#define OVER ((size_t)1 << 32)

// The lengths of table, key, challenge and both passwords, one of them too long.
static const struct {
    enum desk_name name;
    size_t lengths[LONG_BUFFERS];
} long_runs[] = {
    {CALL_LOAD, {OVER + LONG_TABLE, 18, 0, 0, 0}}, {CALL_LOAD, {LONG_TABLE, OVER + 18, 0, 0, 0}},
    {CALL_LOCK, {OVER + LONG_TABLE, 0, 0, 0, 0}}, {CALL_QUERY, {OVER + LONG_TABLE, 0, 0, 0, 0}},
    {CALL_LOGIN, {LONG_TABLE, 0, 0, OVER + 6, 0}}, {CALL_CHALLENGE_LOGIN, {LONG_TABLE, 0, OVER + 8, 6, 0}},
    {CALL_SYNC, {LONG_TABLE, 0, 0, OVER + 6, 6}}, {CALL_SYNC, {LONG_TABLE, 0, 0, 6, OVER + 6}}};

// Each buffer starts a page of the room and reaches over the others.
static uint16_t run_long(enum desk_name name, uint8_t *room, const size_t lengths[LONG_BUFFERS])
{
    struct desk_call call = {.name = name, .serial = 7, .now = 1060, .choice = 1, .table_len = lengths[0],
                             .challenge.len = lengths[2], .password.len = lengths[3], .following.len = lengths[4],
                             .values_len = DL_QUERY_VALUES};
    const struct lent_bytes lends = {room + PAGE, room + 2 * PAGE, room + 3 * PAGE, room + 4 * PAGE};
    make_load_of_corner(&call.load);
    call.serial += name == CALL_LOAD;
    call.load.key_len = lengths[1];
    lend();
    uint16_t code = run_call(&call, room, &lends);
    add_answer(answers, ANSWERS, code);
    return code;
}

// An empty row and a plain one, whose right passwords are typed in: with its lengths cut to 32 bits every call would get past the
// arguments.
static void lay_long_buffers(uint8_t *room, const uint8_t *rows)
{
    const struct desk_call call = {.name = CALL_SYNC, .now = 1060};
    struct window_call token = desk_token(rows + DL_ROW_BYTES, &call);
    struct window_typed password;
    memcpy(room, rows, LONG_TABLE);
    memset(room + 2 * PAGE, 'q', 8);
    for (int64_t i = 0; i < 2; i++) {
        window_password(&token, 35 + i, &password);
        memcpy(room + (3 + i) * PAGE, password.bytes, password.len);
    }
}

static void long_buffers(void)
{
    uint8_t rows[LONG_TABLE] = {0}, *room = map_zeros(OVER + (LONG_BUFFERS + 1) * PAGE, PROT_READ | PROT_WRITE);
    make_plain_row(rows + DL_ROW_BYTES, DL_ALGORITHM_SM3);
    lay_long_buffers(room, rows);
    for (size_t i = 0; i < sizeof long_runs / sizeof *long_runs; i++) {
        uint16_t code = run_long(long_runs[i].name, room, long_runs[i].lengths);
        check(refused(code) && memcmp(room, rows, LONG_TABLE) == 0, "long buffers, run %zu: %04x", i, code);
    }
    munmap(room, OVER + (LONG_BUFFERS + 1) * PAGE);
    came_up(BAD);
}

static const struct test tests[] = {
    {"single calls with their answers written out", fixed_corners, 0},
    {"a list of calls with its answers written out", one_story, 0},
    {"lists of calls on 1 to 8 zero rows", lists_on_few_rows, 0},
    {"lists of calls on 256 zero rows", lists_on_many_rows, 0},
    {"lists of calls on tables that are damaged meanwhile", lists_on_damaged_rows, 0},
    {"request 5's table", told_rows, 0},
    {"8001 and 8101 among the other refusals", collision_places, 0},
    {"each token found to have one password at two steps or three", found_tokens, 0},
    {"lists of calls on such tokens, on zero rows", collision_lists_on_zero_rows, 0},
    {"lists of calls on such tokens, in any state", collision_lists_in_any_state, 0},
    {"8001 and 8101 came up often in these lists, by each kind and algorithm", asked_often, 1},
    {"request 4's table, and calls near it", fixed_presses, 0},
    {"a thousand double presses of a token of limit 1, and an older step that locks it", thousand_presses, 0},
    {"one press that lets a wait run out, struck or replaced", one_press_struck, 0},
    {"lists of calls with double presses, on zero rows", press_lists_on_zero_rows, 0},
    {"lists of calls with double presses, in any state", press_lists_in_any_state, 0},
    {"lists of calls with double presses, on tables that are damaged meanwhile", press_lists_on_damaged_rows, 0},
    {"double presses came up often in these lists, of each sort", pressed_often, 1},
    {"arguments at the ends of their ranges", just_inside, 0},
    {"each argument out of its range", just_outside, 0},
    {"lengths past 32 bits", long_buffers, 1},
    {"every answer but 8106 came up", every_answer, 0},
};

int main(int argc, char **argv)
{
    return run_tests(tests, sizeof tests / sizeof *tests, 5000, argc, argv);
}
