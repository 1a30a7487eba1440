// Messages of GM/T 0021-2012, Annex D, served through the C interface (document 02, request 1), compared with the reader of message_reference.h over
// the desk of desk_reference.h. Each test prints how often each answer came up, and fails if one that it is made for never did.
//   messages         the full run: a million damaged messages, and others
//   messages COUNT   the short run, for valgrind: fewer messages, each table in exactly its length, no long buffers
#define _DEFAULT_SOURCE
#include "message_changes.h"
#include "message_corners.h"
#include "message_runs.h"
#include "message_sizes.h"

// ---- messages that are written out

// The token's key is the first number whose password at step 35, by SM3, is 123456.
static struct message_sent lay_place(const struct message_bytes *message, enum corner_place place)
{
    static const uint64_t key = 103142;
    uint8_t row[DL_ROW_BYTES];
    make_plain_row(row, DL_ALGORITHM_SM3);
    row_put(row, ROW_STATE, place < AT_CLOCK_END ? place : READY);
    row_put(row, ROW_KEY_LEN, OTP_LEAST_KEY);
    row_put(row, ROW_KEY, 0);
    otp_put_number(row + row_places[ROW_KEY].at, key, OTP_LEAST_KEY);
    if (place == ON_ZERO_ROWS)
        clear_table(1);
    else
        lay_row(row, 1);
    return (struct message_sent){message->bytes, message->len, place == ON_FIVE_BYTES ? 5 : DL_ROW_BYTES, DL_MOST_VALUES,
                                 place == AT_CLOCK_END ? CLOCK_END : 1060};
}

// With less room for values than the most only 9005 is answered.
static void expect_corner(const char *hex, enum corner_place place, const struct desk_answer *answer, const struct change *after, const char *name)
{
    static const struct desk_answer bad_argument = {.code = 0x9005};
    struct message_bytes message;
    read_hex(&message, hex);
    struct message_sent sent = lay_place(&message, place);
    for (sent.values_len = 0; sent.values_len < DL_MOST_VALUES; sent.values_len++) {
        expect_kept_bytes(sent.table_len);
        expect_written_message(&sent, &bad_argument, name);
    }
    apply(expect_kept_bytes(sent.table_len), after);
    expect_written_message(&sent, answer, name);
}

static void messages_served(void)
{
    for (size_t i = 0; i < SERVED_CORNERS; i++) {
        const struct message_corner *corner = &served_corners[i];
        struct desk_answer answer = {.code = corner->code, .values_set = corner->values_set};
        memcpy(answer.values, corner->values, sizeof answer.values);
        expect_corner(corner->hex, corner->place, &answer, corner->after, corner->name);
    }
    messages_came_up(LOGGED_IN | CHECKED | PLAIN | BAD | NO_TOKEN);
}

// The faults of a message come before those of the clock and of the table.
static void messages_refused(void)
{
    static const struct change unchanged[MOST_CHANGES] = KEPT;
    for (size_t i = 0; i < REFUSED_CORNERS; i++) {
        const struct desk_answer answer = {.code = refused_corners[i].code};
        for (enum corner_place place = NOT_ACTIVATED; place <= ON_ZERO_ROWS; place++)
            expect_corner(refused_corners[i].hex, place, &answer, unchanged, refused_corners[i].name);
    }
    messages_came_up(UNSERVED | BAD);
}

// ---- right messages

// Plain and with a MAC, with the items in every order.
static void serve_right(const struct row_case *made, uint16_t code)
{
    struct made_message fields;
    struct message_bytes message;
    for (int with_mac = 0; with_mac <= 1; with_mac++)
        for (size_t order = 0;; order++) {
            make_message(&fields, &made->call, with_mac ? REQUEST_WITH_MAC : REQUEST);
            if (order == orders(fields.items))
                break;
            order_items(&fields, order);
            write_message(&message, &fields);
            struct message_sent sent = sent_bytes(&message, &made->call);
            lay_row(made->row, 1);
            check(compare_message(&sent) == code, "call %d, order %zu: not %04x", made->call.name, order, code);
        }
}

static void each_state(void)
{
    struct row_case made;
    for (size_t variant = CALL_LOGIN; variant < VARIANTS; variant++)
        for (uint8_t state = DL_STATE_EMPTY; state < STATES; state++)
            for (uint8_t kind = DL_TIME_TOKEN; kind <= DL_EVENT_TOKEN; kind++) {
                make_table_call(&made, variant, state, kind, TABLE_STEP);
                serve_right(&made, state_answers[variant][state]);
            }
    messages_came_up(LOGGED_IN | CHECKED | PLAIN | NO_TOKEN | OTHER_STATE);
}

// Steps in the window of the call and about it.
static void each_step(void)
{
    struct row_case made;
    for (size_t i = 0; i < CHECKED_LINES; i++)
        for (uint8_t kind = DL_TIME_TOKEN; kind <= DL_EVENT_TOKEN; kind++)
            for (int64_t step = TABLE_STEP - 12; step < TABLE_STEP + (full_run ? TABLE_REACH : 12); step++) {
                make_table_call(&made, checked_lines[i].call, checked_lines[i].state, kind, step);
                serve_right(&made, checked_answer(&checked_lines[i], kind, step));
            }
    messages_came_up(LOGGED_IN | CHECKED | USED | WRONG);
}

// Of tokens and with passwords of every sort, bad arguments included.
static void each_sort(void)
{
    struct row_case made;
    struct made_message fields;
    struct message_bytes message;
    for (size_t i = 0; i < (full_run ? 10 * cases : cases); i++) {
        do
            make_case(&made, any_token);
        while (made.call.name == CALL_LOAD);
        if (one_in(8))
            spoil_argument(&made.call);
        make_message(&fields, &made.call, one_in(2) ? REQUEST : REQUEST_WITH_MAC);
        order_items(&fields, random_below(orders(fields.items)));
        write_message(&message, &fields);
        struct message_sent sent = sent_bytes(&message, &made.call);
        lay_row(made.row, 1);
        compare_message(&sent);
    }
    messages_came_up(BY_MESSAGES & ~DAMAGED);
}

// ---- lengths whose low 32 bits are in range

#define OVER ((size_t)1 << 32)

// A right message at the start of the room, or a right table.
static void long_buffers(void)
{
    struct right_message right;
    uint8_t *room = map_zeros(OVER + MADE_ROOM, PROT_READ | PROT_WRITE), *row = copy_of(room, DL_ROW_BYTES);
    take_right_message(&right, 0);
    memcpy(row, right.made.row, DL_ROW_BYTES);
    const struct desk_call *call = &right.made.call;
    memcpy(room, right.written.bytes, right.written.len);
    lend();
    uint16_t code = dl_serve_message(row, DL_ROW_BYTES, room, OVER + right.written.len, call->now, lent_signed_words, DL_MOST_VALUES);
    check(turned_down(code, 0x9001) && memcmp(row, right.made.row, DL_ROW_BYTES) == 0, "a message past 32 bits: %04x", code);
    memcpy(room, row, DL_ROW_BYTES);
    lend();
    code = dl_serve_message(room, OVER + DL_ROW_BYTES, right.written.bytes, right.written.len, call->now, lent_signed_words, DL_MOST_VALUES);
    check(turned_down(code, 0x9005) && memcmp(room, row, DL_ROW_BYTES) == 0, "a table past 32 bits: %04x", code);
    free(row);
    munmap(room, OVER + MADE_ROOM);
}

static const struct test tests[] = {
    {"messages written out that are served, each service among them", messages_served, 0},
    {"messages written out that are refused, also at a wild clock and on a short table", messages_refused, 0},
    {"each service in each state, its items in every order", each_state, 0},
    {"each service with a password at each step near its window", each_step, 0},
    {"right messages of any token, with passwords of every sort", each_sort, 0},
    {"each byte of a right message set to other values", each_byte_changed, 0},
    {"right messages of each shorter length, and some longer", each_length, 0},
    {"each two neighbouring bytes exchanged", neighbours_exchanged, 0},
    {"each value of each field", each_value, 1},
    {"each service", each_service, 1},
    {"messages of each length with a MAC", every_size, 0},
    {"the longest messages", longest, 0},
    {"messages that are too long", too_long, 0},
    {"lists of damaged messages on zero rows, with loads between them", message_lists_on_zero_rows, 0},
    {"lists of damaged messages on tables that are damaged meanwhile", message_lists_on_damaged_rows, 0},
    {"lists of damaged messages with double presses", message_lists_of_presses, 0},
    {"lists of damaged messages on tokens with one password at two steps", message_lists_of_collisions, 0},
    {"messages of any service and items, and random bytes", messages_of_anything, 0},
    {"lengths past 32 bits", long_buffers, 1},
    {"every answer but a load's and 8106 came up", every_message_answer, 0},
};

int main(int argc, char **argv)
{
    return run_tests(tests, sizeof tests / sizeof *tests, 5000, argc, argv);
}
