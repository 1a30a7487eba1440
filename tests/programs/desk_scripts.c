// A random script for the desk's line program and its answers by tests/library/desk_reference.h and message_reference.h: desk_scripts SEED ROWS CALLS
// LINES ANSWERS, the last two the files that are written. With a seed of 3k its tokens show one password at two steps, with one of 3k + 2 Sign is often
// pressed twice. Some calls are messages, and some of these are damaged. It prints how many double presses there are.
#define _DEFAULT_SOURCE
#include "../library/collision_lists.h"
#include "../library/message_damage.h"
#include "../library/press_lists.h"

static FILE *lines, *replies;
static long presses;

// ---- lines

static const char *const names[CALLS] = {
    [CALL_LOAD] = "load", [CALL_LOGIN] = "login", [CALL_CHALLENGE_LOGIN] = "challenge", [CALL_ACTIVATE] = "activate",
    [CALL_LOCK] = "lock", [CALL_UNLOCK] = "unlock", [CALL_SUSPEND] = "suspend", [CALL_RESUME] = "resume", [CALL_SYNC] = "sync",
    [CALL_VOID] = "void", [CALL_QUERY] = "query",
};

static void put_hex(FILE *to, const uint8_t *bytes, size_t n)
{
    for (size_t i = 0; i < n; i++)
        fprintf(to, one_in(2) ? "%02x" : "%02X", bytes[i]);
}

static void put_typed(const struct window_typed *typed)
{
    putc(',', lines);
    fwrite(typed->bytes, 1, typed->len, lines);
}

static void put_load(const struct desk_load *load)
{
    fprintf(lines, ",%u,%u,%u,%u,%u,", load->kind, load->algorithm, load->digits, load->period, load->limit);
    put_hex(lines, load->key, load->key_len);
    fprintf(lines, ",%" PRIu32 ",%" PRIu64 "\n", load->wait, load->expiry);
}

static void put_line(const struct desk_call *call)
{
    enum desk_check check = desk_rules[call->name].check;
    fprintf(lines, "%s,%" PRIu64, names[call->name], call->serial);
    if (call->name == CALL_LOAD) {
        put_load(&call->load);
        return;
    }
    if (call->name == CALL_CHALLENGE_LOGIN) {
        putc(',', lines);
        put_hex(lines, call->challenge.bytes, call->challenge.len);
    }
    if (call->name == CALL_SYNC)
        fprintf(lines, ",%u", call->choice);
    if (check != NO_CHECK)
        put_typed(&call->password);
    if (check == PAIR)
        put_typed(&call->following);
    fprintf(lines, ",%" PRIu64 "\n", call->now);
}

// A password with a comma or a line feed in it can stand in a message only.
static int can_be_typed(const struct window_typed *typed)
{
    return memchr(typed->bytes, ',', typed->len) == NULL && memchr(typed->bytes, '\n', typed->len) == NULL;
}

// A line has no lengths of its own.
static int can_be_written(const struct desk_call *call, size_t rows)
{
    return call->table_len == rows * DL_ROW_BYTES && call->values_len >= DL_QUERY_VALUES;
}

// ---- answers

static void put_answer(const struct desk_answer *answer)
{
    fprintf(replies, "%04x", answer->code);
    for (size_t i = 0; i < answer->values_set; i++)
        fprintf(replies, ",%" PRId64, answer->values[i]);
    putc('\n', replies);
}

static void put_table(size_t rows)
{
    for (size_t i = 0; i < rows; i++) {
        for (size_t j = 0; j < DL_ROW_BYTES; j++)
            fprintf(replies, "%02x", table_row(i)[j]);
        putc('\n', replies);
    }
}

// ---- messages

enum { MOST_MESSAGE = 2000 }; // bytes that a line has room for, whatever the clock

// Writes the message of a call, right or damaged, and gives the answer to it.
static struct desk_answer put_message(const struct desk_call *call)
{
    struct made_message made;
    struct message_bytes message;
    make_message(&made, call, one_in(2) ? REQUEST : REQUEST_WITH_MAC);
    if (one_in(3)) {
        write_damaged(&message, &made);
    } else {
        order_items(&made, random_below(orders(made.items)));
        write_message(&message, &made);
    }
    require(message.len <= MOST_MESSAGE, "a message that its line has room for");
    struct message_sent sent = sent_bytes(&message, call);
    fputs("message,", lines);
    put_hex(lines, message.bytes, message.len);
    fprintf(lines, ",%" PRIu64 "\n", call->now);
    return message_answer_to(table, &sent);
}

// ---- lines that make no call

static void put_other_line(size_t rows)
{
    static const char *const not_made[] = {
        "", "login", "login,1", "login,1,123456", "login,01,123456,5", "login,1,123456,", "login,1,123456,5,", "login,-1,123456,5", "Login,1,123456,5",
        "sync,1,256,123456,123456,5", "void,18446744073709551616,5", "load,1,256,3,6,30,3,00112233445566778899aabbccddeeff,600,1900000000",
        "load,1,0,3,6,30,3,00112233445566778899aabbccddeef,600,1900000000", "load,1,0,3,6,30,3,0g112233445566778899aabbccddeeff,600,1900000000",
        "load,1,0,3,6,30,3,00112233445566778899aabbccddeeff,4294967296,1900000000", "challenge,1,3,123456,5", "rows,4", "table,", "query,1,5\r", "lock, 1,5",
        "message,1,5", "message,15,05", "message,15", "message,15,5,", "message,1g,5",
    };
    if (one_in(4)) {
        fputs("table\n", lines);
        put_table(rows);
        return;
    }
    fprintf(lines, "%s\n", not_made[random_below(sizeof not_made / sizeof *not_made)]);
    fputs("9005\n", replies);
}

// ---- a script

static struct collision_list list; // but for one on equal steps its base alone
static enum { ON_EQUAL_STEPS, ANY, PRESSES } sort;

static void begin_script(size_t rows)
{
    if (sort == ON_EQUAL_STEPS)
        begin_collision_list(&list, rows);
    else if (sort == PRESSES)
        begin_press_list(&list.base, rows);
    else
        begin_list(&list.base, rows);
    fprintf(lines, "rows,%zu\n", rows);
}

static void next_line_call(struct desk_call *call)
{
    if (sort == ON_EQUAL_STEPS)
        next_collision_call(&list, call);
    else if (sort == PRESSES)
        next_press_call(&list.base, call);
    else
        next_call(&list.base, call);
}

static struct desk_answer put_call(const struct desk_call *call)
{
    if (call->name != CALL_LOAD && (one_in(4) || !can_be_typed(&call->password) || !can_be_typed(&call->following)))
        return put_message(call);
    struct desk_answer answer = desk_answer_to(table, call);
    presses += answer.code == DL_USED && desk_is_press(desk_find(table, call->table_len, call->serial), call);
    put_line(call);
    return answer;
}

static void put_calls(size_t rows, size_t calls)
{
    struct desk_call call;
    for (size_t i = 0; i < calls; i++) {
        if (one_in(30))
            put_other_line(rows);
        do
            next_line_call(&call);
        while (!can_be_written(&call, rows));
        struct desk_answer answer = put_call(&call);
        put_answer(&answer);
    }
}

int main(int argc, char **argv)
{
    if (argc != 6)
        die("five arguments are needed: SEED ROWS CALLS LINES ANSWERS");
    uint64_t seed = strtoull(argv[1], NULL, 10), rows = strtoull(argv[2], NULL, 10);
    random_state = seed;
    lines = fopen(argv[4], "w");
    replies = fopen(argv[5], "w");
    if (lines == NULL || replies == NULL)
        die("a file cannot be written");
    otp_open_library();
    sort = seed % 3;
    begin_script(rows);
    put_calls(rows, strtoull(argv[3], NULL, 10));
    printf("%ld\n", presses);
    return fclose(lines) != 0 || fclose(replies) != 0;
}
