// Right messages of every service, and what one change makes of them: each byte set to other values, each length cut, two neighbouring bytes
// exchanged, and every value of each field.
#ifndef MESSAGE_CHANGES_H
#define MESSAGE_CHANGES_H

#include "message_calls.h"
#include "message_damage.h"
#include "row_tables.h"

// ---- right messages

// A message that succeeds on a table of this row.
struct right_message {
    struct row_case made;
    struct made_message fields;
    struct message_bytes written;
};

// The first state in which the call is served.
static inline uint8_t served_state(size_t variant)
{
    uint8_t state = DL_STATE_NOT_ACTIVATED;
    while (state_answers[variant][state] >= 0x8000)
        state++;
    return state;
}

static inline void make_right_message(struct right_message *right, size_t variant, uint8_t state, uint8_t kind, uint8_t type)
{
    make_table_call(&right->made, variant, state, kind, TABLE_STEP);
    make_message(&right->fields, &right->made.call, type);
    write_message(&right->written, &right->fields);
}

// For each number another variant, with a MAC or without; gives 0 past the last.
static inline int take_right_message(struct right_message *right, size_t number)
{
    size_t variant = CALL_LOGIN + number / 2;
    if (variant >= VARIANTS)
        return 0;
    make_right_message(right, variant, served_state(variant), DL_TIME_TOKEN, number % 2 == 0 ? REQUEST : REQUEST_WITH_MAC);
    return 1;
}

// ---- changes

// The changed bytes, as they are and with the right MAC, each on the row as it was.
static inline void try_change(const struct right_message *right, struct message_bytes *changed)
{
    struct message_sent sent = sent_bytes(changed, &right->made.call);
    lay_row(right->made.row, 1);
    compare_message(&sent);
    if (!(right->fields.type & WITH_MAC))
        return;
    seal(changed->bytes, changed->len);
    lay_row(right->made.row, 1);
    compare_message(&sent);
}

static inline void change_byte(const struct right_message *right, size_t place)
{
    struct message_bytes changed = right->written;
    const uint8_t byte = changed.bytes[place], values[] = {0, 1, 2, 0x7f, 0x80, 0xff, byte + 1, byte - 1};
    for (size_t i = 0; i < 16; i++) {
        changed = right->written;
        changed.bytes[place] = i < 8 ? values[i] : byte ^ (uint8_t)(1 << (i - 8));
        try_change(right, &changed);
    }
}

static inline void each_byte_changed(void)
{
    struct right_message right;
    for (size_t number = 0; take_right_message(&right, number); number++)
        for (size_t place = 0; place < right.written.len; place++)
            change_byte(&right, place);
    messages_came_up(UNSERVED | LOGGED_IN | CHECKED | PLAIN | BAD | NO_TOKEN | WRONG);
}

enum { BEHIND = 10 };

// Every part from the first byte on, and with some bytes behind the last; with the lengths as they were, and made right.
static inline void each_length(void)
{
    struct right_message right;
    for (size_t number = 0; take_right_message(&right, number); number++)
        for (size_t len = 0; len < right.written.len + BEHIND; len++) {
            struct message_bytes changed = right.written;
            random_bytes(changed.bytes + changed.len, BEHIND);
            changed.len = len;
            try_change(&right, &changed);
            mend_lengths(changed.bytes, changed.len);
            try_change(&right, &changed);
        }
    messages_came_up(BAD_MESSAGE | LOGGED_IN | CHECKED | PLAIN);
}

static inline void neighbours_exchanged(void)
{
    struct right_message right;
    for (size_t number = 0; take_right_message(&right, number); number++)
        for (size_t place = 0; place + 1 < right.written.len; place++) {
            struct message_bytes changed = right.written;
            exchange_neighbours(changed.bytes, place);
            try_change(&right, &changed);
        }
    messages_came_up(BAD_MESSAGE | BAD_MAC | LOGGED_IN | CHECKED | PLAIN | WRONG);
}

// ---- every value of a field

// The plain message with its field of so many bytes at this place set to each value; gives how often it was answered so.
static inline long count_values(const struct right_message *right, size_t place, size_t n, uint16_t code)
{
    long times = 0;
    struct message_bytes changed = right->written;
    const struct message_sent sent = sent_bytes(&changed, &right->made.call);
    for (uint64_t value = 0; value < UINT64_C(1) << 8 * n; value++) {
        otp_put_number(changed.bytes + place, value, n);
        lay_row(right->made.row, 1);
        times += compare_message(&sent) == code;
    }
    return times;
}

// Fields of a plain message, the last two of its first item.
static const struct {
    const char *name;
    size_t at, bytes;
} fields[] = {{"length of the header", 0, 1}, {"type", 1, 1}, {"version", 2, 1}, {"length of the body", 19, 2}, {"options", 23, 2},
              {"count of items", 25, 1}, {"attribute", 26, 1}, {"identifier", 27, 2}, {"length of the serial", 29, 1}};

enum { FIELDS = sizeof fields / sizeof *fields, AT_SERVICE = 21 };

// Each has one value with which the message succeeds, but for the two options of a sync.
static inline void each_value(void)
{
    struct right_message right;
    for (size_t number = 0; take_right_message(&right, number); number += 2)
        for (size_t i = 0; i < FIELDS; i++) {
            long taken = count_values(&right, fields[i].at, fields[i].bytes, desk_rules[right.made.call.name].success);
            int has_two = right.made.call.name == CALL_SYNC && strcmp(fields[i].name, "options") == 0;
            check(taken == 1 + has_two, "call %d succeeds with %ld values as %s", right.made.call.name, taken, fields[i].name);
        }
    messages_came_up(BAD_MESSAGE | LOGGED_IN | CHECKED | PLAIN);
}

// Without items only the ten services are judged further.
static inline void each_service(void)
{
    struct right_message right;
    make_right_message(&right, CALL_LOGIN, DL_STATE_READY, DL_TIME_TOKEN, REQUEST);
    right.fields.items = 0;
    write_message(&right.written, &right.fields);
    long without_call = count_values(&right, AT_SERVICE, 2, 0x9004);
    check(without_call == 0x10000 - 10, "%ld services have no call", without_call);
    messages_came_up(BAD_MESSAGE | NO_SERVICE);
}

#endif
