// Messages of every length up to the longest, 25 and 65,535 bytes, and past it. They are for a service without a call, since those of a call are short.
#ifndef MESSAGE_SIZES_H
#define MESSAGE_SIZES_H

#include "message_calls.h"
#include "message_making.h"

enum { MOST_BODY = 0xffff, LONGEST = MESSAGE_HEAD + MESSAGE_MAC + MOST_BODY, TOO_LONG = 65600, EACH_UP_TO = 1200, NOT_SERVED = 0x9999 };

static uint8_t long_message[TOO_LONG];

// Items with random content that fill the body, all but the last as long as can be; gives how many.
static inline size_t fill_items(uint8_t *items, size_t len)
{
    size_t count = 0;
    random_bytes(items, len);
    for (size_t at = 0; at < len; count++) {
        size_t left = len - at, item = left <= 4 + MOST_CONTENT ? left : left >= 2 * (4 + MOST_CONTENT) ? 4 + MOST_CONTENT : left / 2;
        items[at] = 0;
        items[at + 3] = (uint8_t)(item - 4);
        at += item;
    }
    return count;
}

// A body of 5 bytes, or of 9 or more; gives the message's length.
static inline size_t make_long_message(uint8_t type, size_t body_len)
{
    const struct made_message made = {.type = type, .version = 1, .caller = random_number(), .number = random_number()};
    struct message_bytes head;
    write_head(&head, &made, body_len);
    memcpy(long_message, head.bytes, head.len);
    uint8_t *body = long_message + head.len;
    size_t count = fill_items(body + 5, body_len - 5);
    otp_put_number(body, (uint64_t)NOT_SERVED << 24 | count, 5);
    seal(long_message, head.len + body_len);
    return head.len + body_len;
}

static inline uint16_t serve_long_message(size_t len)
{
    const struct message_sent sent = {long_message, len, DL_ROW_BYTES, DL_MOST_VALUES, 1060};
    return compare_message(&sent);
}

// As it is, with a wrong bit anywhere, and with a wrong bit in the MAC.
static inline void try_length(size_t body_len)
{
    size_t len = make_long_message(REQUEST, body_len);
    check(serve_long_message(len) == 0x9004, "a plain body of %zu bytes", body_len);
    len = make_long_message(REQUEST_WITH_MAC, body_len);
    check(serve_long_message(len) == 0x9004, "a body of %zu bytes with its MAC", body_len);
    long_message[MESSAGE_HEAD + random_below(MESSAGE_MAC)] ^= (uint8_t)(1 << random_below(8));
    check(serve_long_message(len) == 0x9002, "a body of %zu bytes with a wrong MAC", body_len);
    make_long_message(REQUEST_WITH_MAC, body_len);
    long_message[random_below(len)] ^= (uint8_t)(1 << random_below(8));
    check(serve_long_message(len) >= 0x9001, "a body of %zu bytes with a wrong bit", body_len);
}

// Each length of some blocks of SM3, then any.
static inline void every_size(void)
{
    clear_table(1);
    try_length(5);
    for (size_t body_len = 9; body_len < EACH_UP_TO; body_len += full_run ? 1 : 37)
        try_length(body_len);
    for (size_t i = 0; i < (full_run ? 200 : 4); i++)
        try_length(EACH_UP_TO + random_below(MOST_BODY - EACH_UP_TO));
    messages_came_up(BAD_MAC | NO_SERVICE);
}

// The longest: 255 items, so long that the body is.
static inline size_t make_longest(uint8_t type)
{
    const struct made_message made = {.type = type, .version = 1};
    struct message_bytes head;
    write_head(&head, &made, MOST_BODY);
    memcpy(long_message, head.bytes, head.len);
    uint8_t *body = long_message + head.len, *item = body + 5;
    otp_put_number(body, (uint64_t)NOT_SERVED << 24 | 255, 5);
    for (size_t i = 0; i < 255; i++) {
        uint8_t len = i < 250 ? 253 : 252;
        random_bytes(item, 4 + (size_t)len);
        item[0] = 0;
        item[3] = len;
        item += 4 + len;
    }
    seal(long_message, head.len + MOST_BODY);
    return head.len + MOST_BODY;
}

static inline void longest(void)
{
    clear_table(1);
    size_t len = make_longest(REQUEST);
    check(serve_long_message(len) == 0x9004, "the longest plain message");
    check(serve_long_message(len - 1) == 0x9001 && serve_long_message(len + 1) == 0x9001, "one byte less or more");
    len = make_longest(REQUEST_WITH_MAC);
    check(len == LONGEST && serve_long_message(len) == 0x9004, "the longest message");
    long_message[len - 1] ^= 1;
    check(serve_long_message(len) == 0x9002, "its last bit changed");
    long_message[MESSAGE_HEAD + MESSAGE_MAC + 5] = 0x80;
    check(serve_long_message(len) == 0x9001, "an attribute of it changed");
    make_longest(REPLY_WITH_MAC);
    check(serve_long_message(len) == 0x9001, "the longest reply");
    messages_came_up(UNSERVED);
}

// A login with 65,536 bytes or more behind it, so that the length of its body is right in its last two bytes.
static inline void too_long(void)
{
    static const uint8_t body[] = {0, 1, 0, 0, 2, 0, 0, 2, 8, 0, 0, 0, 0, 0, 0, 0, 7, 0, 0, 3, 6, '1', '2', '3', '4', '5', '6'};
    const struct made_message made = {.type = REQUEST, .version = 1};
    struct message_bytes head;
    clear_table(1);
    for (size_t body_len = sizeof body; body_len <= TOO_LONG - MESSAGE_HEAD - 0x10000; body_len++) {
        memset(long_message, 0, sizeof long_message);
        write_head(&head, &made, body_len);
        memcpy(long_message, head.bytes, head.len);
        memcpy(long_message + head.len, body, sizeof body);
        check(serve_long_message(head.len + body_len) == (body_len == sizeof body ? 0x8402 : 0x9001), "%zu bytes", body_len);
        check(serve_long_message(head.len + body_len + 0x10000) == 0x9001, "65,536 bytes more than %zu", body_len);
    }
    check(serve_long_message(TOO_LONG) == 0x9001, "65,600 bytes");
    messages_came_up(BAD_MESSAGE | NO_TOKEN);
}

#endif
