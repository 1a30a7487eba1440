// Random damage to messages: to their fields, whose lengths and MAC are then made right, and to their bytes.
#ifndef MESSAGE_DAMAGE_H
#define MESSAGE_DAMAGE_H

#include "message_making.h"

// ---- numbers near those that are named

static inline uint16_t any_service(void)
{
    static const uint16_t without_call[] = {0x0000, 0x0003, 0x0106, 0x0107, 0x0109, 0x010c, 0x0140, 0x0201, 0x1001, 0x9999, 0xffff};
    if (one_in(2))
        return (uint16_t)message_services[random_below(MESSAGE_SERVICES)].service;
    return one_in(8) ? (uint16_t)random_number() : without_call[random_below(sizeof without_call / sizeof *without_call)];
}

static inline uint16_t any_identifier(void)
{
    return one_in(8) ? (uint16_t)random_number() : (uint16_t)(random_below(11) | (one_in(8) ? 0x0100 : 0));
}

static inline uint16_t any_options(void)
{
    static const uint16_t near[] = {0, 1, 2, 3, 0x77, 0x0100, 0x0101, 0x0102, 0x0200, 0x8001};
    return one_in(8) ? (uint16_t)random_number() : near[random_below(sizeof near / sizeof *near)];
}

static inline uint8_t any_type(void)
{
    static const uint8_t near[] = {0x00, 0x01, 0x80, 0x81, 0x02, 0x40, 0x7f, 0x82, 0xff};
    return near[random_below(sizeof near / sizeof *near)];
}

// ---- the fields

static inline struct made_item *any_item(struct made_message *made)
{
    return &made->item[random_below(made->items > 0 ? made->items : 1)];
}

static inline void add_item(struct made_message *made, const struct made_item *item)
{
    if (made->items == MOST_MADE_ITEMS)
        return;
    made->item[made->items++] = *item;
    exchange_items(made, made->items - 1, random_below(made->items));
}

static inline void leave_out(struct made_message *made)
{
    if (made->items == 0)
        return;
    exchange_items(made, made->items - 1, random_below(made->items));
    made->items--;
}

static inline void add_any_item(struct made_message *made)
{
    struct made_item item = {.identifier = any_identifier(), .len = one_in(2) ? 8 : random_between(0, 20)};
    random_bytes(item.content, item.len);
    add_item(made, &item);
}

static inline void change_content(struct made_item *item)
{
    static const uint8_t lengths[] = {0, 1, 5, 6, 7, 8, 9, 10, 11, 32, 33, 255};
    size_t len = item->len;
    item->len = lengths[random_below(sizeof lengths / sizeof *lengths)];
    if (item->len > len)
        random_bytes_between(item->content + len, item->len - len, '0', '9');
}

static inline void damage_item(struct made_message *made)
{
    struct made_item *item = any_item(made), twice = *item;
    switch (random_below(7)) {
    case 0: add_item(made, &twice); break;
    case 1: leave_out(made); break;
    case 2: add_any_item(made); break;
    case 3: *any_item(made) = twice; break;
    case 4: item->identifier = any_identifier(); break;
    case 5: item->attribute = one_in(2) ? 0x80 : (uint8_t)random_number(); break;
    default: change_content(item);
    }
}

static inline void damage_fields(struct made_message *made)
{
    switch (random_below(10)) {
    case 0: made->service = any_service(); break;
    case 1: made->options = any_options(); break;
    case 2: made->type = any_type(); break;
    case 3: made->version = one_in(2) ? (uint8_t)random_below(3) : (uint8_t)random_number(); break;
    case 4: order_items(made, random_below(720)); break;
    default: damage_item(made);
    }
}

// ---- the bytes

// One of those that matter most, or any.
static inline uint8_t any_byte(uint8_t byte)
{
    const uint8_t bytes[] = {0, 1, 2, 0x7f, 0x80, 0xff, byte + 1, byte - 1, byte ^ (uint8_t)(1 << random_below(8)), (uint8_t)random_number()};
    return bytes[random_below(sizeof bytes)];
}

static inline void exchange_neighbours(uint8_t *bytes, size_t place)
{
    uint8_t byte = bytes[place];
    bytes[place] = bytes[place + 1];
    bytes[place + 1] = byte;
}

static inline void put_in(struct message_bytes *message, size_t place, size_t n)
{
    if (message->len + n > MADE_ROOM)
        return;
    memmove(message->bytes + place + n, message->bytes + place, message->len - place);
    random_bytes(message->bytes + place, n);
    message->len += n;
}

static inline void take_out(struct message_bytes *message, size_t place, size_t n)
{
    if (n > message->len - place)
        n = message->len - place;
    memmove(message->bytes + place, message->bytes + place + n, message->len - place - n);
    message->len -= n;
}

static inline void damage_bytes(struct message_bytes *message)
{
    if (message->len < 2)
        return;
    size_t place = random_below(message->len - 1), n = one_in(2) ? 1 : random_below(12);
    switch (random_below(8)) {
    case 0: exchange_neighbours(message->bytes, place); break;
    case 1: put_in(message, place, n); break;
    case 2: take_out(message, place, n); break;
    case 3: message->len -= n < message->len ? n : 0; break;
    case 4: put_in(message, message->len, n); break;
    case 5: random_bytes(message->bytes + place, n < message->len - place ? n : 1); break;
    default: message->bytes[place] = any_byte(message->bytes[place]);
    }
    if (one_in(2))
        mend_lengths(message->bytes, message->len);
    if (one_in(2))
        seal(message->bytes, message->len);
}

// ---- the message

// Of the fields, of the bytes, or of both; once or more often.
static inline void write_damaged(struct message_bytes *to, const struct made_message *right)
{
    struct made_message made = *right;
    int of_fields = one_in(2), of_bytes = !of_fields || one_in(8);
    do
        if (of_fields)
            damage_fields(&made);
    while (one_in(4));
    write_message(to, &made);
    do
        if (of_bytes)
            damage_bytes(to);
    while (one_in(4));
}

// Any service with any items, or nothing but random bytes.
static inline void write_anything(struct message_bytes *to)
{
    struct made_message made = {.type = one_in(2) ? REQUEST : REQUEST_WITH_MAC, .version = 1, .service = any_service(), .options = any_options()};
    for (size_t n = random_below(4); n > 0; n--)
        add_any_item(&made);
    write_message(to, &made);
    if (one_in(4))
        to->bytes[MESSAGE_HEAD] ^= 1;
    if (one_in(2))
        return;
    size_t n = random_below(120);
    to->len = 0;
    if (one_in(2))
        write_head(to, &made, n);
    random_bytes(to->bytes + to->len, n);
    to->len += n;
}

#endif
