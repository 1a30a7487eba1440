// Messages as an operator's system makes them (GM/T 0021-2012, Annex D): the fields of a call's message, and their bytes.
#ifndef MESSAGE_MAKING_H
#define MESSAGE_MAKING_H

#include "message_reference.h"
#include "testing.h"

enum { MOST_MADE_ITEMS = 6, MOST_CONTENT = 255, MADE_ROOM = 4096, WITH_MAC = 0x80 };

struct made_item {
    uint8_t attribute, len;
    uint16_t identifier;
    uint8_t content[MOST_CONTENT];
};

struct made_message {
    uint8_t type, version;
    uint64_t caller, number;
    uint16_t service, options;
    size_t items;
    struct made_item item[MOST_MADE_ITEMS];
};

// Room for those that are made longer.
struct message_bytes {
    uint8_t bytes[MADE_ROOM];
    size_t len;
};

// ---- the fields

static inline void put_item(struct made_item *item, uint16_t identifier, const uint8_t *content, size_t len)
{
    item->attribute = 0;
    item->identifier = identifier;
    item->len = (uint8_t)(len < MOST_CONTENT ? len : MOST_CONTENT);
    memcpy(item->content, content, item->len);
}

static inline void put_item_of(struct made_item *item, enum message_identifier identifier, const struct desk_call *call)
{
    uint8_t serial[MESSAGE_SERIAL_LEN];
    const struct window_typed *typed = identifier == ITEM_CHALLENGE ? &call->challenge
        : identifier == ITEM_FOLLOWING ? &call->following : &call->password;
    otp_put_number(serial, call->serial, sizeof serial);
    if (identifier == ITEM_SERIAL)
        put_item(item, ITEM_SERIAL, serial, sizeof serial);
    else
        put_item(item, identifier, typed->bytes, typed->len);
}

static inline const struct message_service *service_with(enum desk_name call)
{
    for (size_t i = 0; i < MESSAGE_SERVICES; i++)
        if (message_services[i].call == call)
            return &message_services[i];
    die("the call has no service");
}

// Of any call but a load; caller and call number are any.
static inline void make_message(struct made_message *made, const struct desk_call *call, uint8_t type)
{
    const struct message_service *service = service_with(call->name);
    made->type = type;
    made->version = 1;
    made->caller = one_in(2) ? 0 : random_number();
    made->number = random_number();
    made->service = (uint16_t)service->service;
    made->options = call->name == CALL_SYNC ? call->choice : 0;
    made->items = service->count;
    for (size_t i = 0; i < made->items; i++)
        put_item_of(&made->item[i], service->items[i], call);
}

static inline void exchange_items(struct made_message *made, size_t one, size_t other)
{
    struct made_item item = made->item[one];
    made->item[one] = made->item[other];
    made->item[other] = item;
}

static inline size_t orders(size_t items)
{
    return items < 2 ? 1 : items * orders(items - 1);
}

// Another order of the items for each number below `orders`.
static inline void order_items(struct made_message *made, size_t number)
{
    for (size_t i = 0; i < made->items; i++) {
        size_t left = made->items - i;
        exchange_items(made, i, i + number % left);
        number /= left;
    }
}

// ---- the bytes

static inline void add_number(struct message_bytes *to, uint64_t number, size_t n)
{
    to->len += otp_put_number(to->bytes + to->len, number, n);
}

static inline size_t head_len_of(uint8_t type)
{
    return MESSAGE_HEAD + (type & WITH_MAC ? MESSAGE_MAC : 0);
}

// The right MAC, if the type has one and there is a place for it.
static inline void seal(uint8_t *bytes, size_t len)
{
    if (len >= MESSAGE_HEAD + MESSAGE_MAC && bytes[1] & WITH_MAC)
        message_make_mac(bytes, len, bytes + MESSAGE_HEAD);
}

// The lengths of header and body as the type and the message's length want them.
static inline void mend_lengths(uint8_t *bytes, size_t len)
{
    if (len < MESSAGE_HEAD || len < head_len_of(bytes[1]))
        return;
    bytes[0] = (uint8_t)head_len_of(bytes[1]);
    otp_put_number(bytes + MESSAGE_HEAD - 2, len - head_len_of(bytes[1]), 2);
}

// The MAC's place has zeros.
static inline void write_head(struct message_bytes *to, const struct made_message *made, size_t body_len)
{
    to->len = 0;
    add_number(to, head_len_of(made->type), 1);
    add_number(to, made->type, 1);
    add_number(to, made->version, 1);
    add_number(to, made->caller, 8);
    add_number(to, made->number, 8);
    add_number(to, body_len, 2);
    add_number(to, 0, head_len_of(made->type) - MESSAGE_HEAD);
}

static inline void write_message(struct message_bytes *to, const struct made_message *made)
{
    size_t body_len = 5;
    for (size_t i = 0; i < made->items; i++)
        body_len += 4 + (size_t)made->item[i].len;
    write_head(to, made, body_len);
    add_number(to, made->service, 2);
    add_number(to, made->options, 2);
    add_number(to, made->items, 1);
    for (size_t i = 0; i < made->items; i++) {
        const struct made_item *item = &made->item[i];
        add_number(to, item->attribute, 1);
        add_number(to, item->identifier, 2);
        add_number(to, item->len, 1);
        memcpy(to->bytes + to->len, item->content, item->len);
        to->len += item->len;
    }
    seal(to->bytes, to->len);
}

// Of hexadecimal digits with blanks between bytes.
static inline void read_hex(struct message_bytes *message, const char *hex)
{
    message->len = 0;
    for (; *hex != '\0'; hex++) {
        if (*hex == ' ')
            continue;
        message->bytes[message->len++] = (uint8_t)(otp_hex_digit(hex[0]) << 4 | otp_hex_digit(hex[1]));
        hex++;
    }
}

// These bytes on the call's table, at its clock.
static inline struct message_sent sent_bytes(const struct message_bytes *message, const struct desk_call *call)
{
    return (struct message_sent){message->bytes, message->len, call->table_len, call->values_len, call->now};
}

#endif
