// Messages of GM/T 0021-2012, Annex D, read and written as document 02, requests 1 and 3, has them, over OpenSSL's SM3. Made from
// these words and the C header, the library's code and message_reference.h unread: the reader takes one field after the other off
// the front of what is left, the writer puts one behind the other, and neither knows an offset.
#ifndef WIRE_REFERENCE_H
#define WIRE_REFERENCE_H

#include "wire_message.h"

// ---- the reader

// What is left to read; `ended` once more was asked for than there was.
struct wire_rest {
    const uint8_t *at;
    size_t left;
    int ended;
};

static inline const uint8_t *wire_take_bytes(struct wire_rest *rest, size_t n)
{
    const uint8_t *taken = rest->at;
    if (n > rest->left) {
        rest->ended = 1;
        return NULL;
    }
    rest->at += n;
    rest->left -= n;
    return taken;
}

static inline uint64_t wire_take(struct wire_rest *rest, size_t n)
{
    const uint8_t *taken = wire_take_bytes(rest, n);
    uint64_t value = 0;
    for (size_t i = 0; taken != NULL && i < n; i++)
        value = value << 8 | taken[i];
    return value;
}

static inline enum wire_fault wire_read_body(struct wire_rest rest, struct wire_message *message)
{
    uint64_t attributes = 0;
    message->service = wire_take(&rest, 2);
    message->options = wire_take(&rest, 2);
    message->count = wire_take(&rest, 1);
    for (size_t i = 0; i < message->count && !rest.ended; i++) {
        struct wire_item *item = &message->items[i];
        attributes |= wire_take(&rest, 1);
        item->identifier = wire_take(&rest, 2);
        item->length = wire_take(&rest, 1);
        item->content = wire_take_bytes(&rest, item->length);
    }
    if (rest.ended || rest.left > 0)
        return rest.ended ? WIRE_ENDS : WIRE_LEFT_OVER;
    return attributes == 0 ? WIRE_RIGHT : WIRE_ATTRIBUTE;
}

// Reads a message; the contents of its items are where they are in `bytes`.
static inline enum wire_fault wire_read(const uint8_t *bytes, size_t n, struct wire_message *message)
{
    struct wire_rest rest = {bytes, n, 0};
    const size_t header_length = wire_take(&rest, 1);
    message->type = wire_take(&rest, 1);
    const uint64_t version = wire_take(&rest, 1);
    message->caller = wire_take(&rest, 8);
    message->number = wire_take(&rest, 8);
    const size_t body_length = wire_take(&rest, 2);
    const size_t before_mac = n - rest.left;
    const uint64_t mac = wire_has_mac(message->type) ? wire_take(&rest, 4) : 0;
    if (rest.ended)
        return WIRE_ENDS;
    if (wire_header_length(message->type) == 0)
        return WIRE_TYPE;
    if (header_length != wire_header_length(message->type))
        return WIRE_HEADER;
    if (version != WIRE_VERSION)
        return WIRE_OTHER_VERSION;
    if (body_length != rest.left)
        return WIRE_BODY;
    enum wire_fault fault = wire_read_body(rest, message);
    if (fault == WIRE_RIGHT && wire_has_mac(message->type) && mac != wire_mac(bytes, before_mac, rest.at, rest.left))
        fault = WIRE_MAC;
    return fault;
}

// ---- the writer

// Bytes to which more are put; `over` once a number was too large for its bytes.
struct wire_buffer {
    size_t n;
    int over;
    uint8_t bytes[WIRE_ROOM];
};

static inline void wire_put_bytes(struct wire_buffer *buffer, const uint8_t *bytes, size_t n)
{
    if (n > WIRE_ROOM - buffer->n)
        die("a message larger than its test expected");
    if (n > 0)
        memcpy(buffer->bytes + buffer->n, bytes, n);
    buffer->n += n;
}

static inline void wire_put(struct wire_buffer *buffer, uint64_t value, size_t n)
{
    uint8_t bytes[8];
    for (size_t i = n; i-- > 0; value >>= 8)
        bytes[i] = (uint8_t)value;
    buffer->over |= value > 0;
    wire_put_bytes(buffer, bytes, n);
}

static inline void wire_put_body(struct wire_buffer *body, const struct wire_message *message)
{
    wire_put(body, message->service, 2);
    wire_put(body, message->options, 2);
    wire_put(body, message->count, 1);
    for (size_t i = 0; i < message->count && !body->over; i++) {
        const struct wire_item *item = &message->items[i];
        wire_put(body, 0, 1);
        wire_put(body, item->identifier, 2);
        wire_put(body, item->length, 1);
        wire_put_bytes(body, item->content, body->over ? 0 : item->length);
    }
}

// The bytes of a message whose items may be repeated and out of order.
static inline enum wire_fault wire_form(const struct wire_message *message, struct wire_buffer *whole)
{
    static struct wire_buffer body;
    body.n = whole->n = 0;
    body.over = whole->over = 0;
    wire_put_body(&body, message);
    wire_put(whole, wire_header_length(message->type), 1);
    wire_put(whole, message->type, 1);
    wire_put(whole, WIRE_VERSION, 1);
    wire_put(whole, message->caller, 8);
    wire_put(whole, message->number, 8);
    wire_put(whole, body.n, 2);
    if (wire_has_mac(message->type))
        wire_put(whole, wire_mac(whole->bytes, whole->n, body.bytes, body.n), 4);
    wire_put_bytes(whole, body.bytes, body.n);
    if (wire_header_length(message->type) == 0)
        return WIRE_NO_TYPE;
    return body.over || whole->over ? WIRE_VALUE : WIRE_RIGHT;
}

static inline int wire_rises(const struct wire_message *message)
{
    for (size_t i = 1; i < message->count; i++)
        if (message->items[i - 1].identifier >= message->items[i].identifier)
            return 0;
    return 1;
}

// The bytes of a message for an output of `room` bytes.
static inline enum wire_fault wire_write(const struct wire_message *message, size_t room, struct wire_buffer *whole)
{
    enum wire_fault fault = wire_form(message, whole);
    if (fault == WIRE_RIGHT && !wire_rises(message))
        return WIRE_ORDER;
    if (fault == WIRE_RIGHT && whole->n > room)
        return WIRE_SHORT;
    return fault;
}

#endif
