// Right messages with one change, given to the reader: each byte, each length, neighbours exchanged, the MAC, the numbers that say
// how long the rest is.
#ifndef WIRE_CHANGES_H
#define WIRE_CHANGES_H

#include "wire_rounds.h"

enum { WIRE_BODY_LENGTH_AT = 19, WIRE_MAC_AT = 21, WIRE_SHAPES = 4, WIRE_ADDED = 20 };

// ---- right messages

// Of each type: no items, one, those of a query's reply, and some out of order, repeated and empty.
static inline void wire_make_right(struct wire_buffer *right, size_t type, size_t shape)
{
    static const struct {
        size_t count;
        uint32_t identifiers[5], lengths[5];
    } shapes[WIRE_SHAPES] = {
        {0, {0}, {0}}, {1, {2}, {8}}, {3, {0x102, 0x104, 0x105}, {8, 1, 1}}, {5, {7, 3, 3, 65535, 0}, {0, 2, 0, 6, 1}}};
    static struct wire_call call;
    static struct wire_message message;
    wire_make_header(&call);
    call.type = wire_types[type];
    call.identifiers_len = call.lengths_len = shapes[shape].count;
    memcpy(call.identifiers, shapes[shape].identifiers, sizeof shapes[shape].identifiers);
    memcpy(call.lengths, shapes[shape].lengths, sizeof shapes[shape].lengths);
    call.contents_len = 0;
    for (size_t i = 0; i < call.lengths_len; i++)
        call.contents_len += call.lengths[i];
    random_bytes(call.contents, call.contents_len);
    require(wire_asks_for(&call, &message) && wire_form(&message, right) == WIRE_RIGHT, "a right message that is not");
}

static inline void wire_each_right(void (*change)(struct wire_buffer *right))
{
    static struct wire_buffer right;
    for (size_t type = 0; type < WIRE_TYPES; type++)
        for (size_t shape = 0; shape < WIRE_SHAPES; shape++) {
            wire_make_right(&right, type, shape);
            require(wire_compare_read(right.bytes, right.n) == WIRE_RIGHT, "a right message that is refused");
            change(&right);
        }
}

// ---- what was changed is made to fit again

static inline void wire_put_at(struct wire_buffer *buffer, size_t at, uint64_t value, size_t n)
{
    for (size_t i = n; i-- > 0; value >>= 8)
        buffer->bytes[at + i] = (uint8_t)value;
}

// The MAC of the bytes as they are, where a MAC would be.
static inline void wire_seal(struct wire_buffer *buffer)
{
    const size_t body = WIRE_MAC_AT + 4;
    if (buffer->n >= body)
        wire_put_at(buffer, WIRE_MAC_AT, wire_mac(buffer->bytes, WIRE_MAC_AT, buffer->bytes + body, buffer->n - body), 4);
}

static inline void wire_fit_body(struct wire_buffer *buffer)
{
    const size_t header = buffer->bytes[1] & 0x80 ? WIRE_MAC_AT + 4 : WIRE_MAC_AT;
    if (buffer->n >= header)
        wire_put_at(buffer, WIRE_BODY_LENGTH_AT, buffer->n - header, 2);
}

// What is read, written again, is the same bytes: by the reference always, by the library if the items rise.
static inline void wire_compare_rewritten(const uint8_t *bytes, size_t n)
{
    static struct wire_message message;
    static struct wire_buffer again;
    static struct wire_call call;
    require(wire_read(bytes, n, &message) == WIRE_RIGHT && wire_form(&message, &again) == WIRE_RIGHT && again.n == n
            && memcmp(again.bytes, bytes, n) == 0, "a message of two byte strings");
    if (!wire_rises(&message))
        return;
    wire_ask_for(&message, &call);
    require(wire_compare_write(&call, n, 1) == n && memcmp(wire_out, bytes, n) == 0, "a message written as other bytes");
}

// Reads the bytes as they are and, if they then differ, with the MAC that they would have.
static inline void wire_compare_changed(struct wire_buffer *changed)
{
    uint8_t mac[4] = {0};
    if (wire_compare_read(changed->bytes, changed->n) == WIRE_RIGHT)
        wire_compare_rewritten(changed->bytes, changed->n);
    if (changed->n < WIRE_MAC_AT + 4 || !(changed->bytes[1] & 0x80))
        return;
    memcpy(mac, changed->bytes + WIRE_MAC_AT, 4);
    wire_seal(changed);
    if (memcmp(mac, changed->bytes + WIRE_MAC_AT, 4) != 0 && wire_compare_read(changed->bytes, changed->n) == WIRE_RIGHT)
        wire_compare_rewritten(changed->bytes, changed->n);
    memcpy(changed->bytes + WIRE_MAC_AT, mac, 4);
}

// ---- changes

static void wire_change_bytes(struct wire_buffer *right)
{
    const unsigned step = full_run ? 1 : 73;
    for (size_t at = 0; at < right->n; at++) {
        const uint8_t kept = right->bytes[at];
        for (unsigned other = 1; other < 256; other += step) {
            right->bytes[at] = kept ^ (uint8_t)other;
            wire_compare_changed(right);
        }
        right->bytes[at] = kept;
    }
}

static void wire_change_neighbours(struct wire_buffer *right)
{
    for (size_t at = 0; at + 1 < right->n; at++)
        for (int back = 0; back < 2; back++) {
            const uint8_t kept = right->bytes[at];
            right->bytes[at] = right->bytes[at + 1];
            right->bytes[at + 1] = kept;
            if (!back)
                wire_compare_changed(right);
        }
}

// Cut to each length, and with bytes added; also with a body length that is then right.
static void wire_change_length(struct wire_buffer *right)
{
    struct wire_buffer *kept = copy_of(right, sizeof *right);
    random_bytes(right->bytes + right->n, WIRE_ADDED);
    for (right->n = 0; right->n <= kept->n + WIRE_ADDED; right->n++) {
        wire_compare_changed(right);
        wire_fit_body(right);
        wire_compare_changed(right);
        memcpy(right->bytes, kept->bytes, kept->n);
    }
    free(kept);
}

static void wire_change_mac(struct wire_buffer *right)
{
    if (!(right->bytes[1] & 0x80))
        return;
    for (size_t bit = 0; bit < 32; bit++) {
        right->bytes[WIRE_MAC_AT + bit / 8] ^= 1 << bit % 8;
        require(wire_compare_read(right->bytes, right->n) == WIRE_MAC, "a MAC with another bit");
        right->bytes[WIRE_MAC_AT + bit / 8] ^= 1 << bit % 8;
    }
}

static void wire_each_byte(void) { wire_each_right(wire_change_bytes); }
static void wire_each_pair_of_neighbours(void) { wire_each_right(wire_change_neighbours); }
static void wire_each_length(void) { wire_each_right(wire_change_length); }
static void wire_each_bit_of_the_mac(void) { wire_each_right(wire_change_mac); }

#endif
