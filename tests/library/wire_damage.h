// Messages damaged at random in several places, and bytes that are no message or one by chance, given to the reader.
#ifndef WIRE_DAMAGE_H
#define WIRE_DAMAGE_H

#include "wire_changes.h"

static struct wire_buffer wire_damaged;

// ---- damage

static inline void wire_remove(struct wire_buffer *buffer, size_t at)
{
    memmove(buffer->bytes + at, buffer->bytes + at + 1, buffer->n - at - 1);
    buffer->n--;
}

static inline void wire_insert(struct wire_buffer *buffer, size_t at, uint8_t byte)
{
    memmove(buffer->bytes + at + 1, buffer->bytes + at, buffer->n - at);
    buffer->bytes[at] = byte;
    buffer->n++;
}

static inline uint8_t wire_some_byte(void)
{
    static const uint8_t ends[] = {0, 1, 2, 4, 8, 21, 25, 127, 128, 129, 254, 255};
    return one_in(2) ? ends[random_below(sizeof ends)] : (uint8_t)random_number();
}

// Places near the front, with the numbers of the header, are chosen more often.
static inline void wire_damage(struct wire_buffer *buffer)
{
    if (buffer->n == 0)
        return;
    const size_t at = random_below(one_in(3) && buffer->n > 30 ? 30 : buffer->n);
    switch (random_below(7)) {
    case 0: buffer->bytes[at] = wire_some_byte(); break;
    case 1: buffer->bytes[at] ^= 1 << random_below(8); break;
    case 2: buffer->bytes[at] += one_in(2) ? 1 : 255; break;
    case 3: wire_remove(buffer, at); break;
    case 4: wire_insert(buffer, at, wire_some_byte()); break;
    case 5: buffer->n = one_in(4) ? at : buffer->n; break;
    default: wire_put_bytes(buffer, buffer->bytes, 1);
    }
}

static inline void wire_make_formed(struct wire_buffer *whole)
{
    static struct wire_call call;
    static struct wire_message message;
    wire_make_short(&call);
    if (one_in(2))
        wire_make_any(call.identifiers, call.identifiers_len);
    require(wire_asks_for(&call, &message) && wire_form(&message, whole) == WIRE_RIGHT, "a call without a message");
}

static void wire_random_damage(void)
{
    for (size_t i = 0; i < 2 * cases; i++) {
        wire_make_formed(&wire_damaged);
        for (size_t damages = 1 + random_below(3); damages > 0; damages--)
            wire_damage(&wire_damaged);
        if (one_in(2) && wire_damaged.n > 1)
            wire_fit_body(&wire_damaged);
        wire_compare_changed(&wire_damaged);
    }
}

static void wire_long_damage(void)
{
    static struct wire_call call;
    static struct wire_message message;
    for (size_t i = 0; i <= cases / 100; i++) {
        wire_make_long(&call);
        require(wire_asks_for(&call, &message) && wire_form(&message, &wire_damaged) == WIRE_RIGHT, "a call without a message");
        wire_damage(&wire_damaged);
        if (one_in(2))
            wire_fit_body(&wire_damaged);
        wire_compare_changed(&wire_damaged);
    }
}

// One item's length is more and another's less, so that their sum is as it was. The length stands before the content.
static void wire_moved_lengths(void)
{
    static struct wire_call call;
    static struct wire_message message;
    for (size_t i = 0; i < cases; i++) {
        wire_make(&call, 2 + random_below(3), WIRE_SMALL);
        require(wire_asks_for(&call, &message) && wire_form(&message, &wire_damaged) == WIRE_RIGHT
                && wire_read(wire_damaged.bytes, wire_damaged.n, &message) == WIRE_RIGHT, "a message that is none");
        const size_t by = 1 + random_below(8), less = random_below(message.count), more = random_below(message.count);
        wire_damaged.bytes[message.items[less].content - wire_damaged.bytes - 1] -= (uint8_t)by;
        wire_damaged.bytes[message.items[more].content - wire_damaged.bytes - 1] += (uint8_t)by;
        wire_compare_changed(&wire_damaged);
    }
}

// ---- bytes that are no message, or one by chance

static void wire_random_bytes(void)
{
    for (size_t i = 0; i < cases; i++) {
        wire_damaged.n = random_below(one_in(20) ? 2000 : 80);
        random_bytes(wire_damaged.bytes, wire_damaged.n);
        wire_compare_changed(&wire_damaged);
    }
}

// A right header, and behind it small numbers, of which items can be.
static void wire_random_bodies(void)
{
    static const uint8_t small[] = {0, 0, 0, 0, 0, 0, 1, 1, 2, 3, 4, 255};
    for (size_t i = 0; i < cases; i++) {
        wire_make_formed(&wire_damaged);
        const size_t header = wire_damaged.bytes[0];
        wire_damaged.n = header + random_below(24);
        for (size_t at = header; at < wire_damaged.n; at++)
            wire_damaged.bytes[at] = small[random_below(sizeof small)];
        wire_fit_body(&wire_damaged);
        wire_compare_changed(&wire_damaged);
    }
}

#endif
