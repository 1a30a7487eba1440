// Random messages as calls of dl_message_write: all four types, edge values, few or many items, bodies of up to 65,535 bytes.
#ifndef WIRE_MAKING_H
#define WIRE_MAKING_H

#include "wire_writing.h"

enum { WIRE_MOST_BODY = 65535, WIRE_NO_ITEMS = 5, WIRE_EMPTY_ITEM = 4, WIRE_MOST_COUNT = 255, WIRE_MOST_CONTENT = 255 };

// How long contents are: mostly a few bytes, any length, as long as can be.
enum wire_filling { WIRE_SMALL, WIRE_ANY, WIRE_FULL };

static const uint32_t wire_types[] = {0x00, 0x01, 0x80, 0x81};

enum { WIRE_TYPES = sizeof wire_types / sizeof *wire_types };

static inline uint32_t wire_sixteen_bits(void)
{
    static const uint16_t ends[] = {0, 1, 255, 256, 65534, 65535};
    return one_in(2) ? ends[random_below(6)] : (uint32_t)random_below(65536);
}

static inline uint64_t wire_eight_bytes(void)
{
    static const uint64_t ends[] = {0, 1, UINT64_MAX, (uint64_t)1 << 63, UINT64_C(0x0102030405060708)};
    return one_in(3) ? ends[random_below(5)] : random_number();
}

// ---- items

// n identifiers that rise: close together, far from each other, at the ends.
static inline void wire_make_rising(uint32_t *identifiers, size_t n)
{
    static const uint32_t ends[] = {0, 255, 256, 65535};
    const size_t widest = (size_t)1 << random_below(17);
    uint32_t least = 0;
    for (size_t i = 0; i < n; i++) {
        const uint32_t most = (uint32_t)(65535 - (n - 1 - i)), end = ends[random_below(4)];
        const size_t span = most - least + 1;
        identifiers[i] = least + (uint32_t)random_below(span < widest ? span : widest);
        if (one_in(4) && least <= end && end <= most)
            identifiers[i] = end;
        least = identifiers[i] + 1;
    }
}

static inline void wire_make_any(uint32_t *identifiers, size_t n)
{
    for (size_t i = 0; i < n; i++)
        identifiers[i] = i > 0 && one_in(4) ? identifiers[i - 1] : wire_sixteen_bits();
}

static inline uint32_t wire_make_length(enum wire_filling filling, size_t most)
{
    static const uint8_t ends[] = {0, 1, 8, 254, 255};
    size_t length = one_in(20) ? ends[random_below(5)] : random_below(filling == WIRE_SMALL ? 13 : 256);
    return (uint32_t)(length < most && filling != WIRE_FULL ? length : most);
}

// Contents of at most `left` bytes in all.
static inline void wire_make_contents(struct wire_call *call, size_t left, enum wire_filling filling)
{
    call->contents_len = 0;
    for (size_t i = 0; i < call->lengths_len; i++) {
        call->lengths[i] = wire_make_length(filling, left < WIRE_MOST_CONTENT ? left : WIRE_MOST_CONTENT);
        call->contents_len += call->lengths[i];
        left -= call->lengths[i];
    }
    random_bytes(call->contents, call->contents_len);
}

// ---- messages

static inline void wire_make_header(struct wire_call *call)
{
    call->type = wire_types[random_below(WIRE_TYPES)];
    call->caller = wire_eight_bytes();
    call->number = wire_eight_bytes();
    call->service = wire_sixteen_bits();
    call->options = wire_sixteen_bits();
}

// A message of so many items that can be written.
static inline void wire_make(struct wire_call *call, size_t count, enum wire_filling filling)
{
    wire_make_header(call);
    call->identifiers_len = call->lengths_len = count;
    wire_make_rising(call->identifiers, count);
    wire_make_contents(call, WIRE_MOST_BODY - WIRE_NO_ITEMS - count * WIRE_EMPTY_ITEM, filling);
}

static inline void wire_make_short(struct wire_call *call)
{
    wire_make(call, random_below(5), WIRE_SMALL);
}

// Of 254 and 255 full items the last ones are shorter: the body is as long as can be.
static inline void wire_make_long(struct wire_call *call)
{
    const size_t count = one_in(3) ? 250 + random_below(6) : random_below(WIRE_MOST_COUNT + 1);
    wire_make(call, count, (enum wire_filling)random_below(3));
}

#endif
