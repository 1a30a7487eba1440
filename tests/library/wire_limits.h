// What dl_message_write refuses, and the last that it does not: types, values, the order of the items, sizes.
#ifndef WIRE_LIMITS_H
#define WIRE_LIMITS_H

#include "wire_making.h"

static struct wire_call wire_limit;

static inline void wire_must_refuse(const struct wire_call *call)
{
    require(wire_compare_write(call, WIRE_MOST_OUT, 1) == 0, "what must be refused is written");
}

// Written into an output of just its length.
static inline void wire_must_write(const struct wire_call *call, size_t length)
{
    require(wire_length_of(call) == length && wire_compare_write(call, length, 1) == length, "what must be written is refused");
}

// So many items of such a content, identifiers from 0 on.
static inline void wire_make_alike(struct wire_call *call, uint32_t type, size_t count, uint32_t length)
{
    wire_make_header(call);
    call->type = type;
    call->identifiers_len = call->lengths_len = count;
    call->contents_len = count * length;
    for (size_t i = 0; i < count; i++) {
        call->identifiers[i] = (uint32_t)i;
        call->lengths[i] = length;
    }
    random_bytes(call->contents, call->contents_len);
}

// ---- types and values

static void wire_other_types(void)
{
    static const uint32_t others[] = {0x1000, 0x10000, 0x10001, 0x10080, 0x800000, 0x80000000, 0x80000001, 0xffffff00, 0xffffff80,
                                      0xffffff81, 0xffffffff};
    for (size_t i = 0; i < sizeof others / sizeof *others; i++) {
        wire_make_short(&wire_limit);
        wire_limit.type = others[i];
        wire_must_refuse(&wire_limit);
    }
    for (uint32_t type = 0; type < 0x200; type++) { // 0x40, 0x82, 0x100 and 0x180 among them
        const size_t header = type < 2 ? 21 : type == 0x80 || type == 0x81 ? 25 : 0;
        wire_make_alike(&wire_limit, type, 2, 3);
        if (header > 0)
            wire_must_write(&wire_limit, header + 5 + 2 * 7);
        else
            wire_must_refuse(&wire_limit);
    }
}

static const uint32_t wire_too_large[] = {65536, 65537, 65791, 0x20000, 0x1000000, 0x7fffffff, 0x80000000, 0xffff0000, 0xffffffff};

enum { WIRE_TOO_LARGE = sizeof wire_too_large / sizeof *wire_too_large };

// One number set to each value that is too large and back.
static inline void wire_refuse_large(uint32_t *number)
{
    const uint32_t kept = *number;
    for (size_t i = 0; i < WIRE_TOO_LARGE; i++) {
        *number = wire_too_large[i];
        wire_must_refuse(&wire_limit);
    }
    *number = kept;
}

static void wire_large_values(void)
{
    for (size_t i = 0; i < WIRE_TYPES; i++) {
        wire_make_alike(&wire_limit, wire_types[i], 3, 2);
        wire_limit.service = wire_limit.options = wire_limit.identifiers[2] = 65535;
        wire_must_write(&wire_limit, (i < 2 ? 21 : 25) + 5 + 3 * 6);
        wire_refuse_large(&wire_limit.service);
        wire_refuse_large(&wire_limit.options);
        wire_refuse_large(&wire_limit.identifiers[2]);
        wire_limit.identifiers_len = wire_limit.lengths_len = 1;
        wire_limit.contents_len = 2;
        wire_refuse_large(&wire_limit.identifiers[0]);
    }
}

// ---- order

static inline void wire_refuse_pair(uint32_t first, uint32_t second)
{
    wire_make_alike(&wire_limit, wire_types[random_below(WIRE_TYPES)], 2, (uint32_t)random_below(4));
    wire_limit.identifiers[0] = first;
    wire_limit.identifiers[1] = second;
    wire_must_refuse(&wire_limit);
}

// In lists of each length two neighbours are one twice, or exchanged.
static void wire_out_of_order(void)
{
    static const uint32_t pairs[][2] = {
        {3, 2}, {2, 2}, {0, 0}, {1, 0}, {256, 255}, {256, 1}, {65535, 0}, {65535, 65535}, {65535, 65534}};
    for (size_t i = 0; i < sizeof pairs / sizeof *pairs; i++)
        wire_refuse_pair(pairs[i][0], pairs[i][1]);
    for (size_t count = 2; count <= WIRE_MOST_COUNT; count += count < 6 || full_run ? 1 : 83)
        for (size_t made = 0; made < 3; made++) {
            wire_make(&wire_limit, count, WIRE_SMALL);
            const size_t at = made == 0 ? 0 : made == 1 ? count - 2 : random_below(count - 1);
            uint32_t *pair = wire_limit.identifiers + at, first = pair[0];
            pair[0] = pair[1];
            wire_must_refuse(&wire_limit);
            pair[1] = first;
            wire_must_refuse(&wire_limit);
        }
}

// ---- sizes

static void wire_content_sizes(void)
{
    static const uint32_t over[] = {256, 257, 511, 512, 65280, 65526, 65535, 65536, 65791};
    for (uint32_t length = 0; length <= 255; length++) {
        wire_make_alike(&wire_limit, 0x00, 1, length);
        wire_must_write(&wire_limit, 21 + 5 + 4 + length); // the longest has 285 bytes
    }
    for (size_t i = 0; i < sizeof over / sizeof *over; i++)
        for (size_t type = 0; type < WIRE_TYPES; type++) {
            wire_make_alike(&wire_limit, wire_types[type], 1, over[i]);
            wire_must_refuse(&wire_limit);
        }
}

static void wire_counts(void)
{
    for (size_t count = 0; count < WIRE_MOST_ITEMS; count++) {
        wire_make_alike(&wire_limit, 0x01, count, 0);
        if (count <= 255)
            wire_must_write(&wire_limit, 21 + 5 + 4 * count); // the longest has 1,046 bytes
        else
            wire_must_refuse(&wire_limit);
    }
}

// A body of so many bytes in all: 254 or 255 items, the first ones full.
static inline void wire_try_body(uint32_t type, size_t count, size_t body)
{
    size_t left = body - 5 - 4 * count;
    wire_make_alike(&wire_limit, type, count, 0);
    wire_limit.contents_len = left;
    for (size_t i = 0; i < count; i++) {
        wire_limit.lengths[i] = (uint32_t)(left < 255 ? left : 255);
        left -= wire_limit.lengths[i];
    }
    if (body > 65535)
        wire_must_refuse(&wire_limit);
    else
        wire_must_write(&wire_limit, (type < 2 ? 21 : 25) + body);
    if (body == 65535)
        wire_compare_read(wire_out, (type < 2 ? 21 : 25) + body);
}

static void wire_body_sizes(void)
{
    const size_t around = full_run ? 20 : 1;
    for (size_t i = 0; i < WIRE_TYPES; i++) {
        for (size_t body = 65535 - around; body <= 65536 + around; body++)
            for (size_t count = 254; count <= 255; count++)
                wire_try_body(wire_types[i], count, body);
        wire_make_alike(&wire_limit, wire_types[i], 253, 255);
        wire_must_write(&wire_limit, (i < 2 ? 21 : 25) + 65532);
        wire_compare_read(wire_out, (i < 2 ? 21 : 25) + 65532);
        wire_limit.lengths[253] = 0;
        wire_limit.identifiers[253] = 253;
        wire_limit.identifiers_len = wire_limit.lengths_len = 254;
        wire_must_refuse(&wire_limit);
    }
    wire_make_alike(&wire_limit, 0x80, 255, 255); // 66,050 bytes
    wire_must_refuse(&wire_limit);
}

#endif
