// Messages written out byte by byte.
#ifndef WIRE_EXAMPLES_H
#define WIRE_EXAMPLES_H

#include "wire_rounds.h"

static inline size_t wire_bytes_of(const char *digits, uint8_t *bytes)
{
    size_t n = 0;
    for (unsigned byte; sscanf(digits + 2 * n, "%2x", &byte) == 1; n++)
        bytes[n] = (uint8_t)byte;
    return n;
}

// The call writes these bytes, and they are read as what it asked for.
static inline void wire_compare_example(const struct wire_call *call, const char *digits)
{
    uint8_t bytes[128];
    const size_t n = wire_bytes_of(digits, bytes);
    size_t written = wire_compare_write(call, n + random_below(20), 1);
    check(written == n && memcmp(wire_out, bytes, n) == 0, "the message %s", digits);
    wire_compare_back(call, bytes, n);
}

// Adds an item whose content is a number in so many bytes.
static inline void wire_add(struct wire_call *call, uint32_t identifier, uint64_t content, uint32_t length)
{
    call->identifiers[call->identifiers_len++] = identifier;
    call->lengths[call->lengths_len++] = length;
    for (uint32_t i = length; i-- > 0;)
        call->contents[call->contents_len++] = (uint8_t)(content >> 8 * i);
}

static inline void wire_start(struct wire_call *call, uint32_t type, uint32_t service, uint32_t options)
{
    call->type = type;
    call->caller = 0;
    call->number = UINT64_C(0x3132333435363738); // "12345678"
    call->service = service;
    call->options = options;
    call->identifiers_len = call->lengths_len = call->contents_len = 0;
}

static void wire_written_out(void)
{
    wire_start(&wire_round, DL_REPLY, 0x0001, 0x0001);
    wire_compare_example(&wire_round, "1501010000000000000000313233343536373800050001000100");
    wire_start(&wire_round, DL_REPLY_WITH_MAC, 0x010b, 0x010b);
    wire_add(&wire_round, 0x0102, 1800000000, 8);
    wire_add(&wire_round, 0x0104, 2, 1);
    wire_add(&wire_round, 0x0105, 2, 1);
    wire_compare_example(&wire_round, "19810100000000000000003132333435363738001b1fdfc388"
                                      "010b010b0300010208000000006b49d20000010401020001050102");
    wire_start(&wire_round, DL_REQUEST, 0x0102, 0x0000);
    wire_add(&wire_round, 0x0002, 7, 8);
    wire_compare_example(&wire_round, "1500010000000000000000313233343536373800110102000001000002080000000000000007");
}

// What the header says of its numbers.
static void wire_header_numbers(void)
{
    check(DL_REQUEST == 0x00 && DL_REPLY == 0x01 && DL_REQUEST_WITH_MAC == 0x80 && DL_REPLY_WITH_MAC == 0x81, "the types");
    check(DL_MESSAGE_FIELDS == 6 && DL_ITEM_FIELDS == 3, "the numbers of fields");
    check(DL_MOST_MESSAGE == 25 + WIRE_MOST_BODY, "the longest message");
}

#endif
