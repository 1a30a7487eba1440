// Outputs of dl_message_write that are too short or not there, and calls with several faults at once.
#ifndef WIRE_OUTPUTS_H
#define WIRE_OUTPUTS_H

#include "wire_limits.h"

static void wire_short_outputs(void)
{
    for (size_t i = 0; i <= cases / 50; i++) {
        wire_make_short(&wire_limit);
        const size_t n = wire_length_of(&wire_limit), step = full_run || n < 50 ? 1 : 17;
        for (size_t out_len = 0; out_len < n; out_len += step)
            require(wire_compare_write(&wire_limit, out_len, 1) == 0, "a message in too short an output");
        for (size_t out_len = n; out_len < n + 9; out_len++)
            require(wire_compare_write(&wire_limit, out_len, 1) == n, "no message in an output that is long enough");
    }
}

// 24 bytes is what is left of the longest message's length in 16 bits.
static void wire_short_outputs_of_long(void)
{
    static const size_t lacking[] = {1, 2, 3, 4, 20, 21, 24, 25, 26, 255, 256, 32768, 65535, 65536, 65560};
    wire_make(&wire_limit, 255, WIRE_FULL);
    wire_limit.type = 0x81;
    wire_must_write(&wire_limit, DL_MOST_MESSAGE);
    for (size_t i = 0; i < sizeof lacking / sizeof *lacking; i++)
        require(wire_compare_write(&wire_limit, DL_MOST_MESSAGE - lacking[i], 1) == 0, "a long message in too short an output");
}

static void wire_nothing_for_the_length(void)
{
    for (size_t i = 0; i <= cases / 10; i++) {
        wire_make_short(&wire_limit);
        require(wire_compare_write(&wire_limit, wire_length_of(&wire_limit) + random_below(3), 0) == 0, "no room for the length");
    }
}

// Null for every slice that is empty.
static void wire_nothing_at_all(void)
{
    uint8_t out[64];
    for (size_t i = 0; i < WIRE_TYPES; i++) {
        const size_t n = i < 2 ? 26 : 30;
        lend();
        memset(out, 0xa5, sizeof out);
        check(dl_message_write(wire_types[i], 0, 0, 0, 0, NULL, 0, NULL, 0, NULL, 0, out, sizeof out, lent_long_words, 1) == DL_DONE
              && lent_long_words[0] == n && out[n] == 0xa5, "no items");
        require(wire_compare_read(out, n) == WIRE_RIGHT, "no items are not read");
        lend();
        uint16_t code = dl_message_write(wire_types[i], 0, 0, 0, 0, NULL, 0, NULL, 0, NULL, 0, NULL, 0, lent_long_words, 1);
        check(refused(code), "no output");
        code = dl_message_write(wire_types[i], 0, 0, 0, 0, NULL, 0, NULL, 0, NULL, 0, NULL, 0, NULL, 0);
        check(refused(code), "nothing at all");
    }
}

// ---- several faults at once

struct wire_outputs {
    size_t out_len, written_len;
};

static inline void wire_spoil_item(struct wire_call *call)
{
    if (call->identifiers_len == 0)
        return;
    const size_t i = random_below(call->identifiers_len);
    switch (random_below(6)) {
    case 0: call->identifiers[i] += 65536; break;
    case 1: call->identifiers[i] = call->identifiers[0]; break;
    case 2: call->identifiers[i] = wire_sixteen_bits(); break;
    case 3: call->lengths[i] += 256; break;
    case 4: call->lengths[i] += (uint32_t)random_below(3) - 1; break;
    default:
        call->lengths[i] += 256;
        call->contents_len += 256;
    }
}

// A fault or, now and then, none.
static inline void wire_spoil(struct wire_call *call, struct wire_outputs *outputs)
{
    switch (random_below(10)) {
    case 0: call->type = (uint32_t)random_number(); break;
    case 1: call->type += 256; break;
    case 2: call->service += 65536; break;
    case 3: call->options ^= (uint32_t)1 << random_below(32); break;
    case 4: call->identifiers_len += 1; break;
    case 5: call->lengths_len = random_below(6); break;
    case 6: call->contents_len += 1 + random_below(2); break;
    case 7: outputs->out_len = random_below(outputs->out_len + 1); break;
    case 8: outputs->written_len = random_below(2); break;
    default: wire_spoil_item(call);
    }
}

static void wire_several_faults(void)
{
    for (size_t i = 0; i < cases; i++) {
        wire_make_short(&wire_limit);
        struct wire_outputs outputs = {wire_length_of(&wire_limit) + random_below(3), 1};
        for (size_t faults = 1 + random_below(4); faults > 0; faults--)
            wire_spoil(&wire_limit, &outputs);
        wire_compare_write(&wire_limit, outputs.out_len, outputs.written_len);
    }
}

#endif
