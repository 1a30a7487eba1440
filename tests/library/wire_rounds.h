// Messages written and read again: those that the library's writer writes, and others that its reader alone takes.
#ifndef WIRE_ROUNDS_H
#define WIRE_ROUNDS_H

#include "wire_making.h"

static struct wire_call wire_round;

// These bytes, read by both, are what the call asked for.
static inline void wire_compare_back(const struct wire_call *call, const uint8_t *bytes, size_t n)
{
    static struct wire_message asked, read;
    wire_asks_for(call, &asked);
    require(wire_compare_read(bytes, n) == WIRE_RIGHT, "what was written is refused");
    require(wire_read(bytes, n, &read) == WIRE_RIGHT && wire_same(&asked, &read), "what was written comes back changed");
}

static inline void wire_compare_round(void)
{
    size_t n = wire_compare_written(&wire_round);
    require(n > 0, "a message that can be written is refused");
    wire_compare_back(&wire_round, wire_out, n);
}

// ---- by the library's writer

static void wire_short_rounds(void)
{
    for (size_t i = 0; i < cases; i++) {
        wire_make_short(&wire_round);
        wire_compare_round();
    }
}

// Every number of items, their contents mostly short.
static void wire_rounds_of_many_items(void)
{
    const size_t step = full_run ? 1 : 50;
    for (size_t made = 0; made < cases; made += 10000)
        for (size_t count = 0; count <= WIRE_MOST_COUNT; count += step) {
            wire_make(&wire_round, count, WIRE_SMALL);
            wire_compare_round();
        }
}

static void wire_long_rounds(void)
{
    for (size_t i = 0; i <= cases / 250; i++) {
        wire_make_long(&wire_round);
        wire_compare_round();
    }
}

// ---- by wire_reference.h alone

// Reads what the reference makes of a call whose items need not rise.
static inline void wire_compare_formed(const struct wire_call *call)
{
    static struct wire_message asked;
    static struct wire_buffer whole;
    require(wire_asks_for(call, &asked) && wire_form(&asked, &whole) == WIRE_RIGHT, "a call without a message");
    wire_compare_back(call, whole.bytes, whole.n);
    if (!wire_rises(&asked))
        wire_compare_write(call, whole.n, 1);
}

static void wire_any_items(void)
{
    for (size_t i = 0; i < cases; i++) {
        wire_make_short(&wire_round);
        wire_make_any(wire_round.identifiers, wire_round.identifiers_len);
        wire_compare_formed(&wire_round);
    }
}

static void wire_many_any_items(void)
{
    for (size_t i = 0; i <= cases / 1000; i++) {
        wire_make_long(&wire_round);
        wire_make_any(wire_round.identifiers, wire_round.identifiers_len);
        wire_compare_formed(&wire_round);
    }
}

// Every service and every options, each once.
static void wire_any_services(void)
{
    const uint32_t step = full_run ? 1 : 997;
    for (uint32_t number = 0; number <= 65535; number += step) {
        wire_make(&wire_round, random_below(2), WIRE_SMALL);
        wire_round.service = number;
        wire_round.options = number * 40503 % 65536;
        wire_compare_formed(&wire_round);
        wire_compare_round();
    }
}

#endif
