// Slices of dl_message_write that do not fit together, also where sums and lengths cut off to fewer bits would.
#ifndef WIRE_SLICES_H
#define WIRE_SLICES_H

#include "wire_limits.h"

static inline size_t wire_sum(const uint32_t *lengths, size_t n)
{
    size_t sum = 0;
    for (size_t i = 0; i < n; i++)
        sum += lengths[i];
    return sum;
}

// Every number of identifiers with every number of lengths, contents for the ones or the others.
static void wire_counts_that_differ(void)
{
    enum { MOST = 6 };
    for (size_t identifiers = 0; identifiers <= MOST; identifiers++)
        for (size_t lengths = 0; lengths <= MOST; lengths++)
            for (size_t contents = 0; contents <= MOST; contents++) {
                wire_make_alike(&wire_limit, wire_types[random_below(WIRE_TYPES)], MOST, (uint32_t)random_below(5));
                wire_limit.identifiers_len = identifiers;
                wire_limit.lengths_len = lengths;
                wire_limit.contents_len = wire_sum(wire_limit.lengths, contents);
                if (identifiers != lengths)
                    wire_must_refuse(&wire_limit);
                else
                    wire_compare_written(&wire_limit);
            }
}

static void wire_sums_that_differ(void)
{
    for (size_t i = 0; i <= cases / 50; i++) {
        wire_make_short(&wire_limit);
        const size_t right = wire_limit.contents_len;
        for (wire_limit.contents_len = 0; wire_limit.contents_len <= 2 * right + 2; wire_limit.contents_len++)
            if (wire_limit.contents_len != right)
                wire_must_refuse(&wire_limit);
        wire_limit.contents_len = right;
        require(wire_compare_written(&wire_limit) > 0, "slices that fit are refused");
    }
}

// Lengths whose sum would be that of the contents, were they cut off to 8, 16 or 32 bits.
static void wire_sums_that_wrap(void)
{
    static const struct {
        uint32_t lengths[3];
        size_t contents_len;
    } wraps[] = {
        {{0xffffffff, 4, 0}, 3}, {{4, 0xffffffff, 0}, 3}, {{0x80000000, 0x80000000, 3}, 3}, {{0xffffff00, 0x100, 0}, 0},
        {{0xffffffff, 0xffffffff, 2}, 0}, {{0xffffffff, 0xffffffff, 12}, 10}, {{0xffffff01, 255, 7}, 7}, {{0xffffff01, 255, 0}, 0},
        {{0x103, 0, 0}, 3}, {{0x10003, 0, 0}, 3}, {{0x100, 0, 0}, 0}, {{0xffffffff, 0, 0}, 255}, {{255, 1, 0}, 0},
        {{200, 100, 0}, 44}, {{0x7fffffff, 0x7fffffff, 2}, 0}, {{0xffffffff, 1, 0}, 0}};
    for (size_t i = 0; i < sizeof wraps / sizeof *wraps; i++)
        for (size_t type = 0; type < WIRE_TYPES; type++) {
            wire_make_alike(&wire_limit, wire_types[type], 3, 0);
            memcpy(wire_limit.lengths, wraps[i].lengths, sizeof wraps[i].lengths);
            wire_limit.contents_len = wraps[i].contents_len;
            wire_must_refuse(&wire_limit);
        }
}

// Slices that are only read may be the same memory: identifiers that are the lengths too, and their bytes the contents.
static void wire_slices_in_one(void)
{
    static const uint32_t numbers[] = {1, 2, 9};
    wire_make_alike(&wire_limit, 0x80, 3, 0);
    memcpy(wire_limit.identifiers, numbers, sizeof numbers);
    memcpy(wire_limit.lengths, numbers, sizeof numbers);
    memcpy(wire_limit.contents, numbers, sizeof numbers);
    wire_limit.contents_len = sizeof numbers;
    const size_t n = wire_compare_written(&wire_limit);
    uint8_t *expected = copy_of(wire_out, n);
    lend();
    memset(wire_out, 0, n);
    uint16_t code = dl_message_write(0x80, wire_limit.caller, wire_limit.number, wire_limit.service, wire_limit.options, numbers, 3,
                                     numbers, 3, (const uint8_t *)numbers, sizeof numbers, wire_out, n, lent_long_words, 1);
    check(n == 25 + 5 + 3 * 4 + 12 && code == DL_DONE && lent_long_words[0] == n && memcmp(wire_out, expected, n) == 0,
          "slices in one memory");
    free(expected);
}

#endif
