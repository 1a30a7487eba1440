// Lengths of 2^32 and more, of which the last 16 or 32 bits are those of a right call; the memory is mapped and mostly not there.
#ifndef WIRE_GREAT_H
#define WIRE_GREAT_H

#include "wire_slices.h"

static const size_t wire_great = (size_t)1 << 32;

// ---- reading

// A right message with zeros behind it.
static inline void wire_compare_padded(uint8_t *zeros, size_t n)
{
    static struct wire_message message;
    lend();
    uint16_t code = dl_message_read(zeros, n, lent_long_words, DL_MESSAGE_FIELDS);
    wire_check(turned_down(code, DL_BAD_MESSAGE), WIRE_READ, wire_read(zeros, n, &message), code, zeros, n);
    code = dl_message_item(zeros, n, 0, lent_long_words, DL_ITEM_FIELDS);
    wire_check(turned_down(code, DL_BAD_MESSAGE), WIRE_ITEM, wire_read(zeros, n, &message), code, zeros, n);
}

static inline void wire_compare_behind(size_t behind)
{
    for (size_t i = 0; i < WIRE_TYPES; i++) {
        wire_make_alike(&wire_limit, wire_types[i], 2, 5);
        const size_t n = wire_compare_written(&wire_limit);
        uint8_t *zeros = map_zeros(behind + n, PROT_READ | PROT_WRITE);
        memcpy(zeros, wire_out, n);
        wire_compare_padded(zeros, behind + n);
        munmap(zeros, behind + n);
    }
}

static void wire_long_messages(void)
{
    static const size_t behind[] = {1, 5, 4096, 65535, 65536, 65537, 131072};
    for (size_t i = 0; i < sizeof behind / sizeof *behind; i++)
        wire_compare_behind(behind[i]);
}

static void wire_great_messages(void)
{
    wire_compare_behind(wire_great);
    wire_compare_behind(2 * wire_great);
}

// ---- writing

// Whether the call is refused with nothing written; `identifiers` and `lengths` have these numbers of elements.
static inline void wire_refuse_great(const uint32_t *identifiers, size_t identifiers_len, const uint32_t *lengths, size_t lengths_len,
                                     const uint8_t *contents, size_t contents_len)
{
    wire_lend_out(300);
    lend();
    uint16_t code = dl_message_write(0x01, 2, 3, 4, 5, identifiers, identifiers_len, lengths, lengths_len, contents, contents_len,
                                     wire_out, 300, lent_long_words, 1);
    int same = refused(code) && wire_wrote(NULL, 0, 300);
    wire_check(same, WIRE_WRITE, WIRE_SLICES, code, NULL, 0);
}

static void wire_great_slices(void)
{
    static const uint32_t three[] = {1, 2, 3};
    const size_t size = WORD * (wire_great + 3);
    uint32_t *great = (uint32_t *)map_zeros(size, PROT_READ | PROT_WRITE);
    uint8_t *contents = (uint8_t *)great + 16;
    memcpy(great, three, sizeof three);
    wire_refuse_great(three, 3, three, 3, contents, wire_great + 6);
    wire_refuse_great(NULL, 0, NULL, 0, contents, wire_great);
    wire_refuse_great(three, 3, great, wire_great + 3, contents, 6);
    wire_refuse_great(great, wire_great + 3, three, 3, contents, 6);
    wire_refuse_great(great, wire_great + 3, great, wire_great + 3, contents, 6);
    munmap(great, size);
}

// 2^32 + 1 lengths of 2^32 - 1 and one of 7 more: their sum is 2^64 + 6. The first 2^32 are one piece of memory mapped 1,024 times.
static void wire_sum_of_64_bits(void)
{
    const size_t piece = (size_t)1 << 24, size = WORD * (wire_great + 2);
    uint8_t *ones = memset(allocate(piece), 0xff, piece), contents[6] = {0};
    uint32_t *lengths = (uint32_t *)map_zeros(size, PROT_READ | PROT_WRITE);
    FILE *file = tmpfile();
    if (file == NULL || fwrite(ones, 1, piece, file) != piece || fflush(file) != 0)
        die("no file of ones");
    for (size_t at = 0; at < WORD * wire_great; at += piece)
        if (mmap((uint8_t *)lengths + at, piece, PROT_READ, MAP_SHARED | MAP_FIXED, fileno(file), 0) == MAP_FAILED)
            die("cannot map ones");
    lengths[wire_great] = UINT32_MAX;
    lengths[wire_great + 1] = 7;
    wire_refuse_great(lengths, wire_great + 2, lengths, wire_great + 2, contents, sizeof contents);
    munmap(lengths, size);
    fclose(file);
    free(ones);
}

// An output of 2^32 bytes is long enough, whatever its last 32 bits are.
static void wire_great_output(void)
{
    wire_make_alike(&wire_limit, 0x81, 2, 5);
    const size_t n = wire_compare_written(&wire_limit), size = wire_great + n;
    uint8_t *out = map_zeros(size, PROT_READ | PROT_WRITE), *end = out + n;
    for (size_t lacking = n; lacking > 0; lacking--) {
        memset(out, 0, n);
        lend();
        uint16_t code = wire_make_call(&wire_limit, out, size - lacking, lent_long_words, 1);
        const uint64_t length = n;
        int rest_stays = *end == 0 && memcmp(end, end + 1, 4095) == 0;
        int same = gave(code, &length, sizeof length) && memcmp(out, wire_out, n) == 0 && rest_stays;
        wire_check(same, WIRE_WRITE, WIRE_RIGHT, code, out, n);
    }
    munmap(out, size);
}

#endif
