// One call of dl_message_read or dl_message_item, compared with wire_reference.h in its code, in all that it wrote and in all that it
// must not write. How often each code came, and each fault, is counted.
#ifndef WIRE_CALLS_H
#define WIRE_CALLS_H

#include "lending.h"
#include "wire_reference.h"

// ---- counts

enum wire_function { WIRE_READ, WIRE_ITEM, WIRE_WRITE, WIRE_FUNCTIONS };

static const char *const wire_names[WIRE_FUNCTIONS] = {"dl_message_read", "dl_message_item", "dl_message_write"};
static const uint16_t wire_codes[] = {DL_DONE, DL_BAD_MESSAGE, DL_BAD_MAC, DL_BAD_ARGUMENT};

enum { WIRE_CODES = sizeof wire_codes / sizeof *wire_codes };

static long wire_came[WIRE_FUNCTIONS][WIRE_CODES], wire_met[WIRE_FAULTS], wire_messages;

static inline void wire_count(enum wire_function function, uint16_t code, enum wire_fault fault)
{
    wire_met[fault]++;
    for (size_t i = 0; i < WIRE_CODES; i++)
        wire_came[function][i] += code == wire_codes[i];
}

// The first bytes of a message in hexadecimal digits, for the first difference.
static inline const char *wire_digits(const uint8_t *bytes, size_t n)
{
    enum { MOST = 80 };
    static char text[2 * MOST + 3];
    char *end = text;
    for (size_t i = 0; i < n && i < MOST; i++)
        end += sprintf(end, "%02x", bytes[i]);
    strcpy(end, n > MOST ? ".." : "");
    return text;
}

// Counts a comparison of one call: what it was to find, what it answered and the message that it was about.
static inline void wire_check(int same, enum wire_function function, enum wire_fault fault, uint16_t code, const uint8_t *bytes,
                              size_t n)
{
    wire_count(function, code, fault);
    check(same, "%s answers %04x where %04x was expected (%s); %zu bytes %s", wire_names[function], code, wire_code(fault),
          wire_fault_names[fault], n, same ? "" : wire_digits(bytes, n));
}

// ---- reading

// A message of n bytes in just so much memory, at any alignment; free `room`.
struct wire_lent {
    uint8_t *room, *bytes;
};

static inline struct wire_lent wire_lend(const uint8_t *bytes, size_t n)
{
    size_t shift = random_below(16);
    struct wire_lent lending = {allocate(shift + n), NULL};
    lending.bytes = lending.room + shift;
    if (n > 0)
        memcpy(lending.bytes, bytes, n);
    return lending;
}

static inline void wire_compare_fields(const uint8_t *bytes, size_t n, size_t fields_len, enum wire_fault fault,
                                       const struct wire_message *message)
{
    lend();
    uint16_t code = dl_message_read(bytes, n, lent_long_words, fields_len);
    if (fields_len < DL_MESSAGE_FIELDS)
        fault = WIRE_FEW_FIELDS;
    const uint64_t fields[] = {message->type, message->caller, message->number, message->service, message->options, message->count};
    int same = fault == WIRE_RIGHT ? gave(code, fields, sizeof fields) : turned_down(code, wire_code(fault));
    wire_check(same, WIRE_READ, fault, code, bytes, n);
}

static inline void wire_compare_item(const uint8_t *bytes, size_t n, size_t index, size_t fields_len, enum wire_fault fault,
                                     const struct wire_message *message)
{
    uint64_t fields[DL_ITEM_FIELDS] = {0};
    if (fields_len < DL_ITEM_FIELDS)
        fault = WIRE_FEW_FIELDS;
    else if (fault == WIRE_RIGHT && index >= message->count)
        fault = WIRE_NO_ITEM;
    if (fault == WIRE_RIGHT) {
        const struct wire_item *item = &message->items[index];
        fields[0] = item->identifier;
        fields[1] = (uint64_t)(item->content - bytes);
        fields[2] = item->length;
    }
    lend();
    uint16_t code = dl_message_item(bytes, n, index, lent_long_words, fields_len);
    int same = fault == WIRE_RIGHT ? gave(code, fields, sizeof fields) : turned_down(code, wire_code(fault));
    wire_check(same, WIRE_ITEM, fault, code, bytes, n);
}

// An index that no message has and that, cut off, would often be that of an item.
static inline size_t wire_huge_index(void)
{
    static const size_t beyond[] = {256, 65536, (size_t)UINT32_MAX + 1, SIZE_MAX / 2 + 1};
    return beyond[random_below(sizeof beyond / sizeof *beyond)] + random_below(3);
}

// Every item and two more. Each call reads the message anew, so that of a very long one the short run asks for some items only.
static inline void wire_compare_items(const uint8_t *bytes, size_t n, enum wire_fault fault, const struct wire_message *message)
{
    const size_t end = fault == WIRE_RIGHT ? message->count + 2 : 3, few = full_run || n < 2000 ? end : 8;
    for (size_t i = 0; i < end; i++)
        if (i + few >= end || one_in(40))
            wire_compare_item(bytes, n, i, DL_ITEM_FIELDS + random_below(4), fault, message);
    wire_compare_item(bytes, n, wire_huge_index(), DL_ITEM_FIELDS, fault, message);
    wire_compare_item(bytes, n, SIZE_MAX, DL_ITEM_FIELDS, fault, message);
}

// Reads a message by both, with all its items.
static inline enum wire_fault wire_compare_read(const uint8_t *bytes, size_t n)
{
    static struct wire_message message;
    struct wire_lent lending = wire_lend(bytes, n);
    enum wire_fault fault = wire_read(lending.bytes, n, &message);
    wire_messages++;
    wire_compare_fields(lending.bytes, n, DL_MESSAGE_FIELDS + random_below(4), fault, &message);
    wire_compare_items(lending.bytes, n, fault, &message);
    require(n == 0 || memcmp(lending.bytes, bytes, n) == 0, "a reader changed the message");
    free(lending.room);
    return fault;
}

#endif
