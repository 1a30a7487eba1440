// A message of GM/T 0021-2012, Annex D, as wire_reference.h reads and writes it: its fields, its types, its MAC over OpenSSL's SM3.
#ifndef WIRE_MESSAGE_H
#define WIRE_MESSAGE_H

#include "testing.h"

#include <openssl/evp.h>

// More items, and more bytes, than a message can have, so that too much can be asked for.
enum { WIRE_MOST_ITEMS = 300, WIRE_ROOM = 80000, WIRE_VERSION = 1 };

// What is wrong with a message or a call. Down to the MAC it is found by the reader.
enum wire_fault {
    WIRE_RIGHT,
    WIRE_ENDS, WIRE_TYPE, WIRE_HEADER, WIRE_OTHER_VERSION, WIRE_BODY, WIRE_LEFT_OVER, WIRE_ATTRIBUTE,
    WIRE_MAC,
    WIRE_NO_ITEM, WIRE_FEW_FIELDS,
    WIRE_SLICES, WIRE_NO_TYPE, WIRE_VALUE, WIRE_ORDER, WIRE_SHORT, WIRE_NOT_WRITTEN,
    WIRE_FAULTS
};

static const char *const wire_fault_names[WIRE_FAULTS] = {
    "nothing wrong",
    "it ends too soon", "its type", "its header's length", "its version", "its body's length", "bytes behind its items",
    "an attribute", "its MAC",
    "no such item", "too few fields",
    "slices that do not fit together", "the type", "a value too large", "items that do not rise", "too short an output",
    "no room for the length"};

struct wire_item {
    uint64_t identifier;
    const uint8_t *content;
    size_t length;
};

// Its numbers are wide: what a field cannot hold is for the writer to find.
struct wire_message {
    uint64_t type, caller, number, service, options;
    size_t count;
    struct wire_item items[WIRE_MOST_ITEMS];
};

// Equal in every field, every item and every byte of a content.
static inline int wire_same(const struct wire_message *a, const struct wire_message *b)
{
    if (a->type != b->type || a->caller != b->caller || a->number != b->number || a->service != b->service
        || a->options != b->options || a->count != b->count)
        return 0;
    for (size_t i = 0; i < a->count; i++) {
        const struct wire_item *one = &a->items[i], *other = &b->items[i];
        if (one->identifier != other->identifier || one->length != other->length
            || memcmp(one->content, other->content, one->length) != 0)
            return 0;
    }
    return 1;
}

static inline uint16_t wire_code(enum wire_fault fault)
{
    if (fault == WIRE_RIGHT)
        return 0;
    return fault < WIRE_MAC ? 0x9001 : fault == WIRE_MAC ? 0x9002 : 0x9005;
}

// The length of the header of a type, 0 if the type is not named.
static inline size_t wire_header_length(uint64_t type)
{
    switch (type) {
    case 0x00: case 0x01: return 21;
    case 0x80: case 0x81: return 25;
    default: return 0;
    }
}

static inline int wire_has_mac(uint64_t type)
{
    return wire_header_length(type) == 25;
}

static inline uint32_t wire_mac(const uint8_t *header, size_t header_length, const uint8_t *body, size_t body_length)
{
    static EVP_MD *sm3;
    static EVP_MD_CTX *context;
    uint8_t hash[EVP_MAX_MD_SIZE];
    unsigned n = 0;
    uint32_t mac = 0;
    if (context == NULL) {
        sm3 = EVP_MD_fetch(NULL, "SM3", NULL);
        context = EVP_MD_CTX_new();
    }
    if (EVP_DigestInit_ex2(context, sm3, NULL) != 1 || EVP_DigestUpdate(context, header, header_length) != 1
        || EVP_DigestUpdate(context, body, body_length) != 1 || EVP_DigestFinal_ex(context, hash, &n) != 1)
        die("OpenSSL has no SM3");
    for (unsigned i = n - 4; i < n; i++)
        mac = mac << 8 | hash[i];
    return mac;
}

#endif
