// Messages whose header does not agree with itself or with what follows, and outputs of the reader that are too short.
#ifndef WIRE_HEADERS_H
#define WIRE_HEADERS_H

#include "wire_changes.h"

// A header of this length and type, as the bytes say, with a MAC behind it or none.
static inline void wire_compare_header(uint8_t length, uint8_t type, int with_mac)
{
    static struct wire_buffer whole;
    static const uint8_t body[] = {0, 1, 0, 0, 1, 0, 0, 2, 1, 7};
    whole.n = 0;
    wire_put(&whole, length, 1);
    wire_put(&whole, type, 1);
    wire_put(&whole, 1, 1);
    wire_put(&whole, wire_eight_bytes(), 8);
    wire_put(&whole, wire_eight_bytes(), 8);
    wire_put(&whole, sizeof body, 2);
    if (with_mac)
        wire_put(&whole, wire_mac(whole.bytes, whole.n, body, sizeof body), 4);
    wire_put_bytes(&whole, body, sizeof body);
    int right = with_mac ? length == 25 && (type == 0x80 || type == 0x81) : length == 21 && (type == 0x00 || type == 0x01);
    require((wire_compare_read(whole.bytes, whole.n) == WIRE_RIGHT) == right, "a header read as another");
    wire_fit_body(&whole);
    wire_compare_changed(&whole);
}

static void wire_each_header(void)
{
    const unsigned least = full_run ? 0 : 20, most = full_run ? 40 : 26;
    for (unsigned length = least; length <= most; length++)
        for (unsigned type = 0; type < 256; type++)
            for (int with_mac = 0; with_mac < 2; with_mac++)
                wire_compare_header((uint8_t)length, (uint8_t)type, with_mac);
}

// Every body length with a body of 27 bytes, of one type without a MAC and of one with; every count with three items.
static void wire_each_body_length(void)
{
    static struct wire_buffer right;
    for (size_t type = 0; type < WIRE_TYPES; type++) {
        wire_make_right(&right, type, 2);
        const size_t header = right.n - 27, step = full_run && (type == 0 || type == 3) ? 1 : 397;
        for (size_t length = 0; length <= 65535; length += length < 64 ? 1 : step) {
            wire_put_at(&right, WIRE_BODY_LENGTH_AT, length, 2);
            wire_compare_changed(&right);
        }
        wire_fit_body(&right);
        for (size_t count = 0; count <= 255; count++) {
            wire_put_at(&right, header + 4, count, 1);
            wire_compare_changed(&right);
        }
    }
}

// MACs near the right one: made otherwise, of other bytes or of none.
static void wire_other_macs(void)
{
    static struct wire_buffer right;
    for (size_t type = 2; type < WIRE_TYPES; type++)
        for (size_t shape = 0; shape < WIRE_SHAPES; shape++) {
            wire_make_right(&right, type, shape);
            const uint8_t *bytes = right.bytes, *body = bytes + 25;
            const uint32_t mac = wire_mac(bytes, 21, body, right.n - 25);
            const uint32_t others[] = {0, UINT32_MAX, ~mac, mac << 16 | mac >> 16, mac << 8 | mac >> 24, mac >> 8 | mac << 24,
                                       wire_mac(bytes, 25, body, right.n - 25), wire_mac(bytes, 21, body, 0),
                                       wire_mac(bytes, 0, body, right.n - 25), wire_mac(body, right.n - 25, bytes, 21),
                                       wire_mac(bytes, 0, bytes, 0), wire_mac(bytes, 21, body, right.n - 26)};
            for (size_t i = 0; i < sizeof others / sizeof *others; i++) {
                wire_put_at(&right, WIRE_MAC_AT, others[i], 4);
                require(wire_compare_read(right.bytes, right.n) == (others[i] == mac ? WIRE_RIGHT : WIRE_MAC), "another MAC");
            }
        }
}

// ---- outputs of the reader

// Too few fields are refused before the message is looked at.
static inline void wire_compare_few_fields(const uint8_t *bytes, size_t n)
{
    static struct wire_message message;
    struct wire_lent lending = wire_lend(bytes, n);
    const uint8_t *lent_bytes = n == 0 && one_in(2) ? NULL : lending.bytes;
    enum wire_fault fault = wire_read(lent_bytes, n, &message);
    for (size_t fields_len = 0; fields_len <= DL_MESSAGE_FIELDS + 2; fields_len++)
        wire_compare_fields(lent_bytes, n, fields_len, fault, &message);
    for (size_t fields_len = 0; fields_len <= DL_ITEM_FIELDS + 2; fields_len++)
        for (size_t index = 0; index < 6; index++)
            wire_compare_item(lent_bytes, n, index == 5 ? SIZE_MAX : index, fields_len, fault, &message);
    wire_messages++;
    free(lending.room);
}

static void wire_few_fields_of(struct wire_buffer *right)
{
    wire_compare_few_fields(right->bytes, right->n);
    wire_compare_few_fields(right->bytes, right->n - 1);
    wire_compare_few_fields(right->bytes, 0);
    right->bytes[WIRE_MAC_AT] ^= 1; // a MAC that differs, or a service
    wire_compare_few_fields(right->bytes, right->n);
    right->bytes[2] = 2;
    wire_compare_few_fields(right->bytes, right->n);
}

static void wire_few_fields(void)
{
    for (size_t i = 0; i <= cases / 1000; i++)
        wire_each_right(wire_few_fields_of);
    lend();
    check(refused(dl_message_read(NULL, 0, NULL, 0)), "nothing read into nothing");
    check(refused(dl_message_item(NULL, 0, 0, NULL, 0)), "no item found in nothing");
}

#endif
