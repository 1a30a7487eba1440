// A message read and served in C over OpenSSL, as a good program without the proved library would do it: the peer of dl_serve_message. It judges any
// message as document 02, request 1, says, and makes the calls that desk_peer.h has.
#ifndef MESSAGE_PEER_H
#define MESSAGE_PEER_H

#include "../tests/library/message_reference.h"
#include "desk_peer.h"

// A bit for each identifier that a call has; one for all others, and for an item that comes twice.
enum { PEER_IDENTIFIERS = 8, PEER_ODD = 1 << PEER_IDENTIFIERS };

#define PEER_BIT(identifier) (1u << (identifier))
#define PEER_SERIAL PEER_BIT(ITEM_SERIAL)
#define PEER_SINGLE (PEER_SERIAL | PEER_BIT(ITEM_PASSWORD))
#define PEER_PAIR (PEER_SINGLE | PEER_BIT(ITEM_FOLLOWING))
#define PEER_BY_CHALLENGE (PEER_SERIAL | PEER_BIT(ITEM_CHALLENGE) | PEER_BIT(ITEM_RESPONSE))

struct peer_items {
    unsigned seen;
    const uint8_t *content[PEER_IDENTIFIERS];
    uint8_t len[PEER_IDENTIFIERS];
};

static inline uint16_t peer_two(const uint8_t *bytes)
{
    return (uint16_t)(bytes[0] << 8 | bytes[1]);
}

// Gives 0 for an attribute or lengths that are not as they should be.
static inline int peer_read_items(struct peer_items *items, const uint8_t *at, const uint8_t *end, unsigned count)
{
    items->seen = 0;
    for (; count > 0; count--) {
        if (end - at < 4 || at[0] != 0 || end - at - 4 < at[3])
            return 0;
        unsigned identifier = peer_two(at + 1), bit = identifier < PEER_IDENTIFIERS ? PEER_BIT(identifier) : PEER_ODD;
        items->seen |= items->seen & bit ? PEER_ODD : bit;
        if (bit != PEER_ODD) {
            items->content[identifier] = at + 4;
            items->len[identifier] = at[3];
        }
        at += 4 + at[3];
    }
    return at == end;
}

// The items of a service, and its call; no items without one.
static inline unsigned peer_items_of(uint16_t service, enum desk_name *name)
{
    switch (service) {
    case 0x0001: *name = CALL_LOGIN; return PEER_SINGLE;
    case 0x0002: *name = CALL_CHALLENGE_LOGIN; return PEER_BY_CHALLENGE;
    case 0x0101: *name = CALL_ACTIVATE; return PEER_PAIR;
    case 0x0102: *name = CALL_LOCK; return PEER_SERIAL;
    case 0x0103: *name = CALL_UNLOCK; return PEER_SINGLE;
    case 0x0104: *name = CALL_SUSPEND; return PEER_SERIAL;
    case 0x0105: *name = CALL_RESUME; return PEER_SINGLE;
    case 0x0108: *name = CALL_SYNC; return PEER_PAIR;
    case 0x010a: *name = CALL_VOID; return PEER_SERIAL;
    case 0x010b: *name = CALL_QUERY; return PEER_SERIAL;
    default: return 0;
    }
}

static inline int peer_mac_fits(const uint8_t *message, size_t len)
{
    const size_t behind = MESSAGE_HEAD + MESSAGE_MAC;
    uint8_t digest[DL_SM3_DIGEST_BYTES];
    EVP_MD_CTX *context = otp_library.digest;
    otp_require(EVP_DigestInit_ex2(context, otp_library.sm3, NULL) && EVP_DigestUpdate(context, message, MESSAGE_HEAD)
                && EVP_DigestUpdate(context, message + behind, len - behind) && EVP_DigestFinal_ex(context, digest, NULL));
    return memcmp(digest + sizeof digest - MESSAGE_MAC, message + MESSAGE_HEAD, MESSAGE_MAC) == 0;
}

static inline void peer_type(struct window_typed *typed, const struct peer_items *items, enum message_identifier identifier)
{
    typed->len = items->len[identifier];
    memcpy(typed->bytes, items->content[identifier], typed->len);
}

static inline uint16_t peer_make_call(struct peer_row *table, struct desk_call *call, const struct peer_items *items, int64_t *values)
{
    uint64_t serial;
    memcpy(&serial, items->content[ITEM_SERIAL], sizeof serial);
    call->serial = be64toh(serial);
    if (call->name == CALL_QUERY)
        return peer_query(table, call, values);
    if (!(items->seen & PEER_BIT(ITEM_PASSWORD)))
        return DL_NO_SERVICE; // desk_peer.h has no such call
    peer_type(&call->password, items, ITEM_PASSWORD);
    if (items->seen & PEER_BIT(ITEM_FOLLOWING))
        peer_type(&call->following, items, ITEM_FOLLOWING);
    return peer_checked_call(table, call, values);
}

PEER_CALL peer_serve_message(struct peer_row *table, const struct message_sent *sent, int64_t *values)
{
    const uint8_t *message = sent->bytes;
    struct desk_call call;
    struct peer_items items;
    if (sent->values_len < DL_MOST_VALUES)
        return DL_BAD_ARGUMENT;
    if (sent->len < MESSAGE_HEAD)
        return DL_BAD_MESSAGE;
    int has_mac = message[1] == REQUEST_WITH_MAC;
    size_t head_len = MESSAGE_HEAD + (has_mac ? MESSAGE_MAC : 0);
    if ((!has_mac && message[1] != REQUEST) || message[0] != head_len || message[2] != 1 || sent->len < head_len + 5
        || sent->len - head_len != peer_two(message + MESSAGE_HEAD - 2))
        return DL_BAD_MESSAGE;
    const uint8_t *body = message + head_len;
    if (!peer_read_items(&items, body + 5, message + sent->len, body[4]))
        return DL_BAD_MESSAGE;
    uint16_t options = peer_two(body + 2);
    unsigned wanted = peer_items_of(peer_two(body), &call.name);
    if (wanted != 0
        && (items.seen != wanted || items.len[ITEM_SERIAL] != MESSAGE_SERIAL_LEN
            || (call.name == CALL_SYNC ? options != 1 && options != 2 : options != 0)))
        return DL_BAD_MESSAGE;
    if (has_mac && !peer_mac_fits(message, sent->len))
        return DL_BAD_MAC;
    if (wanted == 0)
        return DL_NO_SERVICE;
    call.table_len = sent->table_len;
    call.values_len = sent->values_len;
    call.now = sent->now;
    call.choice = (uint8_t)options;
    return peer_make_call(table, &call, &items, values);
}

#endif
