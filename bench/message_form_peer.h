// Messages read and written in C over OpenSSL, as a good program without the proved library would do it: the peer of dl_message_read, dl_message_item
// and dl_message_write. It judges as the C header says, and a refusal writes nothing.
#ifndef MESSAGE_FORM_PEER_H
#define MESSAGE_FORM_PEER_H

#include "message_peer.h"

enum { PEER_EMPTY_BODY = 5, PEER_ITEM_HEAD = 4, PEER_MOST_TWO = 0xffff };

// ---- what is read: numbers as wide as they are in the message, and contents where they lie in it

struct peer_heading {
    uint64_t caller, number;
    uint16_t service, options;
    uint8_t type, count;
};

struct peer_place {
    const uint8_t *content;
    uint16_t identifier;
    uint8_t len;
};

static inline uint64_t peer_eight(const uint8_t *bytes)
{
    uint64_t number;
    memcpy(&number, bytes, sizeof number);
    return be64toh(number);
}

static inline int peer_is_named(uint32_t type)
{
    return type == REQUEST || type == REPLY || type == REQUEST_WITH_MAC || type == REPLY_WITH_MAC;
}

static inline int peer_has_mac(uint32_t type)
{
    return type >= REQUEST_WITH_MAC;
}

static inline size_t peer_head_len(uint32_t type)
{
    return MESSAGE_HEAD + (peer_has_mac(type) ? MESSAGE_MAC : 0);
}

// Finds no places where none are asked for. Gives 0 for an attribute or lengths that are not as they should be.
static inline int peer_find_places(struct peer_place *places, const uint8_t *at, const uint8_t *end, unsigned count)
{
    for (unsigned i = 0; i < count; i++) {
        if (end - at < PEER_ITEM_HEAD || at[0] != 0)
            return 0;
        const uint8_t *content = at + PEER_ITEM_HEAD;
        uint8_t len = at[3];
        if (end - content < len)
            return 0;
        if (places != NULL)
            places[i] = (struct peer_place){content, peer_two(at + 1), len};
        at = content + len;
    }
    return at == end;
}

static inline uint16_t peer_read(const uint8_t *message, size_t len, struct peer_heading *heading, struct peer_place *places)
{
    if (len < MESSAGE_HEAD)
        return DL_BAD_MESSAGE;
    uint8_t type = message[1];
    size_t head_len = peer_head_len(type);
    if (!peer_is_named(type) || message[0] != head_len || message[2] != 1 || len < head_len + PEER_EMPTY_BODY
        || len - head_len != peer_two(message + MESSAGE_HEAD - 2))
        return DL_BAD_MESSAGE;
    const uint8_t *body = message + head_len;
    if (!peer_find_places(places, body + PEER_EMPTY_BODY, message + len, body[4]))
        return DL_BAD_MESSAGE;
    if (peer_has_mac(type) && !peer_mac_fits(message, len))
        return DL_BAD_MAC;
    *heading = (struct peer_heading){.caller = peer_eight(message + 3), .number = peer_eight(message + 11), .service = peer_two(body),
                                     .options = peer_two(body + 2), .type = type, .count = body[4]};
    return DL_DONE;
}

PEER_CALL peer_read_message(const uint8_t *message, size_t len, struct peer_heading *heading)
{
    return peer_read(message, len, heading, NULL);
}

// All items at once, of which a message has at most 255; of one that is refused some places may be set.
PEER_CALL peer_read_whole(const uint8_t *message, size_t len, struct peer_heading *heading, struct peer_place places[DL_MOST_ITEMS])
{
    return peer_read(message, len, heading, places);
}

// ---- what is written, as dl_message_write is lent it

struct peer_form {
    uint32_t type, service, options;
    uint64_t caller, number;
    const uint32_t *identifiers, *lengths;
    size_t count;
    const uint8_t *contents;
    size_t contents_len;
};

static inline int peer_items_fit(const struct peer_form *form)
{
    uint32_t least = 0;
    size_t sum = 0;
    for (size_t i = 0; i < form->count; i++) {
        if (form->identifiers[i] < least || form->identifiers[i] > PEER_MOST_TWO || form->lengths[i] > DL_MOST_CONTENT)
            return 0;
        least = form->identifiers[i] + 1;
        sum += form->lengths[i];
    }
    return sum == form->contents_len;
}

static inline void peer_put_two(uint8_t *to, uint32_t number)
{
    uint16_t swapped = htobe16((uint16_t)number);
    memcpy(to, &swapped, sizeof swapped);
}

static inline void peer_put_four(uint8_t *to, uint32_t number)
{
    uint32_t swapped = htobe32(number);
    memcpy(to, &swapped, sizeof swapped);
}

static inline void peer_put_eight(uint8_t *to, uint64_t number)
{
    uint64_t swapped = htobe64(number);
    memcpy(to, &swapped, sizeof swapped);
}

static inline void peer_put_head(uint8_t *to, const struct peer_form *form, size_t head_len, size_t body_len)
{
    to[0] = (uint8_t)head_len;
    to[1] = (uint8_t)form->type;
    to[2] = 1;
    peer_put_eight(to + 3, form->caller);
    peer_put_eight(to + 11, form->number);
    peer_put_two(to + 19, (uint32_t)body_len);
}

static inline void peer_put_body(uint8_t *to, const struct peer_form *form)
{
    const uint8_t *content = form->contents;
    peer_put_four(to, form->service << 16 | form->options);
    to[4] = (uint8_t)form->count;
    to += PEER_EMPTY_BODY;
    for (size_t i = 0; i < form->count; i++) {
        uint32_t len = form->lengths[i];
        peer_put_four(to, form->identifiers[i] << 8 | len); // the attribute is 00
        memcpy(to + PEER_ITEM_HEAD, content, len);
        to += PEER_ITEM_HEAD + len;
        content += len;
    }
}

// Before the body the header is hashed in one go with it, which is quicker than the two apart. Its own place is set after that.
static inline void peer_put_mac(uint8_t *to, const struct peer_form *form, size_t head_len, size_t body_len)
{
    uint8_t digest[DL_SM3_DIGEST_BYTES];
    EVP_MD_CTX *context = otp_library.digest;
    peer_put_head(to + MESSAGE_MAC, form, head_len, body_len);
    otp_require(EVP_DigestInit_ex2(context, otp_library.sm3, NULL) && EVP_DigestUpdate(context, to + MESSAGE_MAC, MESSAGE_HEAD + body_len)
                && EVP_DigestFinal_ex(context, digest, NULL));
    memcpy(to + MESSAGE_HEAD, digest + sizeof digest - MESSAGE_MAC, MESSAGE_MAC);
}

PEER_CALL peer_write_message(const struct peer_form *form, uint8_t *to, size_t to_len, size_t *written)
{
    if (!peer_is_named(form->type) || form->service > PEER_MOST_TWO || form->options > PEER_MOST_TWO || form->count > DL_MOST_ITEMS
        || form->contents_len > PEER_MOST_TWO)
        return DL_BAD_ARGUMENT;
    size_t head_len = peer_head_len(form->type), body_len = PEER_EMPTY_BODY + PEER_ITEM_HEAD * form->count + form->contents_len;
    if (body_len > PEER_MOST_TWO || to_len < head_len + body_len || !peer_items_fit(form))
        return DL_BAD_ARGUMENT;
    peer_put_body(to + head_len, form);
    if (peer_has_mac(form->type))
        peer_put_mac(to, form, head_len, body_len);
    peer_put_head(to, form, head_len, body_len);
    *written = head_len + body_len;
    return DL_DONE;
}

#endif
