// The reader of document 02, request 1: from the bytes of a message of GM/T 0021-2012, Annex D, to a call of desk_reference.h or a refusal. It is
// written from the annex and the request, over OpenSSL's SM3, and takes the fields from the front.
#ifndef MESSAGE_REFERENCE_H
#define MESSAGE_REFERENCE_H

#include "desk_reference.h"

// What the reader is lent, but for the bytes of the table.
struct message_sent {
    const uint8_t *bytes;
    size_t len, table_len, values_len;
    uint64_t now;
};

// ---- Tables D.1, D.2 and D.4

enum {
    MESSAGE_HEAD = 21, // bytes, without the MAC
    MESSAGE_MAC = 4,
    MESSAGE_MOST_ITEMS = 255,
    MESSAGE_CALL_ITEMS = 3, // the most of a call
    MESSAGE_SERIAL_LEN = 8,
};

enum message_type { REQUEST = 0x00, REPLY = 0x01, REQUEST_WITH_MAC = 0x80, REPLY_WITH_MAC = 0x81 };

struct message_item {
    uint64_t attribute, identifier, len;
    const uint8_t *content;
};

// In the annex's order.
struct message {
    uint64_t head_len, type, version, caller, number, body_len;
    const uint8_t *mac; // NULL if the type has none
    uint64_t service, options, count;
    struct message_item items[MESSAGE_MOST_ITEMS];
};

// ---- reading

// What is still to be read. Once it was too short for a field, it stays so.
struct message_rest {
    const uint8_t *bytes;
    size_t len;
    int is_short;
};

// The next bytes, or NULL if there are not so many.
static inline const uint8_t *message_cut(struct message_rest *rest, size_t n)
{
    const uint8_t *bytes = rest->bytes;
    rest->is_short |= rest->len < n;
    if (rest->is_short)
        return NULL;
    rest->bytes += n;
    rest->len -= n;
    return bytes;
}

// Numbers are big-endian; one that is not there counts as 0.
static inline uint64_t message_number_of(const uint8_t *bytes, size_t n)
{
    uint64_t number = 0;
    for (size_t i = 0; bytes != NULL && i < n; i++)
        number = number << 8 | bytes[i];
    return number;
}

static inline uint64_t message_number(struct message_rest *rest, size_t n)
{
    return message_number_of(message_cut(rest, n), n);
}

// Table D.4 prints 4 as the offset of the length, which is taken as 3.
static inline void message_read_item(struct message_rest *rest, struct message_item *item)
{
    item->attribute = message_number(rest, 1);
    item->identifier = message_number(rest, 2);
    item->len = message_number(rest, 1);
    item->content = message_cut(rest, item->len);
}

static inline int message_has_mac(uint64_t type)
{
    return type == REQUEST_WITH_MAC || type == REPLY_WITH_MAC;
}

static inline void message_read_head(struct message_rest *rest, struct message *message)
{
    message->head_len = message_number(rest, 1);
    message->type = message_number(rest, 1);
    message->version = message_number(rest, 1);
    message->caller = message_number(rest, 8);
    message->number = message_number(rest, 8);
    message->body_len = message_number(rest, 2);
    message->mac = message_has_mac(message->type) ? message_cut(rest, MESSAGE_MAC) : NULL;
}

// Gives 0 if the lengths do not add up.
static inline int message_read(const struct message_sent *sent, struct message *message)
{
    struct message_rest rest = {sent->bytes, sent->len, 0};
    message_read_head(&rest, message);
    if (rest.len != message->body_len || message->head_len != MESSAGE_HEAD + (message_has_mac(message->type) ? MESSAGE_MAC : 0))
        return 0;
    message->service = message_number(&rest, 2);
    message->options = message_number(&rest, 2);
    message->count = message_number(&rest, 1);
    for (uint64_t i = 0; i < message->count && !rest.is_short; i++)
        message_read_item(&rest, &message->items[i]);
    return !rest.is_short && rest.len == 0;
}

// ---- Tables D.5 and D.6: the services that have a call, with its items

enum message_identifier {
    ITEM_SERIAL = 0x0002, ITEM_PASSWORD = 0x0003, ITEM_FOLLOWING = 0x0004, ITEM_CHALLENGE = 0x0006, ITEM_RESPONSE = 0x0007,
};

static const struct message_service {
    uint64_t service;
    enum desk_name call;
    uint64_t count;
    enum message_identifier items[MESSAGE_CALL_ITEMS];
} message_services[] = {
    {0x0001, CALL_LOGIN, 2, {ITEM_SERIAL, ITEM_PASSWORD}},
    {0x0002, CALL_CHALLENGE_LOGIN, 3, {ITEM_SERIAL, ITEM_CHALLENGE, ITEM_RESPONSE}},
    {0x0101, CALL_ACTIVATE, 3, {ITEM_SERIAL, ITEM_PASSWORD, ITEM_FOLLOWING}},
    {0x0102, CALL_LOCK, 1, {ITEM_SERIAL}},
    {0x0103, CALL_UNLOCK, 2, {ITEM_SERIAL, ITEM_PASSWORD}},
    {0x0104, CALL_SUSPEND, 1, {ITEM_SERIAL}},
    {0x0105, CALL_RESUME, 2, {ITEM_SERIAL, ITEM_PASSWORD}},
    {0x0108, CALL_SYNC, 3, {ITEM_SERIAL, ITEM_PASSWORD, ITEM_FOLLOWING}},
    {0x010a, CALL_VOID, 1, {ITEM_SERIAL}},
    {0x010b, CALL_QUERY, 1, {ITEM_SERIAL}}};

enum { MESSAGE_SERVICES = sizeof message_services / sizeof *message_services };

// NULL without a call, in Table D.5 or not.
static inline const struct message_service *message_service_of(const struct message *message)
{
    for (size_t i = 0; i < MESSAGE_SERVICES; i++)
        if (message_services[i].service == message->service)
            return &message_services[i];
    return NULL;
}

// The item that has the identifier alone, or NULL.
static inline const struct message_item *message_only(const struct message *message, enum message_identifier identifier)
{
    const struct message_item *only = NULL;
    for (uint64_t i = 0; i < message->count; i++) {
        if (message->items[i].identifier != identifier)
            continue;
        if (only != NULL)
            return NULL;
        only = &message->items[i];
    }
    return only;
}

// ---- 9001, 9002

// Judged of every message that was read.
static inline int message_is_request(const struct message *message)
{
    for (uint64_t i = 0; i < message->count; i++)
        if (message->items[i].attribute != 0)
            return 0;
    return message->version == 1 && (message->type == REQUEST || message->type == REQUEST_WITH_MAC);
}

// Judged where the service has a call.
static inline int message_fits(const struct message *message, const struct message_service *service)
{
    int is_option = service->call == CALL_SYNC ? message->options == 1 || message->options == 2 : message->options == 0;
    if (!is_option || message->count != service->count)
        return 0;
    for (uint64_t i = 0; i < service->count; i++)
        if (message_only(message, service->items[i]) == NULL)
            return 0;
    return message_only(message, ITEM_SERIAL)->len == MESSAGE_SERIAL_LEN;
}

// The last four bytes of SM3 over the header without the MAC and the body, of a message that has one.
static inline void message_make_mac(const uint8_t *bytes, size_t len, uint8_t mac[MESSAGE_MAC])
{
    const size_t behind = MESSAGE_HEAD + MESSAGE_MAC;
    uint8_t digest[EVP_MAX_MD_SIZE];
    if (otp_library.sm3 == NULL)
        otp_open_library();
    otp_require(EVP_DigestInit_ex2(otp_library.digest, otp_library.sm3, NULL) && EVP_DigestUpdate(otp_library.digest, bytes, MESSAGE_HEAD)
                && EVP_DigestUpdate(otp_library.digest, bytes + behind, len - behind) && EVP_DigestFinal_ex(otp_library.digest, digest, NULL));
    memcpy(mac, digest + DL_SM3_DIGEST_BYTES - MESSAGE_MAC, MESSAGE_MAC);
}

static inline int message_mac_fits(const struct message *message, const struct message_sent *sent)
{
    uint8_t mac[MESSAGE_MAC];
    if (message->mac == NULL)
        return 1;
    message_make_mac(sent->bytes, sent->len, mac);
    return memcmp(mac, message->mac, MESSAGE_MAC) == 0;
}

// ---- the call

// Nothing where the call has no such item.
static inline void message_put_typed(struct window_typed *typed, const struct message *message, enum message_identifier identifier)
{
    const struct message_item *item = message_only(message, identifier);
    typed->len = item == NULL ? 0 : item->len;
    if (item != NULL)
        memcpy(typed->bytes, item->content, item->len);
}

static inline void message_make_call(struct desk_call *call, const struct message *message, const struct message_sent *sent)
{
    const uint8_t *serial = message_only(message, ITEM_SERIAL)->content;
    *call = (struct desk_call){.name = message_service_of(message)->call, .table_len = sent->table_len, .values_len = sent->values_len,
                               .serial = message_number_of(serial, MESSAGE_SERIAL_LEN), .now = sent->now,
                               .choice = (uint8_t)message->options};
    message_put_typed(&call->challenge, message, ITEM_CHALLENGE);
    message_put_typed(&call->password, message, call->name == CALL_CHALLENGE_LOGIN ? ITEM_RESPONSE : ITEM_PASSWORD);
    message_put_typed(&call->following, message, ITEM_FOLLOWING);
}

// The refusal of a message, or DL_DONE and its call.
static inline uint16_t message_call(const struct message_sent *sent, struct desk_call *call)
{
    struct message message;
    if (!message_read(sent, &message) || !message_is_request(&message))
        return DL_BAD_MESSAGE;
    const struct message_service *service = message_service_of(&message);
    if (service != NULL && !message_fits(&message, service))
        return DL_BAD_MESSAGE;
    if (!message_mac_fits(&message, sent))
        return DL_BAD_MAC;
    if (service == NULL)
        return DL_NO_SERVICE;
    message_make_call(call, &message, sent);
    return DL_DONE;
}

// The answer; the table is what the message leaves of it.
static inline struct desk_answer message_answer_to(uint8_t *table, const struct message_sent *sent)
{
    struct desk_call call;
    if (sent->values_len < DL_MOST_VALUES)
        return (struct desk_answer){.code = DL_BAD_ARGUMENT};
    uint16_t code = message_call(sent, &call);
    return code == DL_DONE ? desk_answer_to(table, &call) : (struct desk_answer){.code = code};
}

#endif
