/*
 * Requests and replies as messages of GM/T 0021-2012, Annex D, on both sides:
 *
 *   cc serve_message.c $(pkg-config --cflags --libs dykeladder) -o serve_message
 *
 * An operator's system writes a request; the desk reads it, serves it and
 * writes the reply; the operator's system reads that. Both are printed as they
 * go over the line, in hexadecimal digits. The clock stands still, and the
 * token's codes are written out, so that every run prints the same.
 *
 * The MAC has no key, so that nothing in a message shows who sent it. Whom to
 * serve is to be known before `reply_to` is given his message.
 */
#include <dykeladder.h>

#include <inttypes.h>
#include <stdio.h>
#include <stdlib.h>
#include <string.h>

enum { MOST_BYTES = 128, MOST_ITEMS = 3 }; /* of the messages here */

/* Services, of Table D.5. */
enum { LOGIN = 0x0001, MAKE_CHALLENGE = 0x0003, ACTIVATE = 0x0101, LOCK = 0x0102, QUERY = 0x010b };

/* Items, of Table D.6. */
enum { SERIAL = 0x0002, PASSWORD = 0x0003, FOLLOWING = 0x0004, LAST_USE = 0x0102, ERRORS = 0x0104, STATE = 0x0105 };

/* The places of what dl_message_read and dl_message_item tell. */
enum { TYPE, CALLER, NUMBER, SERVICE, OPTIONS, ITEMS };
enum { IDENTIFIER, START, LENGTH };

/* ---- what both sides need */

struct message {
    uint8_t bytes[MOST_BYTES];
    size_t len; /* 0: none */
};

/* Items to be written, added by rising identifier. */
struct items {
    uint32_t identifiers[MOST_ITEMS], lengths[MOST_ITEMS];
    size_t count;
    uint8_t contents[MOST_BYTES];
    size_t contents_len;
};

static void add(struct items *items, uint32_t identifier, const void *content, size_t length)
{
    items->identifiers[items->count] = identifier;
    items->lengths[items->count] = (uint32_t)length;
    items->count++;
    memcpy(items->contents + items->contents_len, content, length);
    items->contents_len += length;
}

/* Numbers are big-endian. */
static void add_number(struct items *items, uint32_t identifier, uint64_t number, size_t length)
{
    uint8_t content[8];
    for (size_t i = length; i-- > 0; number >>= 8)
        content[i] = (uint8_t)number;
    add(items, identifier, content, length);
}

static uint64_t number_of(const uint8_t *content, uint64_t length)
{
    uint64_t number = 0;
    for (uint64_t i = 0; i < length; i++)
        number = number << 8 | content[i];
    return number;
}

static void need(uint16_t code, uint16_t success, const char *what)
{
    if (code != success) {
        fprintf(stderr, "%s: %s\n", what, dl_code_text(code));
        exit(1);
    }
}

static struct message written(uint64_t type, uint64_t caller, uint64_t number, uint64_t service, uint32_t options,
                              const struct items *items)
{
    struct message message = {{0}, 0};
    uint64_t len = 0;
    need(dl_message_write((uint32_t)type, caller, number, (uint32_t)service, options, items->identifiers, items->count,
                          items->lengths, items->count, items->contents, items->contents_len, message.bytes, MOST_BYTES, &len, 1),
         DL_DONE, "the message cannot be written");
    message.len = (size_t)len;
    return message;
}

/* ---- the desk's side */

/* A table of four rows, none of them taken yet, and the clock in seconds. */
static uint8_t table[4 * DL_ROW_BYTES];
static const uint64_t now = 1800000000;

/* A query is answered with what it found, every other call with its code alone. */
static struct items items_of(uint16_t code, const int64_t *values)
{
    struct items items = {{0}, {0}, 0, {0}, 0};
    if (code == DL_QUERIED) {
        add_number(&items, LAST_USE, (uint64_t)values[2], 8);
        add_number(&items, ERRORS, (uint64_t)values[1], 1);
        add_number(&items, STATE, (uint64_t)values[0], 1);
    }
    return items;
}

/*
 * Serves a message and gives the reply: with a MAC if the request has one, with
 * the caller, call number and service of the request, and with the answer's
 * code as its result, also where that is a refusal. There is none to what
 * cannot be read, since nobody knows who waits for it, and none to a reply, so
 * that two systems never answer each other for ever.
 */
static struct message reply_to(const struct message *message)
{
    static const struct message none;
    uint64_t asked[DL_MESSAGE_FIELDS];
    int64_t values[DL_MOST_VALUES];
    uint16_t code = dl_message_read(message->bytes, message->len, asked, DL_MESSAGE_FIELDS);
    if (code != DL_DONE) {
        printf("    no reply: %04x %s\n", code, dl_code_text(code));
        return none;
    }
    if (asked[TYPE] == DL_REPLY || asked[TYPE] == DL_REPLY_WITH_MAC) {
        printf("    no reply: it is one itself\n");
        return none;
    }
    code = dl_serve_message(table, sizeof table, message->bytes, message->len, now, values, DL_MOST_VALUES);
    struct items items = items_of(code, values);
    return written(asked[TYPE] == DL_REQUEST ? DL_REPLY : DL_REPLY_WITH_MAC, asked[CALLER], asked[NUMBER], asked[SERVICE], code,
                   &items);
}

/* ---- the operator's side */

static const uint64_t serial = 4711, caller = 0;

/* Each call has a number of its own: "12345671" in ASCII is the first. */
static uint64_t number = UINT64_C(0x3132333435363730);

/* What the token's display shows, one code for each press of its button. */
static const char *const codes[] = {"661392", "063471", "286411"};

static void show(const char *direction, const struct message *message)
{
    printf("    %s ", direction);
    for (size_t i = 0; i < message->len; i++)
        printf("%02x", message->bytes[i]);
    printf("\n");
}

static const char *name_of(uint64_t identifier)
{
    switch (identifier) {
    case LAST_USE: return "last use";
    case ERRORS: return "errors";
    case STATE: return "state";
    default: return "unknown item";
    }
}

/* Reads a reply: its result, and its items as numbers. */
static void tell(const struct message *reply)
{
    uint64_t told[DL_MESSAGE_FIELDS], item[DL_ITEM_FIELDS];
    need(dl_message_read(reply->bytes, reply->len, told, DL_MESSAGE_FIELDS), DL_DONE, "the reply cannot be read");
    uint16_t result = (uint16_t)told[OPTIONS];
    printf("    call %" PRIx64 ", service %04" PRIx64 ": %04x %s%s\n", told[NUMBER], told[SERVICE], result,
           dl_refused(result) ? "refused: " : "", dl_code_text(result));
    for (size_t i = 0; i < told[ITEMS]; i++) {
        need(dl_message_item(reply->bytes, reply->len, i, item, DL_ITEM_FIELDS), DL_DONE, "the reply has no such item");
        printf("        %s %" PRIu64 "\n", name_of(item[IDENTIFIER]), number_of(reply->bytes + item[START], item[LENGTH]));
    }
}

/* Sends a message to the desk, and gives the reply. */
static struct message exchange(const char *deed, const struct message *message)
{
    printf("\n%s\n", deed);
    show("->", message);
    struct message reply = reply_to(message);
    if (reply.len > 0) {
        show("<-", &reply);
        tell(&reply);
    }
    return reply;
}

static struct message request(uint32_t type, uint32_t service, const struct items *items)
{
    return written(type, caller, ++number, service, 0, items);
}

static struct items of_the_token(void)
{
    struct items items = {{0}, {0}, 0, {0}, 0};
    add_number(&items, SERIAL, serial, 8);
    return items;
}

static void sign(const char *deed, const char *code)
{
    struct items items = of_the_token();
    add(&items, PASSWORD, code, strlen(code));
    struct message login = request(DL_REQUEST, LOGIN, &items);
    exchange(deed, &login);
}

/* ---- the day */

static void load_the_token(void)
{
    static const uint8_t key[] = "the captain's own secret";
    need(dl_load(table, sizeof table, serial, DL_EVENT_TOKEN, DL_ALGORITHM_SM3, 6, 0, 5, key, sizeof key - 1, 300, 2000000000),
         DL_LOADED, "the token is not loaded");
}

static void activate(void)
{
    struct items items = of_the_token();
    add(&items, PASSWORD, codes[0], strlen(codes[0]));
    add(&items, FOLLOWING, codes[1], strlen(codes[1]));
    struct message message = request(DL_REQUEST, ACTIVATE, &items);
    exchange("activate the token with two codes in a row", &message);
}

static void sign_releases(void)
{
    sign("sign a release with the code on the display", codes[2]);
    sign("press Sign twice: refused, and no error", codes[2]);
    sign("mistype a code, the first error", "123456");
    sign("mistype it again, the second", "123456");
}

/* The desk can read these, and says in its reply why it does not serve them. */
static void ask_for_what_there_is_not(void)
{
    struct items items = of_the_token(), no_items = {{0}, {0}, 0, {0}, 0};
    struct message challenge = request(DL_REQUEST, MAKE_CHALLENGE, &items), lock = request(DL_REQUEST, LOCK, &no_items);
    exchange("ask for a challenge: the standard has this service, the desk has not", &challenge);
    exchange("lock a token and do not say which", &lock);
}

/* A MAC shows damage that the lengths do not. */
static void ask_with_a_mac(void)
{
    struct items items = of_the_token();
    struct message message = request(DL_REQUEST_WITH_MAC, QUERY, &items);
    struct message reply = exchange("ask how the token stands, with a MAC", &message);
    exchange("send the reply to the desk, by mistake", &reply);
    message.bytes[message.len - 1] ^= 1;
    exchange("ask again, one bit damaged on the way", &message);
    message.len--;
    exchange("ask again, the last byte lost, too", &message);
}

int main(void)
{
    printf("Dykeladder %s\n", dl_version());
    load_the_token();
    activate();
    sign_releases();
    ask_for_what_there_is_not();
    ask_with_a_mac();
    return 0;
}
