// Messages read and written beside a program in C over OpenSSL that does the same (message_form_peer.h): prints rows of the report's table, then what a
// long message costs beside its hash.
#define _DEFAULT_SOURCE
#include "message_form_peer.h"
#include "racing.h"

enum {
    PASSES = 10, ROUNDS = 30,
    LONG_LEN = 60000, LONG_CONTENT = 250, LONG_ITEMS = 236, // and one item more, for what is left
};

// A long message over the hash of as many bytes.
#define MOST_BESIDE_HASH 1.1

// ---- the messages: the reply to a query, and a long one

enum form_name { SEALED_REPLY, PLAIN_REPLY, SEALED_LONG, FORMS };

static struct form {
    struct peer_form given;
    uint32_t identifiers[DL_MOST_ITEMS], lengths[DL_MOST_ITEMS];
    uint8_t contents[DL_MOST_MESSAGE];
    uint8_t bytes[DL_MOST_MESSAGE]; // of the message, written
    size_t len;
} forms[FORMS];
static const struct form *form; // of the race that is running
static uint8_t hashed[LONG_LEN - MESSAGE_MAC]; // the long one without its MAC

static void add_item(struct form *to, uint32_t identifier, uint32_t len)
{
    struct peer_form *given = &to->given;
    to->identifiers[given->count] = identifier;
    to->lengths[given->count++] = len;
    for (uint32_t i = 0; i < len; i++, given->contents_len++)
        to->contents[given->contents_len] = (uint8_t)(given->contents_len * 7 + identifier);
}

static void make_form(struct form *to, uint32_t type)
{
    to->given = (struct peer_form){.type = type, .service = DL_QUERIED, .options = DL_QUERIED, .caller = UINT64_C(0x0102030405060708),
                                   .number = UINT64_C(0x1112131415161718), .identifiers = to->identifiers, .lengths = to->lengths,
                                   .contents = to->contents};
}

static void make_reply(struct form *to, uint32_t type)
{
    make_form(to, type);
    add_item(to, 0x0102, 8);
    add_item(to, 0x0104, 1);
    add_item(to, 0x0105, 1);
}

static void make_long(struct form *to)
{
    make_form(to, DL_REPLY_WITH_MAC);
    for (uint32_t i = 0; i < LONG_ITEMS; i++)
        add_item(to, i, LONG_CONTENT);
    size_t len = MESSAGE_HEAD + MESSAGE_MAC + PEER_EMPTY_BODY + PEER_ITEM_HEAD * to->given.count + to->given.contents_len;
    add_item(to, LONG_ITEMS, (uint32_t)(LONG_LEN - len - PEER_ITEM_HEAD));
}

// ---- the contestants

static uint8_t written[DL_MOST_MESSAGE];
static size_t peer_len;
static uint64_t our_len, fields[DL_MESSAGE_FIELDS], item_fields[DL_MOST_ITEMS][DL_ITEM_FIELDS];
static struct peer_heading heading;
static struct peer_place places[DL_MOST_ITEMS];

static void put_answer(uint16_t code)
{
    uint64_t answer = code;
    memcpy(out, &answer, sizeof answer);
}

static uint16_t write_ours(void)
{
    const struct peer_form *given = &form->given;
    return dl_message_write(given->type, given->caller, given->number, given->service, given->options, given->identifiers, given->count,
                            given->lengths, given->count, given->contents, given->contents_len, written, sizeof written, &our_len, 1);
}

static void ours_write(uint64_t number)
{
    (void)number;
    put_answer(write_ours());
}

static void openssl_write(uint64_t number)
{
    (void)number;
    put_answer(peer_write_message(&form->given, written, sizeof written, &peer_len));
}

static void ours_read(uint64_t number)
{
    (void)number;
    put_answer(dl_message_read(form->bytes, form->len, fields, DL_MESSAGE_FIELDS));
}

static void openssl_read(uint64_t number)
{
    (void)number;
    put_answer(peer_read_message(form->bytes, form->len, &heading));
}

static void ours_both(uint64_t number)
{
    (void)number;
    uint16_t code = write_ours();
    put_answer(code | dl_message_read(written, our_len, fields, DL_MESSAGE_FIELDS));
}

static void openssl_both(uint64_t number)
{
    (void)number;
    uint16_t code = peer_write_message(&form->given, written, sizeof written, &peer_len);
    put_answer(code | peer_read_message(written, peer_len, &heading));
}

static uint16_t fetch_ours(void)
{
    uint16_t code = dl_message_read(form->bytes, form->len, fields, DL_MESSAGE_FIELDS);
    for (size_t i = 0; i < form->given.count; i++)
        code |= dl_message_item(form->bytes, form->len, i, item_fields[i], DL_ITEM_FIELDS);
    return code;
}

static void ours_items(uint64_t number)
{
    (void)number;
    put_answer(fetch_ours());
}

static void openssl_items(uint64_t number)
{
    (void)number;
    put_answer(peer_read_whole(form->bytes, form->len, &heading, places));
}

// What no reader or writer of the long message can be without.
static void ours_hash(uint64_t number)
{
    uint8_t digest[DL_SM3_DIGEST_BYTES];
    (void)number;
    dl_sm3(hashed, sizeof hashed, digest, sizeof digest);
    put_answer(memcmp(digest + sizeof digest - MESSAGE_MAC, form->bytes + MESSAGE_HEAD, MESSAGE_MAC) == 0 ? DL_DONE : DL_BAD_MAC);
}

// ---- the rows

#define OPENSSL "C over OpenSSL EVP"

enum { OURS, PEER, HASH };
enum row_name { WRITE_SEALED, WRITE_PLAIN, READ_SEALED, READ_PLAIN, BOTH, ITEMS, WRITE_LONG, READ_LONG, ROWS };

static const struct row {
    const char *what;
    enum form_name form;
    uint64_t calls; // in a round
    struct contestant contestants[CONTESTANTS];
    double target; // beside C over OpenSSL; 0: none
} rows[ROWS] = {
    [WRITE_SEALED] = {"Write a reply, MAC", SEALED_REPLY, 3000,
                      {{"dl_message_write", ours_write, 0, 0}, {OPENSSL, openssl_write, 0, 0}}, 1.3},
    [WRITE_PLAIN] = {"Write a reply", PLAIN_REPLY, 10000,
                     {{"dl_message_write", ours_write, 0, 0}, {OPENSSL, openssl_write, 0, 0}}, 0.7},
    [READ_SEALED] = {"Read a reply, MAC", SEALED_REPLY, 3000,
                     {{"dl_message_read", ours_read, 0, 0}, {OPENSSL, openssl_read, 0, 0}}, 1.3},
    [READ_PLAIN] = {"Read a reply", PLAIN_REPLY, 10000,
                    {{"dl_message_read", ours_read, 0, 0}, {OPENSSL, openssl_read, 0, 0}}, 0.7},
    [BOTH] = {"Write and read a reply, MAC", SEALED_REPLY, 1500,
              {{"write, then read", ours_both, 0, 0}, {OPENSSL, openssl_both, 0, 0}}, 1.3},
    [ITEMS] = {"Read it and its items, MAC", SEALED_REPLY, 1000,
               {{"dl_message_item", ours_items, 0, 0}, {"C, all items at once", openssl_items, 0, 0}}, 0},
    [WRITE_LONG] = {"Write 60,000 bytes, MAC", SEALED_LONG, 5,
                    {{"dl_message_write", ours_write, 0, 0}, {OPENSSL, openssl_write, 0, 0}, {"dl_sm3", ours_hash, 0, 0}}, 0},
    [READ_LONG] = {"Read 60,000 bytes, MAC", SEALED_LONG, 5,
                   {{"dl_message_read", ours_read, 0, 0}, {OPENSSL, openssl_read, 0, 0}, {"dl_sm3", ours_hash, 0, 0}}, 0},
};

static struct race races[ROWS];

// ---- before the timing

static void require(int is_so)
{
    if (!is_so)
        die("a message is not written or read as it should be");
}

// Both writers give the same bytes, and leave those behind them. The tests' reference reads from them what was given.
static void compare_writers(struct form *of)
{
    static struct message message;
    const struct peer_form *given = &of->given;
    memset(written, 0, sizeof written);
    require(write_ours() == DL_DONE);
    of->len = our_len;
    memcpy(of->bytes, written, sizeof written);
    memset(written, 0, sizeof written);
    require(peer_write_message(given, written, sizeof written, &peer_len) == DL_DONE && peer_len == our_len
            && memcmp(of->bytes, written, sizeof written) == 0);
    struct message_sent sent = {.bytes = of->bytes, .len = of->len};
    require(message_read(&sent, &message) && message.type == given->type && message.version == 1 && message.caller == given->caller
            && message.number == given->number && message.service == given->service && message.options == given->options
            && message.count == given->count && message_mac_fits(&message, &sent));
    const uint8_t *content = given->contents;
    for (size_t i = 0; i < given->count; content += given->lengths[i++])
        require(message.items[i].attribute == 0 && message.items[i].identifier == given->identifiers[i]
                && message.items[i].len == given->lengths[i] && memcmp(message.items[i].content, content, given->lengths[i]) == 0);
}

// Both readers give what was written, with every item's place.
static void compare_readers(const struct form *of)
{
    const struct peer_form *given = &of->given;
    require(fetch_ours() == DL_DONE && peer_read_whole(of->bytes, of->len, &heading, places) == DL_DONE);
    const uint64_t expected[DL_MESSAGE_FIELDS] = {given->type, given->caller, given->number, given->service, given->options, given->count};
    const uint64_t by_peer[DL_MESSAGE_FIELDS] = {heading.type, heading.caller, heading.number, heading.service, heading.options, heading.count};
    require(memcmp(fields, expected, sizeof fields) == 0 && memcmp(by_peer, expected, sizeof by_peer) == 0);
    for (size_t i = 0; i < given->count; i++) {
        const uint64_t place[DL_ITEM_FIELDS] = {places[i].identifier, (uint64_t)(places[i].content - of->bytes), places[i].len};
        require(memcmp(item_fields[i], place, sizeof place) == 0 && place[0] == given->identifiers[i] && place[2] == given->lengths[i]);
    }
}

static void set_up(void)
{
    otp_open_library();
    make_reply(&forms[SEALED_REPLY], DL_REPLY_WITH_MAC);
    make_reply(&forms[PLAIN_REPLY], DL_REPLY);
    make_long(&forms[SEALED_LONG]);
    for (size_t i = 0; i < FORMS; i++) {
        form = &forms[i];
        compare_writers(&forms[i]);
        compare_readers(&forms[i]);
    }
    require(forms[SEALED_LONG].len == LONG_LEN);
    memcpy(hashed, forms[SEALED_LONG].bytes, MESSAGE_HEAD);
    memcpy(hashed + MESSAGE_HEAD, forms[SEALED_LONG].bytes + MESSAGE_HEAD + MESSAGE_MAC, sizeof hashed - MESSAGE_HEAD);
    for (size_t i = 0; i < ROWS; i++) {
        races[i] = (struct race){.what = rows[i].what, .rounds = ROUNDS, .calls = rows[i].calls, .in_a_call = 1, .target = {[PEER] = rows[i].target}};
        memcpy(races[i].contestants, rows[i].contestants, sizeof rows[i].contestants);
    }
}

// ---- the table of long messages

static void print_beside_hash(enum row_name at)
{
    const struct contestant *all = races[at].contestants;
    double ratio = all[OURS].best / all[HASH].best;
    printf("| %-28s | %8.0f | %-28s | %8.0f | %5.2f | %7.2f | %-3s |\n", rows[at].what, all[OURS].best, "dl_sm3 of as many", all[HASH].best, ratio,
           MOST_BESIDE_HASH, ratio <= MOST_BESIDE_HASH ? "yes" : "NO");
}

int main(void)
{
    set_up();
    for (size_t i = 0; i < PASSES * ROWS; i++) {
        form = &forms[rows[i % ROWS].form];
        run_race(&races[i % ROWS]);
    }
    for (size_t i = 0; i < ROWS; i++)
        print_race(&races[i]);
    printf("\n| %-28s | %8s | %-28s | %8s | %5s | %7s | %-3s |\n", "A long message", "Ours, ns", "Beside", "Ours, ns", "Ratio", "At most", "Met");
    puts("|---|--:|---|--:|--:|--:|---|");
    print_beside_hash(WRITE_LONG);
    print_beside_hash(READ_LONG);
    return 0;
}
