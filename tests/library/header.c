// What the header adds to the library: the version, the texts of the codes, and empty buffers with a null pointer.
#include "dykeladder.h"
#include "testing.h"

static const uint16_t codes[] = {
    DL_DONE, DL_LOGGED_IN, DL_CHALLENGE_MET, DL_ACTIVATED, DL_LOCKED, DL_UNLOCKED, DL_SUSPENDED, DL_RESUMED,
    DL_SYNCHRONIZED, DL_VOIDED, DL_QUERIED, DL_LOADED, DL_BAD_MESSAGE, DL_BAD_MAC, DL_NO_SERVICE, DL_BAD_ARGUMENT,
    DL_SERIAL_TAKEN, DL_TABLE_FULL, DL_NO_TOKEN, DL_DAMAGED_ROW, DL_TOKEN_READY, DL_TOKEN_LOCKED, DL_TOKEN_SUSPENDED,
    DL_TOKEN_NOT_ACTIVATED, DL_TOKEN_VOID, DL_TOKEN_EXPIRED, DL_NEXT_WANTED, DL_MANAGEMENT_NEXT_WANTED, DL_USED, DL_WRONG,
    DL_MANAGEMENT_USED, DL_MANAGEMENT_WRONG, DL_SYNC_WRONG};

enum { CODES = sizeof codes / sizeof *codes, SUCCESSES = 12, ALL_NUMBERS = 0x10000 };

static void version_as_text_and_number(void)
{
    char text[16];
    snprintf(text, sizeof text, "%d.%d.%d", DL_VERSION_NUMBER >> 16, DL_VERSION_NUMBER >> 8 & 0xff, DL_VERSION_NUMBER & 0xff);
    check(strcmp(text, DL_VERSION) == 0, "DL_VERSION_NUMBER is %s", text);
    check(strcmp(dl_version(), DL_VERSION) == 0, "dl_version() is %s", dl_version());
}

static void texts_of_their_own(void)
{
    size_t known = 0;
    for (size_t i = 0; i < CODES; i++)
        for (size_t j = 0; j < i; j++)
            check(strcmp(dl_code_text(codes[i]), dl_code_text(codes[j])) != 0, "%04x and %04x", codes[i], codes[j]);
    for (size_t number = 0; number < ALL_NUMBERS; number++)
        known += strcmp(dl_code_text((uint16_t)number), "unknown code") != 0;
    check(known == CODES, "%zu numbers have a text", known);
    check(strcmp(dl_code_text(0x8106), "unknown code") == 0, "8106 has a text");
}

static void successes_and_refusals(void)
{
    for (size_t i = 0; i < CODES; i++)
        check(dl_refused(codes[i]) == (i >= SUCCESSES), "dl_refused(%04x)", codes[i]);
}

// ---- null pointers with length 0, each argument in turn

#define ANSWERS(code, call) check((call) == (code), "%s", #call)
#define REFUSED(call) ANSWERS(DL_BAD_ARGUMENT, call)

static const uint8_t sixteen[16] = "sixteen letters.", digits[] = "123456";
static uint8_t out[DL_SM3_DIGEST_BYTES];

static void nothing_to_hash(void)
{
    static const uint8_t empty[DL_SM3_DIGEST_BYTES] = { // GB/T 32905-2016 of no bytes
        0x1a, 0xb2, 0x1d, 0x83, 0x55, 0xcf, 0xa1, 0x7f, 0x8e, 0x61, 0x19, 0x48, 0x31, 0xe8, 0x1a, 0x8f,
        0x22, 0xbe, 0xc8, 0xc7, 0x28, 0xfe, 0xfb, 0x74, 0x7e, 0xd0, 0x35, 0xeb, 0x50, 0x82, 0xaa, 0x2b};
    ANSWERS(DL_DONE, dl_sm3(NULL, 0, out, sizeof out));
    check(memcmp(out, empty, sizeof out) == 0, "the hash of no bytes");
    REFUSED(dl_sm3(sixteen, 16, NULL, 0));
}

static void nothing_to_encrypt(void)
{
    uint32_t keys[DL_SM4_ROUND_KEYS] = {0};
    REFUSED(dl_sm4(NULL, 0, sixteen, 16, out, 16));
    REFUSED(dl_sm4(sixteen, 16, NULL, 0, out, 16));
    REFUSED(dl_sm4(sixteen, 16, sixteen, 16, NULL, 0));
    REFUSED(dl_sm4_keys(NULL, 0, keys, DL_SM4_ROUND_KEYS));
    REFUSED(dl_sm4_keys(sixteen, 16, NULL, 0));
    REFUSED(dl_sm4_encrypt(NULL, 0, sixteen, 16, out, 16));
    REFUSED(dl_sm4_encrypt(keys, DL_SM4_ROUND_KEYS, NULL, 0, out, 16));
    REFUSED(dl_sm4_encrypt(keys, DL_SM4_ROUND_KEYS, sixteen, 16, NULL, 0));
}

static void nothing_to_make_a_password_of(void)
{
    REFUSED(dl_password(DL_ALGORITHM_SM3, NULL, 0, 1, 35, 0, 0, sixteen, 7, 6, out, 6));
    REFUSED(dl_password(DL_ALGORITHM_SM3, sixteen, 16, 1, 35, 0, 0, NULL, 0, 6, NULL, 0));
    for (uint8_t algorithm = DL_ALGORITHM_SM3; algorithm <= DL_ALGORITHM_SM4; algorithm++)
        ANSWERS(DL_DONE, dl_password(algorithm, sixteen, 16, 1, 35, 0, 0, NULL, 0, 6, out, 6));
}

static void nothing_to_check(void)
{
    const uint8_t event = DL_EVENT_TOKEN, sm4 = DL_ALGORITHM_SM4;
    uint64_t step = 77, count = 88, fresh = 99;
    REFUSED(dl_check(event, sm4, 6, 0, 0, 600, 0, DL_SMALL, NULL, 0, NULL, 0, digits, 6, NULL, 0, &step, 1, &count, 1, &fresh, 1));
    REFUSED(dl_check(event, sm4, 6, 0, 0, 600, 0, DL_SMALL, sixteen, 16, NULL, 0, NULL, 0, NULL, 0, &step, 1, &count, 1, &fresh, 1));
    REFUSED(dl_check(event, sm4, 6, 0, 0, 600, 0, DL_SMALL, sixteen, 16, NULL, 0, digits, 6, NULL, 0, NULL, 0, &count, 1, &fresh, 1));
    REFUSED(dl_check(event, sm4, 6, 0, 0, 600, 0, DL_SMALL, sixteen, 16, NULL, 0, digits, 6, NULL, 0, &step, 1, NULL, 0, &fresh, 1));
    REFUSED(dl_check(event, sm4, 6, 0, 0, 600, 0, DL_SMALL, sixteen, 16, NULL, 0, digits, 6, NULL, 0, &step, 1, &count, 1, NULL, 0));
    check(step == 77 && count == 88 && fresh == 99, "a refused check wrote");
    ANSWERS(DL_WRONG, dl_check(event, sm4, 6, 0, 0, 600, 0, DL_SMALL, sixteen, 16, NULL, 0, digits, 6, NULL, 0, &step, 1, &count, 1,
                               &fresh, 1));
    check(step == 77 && count == 10 && fresh == 0, "a wrong password, its step or counts");
}

// A query of serial 7 (GM/T 0021-2012, Annex D).
static const uint8_t message[] = {21, 0, 1, 0, 0, 0, 0, 0, 0, 0, 0, 0, 0, 0, 0, 0, 0, 0, 1, 0, 17,
                                  1, 0x0b, 0, 0, 1, 0, 0, 2, 8, 0, 0, 0, 0, 0, 0, 0, 7};

static void no_table(void)
{
    int64_t v[DL_MOST_VALUES];
    REFUSED(dl_load(NULL, 0, 7, DL_EVENT_TOKEN, DL_ALGORITHM_SM3, 6, 0, 5, sixteen, 16, 60, 5000));
    REFUSED(dl_login(NULL, 0, 7, 0, digits, 6, v, DL_MOST_VALUES));
    REFUSED(dl_challenge_login(NULL, 0, 7, 0, sixteen, 7, digits, 6, v, DL_MOST_VALUES));
    REFUSED(dl_activate(NULL, 0, 7, 0, digits, 6, digits, 6, v, DL_MOST_VALUES));
    REFUSED(dl_lock(NULL, 0, 7, 0));
    REFUSED(dl_unlock(NULL, 0, 7, 0, digits, 6, v, DL_MOST_VALUES));
    REFUSED(dl_suspend(NULL, 0, 7, 0));
    REFUSED(dl_resume(NULL, 0, 7, 0, digits, 6, v, DL_MOST_VALUES));
    REFUSED(dl_sync(NULL, 0, 7, 0, DL_SYNC_LARGE, digits, 6, digits, 6, v, DL_MOST_VALUES));
    REFUSED(dl_void(NULL, 0, 7, 0));
    REFUSED(dl_query(NULL, 0, 7, 0, v, DL_MOST_VALUES));
    REFUSED(dl_serve_message(NULL, 0, message, sizeof message, 0, v, DL_MOST_VALUES));
}

static uint8_t table[DL_ROW_BYTES];

static void nothing_typed(void)
{
    int64_t v[DL_MOST_VALUES];
    REFUSED(dl_load(table, sizeof table, 7, DL_EVENT_TOKEN, DL_ALGORITHM_SM3, 6, 0, 5, NULL, 0, 60, 5000));
    REFUSED(dl_login(table, sizeof table, 7, 0, NULL, 0, v, DL_MOST_VALUES));
    REFUSED(dl_challenge_login(table, sizeof table, 7, 0, NULL, 0, digits, 6, v, DL_MOST_VALUES));
    REFUSED(dl_challenge_login(table, sizeof table, 7, 0, sixteen, 7, NULL, 0, v, DL_MOST_VALUES));
    REFUSED(dl_activate(table, sizeof table, 7, 0, NULL, 0, digits, 6, v, DL_MOST_VALUES));
    REFUSED(dl_activate(table, sizeof table, 7, 0, digits, 6, NULL, 0, v, DL_MOST_VALUES));
    REFUSED(dl_unlock(table, sizeof table, 7, 0, NULL, 0, v, DL_MOST_VALUES));
    REFUSED(dl_resume(table, sizeof table, 7, 0, NULL, 0, v, DL_MOST_VALUES));
    REFUSED(dl_sync(table, sizeof table, 7, 0, DL_SYNC_LARGE, NULL, 0, digits, 6, v, DL_MOST_VALUES));
    REFUSED(dl_sync(table, sizeof table, 7, 0, DL_SYNC_LARGE, digits, 6, NULL, 0, v, DL_MOST_VALUES));
}

static void no_message(void)
{
    int64_t v[DL_MOST_VALUES];
    ANSWERS(DL_NO_TOKEN, dl_serve_message(table, sizeof table, message, sizeof message, 0, v, DL_MOST_VALUES));
    ANSWERS(DL_BAD_MESSAGE, dl_serve_message(table, sizeof table, NULL, 0, 0, v, DL_MOST_VALUES));
    ANSWERS(DL_BAD_MESSAGE, dl_serve_message(NULL, 0, NULL, 0, 0, v, DL_MOST_VALUES));
}

static void no_room_for_values(void)
{
    REFUSED(dl_login(table, sizeof table, 7, 0, digits, 6, NULL, 0));
    REFUSED(dl_challenge_login(table, sizeof table, 7, 0, sixteen, 7, digits, 6, NULL, 0));
    REFUSED(dl_activate(table, sizeof table, 7, 0, digits, 6, digits, 6, NULL, 0));
    REFUSED(dl_unlock(table, sizeof table, 7, 0, digits, 6, NULL, 0));
    REFUSED(dl_resume(table, sizeof table, 7, 0, digits, 6, NULL, 0));
    REFUSED(dl_sync(table, sizeof table, 7, 0, DL_SYNC_LARGE, digits, 6, digits, 6, NULL, 0));
    REFUSED(dl_query(table, sizeof table, 7, 0, NULL, 0));
    REFUSED(dl_serve_message(table, sizeof table, message, sizeof message, 0, NULL, 0));
    REFUSED(dl_serve_message(table, sizeof table, NULL, 0, 0, NULL, 0));
}

static void nothing_to_read(void)
{
    const uint64_t untouched[DL_MESSAGE_FIELDS] = {77, 88, 99, 110, 121, 132};
    uint64_t fields[DL_MESSAGE_FIELDS];
    memcpy(fields, untouched, sizeof fields);
    ANSWERS(DL_BAD_MESSAGE, dl_message_read(NULL, 0, fields, DL_MESSAGE_FIELDS));
    REFUSED(dl_message_read(message, sizeof message, NULL, 0));
    REFUSED(dl_message_read(NULL, 0, NULL, 0));
    ANSWERS(DL_BAD_MESSAGE, dl_message_item(NULL, 0, 0, fields, DL_ITEM_FIELDS));
    REFUSED(dl_message_item(message, sizeof message, 0, NULL, 0));
    REFUSED(dl_message_item(NULL, 0, 0, NULL, 0));
    check(memcmp(fields, untouched, sizeof fields) == 0, "a refused reader wrote");
}

// A reply of no items and one of an empty item, in an output that is longer than they are.
static void nothing_to_write(void)
{
    static const uint8_t no_items[] = {21, 1, 1, 0, 0, 0, 0, 0, 0, 0, 0, 0, 0, 0, 0, 0, 0, 0, 1, 0, 5, 0, 7, 0, 8, 0};
    static const uint8_t empty_item[] = {21, 1, 1, 0, 0, 0, 0, 0, 0, 0, 0, 0, 0, 0, 0, 0, 0, 0, 1, 0, 9, 0, 7, 0, 8, 1, 0, 0, 2, 0};
    const uint32_t identifier = 2, zero = 0, one = 1;
    uint8_t expected[sizeof out];
    uint64_t len = 77;
    memset(expected, 0xa5, sizeof expected);
    memset(out, 0xa5, sizeof out);
    REFUSED(dl_message_write(DL_REPLY, 0, 1, 7, 8, NULL, 0, NULL, 0, NULL, 0, NULL, 0, &len, 1));
    REFUSED(dl_message_write(DL_REPLY, 0, 1, 7, 8, NULL, 0, NULL, 0, NULL, 0, out, sizeof out, NULL, 0));
    REFUSED(dl_message_write(DL_REPLY, 0, 1, 7, 8, NULL, 0, &one, 1, digits, 1, out, sizeof out, &len, 1));
    REFUSED(dl_message_write(DL_REPLY, 0, 1, 7, 8, &identifier, 1, NULL, 0, digits, 1, out, sizeof out, &len, 1));
    REFUSED(dl_message_write(DL_REPLY, 0, 1, 7, 8, &identifier, 1, &one, 1, NULL, 0, out, sizeof out, &len, 1));
    check(len == 77 && memcmp(out, expected, sizeof out) == 0, "a refused writer wrote");
    memcpy(expected, no_items, sizeof no_items);
    ANSWERS(DL_DONE, dl_message_write(DL_REPLY, 0, 1, 7, 8, NULL, 0, NULL, 0, NULL, 0, out, sizeof out, &len, 1));
    check(len == sizeof no_items && memcmp(out, expected, sizeof out) == 0, "a message of no items");
    memcpy(expected, empty_item, sizeof empty_item);
    ANSWERS(DL_DONE, dl_message_write(DL_REPLY, 0, 1, 7, 8, &identifier, 1, &zero, 1, NULL, 0, out, sizeof out, &len, 1));
    check(len == sizeof empty_item && memcmp(out, expected, sizeof out) == 0, "a message of an empty item");
}

static const struct test tests[] = {
    {"the version as text and as number", version_as_text_and_number, 0},
    {"every code has a text of its own, and no other number", texts_of_their_own, 0},
    {"successes and refusals", successes_and_refusals, 0},
    {"null with length 0: the hash", nothing_to_hash, 0},
    {"null with length 0: the cipher", nothing_to_encrypt, 0},
    {"null with length 0: the password", nothing_to_make_a_password_of, 0},
    {"null with length 0: the check", nothing_to_check, 0},
    {"null with length 0: the desk's table", no_table, 0},
    {"null with length 0: the desk's texts", nothing_typed, 0},
    {"null with length 0: the desk's message", no_message, 0},
    {"null with length 0: the desk's values", no_room_for_values, 0},
    {"null with length 0: the readers of messages", nothing_to_read, 0},
    {"null with length 0: the writer of messages", nothing_to_write, 0},
};

int main(int argc, char **argv)
{
    return run_tests(tests, sizeof tests / sizeof *tests, 0, argc, argv);
}
