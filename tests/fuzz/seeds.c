// Writes the fuzzer's first inputs: seeds FOLDER. They are the right messages of each call, plain and with a MAC, with a row on which they succeed or
// that is void, and the messages of tests/library/message_corners.h.
#define _DEFAULT_SOURCE
#include "../library/message_changes.h"
#include "../library/message_corners.h"
#include "fuzz_choices.h"

static const char *folder;
static size_t written;

static void write_seed(const uint8_t choices[FUZZ_CHOICES], const struct message_bytes *message)
{
    char name[4096];
    snprintf(name, sizeof name, "%s/%03zu", folder, written++);
    FILE *file = fopen(name, "wb");
    if (file == NULL || fwrite(choices, 1, FUZZ_CHOICES, file) != FUZZ_CHOICES || fwrite(message->bytes, 1, message->len, file) != message->len
        || fclose(file) != 0)
        die("a seed is not written");
}

// The state of a row, and the row's kind, as fuzz_choices.h has them.
static void write_right(size_t variant, uint8_t state, uint8_t kind, uint8_t type)
{
    struct right_message right;
    const uint8_t choices[FUZZ_CHOICES] = {(uint8_t)(state | FUZZ_MEND | (kind == DL_EVENT_TOKEN ? FUZZ_EVENT : 0)), FUZZ_SEAL, 0};
    make_right_message(&right, variant, state, kind, type);
    write_seed(choices, &right.written);
}

// Of some hundred bytes, since no other seed is: with the longest passwords, and for no service.
static void write_long(uint8_t type)
{
    static const uint8_t choices[FUZZ_CHOICES] = {DL_STATE_NOT_ACTIVATED, FUZZ_SEAL, 0};
    struct right_message right;
    make_right_message(&right, CALL_ACTIVATE, DL_STATE_NOT_ACTIVATED, DL_TIME_TOKEN, type);
    for (size_t i = 1; i < right.fields.items; i++) {
        right.fields.item[i].len = MOST_CONTENT;
        memset(right.fields.item[i].content, '7', MOST_CONTENT);
    }
    write_message(&right.written, &right.fields);
    write_seed(choices, &right.written);
    right.fields.service = 0x9999;
    write_message(&right.written, &right.fields);
    write_seed(choices, &right.written);
}

static void write_hex(const char *hex)
{
    static const uint8_t choices[FUZZ_CHOICES] = {DL_STATE_READY, 0, 0};
    struct message_bytes message;
    read_hex(&message, hex);
    write_seed(choices, &message);
}

int main(int argc, char **argv)
{
    if (argc != 2)
        die("seeds FOLDER");
    folder = argv[1];
    for (size_t variant = CALL_LOGIN; variant < VARIANTS; variant++)
        for (uint8_t kind = DL_TIME_TOKEN; kind <= DL_EVENT_TOKEN; kind++) {
            write_right(variant, served_state(variant), kind, REQUEST);
            write_right(variant, served_state(variant), kind, REQUEST_WITH_MAC);
            write_right(variant, DL_STATE_VOID, kind, REQUEST);
        }
    write_long(REQUEST);
    write_long(REQUEST_WITH_MAC);
    for (size_t i = 0; i < SERVED_CORNERS; i++)
        write_hex(served_corners[i].hex);
    for (size_t i = 0; i < REFUSED_CORNERS; i++)
        write_hex(refused_corners[i].hex);
    printf("%zu seeds in %s\n", written, folder);
    return 0;
}
