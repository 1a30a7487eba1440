// A fuzzer for dl_serve_message. The first bytes of an input choose a table, a clock and the lengths (fuzz_choices.h), the others are the message.
// Code, values, and every byte of table and message must be those of message_reference.h.
//
// What guides it: libFuzzer counts the branches and comparisons of what clang compiles, and the proved library is an archive that clang never sees.
// So it is the reference that is instrumented, its reader and its desk. It has every branch that the documents name, and an input that goes a new way
// through it asks the library something new. Branches that the library has for itself, as by the length of what it hashes, guide nothing; they
// are for tests/library/message_sizes.h, which tries each length. AFL++ could watch the archive itself by QEMU or Frida, but Debian's has neither.
// The page behind each lent buffer may not be touched, so that a read past its end is seen without a sanitizer in the archive.
#define _DEFAULT_SOURCE
#include "../library/desk_answers.h"
#include "fuzz_choices.h"

#include <sys/mman.h>

enum { PAGE = 4096, PAGES = 20, MOST_FUZZED = 8, PATTERN = 0xa5 };

// ---- buffers that end where nothing may be touched

static uint8_t *message_end, *table_end, *values_end;

static uint8_t *end_of_pages(void)
{
    uint8_t *pages = mmap(NULL, (PAGES + 1) * PAGE, PROT_READ | PROT_WRITE, MAP_PRIVATE | MAP_ANONYMOUS, -1, 0);
    if (pages == MAP_FAILED || mprotect(pages + PAGES * PAGE, PAGE, PROT_NONE) != 0)
        die("no pages");
    return pages + PAGES * PAGE;
}

static void show_answers(void)
{
    print_answers(answers, ANSWERS);
}

int LLVMFuzzerInitialize(int *argc, char ***argv)
{
    (void)argc;
    (void)argv;
    message_end = end_of_pages();
    table_end = end_of_pages();
    values_end = end_of_pages();
    atexit(show_answers);
    return 0;
}

// ---- one input

static void compare(const struct message_sent *sent, const uint8_t *table)
{
    static uint8_t expected[MOST_FUZZED_TABLE];
    int64_t expected_values[MOST_FUZZED], *values = (int64_t *)(void *)values_end - sent->values_len;
    memcpy(table_end - sent->table_len, table, sent->table_len);
    memcpy(message_end - sent->len, sent->bytes, sent->len);
    memset(values, PATTERN, sent->values_len * sizeof *values);
    memset(expected_values, PATTERN, sizeof expected_values);
    memcpy(expected, table, sent->table_len);
    uint16_t code = dl_serve_message(table_end - sent->table_len, sent->table_len, message_end - sent->len, sent->len, sent->now, values,
                                     sent->values_len);
    struct desk_answer answer = message_answer_to(expected, sent);
    memcpy(expected_values, answer.values, answer.values_set * sizeof *answer.values);
    add_answer(answers, ANSWERS, code);
    int same = code == answer.code && memcmp(values, expected_values, sent->values_len * sizeof *values) == 0
        && memcmp(table_end - sent->table_len, expected, sent->table_len) == 0 && memcmp(message_end - sent->len, sent->bytes, sent->len) == 0;
    if (same)
        return;
    fprintf(stderr, "%04x, not %04x; or other values, or bytes of the table or the message\n", code, answer.code);
    abort();
}

int LLVMFuzzerTestOneInput(const uint8_t *data, size_t size)
{
    static uint8_t message[PAGES * PAGE], table[MOST_FUZZED_TABLE];
    if (size < FUZZ_CHOICES || size - FUZZ_CHOICES > sizeof message)
        return 0;
    struct message_sent sent = fuzz_chosen(data, table);
    sent.bytes = message;
    sent.len = size - FUZZ_CHOICES;
    memcpy(message, data + FUZZ_CHOICES, sent.len);
    fuzz_mend(data, message, sent.len);
    compare(&sent, table);
    return 0;
}
