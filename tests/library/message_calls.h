// Messages served through the C interface, compared with the reader of message_reference.h: code, values, and every lent byte.
#ifndef MESSAGE_CALLS_H
#define MESSAGE_CALLS_H

#include "desk_calls.h"
#include "message_reference.h"

// ---- answers

// No message loads a token.
enum { BY_NO_MESSAGE = LOADED | TAKEN | FULL | TOO_FAR, BY_MESSAGES = REACHABLE & ~BY_NO_MESSAGE };

static inline void messages_came_up(unsigned wanted)
{
    end_answers(answers, ANSWERS, wanted, BY_NO_MESSAGE);
}

static inline void every_message_answer(void)
{
    every_answer_but(BY_NO_MESSAGE);
}

// ---- serving

// In the short run the table has memory of its own, as in desk_calls.h.
static inline uint16_t serve_on_table(const struct message_sent *sent, const uint8_t *message)
{
    if (full_run)
        return dl_serve_message(table, sent->table_len, message, sent->len, sent->now, lent_signed_words, sent->values_len);
    uint8_t *alone = copy_of(table, sent->table_len);
    uint16_t code = dl_serve_message(alone, sent->table_len, message, sent->len, sent->now, lent_signed_words, sent->values_len);
    memcpy(table, alone, sent->table_len);
    free(alone);
    return code;
}

// Has the message served on the table. Gives the code, and whether the message is as it was.
static inline uint16_t serve_message(const struct message_sent *sent, int *kept)
{
    uint8_t *message = copy_of(sent->bytes, sent->len);
    lend();
    uint16_t code = serve_on_table(sent, message);
    *kept = !has_changed(message, sent->bytes, sent->len);
    add_answer(answers, ANSWERS, code);
    return code;
}

// ---- comparison

// The first bytes of a message, as hexadecimal digits.
static inline const char *message_text(const struct message_sent *sent)
{
    static char text[2 * 256 + 1];
    size_t n = sent->len < 256 ? sent->len : 256;
    for (size_t i = 0; i < n; i++)
        snprintf(text + 2 * i, 3, "%02x", sent->bytes[i]);
    text[2 * n] = '\0';
    return text;
}

// Has the message served on the table and holds it against this answer and the bytes of `expected_room`; gives the code.
static inline uint16_t expect_served(const struct message_sent *sent, const struct desk_answer *answer)
{
    int kept;
    uint16_t code = serve_message(sent, &kept);
    int byte = first_wrong_byte(sent->table_len), values_right = wrote(answer->values, answer->values_set * sizeof *answer->values);
    int same = code == answer->code && byte == NONE && values_right && kept;
    check(same, "message of %zu bytes %s, now %" PRIu64 ", lengths %zu %zu: %04x, not %04x; values %s; table %s %d; message %s", sent->len,
          same ? "" : message_text(sent), sent->now, sent->table_len, sent->values_len, code, answer->code,
          values_right ? "right" : "wrong", byte == NONE ? "right" : "wrong at", byte == NONE ? 0 : byte, kept ? "kept" : "changed");
    return code;
}

static inline uint16_t compare_message(const struct message_sent *sent)
{
    struct desk_answer answer = message_answer_to(expect_kept_bytes(sent->table_len), sent);
    return expect_served(sent, &answer);
}

// A message whose answer is written out, and whose table after it stands in `expected_room`: the reference must agree, too.
static inline void expect_written_message(const struct message_sent *sent, const struct desk_answer *answer, const char *name)
{
    static uint8_t after[MOST_TABLE];
    long before = differences;
    memcpy(after, table, sent->table_len);
    struct desk_answer said = message_answer_to(after, sent);
    require(same_answer(answer, &said) && memcmp(after, expected_room + AROUND, sent->table_len) == 0,
            "the reference's answer to a message");
    expect_served(sent, answer);
    if (differences > before)
        printf("     message: %s\n", name);
}

#endif
