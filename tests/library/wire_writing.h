// One call of dl_message_write, compared with wire_reference.h in its code, in the message and in every byte around it.
#ifndef WIRE_WRITING_H
#define WIRE_WRITING_H

#include "wire_calls.h"

enum { WIRE_MOST_CONTENTS = 70000, WIRE_MOST_OUT = 66000, WIRE_BEHIND = 64 };

// The arguments of a call; the slices' lengths need not fit together.
struct wire_call {
    uint64_t caller, number;
    uint32_t type, service, options;
    size_t identifiers_len, lengths_len, contents_len;
    uint32_t identifiers[WIRE_MOST_ITEMS], lengths[WIRE_MOST_ITEMS];
    uint8_t contents[WIRE_MOST_CONTENTS];
};

// ---- what is expected

// The message that a call asks for. 0 if there are more or fewer lengths than identifiers, or contents than lengths.
static inline int wire_asks_for(const struct wire_call *call, struct wire_message *message)
{
    struct wire_rest contents = {call->contents, call->contents_len, 0};
    message->type = call->type;
    message->caller = call->caller;
    message->number = call->number;
    message->service = call->service;
    message->options = call->options;
    message->count = call->identifiers_len;
    if (call->identifiers_len != call->lengths_len)
        return 0;
    for (size_t i = 0; i < message->count; i++) {
        message->items[i].identifier = call->identifiers[i];
        message->items[i].length = call->lengths[i];
        message->items[i].content = wire_take_bytes(&contents, call->lengths[i]);
    }
    return !contents.ended && contents.left == 0;
}

// The call that asks for a message.
static inline void wire_ask_for(const struct wire_message *message, struct wire_call *call)
{
    call->type = (uint32_t)message->type;
    call->caller = message->caller;
    call->number = message->number;
    call->service = (uint32_t)message->service;
    call->options = (uint32_t)message->options;
    call->identifiers_len = call->lengths_len = message->count;
    call->contents_len = 0;
    for (size_t i = 0; i < message->count; i++) {
        call->identifiers[i] = (uint32_t)message->items[i].identifier;
        call->lengths[i] = (uint32_t)message->items[i].length;
        memcpy(call->contents + call->contents_len, message->items[i].content, message->items[i].length);
        call->contents_len += message->items[i].length;
    }
}

static inline enum wire_fault wire_expect(const struct wire_call *call, size_t out_len, size_t written_len,
                                          struct wire_buffer *expected)
{
    static struct wire_message message;
    if (!wire_asks_for(call, &message))
        return WIRE_SLICES;
    return written_len == 0 ? WIRE_NOT_WRITTEN : wire_write(&message, out_len, expected);
}

// The length of what a call asks for, if there is room for it and it can be written.
static inline size_t wire_length_of(const struct wire_call *call)
{
    static struct wire_buffer whole;
    return wire_expect(call, SIZE_MAX, 1, &whole) == WIRE_RIGHT ? whole.n : 0;
}

// ---- the output

// The output starts BEFORE bytes into `wire_now`, as in lending.h.
static uint8_t wire_now[BEFORE + WIRE_MOST_OUT + WIRE_BEHIND], wire_was[sizeof wire_now];
static uint8_t *const wire_out = wire_now + BEFORE;

static inline void wire_lend_out(size_t out_len)
{
    if (out_len > WIRE_MOST_OUT)
        die("an output larger than the tests have");
    random_bytes(wire_was, BEFORE + out_len + WIRE_BEHIND);
    memcpy(wire_now, wire_was, BEFORE + out_len + WIRE_BEHIND);
}

// The call wrote these bytes and left every other byte as it was.
static inline int wire_wrote(const uint8_t *bytes, size_t n, size_t out_len)
{
    const size_t end = BEFORE + n;
    return memcmp(wire_out, bytes, n) == 0 && memcmp(wire_now, wire_was, BEFORE) == 0
        && memcmp(wire_now + end, wire_was + end, out_len - n + WIRE_BEHIND) == 0;
}

// ---- the call

// Each slice in just so much memory.
static inline uint16_t wire_make_call(const struct wire_call *call, uint8_t *out, size_t out_len, uint64_t *written,
                                      size_t written_len)
{
    const size_t identifiers_size = WORD * call->identifiers_len, lengths_size = WORD * call->lengths_len;
    uint32_t *identifiers = copy_of(call->identifiers, identifiers_size), *lengths = copy_of(call->lengths, lengths_size);
    uint8_t *contents = copy_of(call->contents, call->contents_len);
    uint16_t code = dl_message_write(call->type, call->caller, call->number, call->service, call->options,
                                     identifiers, call->identifiers_len, lengths, call->lengths_len, contents, call->contents_len,
                                     out, out_len, written, written_len);
    require(memcmp(identifiers, call->identifiers, identifiers_size) == 0 && memcmp(lengths, call->lengths, lengths_size) == 0
            && memcmp(contents, call->contents, call->contents_len) == 0, "dl_message_write changed what it is to read");
    free(identifiers);
    free(lengths);
    free(contents);
    return code;
}

// Writes by both. The library's message is then in wire_out; its length, 0 if both refuse, is the result.
static inline size_t wire_compare_write(const struct wire_call *call, size_t out_len, size_t written_len)
{
    static struct wire_buffer expected;
    enum wire_fault fault = wire_expect(call, out_len, written_len, &expected);
    wire_lend_out(out_len);
    lend();
    uint8_t *out = out_len == 0 && one_in(2) ? NULL : wire_out;
    uint64_t *written = written_len == 0 && one_in(2) ? NULL : lent_long_words;
    uint16_t code = wire_make_call(call, out, out_len, written, written_len);
    const uint64_t length = expected.n;
    int same = fault == WIRE_RIGHT ? gave(code, &length, sizeof length) && wire_wrote(expected.bytes, expected.n, out_len)
                                   : refused(code) && wire_wrote(expected.bytes, 0, out_len);
    wire_messages++;
    wire_check(same, WIRE_WRITE, fault, code, wire_out, fault == WIRE_RIGHT ? expected.n : out_len);
    return fault == WIRE_RIGHT ? expected.n : 0;
}

// Writes by both into an output that is long enough for any message that can be written, often just so.
static inline size_t wire_compare_written(const struct wire_call *call)
{
    const size_t more = one_in(2) ? 0 : random_below(300);
    return wire_compare_write(call, wire_length_of(call) + more, 1 + random_below(4));
}

#endif
