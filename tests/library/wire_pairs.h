// Two messages that can be written are equal exactly when their bytes are (document 02, request 3).
#ifndef WIRE_PAIRS_H
#define WIRE_PAIRS_H

#include "wire_making.h"

static struct wire_call wire_one, wire_other;

// Writes both by the library. Their bytes are equal if and only if all that was asked for is.
static inline int wire_compare_pair(void)
{
    static struct wire_message one, other;
    static uint8_t bytes[WIRE_MOST_OUT];
    wire_asks_for(&wire_one, &one);
    wire_asks_for(&wire_other, &other);
    const int equal = wire_same(&one, &other);
    const size_t n = wire_compare_written(&wire_one);
    memcpy(bytes, wire_out, n);
    const size_t m = wire_compare_written(&wire_other);
    const int equal_bytes = n == m && memcmp(bytes, wire_out, n) == 0;
    check(n > 0 && m > 0 && equal_bytes == equal, "messages equal %d, bytes equal %d, lengths %zu and %zu", equal, equal_bytes, n, m);
    return equal;
}

// ---- one change

static inline void wire_move_contents(struct wire_call *call, size_t at, size_t n)
{
    const size_t behind = call->contents_len - at;
    uint8_t *kept = copy_of(call->contents + at, behind);
    memcpy(call->contents + at + n, kept, behind);
    random_bytes(call->contents + at, n);
    call->contents_len += n;
    free(kept);
}

// An empty item with the least identifier that is free, behind those below it.
static inline void wire_add_item(struct wire_call *call)
{
    size_t i = 0;
    while (i < call->identifiers_len && call->identifiers[i] == i)
        i++;
    memmove(call->identifiers + i + 1, call->identifiers + i, WORD * (call->identifiers_len - i));
    memmove(call->lengths + i + 1, call->lengths + i, WORD * (call->lengths_len - i));
    call->identifiers[i] = (uint32_t)i;
    call->lengths[i] = 0;
    call->lengths_len = ++call->identifiers_len;
}

static inline void wire_remove_last(struct wire_call *call)
{
    call->lengths_len = --call->identifiers_len;
    call->contents_len -= call->lengths[call->lengths_len];
}

// Items that rise can be told apart in the last one's identifier, in a content's byte or length, or in where a content ends.
static inline void wire_change_item(struct wire_call *call)
{
    const size_t last = call->identifiers_len - 1, i = random_below(last + 1);
    uint32_t *length = call->lengths + i, *identifier = call->identifiers + last;
    switch (random_below(5)) {
    case 0: *identifier += *identifier < 65535 ? 1 : 0; break;
    case 1: call->contents[random_below(call->contents_len + 1)] ^= 1 << random_below(8); break;
    case 2:
        if (*length < 255) {
            ++*length;
            wire_move_contents(call, random_below(call->contents_len + 1), 1);
        }
        break;
    case 3:
        if (i < last && *length > 0 && length[1] < 255) {
            --*length;
            length[1]++;
        }
        break;
    default: wire_remove_last(call);
    }
}

static inline void wire_change(struct wire_call *call)
{
    switch (random_below(8)) {
    case 0: call->type = wire_types[random_below(WIRE_TYPES)]; break;
    case 1: call->caller ^= (uint64_t)1 << random_below(64); break;
    case 2: call->number ^= (uint64_t)1 << random_below(64); break;
    case 3: call->service ^= (uint32_t)1 << random_below(16); break;
    case 4: call->options ^= (uint32_t)1 << random_below(16); break;
    default:
        if (call->identifiers_len > 0 && !one_in(5))
            wire_change_item(call);
        else
            wire_add_item(call);
    }
}

static void wire_pairs_with_one_change(void)
{
    size_t equal = 0;
    for (size_t i = 0; i < cases; i++) {
        wire_make_short(&wire_one);
        wire_other = wire_one;
        if (!one_in(10))
            wire_change(&wire_other);
        equal += (size_t)wire_compare_pair();
    }
    check(equal > cases / 20 && equal < cases / 2, "%zu pairs are equal", equal);
}

// ---- from few messages

// So few that two are often equal by chance.
static inline void wire_make_one_of_few(struct wire_call *call)
{
    call->type = wire_types[random_below(WIRE_TYPES)];
    call->caller = call->number = random_below(2);
    call->service = call->options = 1;
    call->identifiers_len = call->lengths_len = random_below(3);
    call->contents_len = 0;
    for (size_t i = 0; i < call->lengths_len; i++) {
        call->identifiers[i] = (uint32_t)(2 * i + random_below(2));
        call->lengths[i] = (uint32_t)random_below(2);
        call->contents_len += call->lengths[i];
    }
    memset(call->contents, 7, sizeof call->contents);
}

static void wire_pairs_of_few(void)
{
    size_t equal = 0;
    for (size_t i = 0; i < cases; i++) {
        wire_make_one_of_few(&wire_one);
        wire_make_one_of_few(&wire_other);
        equal += (size_t)wire_compare_pair();
    }
    check(equal > 0 && equal < cases / 2, "%zu pairs are equal", equal);
}

#endif
