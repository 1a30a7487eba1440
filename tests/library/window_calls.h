// The check through the C interface, compared with the one of window_reference.h: the code, the step, the counts, and not a byte more.
#ifndef WINDOW_CALLS_H
#define WINDOW_CALLS_H

#include "lending.h"
#include "window_answers.h"
#include "window_reference.h"
#include "window_tokens.h"
#include "window_typing.h"

// ---- calls

// Each lent count stands in the midst of random numbers, as the lent step does.
enum { COUNT_AT = 2, COUNTS = COUNT_AT + MOST_COUNTS + 2 };

static struct counts {
    uint64_t computed[COUNTS], fresh[COUNTS];
} counts, counts_were;

static uint64_t *const lent_computed = counts.computed + COUNT_AT;
static uint64_t *const lent_fresh = counts.fresh + COUNT_AT;

static inline void lend_all(void)
{
    lend();
    random_bytes(&counts_were, sizeof counts_were);
    counts = counts_were;
}

static inline void make_call(struct window_call *call, token_maker *make, typist *type)
{
    do
        make(call);
    while (!type(call));
}

// All that is read in buffers of its own length, so that valgrind sees a read past it.
static inline uint16_t run(const struct window_call *call)
{
    uint8_t *key = copy_of(call->key, call->key_len), *challenge = copy_of(call->challenge, call->challenge_len),
            *presented = copy_of(call->presented.bytes, call->presented.len),
            *following = copy_of(call->following.bytes, call->following.len);
    lend_all();
    uint16_t code = dl_check(call->kind, call->algorithm, call->digits, call->period, call->next, call->offset, call->now,
                             call->size, key, call->key_len, challenge, call->challenge_len, presented,
                             call->presented.len, following, call->following.len, lent_long_words, call->step_len,
                             lent_computed, call->computed_len, lent_fresh, call->fresh_len);
    free(key);
    free(challenge);
    free(presented);
    free(following);
    count_answer(code);
    return code;
}

// ---- comparison

static const struct window_answer bad_argument = {.code = DL_BAD_ARGUMENT};

// Each after so many passwords.
static inline struct window_answer done(int64_t step, uint64_t computed)
{
    return (struct window_answer){DL_DONE, (uint64_t)step, computed, 1};
}

static inline struct window_answer next_wanted(uint64_t computed, uint64_t fresh)
{
    return (struct window_answer){DL_NEXT_WANTED, 0, computed, fresh};
}

static inline struct window_answer used(uint64_t computed) { return (struct window_answer){DL_USED, 0, computed, 0}; }
static inline struct window_answer wrong(uint64_t computed) { return (struct window_answer){DL_WRONG, 0, computed, 0}; }

// Both counts were written with every code but DL_BAD_ARGUMENT, and nothing beside them.
static inline int counted(struct window_answer answer)
{
    struct counts expected = counts_were;
    if (answer.code != DL_BAD_ARGUMENT) {
        expected.computed[COUNT_AT] = answer.computed;
        expected.fresh[COUNT_AT] = answer.fresh;
    }
    return memcmp(&counts, &expected, sizeof counts) == 0;
}

// The code, the step with DL_DONE, the counts, and not a byte more.
static inline int answered(uint16_t code, struct window_answer answer)
{
    int is_code_and_step = answer.code == DL_DONE ? gave(code, &answer.step, sizeof answer.step) : turned_down(code, answer.code);
    return is_code_and_step && counted(answer);
}

static inline void expect(const struct window_call *call, struct window_answer answer)
{
    uint16_t code = run(call);
    check(answered(code, answer), "dl_check, kind %d, algorithm %d, digits %d, period %d, next %" PRIu64 ", offset %d, now %" PRIu64
          ", size %d, lengths %zu %zu %zu %zu %zu %zu %zu: %04x %" PRIu64 " %" PRIu64 " %" PRIu64 ", not %04x %" PRIu64 " %" PRIu64
          " %" PRIu64, call->kind, call->algorithm, call->digits, call->period, call->next, call->offset, call->now, call->size,
          call->key_len, call->challenge_len, call->presented.len, call->following.len, call->step_len, call->computed_len,
          call->fresh_len, code, *lent_long_words, *lent_computed, *lent_fresh, answer.code, answer.step, answer.computed,
          answer.fresh);
}

static inline void compare(const struct window_call *call)
{
    expect(call, window_check(call));
}

#endif
