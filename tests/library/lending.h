// The output that the C tests lend to a call, in the midst of random bytes.
#ifndef LENDING_H
#define LENDING_H

#include "dykeladder.h"
#include "testing.h"

#include <sys/mman.h>

enum { BEFORE = 16, ROOM = 512, WORD = 4, LONG_WORD = 8 };

// The lent output starts BEFORE bytes into `now`, so that a write on either side of it shows.
static union {
    uint8_t bytes[ROOM];
    uint32_t words[ROOM / WORD];
    uint64_t long_words[ROOM / LONG_WORD];
    int64_t signed_words[ROOM / LONG_WORD];
} now;
static uint8_t was[ROOM];

static uint8_t *const lent = now.bytes + BEFORE;
static uint32_t *const lent_words = now.words + BEFORE / WORD;
static uint64_t *const lent_long_words = now.long_words + BEFORE / LONG_WORD;
static int64_t *const lent_signed_words = now.signed_words + BEFORE / LONG_WORD;

static inline void lend(void)
{
    random_bytes(was, ROOM);
    memcpy(now.bytes, was, ROOM);
}

// The call wrote this result and left every other byte as it was.
static inline int wrote(const void *result, size_t n)
{
    const size_t end = BEFORE + n;
    return memcmp(lent, result, n) == 0 && memcmp(now.bytes, was, BEFORE) == 0
        && memcmp(now.bytes + end, was + end, ROOM - end) == 0;
}

// The call answered DL_DONE, and wrote this result and no more.
static inline int gave(uint16_t code, const void *result, size_t n)
{
    return code == DL_DONE && wrote(result, n);
}

// The call answered this code, which is no DL_DONE, and wrote nothing.
static inline int turned_down(uint16_t code, uint16_t expected)
{
    return code == expected && memcmp(now.bytes, was, ROOM) == 0;
}

static inline int refused(uint16_t code)
{
    return turned_down(code, DL_BAD_ARGUMENT);
}

// Zeros that take no memory until they are written to.
static inline uint8_t *map_zeros(size_t n, int protection)
{
    uint8_t *zeros = mmap(NULL, n, protection, MAP_PRIVATE | MAP_ANONYMOUS | MAP_NORESERVE, -1, 0);
    if (zeros == MAP_FAILED)
        die("cannot map zeros");
    return zeros;
}

#endif
