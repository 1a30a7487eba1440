// What the C tests share: a generator with a fixed seed, and named tests that count their comparisons.
#ifndef TESTING_H
#define TESTING_H

#include <inttypes.h>
#include <stdarg.h>
#include <stddef.h>
#include <stdint.h>
#include <stdio.h>
#include <stdlib.h>
#include <string.h>

// Fixed, so that every run makes the same cases.
#define SEED UINT64_C(20120021)

struct test {
    const char *name;
    void (*run)(void);
    int full_run_only; // too slow or too big for the short run
};

static uint64_t random_state = SEED;
static long comparisons, differences;

// The random cases to a test. The short run, for valgrind, has fewer.
static size_t cases;
static int full_run;

// The next number of splitmix64.
static inline uint64_t random_number(void)
{
    uint64_t z = random_state += UINT64_C(0x9e3779b97f4a7c15);
    z = (z ^ (z >> 30)) * UINT64_C(0xbf58476d1ce4e5b9);
    z = (z ^ (z >> 27)) * UINT64_C(0x94d049bb133111eb);
    return z ^ (z >> 31);
}

static inline size_t random_below(size_t bound)
{
    return random_number() % bound;
}

static inline uint8_t random_between(uint8_t least, uint8_t most)
{
    return (uint8_t)(least + random_below((size_t)most - least + 1));
}

static inline int one_in(size_t n)
{
    return random_below(n) == 0;
}

static inline void random_bytes(void *to, size_t n)
{
    uint8_t *byte = to;
    for (size_t i = 0; i < n; i += 8) {
        uint64_t x = random_number();
        memcpy(byte + i, &x, n - i < 8 ? n - i : 8);
    }
}

static inline void random_bytes_between(uint8_t *to, size_t n, uint8_t least, uint8_t most)
{
    for (size_t i = 0; i < n; i++)
        to[i] = random_between(least, most);
}

static inline _Noreturn void die(const char *why)
{
    printf("cannot go on: %s\n", why);
    exit(2);
}

// Exactly n bytes, so that valgrind sees a read past them.
static inline void *allocate(size_t n)
{
    void *room = malloc(n > 0 ? n : 1);
    if (room == NULL)
        die("no memory");
    return room;
}

// A copy in exactly n bytes.
static inline void *copy_of(const void *bytes, size_t n)
{
    return memcpy(allocate(n), bytes, n);
}

// Counts one comparison, and describes the first of a test that differs.
__attribute__((format(printf, 2, 3)))
static inline void check(int same, const char *call, ...)
{
    comparisons++;
    if (same || differences++ > 0)
        return;
    va_list values;
    va_start(values, call);
    printf("first difference: ");
    vprintf(call, values);
    printf("\n");
    va_end(values);
}

// Counts as a comparison only where it fails, so that the tests' counts are those of the calls.
static inline void require(int holds, const char *what)
{
    if (!holds)
        check(0, "%s", what);
}

// Runs one test; it passes if it compared something and nothing differed.
static inline int passes(const struct test *test)
{
    comparisons = differences = 0;
    random_state = SEED;
    test->run();
    int good = comparisons > 0 && differences == 0;
    printf("%s %s: %ld comparisons", good ? "ok  " : "FAIL", test->name, comparisons);
    printf(good ? "\n" : ", %ld differences\n", differences);
    return good;
}

// Runs the tests in full or, given an argument, with that many cases. Prints 'N passed, M failed' as the last line and gives the
// program's exit status.
static inline int run_tests(const struct test *tests, size_t n, size_t full_cases, int argc, char **argv)
{
    int passed = 0, failed = 0;
    full_run = argc < 2;
    cases = full_run ? full_cases : strtoul(argv[1], NULL, 10);
    setvbuf(stdout, NULL, _IOLBF, 0);
    printf("seed %" PRIu64 "\n", SEED);
    for (size_t i = 0; i < n; i++) {
        if (tests[i].full_run_only && !full_run)
            continue;
        if (passes(&tests[i]))
            passed++;
        else
            failed++;
    }
    printf("%d passed, %d failed\n", passed, failed);
    return failed > 0;
}

#endif
