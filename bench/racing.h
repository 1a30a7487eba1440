// What the benchmarks share: contestants that take turns, and rows of the report's table with their best times.
#ifndef RACING_H
#define RACING_H

#include <stdint.h>
#include <stdio.h>
#include <stdlib.h>
#include <string.h>
#include <sys/resource.h>
#include <time.h>

enum { CONTESTANTS = 4 };

// A function to measure; its input is varied by the call's number, and its result stands in `out`.
struct contestant {
    const char *name;
    void (*call)(uint64_t number);
    double best;  // nanoseconds an operation
    uint64_t sum; // of the results, the same for all contestants of a race
};

struct race {
    const char *what;
    int rounds;         // in a pass over all races
    uint64_t calls;     // in a round: about a millisecond, so that many rounds run undisturbed
    uint64_t in_a_call; // operations
    struct contestant contestants[CONTESTANTS]; // ours first
    double target[CONTESTANTS]; // the peer's time over ours; 0: none
};

static uint8_t out[32];

static inline void die(const char *why)
{
    printf("cannot go on: %s\n", why);
    exit(2);
}

static inline double in_nanoseconds(struct timeval t)
{
    return (double)t.tv_sec * 1e9 + (double)t.tv_usec * 1e3;
}

// Processor time of this process and of the programs that it ran, so that other processes of the machine count less.
static inline double nanoseconds(void)
{
    struct timespec t;
    struct rusage children;
    clock_gettime(CLOCK_PROCESS_CPUTIME_ID, &t);
    getrusage(RUSAGE_CHILDREN, &children);
    return (double)t.tv_sec * 1e9 + (double)t.tv_nsec + in_nanoseconds(children.ru_utime)
        + in_nanoseconds(children.ru_stime);
}

static inline void run_round(struct contestant *contestant, const struct race *race)
{
    uint64_t sum = 0, result;
    double start = nanoseconds();
    for (uint64_t number = 0; number < race->calls; number++) {
        contestant->call(number);
        memcpy(&result, out, sizeof result);
        sum += result;
    }
    double each = (nanoseconds() - start) / (double)(race->calls * race->in_a_call);
    if (contestant->best == 0 || each < contestant->best)
        contestant->best = each;
    contestant->sum = sum;
}

// The contestants take turns, so that what slows the machine for a while slows them all.
static inline void run_race(struct race *race)
{
    struct contestant *all = race->contestants;
    for (int round = 0; round < race->rounds; round++)
        for (int i = 0; i < CONTESTANTS && all[i].call != NULL; i++)
            run_round(&all[i], race);
    for (int i = 1; i < CONTESTANTS && all[i].call != NULL; i++)
        if (all[i].sum != all[0].sum)
            die("two contestants gave different results");
}

// A row for each peer, in the columns of bench/run.
static inline void print_race(const struct race *race)
{
    const struct contestant *ours = &race->contestants[0];
    for (int i = 1; i < CONTESTANTS && race->contestants[i].call != NULL; i++) {
        const struct contestant *peer = &race->contestants[i];
        double ratio = peer->best / ours->best, target = race->target[i];
        char wanted[16] = "none";
        if (target > 0)
            snprintf(wanted, sizeof wanted, "%.1f", target);
        printf("| %-28s | %-16s | %10.0f | %-25s | %10.0f | %11.2f | %6s | %-3s |\n", race->what, ours->name, ours->best,
               peer->name, peer->best, ratio, wanted, target == 0 ? "-" : ratio >= target ? "yes" : "NO");
    }
}

static inline void run_races(struct race *races, size_t n, size_t passes)
{
    for (size_t i = 0; i < passes * n; i++)
        run_race(&races[i % n]);
    for (size_t i = 0; i < n; i++)
        print_race(&races[i]);
}

#endif
