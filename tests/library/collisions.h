// Tokens with one password at two steps of a small window, or at three (document 02, request 5). Those of the keys 1, 2, 3 and so on, and those
// of the challenges 0000000001, 0000000002 and so on under the key 1, are found by
//   tests/library/compile tests/library/collision_search.c target/tests/collision_search -lcrypto
//   target/tests/collision_search >tests/library/collisions.inc
#ifndef COLLISIONS_H
#define COLLISIONS_H

#include "collision.h"

static const struct collision collisions[] = {
#include "collisions.inc"
};

// Found by going up the steps of the keys 1, 2, 3 and so on, some 10^9 to 10^11 of them, which the search above does not do. Those of an event
// token lie in one small window, those of a time token in one large.
static const struct collision triples[] = {
    {DL_TIME_TOKEN, DL_ALGORITHM_SM3, 1, "", {2063165776, 2063165780, 2063165785}, "305172"},
    {DL_TIME_TOKEN, DL_ALGORITHM_SM4, 1, "", {24330814977, 24330814987, 24330814997}, "493119"},
    {DL_EVENT_TOKEN, DL_ALGORITHM_SM3, 12, "", {1487034052, 1487034053, 1487034060}, "780222"},
    {DL_EVENT_TOKEN, DL_ALGORITHM_SM4, 5, "", {1563793926, 1563793929, 1563793934}, "948502"},
};

// The tokens of the request's table, which are the first ones found, and what a check of their password answers.
enum { TIME_SM3, TIME_SM4, EVENT_SM3, EVENT_SM4, TOLD_TOKENS };

static const struct collision told_tokens[TOLD_TOKENS] = {
    [TIME_SM3] = {DL_TIME_TOKEN, DL_ALGORITHM_SM3, 15656, "", {99, 102, NO_THIRD}, "462498"},
    [TIME_SM4] = {DL_TIME_TOKEN, DL_ALGORITHM_SM4, 31032, "", {98, 102, NO_THIRD}, "134483"},
    [EVENT_SM3] = {DL_EVENT_TOKEN, DL_ALGORITHM_SM3, 3403, "", {3, 6, NO_THIRD}, "547160"},
    [EVENT_SM4] = {DL_EVENT_TOKEN, DL_ALGORITHM_SM4, 18225, "", {7, 9, NO_THIRD}, "140930"}};

// The small window of a time token has its centre at the clock's step. Where the password is used, step next - 1 has it or not, and is a
// candidate or not.
static const struct told_check {
    size_t token;
    uint64_t next, now;
    struct window_answer answer; // the code, the step, the candidates, and the fresh ones that match
} told_checks[] = {
    {TIME_SM3, 0, 3000, {0x8001, 0, 5, 2}}, {TIME_SM3, 99, 3000, {0x8001, 0, 5, 2}}, {TIME_SM3, 100, 3000, {DL_DONE, 102, 5, 1}},
    {TIME_SM3, 102, 3029, {DL_DONE, 102, 5, 1}}, {TIME_SM3, 103, 3000, {0x8004, 0, 5, 0}}, {TIME_SM3, 0, 3150, {0x8002, 0, 5, 0}},
    {TIME_SM3, 100, 2970, {0x8004, 0, 5, 0}}, {TIME_SM3, 101, 2970, {0x8004, 0, 5, 0}}, {TIME_SM3, 103, 2970, {0x8004, 0, 5, 0}},
    {TIME_SM3, 104, 3000, {0x8004, 0, 5, 0}}, {TIME_SM3, 104, 3030, {0x8004, 0, 5, 0}},
    {TIME_SM4, 0, 3000, {0x8001, 0, 5, 2}}, {TIME_SM4, 98, 3000, {0x8001, 0, 5, 2}}, {TIME_SM4, 99, 3000, {DL_DONE, 102, 5, 1}},
    {TIME_SM4, 0, 3030, {DL_DONE, 102, 5, 1}}, {TIME_SM4, 0, 2999, {DL_DONE, 98, 5, 1}}, {TIME_SM4, 103, 3000, {0x8004, 0, 5, 0}},
    {TIME_SM4, 0, 3150, {0x8002, 0, 5, 0}}, {TIME_SM4, 99, 2970, {0x8004, 0, 5, 0}}, {TIME_SM4, 103, 2970, {0x8004, 0, 5, 0}},
    {EVENT_SM3, 0, 1060, {0x8001, 0, 10, 2}}, {EVENT_SM3, 3, 1060, {0x8001, 0, 11, 2}}, {EVENT_SM3, 4, 1060, {DL_DONE, 6, 11, 1}},
    {EVENT_SM3, 6, 1060, {DL_DONE, 6, 11, 1}}, {EVENT_SM3, 7, 1060, {0x8004, 0, 11, 0}}, {EVENT_SM3, 8, 1060, {0x8002, 0, 11, 0}},
    {EVENT_SM4, 0, 1060, {0x8001, 0, 10, 2}}, {EVENT_SM4, 7, 1060, {0x8001, 0, 11, 2}}, {EVENT_SM4, 8, 1060, {DL_DONE, 9, 11, 1}},
    {EVENT_SM4, 9, 1060, {DL_DONE, 9, 11, 1}}, {EVENT_SM4, 10, 1060, {0x8004, 0, 11, 0}}, {EVENT_SM4, 11, 1060, {0x8002, 0, 11, 0}},
};

enum { TOLD_CHECKS = sizeof told_checks / sizeof *told_checks };

enum { COLLISIONS = sizeof collisions / sizeof *collisions, TRIPLES = sizeof triples / sizeof *triples };

#endif
