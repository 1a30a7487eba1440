// The codes of documents 01 and 02 that the desk answers with, and how often they came up.
#ifndef DESK_ANSWERS_H
#define DESK_ANSWERS_H

#include "answers.h"

// Groups of answers.
enum {
    LOADED = 1 << 0,
    LOGGED_IN = 1 << 1,
    CHECKED = 1 << 2, // the other successes of checked calls
    PLAIN = 1 << 3, // successes of calls without a check
    BAD = 1 << 4,
    TAKEN = 1 << 5,
    FULL = 1 << 6,
    NO_TOKEN = 1 << 7,
    DAMAGED = 1 << 8,
    OTHER_STATE = 1 << 9,
    EXPIRED = 1 << 10,
    USED = 1 << 11,
    WRONG = 1 << 12,
    NEXT_WANTED = 1 << 13, // only tokens with two steps to one password have it
    TOO_FAR = 1 << 14,
    BAD_MESSAGE = 1 << 15, // this and the next two are answers to messages alone
    BAD_MAC = 1 << 16,
    NO_SERVICE = 1 << 17,
    UNSERVED = BAD_MESSAGE | BAD_MAC | NO_SERVICE,
    ON_A_TOKEN = LOGGED_IN | CHECKED | PLAIN | OTHER_STATE | EXPIRED | USED | WRONG, // whose row is well formed
    REACHABLE = NEXT_WANTED - 1, // by tokens of any key
};

static struct answer answers[] = {
    {0x0140, LOADED, "0140 load", 0, 0}, {0x0001, LOGGED_IN, "0001 login", 0, 0},
    {0x0002, CHECKED, "0002 challenge login", 0, 0}, {0x0101, CHECKED, "0101 activate", 0, 0},
    {0x0102, PLAIN, "0102 lock", 0, 0}, {0x0103, CHECKED, "0103 unlock", 0, 0}, {0x0104, PLAIN, "0104 suspend", 0, 0},
    {0x0105, CHECKED, "0105 resume", 0, 0}, {0x0108, CHECKED, "0108 sync", 0, 0}, {0x010a, PLAIN, "010a void", 0, 0},
    {0x010b, PLAIN, "010b query", 0, 0}, {0x9001, BAD_MESSAGE, "9001 bad message", 0, 0}, {0x9002, BAD_MAC, "9002 bad MAC", 0, 0},
    {0x9004, NO_SERVICE, "9004 no service", 0, 0}, {0x9005, BAD, "9005 bad argument", 0, 0},
    {0x8411, TAKEN, "8411 serial taken", 0, 0}, {0x8410, FULL, "8410 table full", 0, 0}, {0x8402, NO_TOKEN, "8402 no token", 0, 0},
    {0x8403, DAMAGED, "8403 not well formed", 0, 0}, {0x8409, OTHER_STATE, "8409 ready", 0, 0},
    {0x8404, OTHER_STATE, "8404 locked", 0, 0}, {0x8405, OTHER_STATE, "8405 suspended", 0, 0},
    {0x8406, OTHER_STATE, "8406 not activated", 0, 0}, {0x8407, OTHER_STATE, "8407 void", 0, 0},
    {0x8408, EXPIRED, "8408 expired", 0, 0}, {0x8106, TOO_FAR, "8106 too far", 0, 0},
    {0x8001, NEXT_WANTED, "8001 next wanted", 0, 0}, {0x8101, NEXT_WANTED, "8101 next wanted", 0, 0}, {0x8004, USED, "8004 used", 0, 0},
    {0x8104, USED, "8104 used", 0, 0}, {0x8002, WRONG, "8002 wrong", 0, 0}, {0x8102, WRONG, "8102 wrong", 0, 0},
    {0x8105, WRONG, "8105 wrong", 0, 0}};

enum { ANSWERS = sizeof answers / sizeof *answers };

// 8106 never comes up, since no candidate is more than 600 from the clock's step.
static inline void came_up(unsigned wanted)
{
    end_answers(answers, ANSWERS, wanted, TOO_FAR | UNSERVED);
}

static inline void every_answer_but(unsigned never)
{
    for (size_t i = 0; i < ANSWERS; i++) {
        printf("     %ld %s\n", answers[i].in_all, answers[i].name);
        check((answers[i].in_all > 0) == !(answers[i].group & never), "%s came up %ld times", answers[i].name, answers[i].in_all);
    }
}

// The last test of a program: every answer to a call but 8106 came up in some test.
static inline void every_answer(void)
{
    every_answer_but(TOO_FAR | UNSERVED);
}

#endif
