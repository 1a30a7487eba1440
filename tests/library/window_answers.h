// The answers of a check, and how often they came up.
#ifndef WINDOW_ANSWERS_H
#define WINDOW_ANSWERS_H

#include "answers.h"
#include "dykeladder.h"

enum { DONE = 1, USED = 2, WRONG = 4, BAD = 8, NEXT_WANTED = 16, TOO_FAR = 32 };

static struct answer answers[] = {{DL_DONE, DONE, "done", 0, 0},
                                  {DL_USED, USED, "used", 0, 0},
                                  {DL_WRONG, WRONG, "wrong", 0, 0},
                                  {DL_BAD_ARGUMENT, BAD, "bad argument", 0, 0},
                                  {DL_NEXT_WANTED, NEXT_WANTED, "next wanted", 0, 0},
                                  {0x8106, TOO_FAR, "8106", 0, 0}};

enum { ANSWERS = sizeof answers / sizeof *answers };

static inline void count_answer(uint16_t code)
{
    add_answer(answers, ANSWERS, code);
}

// 8106 never comes up, since no candidate is more than 600 from the clock's step.
static inline void came_up(unsigned wanted)
{
    end_answers(answers, ANSWERS, wanted, TOO_FAR);
}

#endif
