// How often each answer of a program's calls came up.
#ifndef ANSWERS_H
#define ANSWERS_H

#include "testing.h"

struct answer {
    uint16_t code;
    unsigned group; // a bit that stands for it, and for others that a test wants together
    const char *name;
    long times, in_all; // in one test, and in those that have ended
};

static inline void add_answer(struct answer *answers, size_t n, uint16_t code)
{
    for (size_t i = 0; i < n; i++)
        answers[i].times += answers[i].code == code;
}

static inline void print_answers(const struct answer *answers, size_t n)
{
    const char *between = "     ";
    for (size_t i = 0; i < n; i++) {
        if (answers[i].times == 0)
            continue;
        printf("%s%ld %s", between, answers[i].times, answers[i].name);
        between = ", ";
    }
    printf("\n");
}

// The end of every test: all answers of the wanted groups came up, and none that never may.
static inline void end_answers(struct answer *answers, size_t n, unsigned wanted, unsigned never)
{
    print_answers(answers, n);
    for (size_t i = 0; i < n; i++) {
        require(answers[i].times > 0 || !(wanted & answers[i].group), "an answer never came up");
        require(answers[i].times == 0 || !(never & answers[i].group), "an answer came up that never may");
        answers[i].in_all += answers[i].times;
        answers[i].times = 0;
    }
}

#endif
