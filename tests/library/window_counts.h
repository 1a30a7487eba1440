// How many passwords a check computes and how many fresh steps match: corners of document 02, requests 2 and 5, each with its numbers.
// Here no two steps have one password; those that have stand in collisions.h.
#ifndef WINDOW_COUNTS_H
#define WINDOW_COUNTS_H

#include "window_corners.h"

enum { NO_STEP = 5000 }; // in none of these windows

// The passwords of one step or two, and what a check of them answers after so many passwords, with so many fresh matches.
struct corner {
    struct listed window;
    int64_t presented, following;
    uint16_t code;
    uint64_t computed, fresh;
};

// Kind, period, size, now, d, next, and the candidates; then the steps.
static const struct corner time_corners[] = {
    {{DL_TIME_TOKEN, 30, DL_SMALL, 3000, 0, 100, 98, 102}, 100, ALONE, DL_DONE, 5, 1},
    {{DL_TIME_TOKEN, 30, DL_SMALL, 3000, 0, 0, 98, 102}, 98, ALONE, DL_DONE, 5, 1},
    {{DL_TIME_TOKEN, 30, DL_SMALL, 3000, 0, 0, 98, 102}, 102, ALONE, DL_DONE, 5, 1},
    {{DL_TIME_TOKEN, 30, DL_SMALL, 3000, 0, 101, 98, 102}, 99, ALONE, DL_USED, 5, 0},
    {{DL_TIME_TOKEN, 30, DL_SMALL, 3000, 0, 0, 98, 102}, NO_STEP, ALONE, DL_WRONG, 5, 0},
    {{DL_TIME_TOKEN, 1, DL_SMALL, 0, -600, 0, 0, -1}, 0, ALONE, DL_WRONG, 0, 0},
    {{DL_TIME_TOKEN, 1, DL_SMALL, 1000, 600, 0, 1598, 1600}, 1600, ALONE, DL_DONE, 3, 1},
};

static const struct corner event_corners[] = {
    {{DL_EVENT_TOKEN, 0, DL_SMALL, 0, 0, 5, 4, 14}, 5, ALONE, DL_DONE, 11, 1},
    {{DL_EVENT_TOKEN, 0, DL_SMALL, 0, 0, 5, 4, 14}, 4, ALONE, DL_USED, 11, 0},
    {{DL_EVENT_TOKEN, 0, DL_SMALL, 0, 0, 5, 4, 14}, NO_STEP, ALONE, DL_WRONG, 11, 0},
    {{DL_EVENT_TOKEN, 0, DL_SMALL, 0, 0, 0, 0, 9}, NO_STEP, ALONE, DL_WRONG, 10, 0},
    {{DL_EVENT_TOKEN, 0, DL_SMALL, 0, 0, COUNT_END, COUNT_END - 1, COUNT_END - 1}, NO_STEP, ALONE, DL_WRONG, 1, 0},
};

// A sync's window is medium, an activate's large.
static const struct corner pair_corners[] = {
    {{DL_TIME_TOKEN, 30, DL_MEDIUM, 3000, 0, 0, 95, 105}, 100, 101, DL_DONE, 7, 1},
    {{DL_TIME_TOKEN, 30, DL_MEDIUM, 3000, 0, 101, 95, 105}, 99, 100, DL_USED, 11, 0},
    {{DL_TIME_TOKEN, 30, DL_MEDIUM, 3000, 0, 101, 95, 105}, 100, 101, DL_USED, 11, 0},
    {{DL_TIME_TOKEN, 30, DL_LARGE, 3000, 0, 0, 90, 110}, 90, 91, DL_DONE, 2, 1},
    {{DL_TIME_TOKEN, 30, DL_LARGE, 3000, 0, 0, 90, 110}, 109, 110, DL_DONE, 21, 1},
    {{DL_TIME_TOKEN, 30, DL_LARGE, 3000, 0, 0, 90, 110}, 110, 111, DL_WRONG, 21, 0},
    {{DL_TIME_TOKEN, 30, DL_LARGE, 3000, 0, 0, 90, 110}, NO_STEP, NO_STEP + 1, DL_WRONG, 21, 0},
    {{DL_TIME_TOKEN, 1, DL_SMALL, 0, -600, 0, 0, -1}, 0, 1, DL_WRONG, 0, 0},
    {{DL_EVENT_TOKEN, 0, DL_SMALL, 0, 0, COUNT_END, COUNT_END - 1, COUNT_END - 1}, COUNT_END - 1, NO_STEP, DL_WRONG, 1, 0},
};

static inline void expect_corner(const struct corner *corner)
{
    struct window_call call;
    int64_t accepted = corner->code != DL_DONE ? 0 : corner->following == ALONE ? corner->presented : corner->following;
    make_listed(&call, &corner->window);
    for (int algorithm = DL_ALGORITHM_SM3; algorithm <= DL_ALGORITHM_SM4; algorithm++) {
        call.algorithm = (uint8_t)algorithm;
        type_steps(&call, corner->presented, corner->following);
        expect_plain(&call, (struct window_answer){corner->code, (uint64_t)accepted, corner->computed, corner->fresh});
    }
}

static inline void expect_corners(const struct corner *corners, size_t n, unsigned wanted)
{
    for (size_t i = 0; i < n; i++)
        expect_corner(&corners[i]);
    came_up(wanted);
}

#define EXPECT_CORNERS(corners, wanted) expect_corners(corners, sizeof corners / sizeof *corners, wanted)

static inline void counts_of_time(void) { EXPECT_CORNERS(time_corners, DONE | USED | WRONG); }
static inline void counts_of_events(void) { EXPECT_CORNERS(event_corners, DONE | USED | WRONG); }
static inline void counts_of_pairs(void) { EXPECT_CORNERS(pair_corners, DONE | USED | WRONG); }

// Of a password, of a pair's first and of its second; the token has ten.
static inline void counts_of_seven_digits(void)
{
    const struct listed window = {DL_TIME_TOKEN, 30, DL_SMALL, 3000, 0, 0, 98, 102};
    struct window_call call;
    make_listed(&call, &window);
    for (int algorithm = DL_ALGORITHM_SM3; algorithm <= DL_ALGORITHM_SM4; algorithm++) {
        call.algorithm = (uint8_t)algorithm;
        type_steps(&call, 100, ALONE);
        call.presented.len = 7;
        expect_plain(&call, wrong(0));
        type_steps(&call, 100, 101);
        call.presented.len = 7;
        expect_plain(&call, wrong(0));
        type_steps(&call, 100, 101);
        call.following.len = 7;
        expect_plain(&call, wrong(0));
    }
    came_up(WRONG);
}

#endif
