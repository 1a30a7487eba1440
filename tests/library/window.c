// The check of a password, and of two in a row, through the C interface, compared with the one of window_reference.h.
// Each test prints how often each answer came up, and fails if one that it is made for never did.
//   window         the full run: 5,000 cases to most tests
//   window COUNT   the short run, for valgrind: COUNT cases, fewer steps with the same password, no long buffers
#define _DEFAULT_SOURCE
#include "window_calls.h"
#include "window_collisions.h"
#include "window_corners.h"
#include "window_counts.h"
#include "window_edges.h"
#include "window_tokens.h"
#include "window_typing.h"

// ---- one test over tokens of one make and passwords of one sort

static void sweep(token_maker *make, typist *type, unsigned wanted)
{
    struct window_call call;
    for (size_t i = 0; i < cases; i++) {
        make_call(&call, make, type);
        compare(&call);
    }
    came_up(wanted);
}

static void single_fresh(void) { sweep(any_token, fresh_step, DONE); }
static void single_used(void) { sweep(any_token, used_step, USED); }
static void single_before(void) { sweep(any_token, step_before, WRONG); }
static void single_behind(void) { sweep(any_token, step_behind, WRONG); }
static void single_random(void) { sweep(any_token, random_digits, WRONG); }
static void single_count(void) { sweep(any_token, other_count, WRONG); }
static void single_length(void) { sweep(any_token, other_length, WRONG | BAD); }
static void single_no_digit(void) { sweep(any_token, no_digit, BAD); }
static void single_no_byte(void) { sweep(any_token, no_byte, BAD); }

static void pair_fresh(void) { sweep(pair_token, fresh_pair, DONE); }
static void pair_used(void) { sweep(pair_token, used_pair, USED); }
static void pair_border(void) { sweep(pair_token, border_pair, USED); }
static void pair_wrong_second(void) { sweep(pair_token, wrong_second, WRONG); }
static void pair_wrong_first(void) { sweep(pair_token, wrong_first, WRONG); }
static void pair_second_behind(void) { sweep(pair_token, second_behind, WRONG); }
static void pair_first_before(void) { sweep(pair_token, first_before, WRONG); }
static void pair_same_twice(void) { sweep(pair_token, same_twice, WRONG); }
static void pair_turned_round(void) { sweep(pair_token, turned_round, WRONG); }
static void pair_one_left_out(void) { sweep(pair_token, one_left_out, WRONG); }
static void pair_count(void) { sweep(pair_token, pair_other_count, WRONG); }
static void pair_second_length(void) { sweep(pair_token, second_other_length, WRONG | BAD); }
static void pair_first_length(void) { sweep(pair_token, first_other_length, WRONG | BAD); }
static void pair_bytes(void) { sweep(pair_token, pair_no_digit, BAD); }
static void pair_challenge(void) { sweep(challenged_token, challenged_pair, BAD); }

static void edge_empty(void) { sweep(empty_window, anything, WRONG); }
static void edge_offset(void) { sweep(farthest_offset, anything, DONE | USED | WRONG); }
static void edge_cut(void) { sweep(cut_window, anything, DONE | USED | WRONG); }
static void edge_next_above(void) { sweep(next_above, anything, USED | WRONG); }
static void edge_next_inside(void) { sweep(next_inside, anything, DONE | USED | WRONG); }
static void edge_next_below(void) { sweep(next_below, anything, DONE | WRONG); }
static void edge_latest_clock(void) { sweep(latest_clock, anything, DONE | USED | WRONG); }
static void edge_last_next(void) { sweep(last_next, anything, USED | WRONG); }
static void edge_clock_zero(void) { sweep(clock_zero, anything, DONE | USED | WRONG); }
static void edge_early_clock(void) { sweep(early_clock, anything, DONE | USED | WRONG); }
static void edge_period(void) { sweep(period_edge, anything, DONE | USED | WRONG); }
static void edge_first_counts(void) { sweep(first_counts, anything, DONE | USED | WRONG); }
static void edge_last_counts(void) { sweep(last_counts, anything, DONE | USED | WRONG); }
static void edge_count_end(void) { sweep(counts_at_end, any_single, USED | WRONG); }
static void edge_count_end_pair(void) { sweep(counts_at_end, any_pair, WRONG); }

// ---- every combination

// Each number is another one of these tokens with another one of these sorts.
enum { COMBINATIONS = 2 * 2 * 3 * 5 * 17 * 9 };

static int make_combination(struct window_call *call, size_t number)
{
    static typist *const sorts[] = {fresh_step, used_step, step_behind, fresh_step, used_step, step_behind,
                                    fresh_pair, used_pair, second_behind};
    take_token(call, &number);
    call->digits = (uint8_t)(6 + take(&number, 5));
    call->key_len = 16 + take(&number, 17);
    make_challenge(call, 3 <= number && number < 6 ? random_between(4, 32) : 0);
    return sorts[number](call);
}

static void every_combination(void)
{
    struct window_call call;
    for (size_t number = 0; number < COMBINATIONS; number++) {
        while (!make_combination(&call, number))
            ;
        compare(&call);
    }
    came_up(DONE | USED | WRONG);
}

static void random_calls(void)
{
    struct window_call call;
    size_t n = (full_run ? 130 : 10) * cases; // with the other tests a million, in the full run
    for (size_t i = 0; i < n; i++) {
        make_call(&call, any_token, anything_or_misfit);
        compare(&call);
    }
    came_up(DONE | USED | WRONG | BAD);
}

static const struct test tests[] = {
    {"set case 7, step by step", steps_of_case_7, 0},
    {"set case 8, step by step", steps_of_case_8, 0},
    {"set case 9, step by step", steps_of_case_9, 0},
    {"set case 10, step by step", steps_of_case_10, 0},
    {"further windows, step by step", steps_of_further, 0},
    {"counts of requests 2 and 5: time, single", counts_of_time, 0},
    {"counts of requests 2 and 5: event, single", counts_of_events, 0},
    {"counts of requests 2 and 5: pairs", counts_of_pairs, 0},
    {"counts of requests 2 and 5: seven digits", counts_of_seven_digits, 0},
    {"every kind, algorithm, size, number of digits and key length; single, challenged and pair", every_combination, 0},
    {"random tokens and passwords", random_calls, 0},
    {"single, a fresh step", single_fresh, 0},
    {"single, a used step", single_used, 0},
    {"single, the step before the window", single_before, 0},
    {"single, the step behind the window", single_behind, 0},
    {"single, random digits", single_random, 0},
    {"single, 6 to 10 digits, but not as many as the token's", single_count, 0},
    {"single, another length", single_length, 0},
    {"single, bytes that are no digits", single_no_digit, 0},
    {"single, an empty password", single_no_byte, 0},
    {"pair, fresh", pair_fresh, 0},
    {"pair, used", pair_used, 0},
    {"pair, its first step the last used one", pair_border, 0},
    {"pair, wrong second password", pair_wrong_second, 0},
    {"pair, wrong first password", pair_wrong_first, 0},
    {"pair, its second step behind the window", pair_second_behind, 0},
    {"pair, its first step before the window", pair_first_before, 0},
    {"pair, both passwords equal", pair_same_twice, 0},
    {"pair, turned round", pair_turned_round, 0},
    {"pair, a step left out", pair_one_left_out, 0},
    {"pair, one of 6 to 10 digits, but not as many as the token's", pair_count, 0},
    {"pair, second password of another length", pair_second_length, 0},
    {"pair, first password of another length or empty", pair_first_length, 0},
    {"pair, bytes that are no digits", pair_bytes, 0},
    {"pair with a challenge", pair_challenge, 0},
    {"time, windows below step 0", edge_empty, 0},
    {"time, offset -600 or 600", edge_offset, 0},
    {"time, windows cut at 600 from the clock", edge_cut, 0},
    {"time, next above the window, to 2^40 + 600", edge_next_above, 0},
    {"time, next inside the window", edge_next_inside, 0},
    {"time, next below the window", edge_next_below, 0},
    {"time, clock at 2^40 - 1 or near it, period 1", edge_latest_clock, 0},
    {"time, clock 2^40 - 1 and next 2^40 + 600", edge_last_next, 0},
    {"time, clock 0", edge_clock_zero, 0},
    {"time, windows cut at step 0", edge_early_clock, 0},
    {"time, first and last second of a step, period 1 and 60", edge_period, 0},
    {"event, next 0 to 2", edge_first_counts, 0},
    {"event, next 2^32 - 60 to 2^32", edge_last_counts, 0},
    {"event, next 2^32, single", edge_count_end, 0},
    {"event, next 2^32, pair", edge_count_end_pair, 0},
    {"two fresh steps with one password: neither", twins_fresh, 0},
    {"a used and a fresh step with one password: the fresh one", twins_used_and_fresh, 0},
    {"two used steps with one password", twins_used, 0},
    {"two steps with one password, as first of a pair", twins_in_pairs, 0},
    {"two steps in a row with one password, as a pair", equal_neighbours, 0},
    {"tokens found to have one password at two steps or three: they have", equal_passwords, 0},
    {"fifty such tokens of each kind and algorithm", enough_were_found, 0},
    {"those of request 5 among them", told_tokens_were_found, 0},
    {"request 5's table", told_answers, 0},
    {"each found token, single and pair, from its first equal step to behind the last", found_tokens, 0},
    {"three steps with one password", three_steps, 0},
    {"found tokens, steps and clocks near the equal ones", near_equal_steps, 0},
    {"arguments at the ends of their ranges", just_inside, 0},
    {"passwords at the ends of their ranges", just_inside_typed, 0},
    {"each argument out of its range", just_outside, 0},
    {"each two arguments out of their ranges", two_outside, 0},
    {"every value of kind, algorithm, digits, period and size", every_value, 0},
    {"lengths past 32 bits", long_buffers, 1},
};

int main(int argc, char **argv)
{
    return run_tests(tests, sizeof tests / sizeof *tests, 5000, argc, argv);
}
