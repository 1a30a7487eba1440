// Prints tests/library/collisions.inc: tokens with two steps of one password among the candidates of a small window, by both kinds and
// algorithms, the smallest keys first, then the smallest challenges of the key 1.
//   collision_search         all of them, in less than a minute
//   collision_search COUNT   the first COUNT keys and challenges of each
#include "collision.h"

#include <inttypes.h>

// Of a time token at the clock's step 100, and of an event token whose counts are all unused.
static const struct {
    int64_t first;
    size_t steps;
} windows[] = {[DL_TIME_TOKEN] = {98, 5}, [DL_EVENT_TOKEN] = {0, 10}};

enum { MOST_STEPS = 10, KEYS = 50, CHALLENGES = 10 };

// ---- one token

static void show_passwords(const struct window_call *token, struct window_typed shown[MOST_STEPS])
{
    for (size_t i = 0; i < windows[token->kind].steps; i++)
        window_password(token, windows[token->kind].first + (int64_t)i, &shown[i]);
}

// The place of the same password before this one, or this one's.
static size_t earlier_place(const struct window_typed *shown, size_t place)
{
    size_t earlier = 0;
    while (!window_is_same(&shown[earlier], &shown[place]))
        earlier++;
    return earlier;
}

static int find_equal(struct collision *collision, const struct window_typed *shown)
{
    int64_t first = windows[collision->kind].first;
    for (size_t place = 1; place < windows[collision->kind].steps; place++) {
        size_t earlier = earlier_place(shown, place);
        if (earlier < place) {
            collision->steps[0] = first + (int64_t)earlier;
            collision->steps[1] = first + (int64_t)place;
            collision->steps[2] = NO_THIRD;
            return 1;
        }
    }
    return 0;
}

static int prints_equal(struct collision *collision)
{
    struct window_typed shown[MOST_STEPS];
    struct window_call token = collision_token(collision, DL_SMALL);
    show_passwords(&token, shown);
    if (!find_equal(collision, shown))
        return 0;
    const int64_t *steps = collision->steps;
    printf("{%d, %d, %" PRIu64 ", \"%s\", {%" PRId64 ", %" PRId64 ", NO_THIRD}, \"%.*s\"},\n", collision->kind, collision->algorithm,
           collision->key, collision->challenge, steps[0], steps[1], COLLISION_DIGITS, shown[steps[0] - windows[collision->kind].first].bytes);
    return 1;
}

// ---- all of one kind and algorithm

static void search_keys(uint8_t kind, uint8_t algorithm, int wanted)
{
    struct collision collision = {.kind = kind, .algorithm = algorithm, .challenge = ""};
    for (int found = 0; found < wanted;) {
        collision.key++;
        found += prints_equal(&collision);
    }
}

static void search_challenges(uint8_t kind, uint8_t algorithm, int wanted)
{
    char challenge[11];
    struct collision collision = {.kind = kind, .algorithm = algorithm, .key = 1, .challenge = challenge};
    uint32_t number = 0;
    for (int found = 0; found < wanted;) {
        snprintf(challenge, sizeof challenge, "%010" PRIu32, ++number);
        found += prints_equal(&collision);
    }
}

int main(int argc, char **argv)
{
    int count = argc < 2 ? 0 : atoi(argv[1]);
    for (uint8_t i = 0; i < 4; i++) {
        uint8_t kind = i / 2, algorithm = (uint8_t)(DL_ALGORITHM_SM3 + i % 2);
        search_keys(kind, algorithm, count > 0 ? count : KEYS);
        search_challenges(kind, algorithm, count > 0 ? count : CHALLENGES);
    }
    return 0;
}
