// Random input for the line program: otp_random SEED COUNT KIND, where KIND is
//   valid     lines that have a password
//   damaged   valid lines spoiled in one place, so that each prints 9005
//   mixed     two thirds valid, a quarter damaged, the rest with one byte changed at random
#include "../library/testing.h"

enum { ROOM = 8192, LONG_LINE = 5000 };

// The fields as text; `behind` follows the last one.
struct line {
    char key[80], time[32], count[32], challenge[48], algorithm[8], digits[8], behind[8];
};

// ---- valid lines

static char random_hex_digit(void)
{
    return "0123456789abcdefABCDEF"[random_below(22)];
}

static void make_key(char *to, size_t digits)
{
    for (size_t i = 0; i < digits; i++)
        to[i] = random_hex_digit();
    to[digits] = 0;
}

// Numbers of every length, and at times the least or the greatest.
static void make_number(char *to, int bits)
{
    uint64_t most = UINT64_MAX >> (64 - bits);
    uint64_t number = random_number() & most;
    if (one_in(2))
        number >>= random_below((size_t)bits);
    if (one_in(20))
        number = one_in(2) ? 0 : most;
    sprintf(to, "%" PRIu64, number);
}

static void make_challenge(char *to, size_t n)
{
    for (size_t i = 0; i < n; i++)
        do
            to[i] = (char)(0x21 + random_below(0x7e - 0x21 + 1));
        while (to[i] == ',');
    to[n] = 0;
}

// As long as a valid line can be, so that a byte more is one too many for it.
static void make_longest(struct line *line)
{
    make_key(line->key, 64);
    sprintf(line->time, "%" PRIu64, UINT64_MAX - random_below(100));
    sprintf(line->count, "%" PRIu32, UINT32_MAX - (uint32_t)random_below(100));
    make_challenge(line->challenge, 32);
    strcpy(line->algorithm, one_in(2) ? "3" : "4");
    strcpy(line->digits, "10");
}

static void make_valid(struct line *line)
{
    memset(line, 0, sizeof *line);
    if (one_in(100)) {
        make_longest(line);
        return;
    }
    make_key(line->key, 2 * (16 + random_below(17)));
    size_t present = 1 + random_below(3);
    if (present & 1)
        make_number(line->time, 64);
    if (present & 2)
        make_number(line->count, 32);
    if (one_in(2))
        make_challenge(line->challenge, 4 + random_below(29));
    sprintf(line->algorithm, "%zu", 3 + random_below(2));
    sprintf(line->digits, "%zu", 6 + random_below(5));
}

// ---- damages to a field

static char *random_place(char *text)
{
    return text + random_below(strlen(text));
}

static void insert(char *text, size_t at, char c)
{
    memmove(text + at + 1, text + at, strlen(text + at) + 1);
    text[at] = c;
}

// T or C, the one that is there.
static char *present_number(struct line *line)
{
    if (line->time[0] == 0 || (line->count[0] != 0 && one_in(2)))
        return line->count;
    return line->time;
}

static void key_too_short(struct line *line)
{
    make_key(line->key, 2 * random_below(16));
}

static void key_too_long(struct line *line)
{
    make_key(line->key, 2 * (33 + random_below(4)));
}

static void key_odd(struct line *line)
{
    make_key(line->key, 31 + 2 * random_below(18));
}

static void key_not_hex(struct line *line)
{
    static const char near[] = "/:@G`gZzxX -+\x01\x7f\x80\xb0\xe1\xff";
    *random_place(line->key) = near[random_below(sizeof near - 1)];
}

static void key_with_prefix(struct line *line)
{
    memcpy(line->key, "0x", 2);
}

static void number_leading_zero(struct line *line)
{
    insert(present_number(line), 0, '0');
}

static void number_signed(struct line *line)
{
    insert(present_number(line), 0, one_in(2) ? '+' : '-');
}

static void number_spaced(struct line *line)
{
    char *number = present_number(line);
    insert(number, one_in(2) ? 0 : strlen(number), one_in(2) ? ' ' : '\t');
}

static void number_not_decimal(struct line *line)
{
    static const char near[] = "/:aAxe.'\x01\x80\xb0\xb9";
    *random_place(present_number(line)) = near[random_below(sizeof near - 1)];
}

static void time_too_great(struct line *line)
{
    static const char *const great[] = {"18446744073709551616", "18446744073709551617", "18446744073709551620",
                                        "18446744073709551700", "20000000000000000000", "27670116110564327424",
                                        "99999999999999999999", "100000000000000000000", "340282366920938463463374607431"};
    strcpy(line->time, great[random_below(sizeof great / sizeof *great)]);
}

static void count_too_great(struct line *line)
{
    static const char *const great[] = {"4294967296", "4294967297", "4294967300", "5000000000", "9999999999",
                                        "10000000000", "18446744073709551615", "18446744073709551616",
                                        "18446744073709551617"};
    strcpy(line->count, great[random_below(sizeof great / sizeof *great)]);
}

static void no_time_and_count(struct line *line)
{
    line->time[0] = line->count[0] = 0;
}

static void challenge_too_short(struct line *line)
{
    make_challenge(line->challenge, 1 + random_below(3));
}

static void challenge_too_long(struct line *line)
{
    make_challenge(line->challenge, 33 + random_below(8));
}

static void challenge_byte(struct line *line)
{
    static const char outside[] = "\x20\x7f\x01\x1f\x80\xa0\xff";
    if (line->challenge[0] == 0)
        make_challenge(line->challenge, 4 + random_below(29));
    *random_place(line->challenge) = outside[random_below(sizeof outside - 1)];
}

static void algorithm_wrong(struct line *line)
{
    static const char *const wrong[] = {"", "0", "1", "2", "5", "9", "03", "04", "33", "34", "+3", "-4", "x",
                                        " 3", "4 ", "259", "260", "sm3", "3.0"};
    strcpy(line->algorithm, wrong[random_below(sizeof wrong / sizeof *wrong)]);
}

static void digits_wrong(struct line *line)
{
    static const char *const wrong[] = {"", "0", "1", "5", "11", "12", "06", "010", "66", "100", "+6", "-7", "x",
                                        " 8", "9 ", "6.", "262", "266", "0x6"};
    strcpy(line->digits, wrong[random_below(sizeof wrong / sizeof *wrong)]);
}

static void something_behind(struct line *line)
{
    static const char *const behind[] = {" ", "\t", "\r", ",", ",1", "x", "\x1a", "\xff", "\r\r"};
    strcpy(line->behind, behind[random_below(sizeof behind / sizeof *behind)]);
}

static void (*const field_damages[])(struct line *) = {
    key_too_short, key_too_long, key_odd, key_not_hex, key_with_prefix, number_leading_zero, number_signed,
    number_spaced, number_not_decimal, time_too_great, count_too_great, no_time_and_count, challenge_too_short,
    challenge_too_long, challenge_byte, algorithm_wrong, digits_wrong, something_behind};

// ---- damages to the text of the line

static size_t comma_missing(char *text, size_t n)
{
    char *comma = text;
    for (size_t i = random_below(5) + 1; i > 0; i--)
        comma = strchr(comma, ',') + 1;
    memmove(comma - 1, comma, n - (size_t)(comma - text));
    return n - 1;
}

static size_t comma_more(char *text, size_t n)
{
    insert(text, random_below(n + 1), ',');
    return n + 1;
}

static size_t cut_off(char *text, size_t n)
{
    (void)n;
    return random_below((size_t)(strrchr(text, ',') - text) + 1);
}

static size_t space_in_front(char *text, size_t n)
{
    insert(text, 0, " \t\r\xef"[random_below(4)]);
    return n + 1;
}

static size_t zero_byte(char *text, size_t n)
{
    text[random_below(n)] = 0;
    return n;
}

static size_t empty(char *text, size_t n)
{
    (void)text;
    (void)n;
    return 0;
}

// Longer than any line may be, its front as it was or not.
static size_t very_long(char *text, size_t n)
{
    size_t from = one_in(2) ? n : 0, to = one_in(2) ? LONG_LINE : 130 + random_below(400);
    memset(text + from, "0,a\0"[random_below(4)], to + n - from);
    return to + n;
}

static size_t (*const text_damages[])(char *, size_t) = {
    comma_missing, comma_more, cut_off, space_in_front, zero_byte, empty, very_long};

// ---- the lines

static size_t lay(const struct line *line, char *text)
{
    return (size_t)sprintf(text, "%s,%s,%s,%s,%s,%s%s", line->key, line->time, line->count, line->challenge,
                           line->algorithm, line->digits, line->behind);
}

static size_t make_damaged(struct line *line, char *text)
{
    const size_t of_fields = sizeof field_damages / sizeof *field_damages;
    const size_t of_text = sizeof text_damages / sizeof *text_damages;
    size_t damage = random_below(of_fields + of_text);
    if (damage >= of_fields)
        return text_damages[damage - of_fields](text, lay(line, text));
    field_damages[damage](line);
    return lay(line, text);
}

// One byte put in, taken out or replaced; what the line is then is for the two programs to say.
static size_t change_byte(char *text, size_t n)
{
    static const char likely[] = "0123456789abcdefABCDEF,, \n\r";
    char c = one_in(3) ? (char)random_number() : likely[random_below(sizeof likely - 1)];
    size_t at = random_below(n);
    switch (random_below(3)) {
    case 0:
        insert(text, at, c);
        return n + 1;
    case 1:
        memmove(text + at, text + at + 1, n - at);
        return n - 1;
    default:
        text[at] = c;
        return n;
    }
}

static size_t make_line(const char *kind, char *text)
{
    struct line line;
    make_valid(&line);
    size_t chance = strcmp(kind, "mixed") == 0 ? random_below(12) : strcmp(kind, "damaged") == 0 ? 8 : 0;
    if (chance < 8)
        return lay(&line, text);
    return chance < 11 ? make_damaged(&line, text) : change_byte(text, lay(&line, text));
}

int main(int argc, char **argv)
{
    static char text[ROOM];
    if (argc != 4)
        die("three arguments are needed: SEED COUNT valid|damaged|mixed");
    random_state = strtoull(argv[1], NULL, 10);
    for (size_t i = strtoull(argv[2], NULL, 10); i > 0; i--) {
        size_t n = make_line(argv[3], text);
        text[n] = '\n';
        fwrite(text, 1, n + 1, stdout);
    }
    return fflush(stdout) != 0;
}
