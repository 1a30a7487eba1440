// The one-time password through the C interface, compared with the one of otp_reference.h over OpenSSL's libcrypto.
//   password         the full run: 20,000 random cases to a test
//   password COUNT   the short run, for valgrind: COUNT cases, no long buffers
#define _DEFAULT_SOURCE
#include "lending.h"
#include "otp_reference.h"

enum { LENGTHS = 41, BYTES = 256 };

// The arguments of one call; the lent output has out_len bytes.
struct call {
    uint8_t algorithm, has_time, has_count, digits;
    uint32_t count;
    uint64_t time;
    uint8_t key[LENGTHS], challenge[LENGTHS];
    size_t key_len, challenge_len, out_len;
};

// ---- calls and their comparison

static uint8_t absent_or_present(void)
{
    return one_in(2) ? 0 : random_between(1, 255);
}

static void make_challenge(struct call *call, size_t n)
{
    call->challenge_len = n;
    random_bytes_between(call->challenge, n, 0x21, 0x7e);
}

// Any call that has a password.
static void make_call(struct call *call)
{
    call->algorithm = random_between(DL_ALGORITHM_SM3, DL_ALGORITHM_SM4);
    call->digits = random_between(6, DL_MOST_DIGITS);
    call->has_time = absent_or_present();
    call->has_count = call->has_time == 0 ? 1 : absent_or_present();
    call->time = random_number() >> random_below(64);
    call->count = (uint32_t)random_number() >> random_below(32);
    call->key_len = random_between(16, 32);
    random_bytes(call->key, sizeof call->key);
    make_challenge(call, one_in(2) ? 0 : random_between(4, 32));
    call->out_len = call->digits + random_below(100);
}

// Key and challenge in buffers of their own length, so that valgrind sees a read past them.
static uint16_t run(const struct call *call)
{
    uint8_t *key = copy_of(call->key, call->key_len), *challenge = copy_of(call->challenge, call->challenge_len);
    lend();
    uint16_t code = dl_password(call->algorithm, key, call->key_len, call->has_time, call->time, call->has_count,
                                call->count, challenge, call->challenge_len, call->digits, lent, call->out_len);
    free(key);
    free(challenge);
    return code;
}

static void describe(int as_said, const struct call *call)
{
    check(as_said, "dl_password, algorithm %d, key_len %zu, has_time %d, has_count %d, challenge_len %zu, digits %d, out_len %zu",
          call->algorithm, call->key_len, call->has_time, call->has_count, call->challenge_len, call->digits,
          call->out_len);
}

// The call gives the other program's password, or its refusal.
static void compare(const struct call *call)
{
    struct otp_arguments arguments = {
        .algorithm = call->algorithm, .key = call->key, .key_len = call->key_len, .has_time = call->has_time,
        .has_count = call->has_count, .time = call->time, .count = call->count, .challenge = call->challenge,
        .challenge_len = call->challenge_len, .digits = call->digits};
    uint8_t expected[OTP_MOST_DIGITS];
    int has_password = otp_password(&arguments, expected) && call->out_len >= call->digits;
    uint16_t code = run(call);
    describe(has_password ? gave(code, expected, call->digits) : refused(code), call);
}

// ---- passwords

// GM/T 0021, Annex C.2, cut to every number of digits; document 01, set cases 1 and 2.
static void annex_example(void)
{
    static const uint8_t key[] = {0x12, 0x34, 0x56, 0x78, 0x90, 0xab, 0xcd, 0xef,
                                  0x12, 0x34, 0x56, 0x78, 0x90, 0xab, 0xcd, 0xef};
    struct call call = {.algorithm = DL_ALGORITHM_SM4, .has_time = 1, .has_count = 1, .time = 1340783053, .count = 1234,
                        .key_len = sizeof key, .challenge = "5678", .challenge_len = 4, .out_len = 100};
    memcpy(call.key, key, sizeof key);
    for (call.digits = 6; call.digits <= DL_MOST_DIGITS; call.digits++)
        describe(gave(run(&call), "0192446720" + DL_MOST_DIGITS - call.digits, call.digits), &call);
}

static void random_calls(void)
{
    struct call call;
    for (size_t i = 0; i < cases; i++) {
        make_call(&call);
        compare(&call);
    }
}

static void every_flag(void)
{
    struct call call;
    for (unsigned flag = 0; flag < BYTES; flag++)
        for (int other = 0; other < 2; other++) {
            make_call(&call);
            call.has_time = (uint8_t)(other ? random_below(BYTES) : flag);
            call.has_count = (uint8_t)(other ? flag : random_below(BYTES));
            compare(&call);
        }
}

// ---- one argument over all its values

// Every key length and challenge length to 40, with all of T and C, and outputs that fit or are a byte short.
static void every_length(void)
{
    struct call call;
    for (size_t key_len = 0; key_len < LENGTHS; key_len++)
        for (size_t challenge_len = 0; challenge_len < LENGTHS; challenge_len++)
            for (int present = 0; present < 4; present++) {
                make_call(&call);
                call.key_len = key_len;
                make_challenge(&call, challenge_len);
                call.has_time = present & 1;
                call.has_count = present & 2;
                call.out_len = call.digits - random_below(2);
                compare(&call);
            }
}

static void every_algorithm_and_digits(void)
{
    struct call call;
    for (unsigned algorithm = 0; algorithm < BYTES; algorithm++)
        for (unsigned digits = 0; digits < BYTES; digits += algorithm < 8 || digits < 16 ? 1 : 16) {
            make_call(&call);
            call.algorithm = (uint8_t)algorithm;
            call.digits = (uint8_t)digits;
            call.out_len = 400;
            compare(&call);
        }
}

static void every_output(void)
{
    struct call call;
    for (uint8_t digits = 6; digits <= DL_MOST_DIGITS; digits++)
        for (size_t out_len = 0; out_len < 100; out_len++) {
            make_call(&call);
            call.digits = digits;
            call.out_len = out_len;
            compare(&call);
        }
}

// Every byte at every place of a short, a middling and the longest challenge.
static void every_challenge_byte(void)
{
    static const size_t lengths[] = {4, 17, 32};
    struct call call;
    for (size_t i = 0; i < sizeof lengths / sizeof *lengths; i++)
        for (size_t at = 0; at < lengths[i]; at++)
            for (unsigned byte = 0; byte < BYTES; byte++) {
                make_call(&call);
                make_challenge(&call, lengths[i]);
                call.challenge[at] = (uint8_t)byte;
                compare(&call);
            }
}

// ---- refusals, without the other program's word for them

static void bad_algorithm(struct call *call)
{
    static const uint8_t bad[] = {0, 1, 2, 5, 6, 255};
    call->algorithm = bad[random_below(sizeof bad)];
}

static void short_key(struct call *call)
{
    call->key_len = random_below(16);
}

static void long_key(struct call *call)
{
    call->key_len = random_between(33, LENGTHS - 1);
}

static void no_time_or_count(struct call *call)
{
    call->has_time = call->has_count = 0;
}

static void short_challenge(struct call *call)
{
    make_challenge(call, random_between(1, 3));
}

static void long_challenge(struct call *call)
{
    make_challenge(call, random_between(33, LENGTHS - 1));
}

static void bad_challenge_byte(struct call *call)
{
    static const uint8_t bad[] = {0, 0x0a, 0x1f, 0x20, 0x7f, 0x80, 0xa1, 0xff};
    if (call->challenge_len == 0)
        make_challenge(call, random_between(4, 32));
    call->challenge[random_below(call->challenge_len)] = bad[random_below(sizeof bad)];
}

static void few_digits(struct call *call)
{
    call->digits = random_between(0, 5);
}

static void many_digits(struct call *call)
{
    call->digits = random_between(11, 255);
    call->out_len = call->digits;
}

static void short_output(struct call *call)
{
    call->out_len = random_below(6);
}

static void (*const faults[])(struct call *) = {bad_algorithm, short_key, long_key, no_time_or_count, short_challenge,
                                                long_challenge, bad_challenge_byte, few_digits, many_digits, short_output};

// Each fault alone, where both are the same, and each two of them.
static void faults_in_pairs(void)
{
    const size_t n = sizeof faults / sizeof *faults;
    struct call call;
    for (size_t i = 0; i < cases; i++) {
        size_t one = i % n, other = i / n % n;
        make_call(&call);
        faults[one](&call);
        if (other != one)
            faults[other](&call);
        describe(refused(run(&call)), &call);
    }
}

// Lengths whose low 32 bits are in range.
static void long_buffers(void)
{
    const size_t over = (size_t)1 << 32;
    uint8_t *room = map_zeros(over + 4096, PROT_READ | PROT_WRITE), key[16] = {0}, expected[OTP_MOST_DIGITS];
    struct otp_arguments arguments = {.algorithm = OTP_SM4, .key = key, .key_len = 16, .has_time = 1, .digits = 8};
    memset(room, 'q', 64);
    lend();
    uint16_t code = dl_password(DL_ALGORITHM_SM4, room, over + 16, 1, 0, 0, 0, key, 0, 8, lent, 8);
    check(refused(code), "dl_password, key of 2^32 + 16 bytes");
    lend();
    code = dl_password(DL_ALGORITHM_SM4, key, 16, 1, 0, 0, 0, room, over + 16, 8, lent, 8);
    check(refused(code), "dl_password, challenge of 2^32 + 16 bytes");
    lend();
    code = dl_password(DL_ALGORITHM_SM4, key, 16, 1, 0, 0, 0, room, over, 8, lent, 8);
    check(refused(code), "dl_password, challenge of 2^32 bytes");
    otp_password(&arguments, expected);
    code = dl_password(DL_ALGORITHM_SM4, key, 16, 1, 0, 0, 0, key, 0, 8, room, over);
    check(code == DL_DONE && memcmp(room, expected, 8) == 0 && room[8] == 'q', "dl_password, output of 2^32 bytes");
    munmap(room, over + 4096);
}

static const struct test tests[] = {
    {"password, the standard's example", annex_example, 0},
    {"password, random arguments", random_calls, 0},
    {"password, every value of has_time and has_count", every_flag, 0},
    {"password, every key length and challenge length", every_length, 0},
    {"password, every algorithm and number of digits", every_algorithm_and_digits, 0},
    {"password, every output length", every_output, 0},
    {"password, every byte of a challenge", every_challenge_byte, 0},
    {"password refuses each bad argument, and each two", faults_in_pairs, 0},
    {"password, lengths past 32 bits", long_buffers, 1},
};

int main(int argc, char **argv)
{
    return run_tests(tests, sizeof tests / sizeof *tests, 20000, argc, argv);
}
