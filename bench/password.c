// The one-time password beside the same computation over OpenSSL: prints rows of the report's table.
#define _POSIX_C_SOURCE 200809L
#include "../tests/library/otp_reference.h"
#include "dykeladder.h"
#include "racing.h"

// With T and C the short challenge makes an ID of 16 bytes and the long one an ID of 32; the long key and the long ID
// are 64 bytes, which SM3 pads to two blocks.
enum { SHORT_KEY = 16, LONG_KEY = 32, SHORT_CHALLENGE = 4, LONG_CHALLENGE = 20, COUNT = 1234 };

static uint8_t key[LONG_KEY], challenge[LONG_CHALLENGE];

// ---- the contestants

static void ours(uint8_t algorithm, size_t key_len, size_t challenge_len, uint64_t number)
{
    dl_password(algorithm, key, key_len, 1, number, 1, COUNT, challenge, challenge_len, DL_MOST_DIGITS, out, sizeof out);
}

static void openssl(unsigned algorithm, size_t key_len, size_t challenge_len, uint64_t number)
{
    struct otp_arguments arguments = {
        .algorithm = algorithm, .key = key, .key_len = key_len, .has_time = 1, .has_count = 1, .time = number,
        .count = COUNT, .challenge = challenge, .challenge_len = challenge_len, .digits = OTP_MOST_DIGITS};
    otp_password(&arguments, out);
}

static void ours_sm3(uint64_t number)
{
    ours(DL_ALGORITHM_SM3, SHORT_KEY, SHORT_CHALLENGE, number);
}

static void openssl_sm3(uint64_t number)
{
    openssl(OTP_SM3, SHORT_KEY, SHORT_CHALLENGE, number);
}

static void ours_long_sm3(uint64_t number)
{
    ours(DL_ALGORITHM_SM3, LONG_KEY, LONG_CHALLENGE, number);
}

static void openssl_long_sm3(uint64_t number)
{
    openssl(OTP_SM3, LONG_KEY, LONG_CHALLENGE, number);
}

static void ours_sm4(uint64_t number)
{
    ours(DL_ALGORITHM_SM4, SHORT_KEY, SHORT_CHALLENGE, number);
}

static void openssl_sm4(uint64_t number)
{
    openssl(OTP_SM4, SHORT_KEY, SHORT_CHALLENGE, number);
}

static void ours_long_sm4(uint64_t number)
{
    ours(DL_ALGORITHM_SM4, LONG_KEY, LONG_CHALLENGE, number);
}

static void openssl_long_sm4(uint64_t number)
{
    openssl(OTP_SM4, LONG_KEY, LONG_CHALLENGE, number);
}

static struct race races[] = {
    {"SM3 password, one block", 30, 2000, 1,
     {{"dl_password", ours_sm3, 0, 0}, {"OpenSSL EVP, context kept", openssl_sm3, 0, 0}}, {0}},
    {"SM3 password, two blocks", 30, 2000, 1,
     {{"dl_password", ours_long_sm3, 0, 0}, {"OpenSSL EVP, context kept", openssl_long_sm3, 0, 0}}, {0}},
    {"SM4 password, one block", 30, 2000, 1,
     {{"dl_password", ours_sm4, 0, 0}, {"OpenSSL EVP, context kept", openssl_sm4, 0, 0}}, {0}},
    {"SM4 password, two blocks", 30, 2000, 1,
     {{"dl_password", ours_long_sm4, 0, 0}, {"OpenSSL EVP, context kept", openssl_long_sm4, 0, 0}}, {0}},
};

int main(void)
{
    for (size_t i = 0; i < sizeof key; i++)
        key[i] = (uint8_t)(i * 7);
    for (size_t i = 0; i < sizeof challenge; i++)
        challenge[i] = (uint8_t)('0' + i % 10);
    run_races(races, sizeof races / sizeof *races, 10);
    return 0;
}
