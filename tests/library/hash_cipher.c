// The hash and the cipher through the C interface, compared with OpenSSL's libcrypto.
//   hash_cipher         the full run: 20,000 random cases to a test
//   hash_cipher COUNT   the short run, for valgrind: COUNT cases, no long messages
#define _DEFAULT_SOURCE
#include "lending.h"

#include <openssl/evp.h>

enum { MOST_LENGTH = 40, MOST_OUT = 20 };

// ---- the other program

static void openssl_sm3(const uint8_t *message, size_t n, uint8_t *digest)
{
    if (EVP_Digest(message, n, digest, NULL, EVP_sm3(), NULL) != 1)
        die("OpenSSL has no SM3");
}

static void openssl_sm4(const uint8_t *key, const uint8_t *block, uint8_t *out)
{
    static EVP_CIPHER_CTX *context;
    int n = 0;
    if (context == NULL)
        context = EVP_CIPHER_CTX_new();
    if (EVP_EncryptInit_ex2(context, EVP_sm4_ecb(), key, NULL, NULL) != 1
        || EVP_CIPHER_CTX_set_padding(context, 0) != 1
        || EVP_EncryptUpdate(context, out, &n, block, DL_SM4_BLOCK_BYTES) != 1 || n != DL_SM4_BLOCK_BYTES)
        die("OpenSSL has no SM4");
}

// ---- SM3

// A random message of n bytes, at any alignment.
static void compare_sm3(size_t n, size_t digest_len)
{
    size_t shift = random_below(16);
    uint8_t *room = allocate(shift + n), *message = room + shift, expected[DL_SM3_DIGEST_BYTES];
    random_bytes(message, n);
    lend();
    uint16_t code = dl_sm3(message, n, lent, digest_len);
    openssl_sm3(message, n, expected);
    check(gave(code, expected, sizeof expected), "dl_sm3 of %zu bytes, digest_len %zu", n, digest_len);
    free(room);
}

static void sm3_every_length(void)
{
    for (size_t made = 0; made < cases; made += 301)
        for (size_t n = 0; n <= 300; n++)
            compare_sm3(n, DL_SM3_DIGEST_BYTES);
}

// Where the padding takes one block more, and where the message fills its blocks.
static void sm3_around_blocks(void)
{
    static const size_t around[] = {64 - 9, 64 - 8, 64 - 7, 64 - 1, 64, 64 + 1};
    for (size_t blocks = 0; blocks < cases / 100; blocks++)
        for (size_t i = 0; i < sizeof around / sizeof *around; i++)
            compare_sm3(64 * blocks + around[i], DL_SM3_DIGEST_BYTES);
}

static void sm3_long_messages(void)
{
    const size_t most = 1 << 20;
    for (size_t n = most - 64; n <= most; n += 8)
        compare_sm3(n, DL_SM3_DIGEST_BYTES);
    for (int i = 0; i < 100; i++)
        compare_sm3(random_below(most + 1), DL_SM3_DIGEST_BYTES);
}

static void sm3_past_the_digest(void)
{
    for (size_t digest_len = DL_SM3_DIGEST_BYTES; digest_len <= 128; digest_len++)
        compare_sm3(random_below(200), digest_len);
}

static void sm3_short_digest(void)
{
    uint8_t message[200];
    random_bytes(message, sizeof message);
    for (size_t n = 0; n <= sizeof message; n++)
        for (size_t digest_len = 0; digest_len < DL_SM3_DIGEST_BYTES; digest_len++) {
            lend();
            uint16_t code = dl_sm3(message, n, lent, digest_len);
            check(refused(code), "dl_sm3 of %zu bytes, digest_len %zu", n, digest_len);
        }
}

static const size_t longest = UINT32_MAX;

// The first n of a message's bytes, where OpenSSL has hashed the first `hashed` of them before.
static void openssl_sm3_further(EVP_MD_CTX *begun, const uint8_t *message, size_t hashed, size_t n, uint8_t *digest)
{
    EVP_MD_CTX *ended = EVP_MD_CTX_new();
    if (ended == NULL || EVP_DigestUpdate(begun, message + hashed, n - hashed) != 1 || EVP_MD_CTX_copy_ex(ended, begun) != 1
        || EVP_DigestFinal_ex(ended, digest, NULL) != 1)
        die("OpenSSL hashes no long message");
    EVP_MD_CTX_free(ended);
}

// The padding's count of bits passes 32 bits at 2^29 bytes, 33 at 2^30 and 34 at 2^31; the last length is the longest.
static void sm3_great_lengths(void)
{
    const size_t lengths[] = {(size_t)1 << 29, (size_t)1 << 30, (size_t)1 << 31, longest};
    uint8_t *zeros = map_zeros(longest, PROT_READ), expected[DL_SM3_DIGEST_BYTES];
    EVP_MD_CTX *begun = EVP_MD_CTX_new();
    if (begun == NULL || EVP_DigestInit_ex(begun, EVP_sm3(), NULL) != 1)
        die("OpenSSL has no SM3");
    for (size_t i = 0, hashed = 0; i < sizeof lengths / sizeof *lengths; hashed = lengths[i++]) {
        lend();
        uint16_t code = dl_sm3(zeros, lengths[i], lent, DL_SM3_DIGEST_BYTES);
        openssl_sm3_further(begun, zeros, hashed, lengths[i], expected);
        check(gave(code, expected, sizeof expected), "dl_sm3 of %zu bytes", lengths[i]);
    }
    EVP_MD_CTX_free(begun);
    munmap(zeros, longest);
}

static void sm3_too_long(void)
{
    static const size_t over[] = {1, 2, 64, 4096};
    const size_t most = longest + 4096;
    uint8_t *zeros = map_zeros(most, PROT_READ);
    for (size_t i = 0; i < sizeof over / sizeof *over; i++) {
        lend();
        uint16_t code = dl_sm3(zeros, longest + over[i], lent, DL_SM3_DIGEST_BYTES);
        check(refused(code), "dl_sm3 of 2^32 - 1 + %zu bytes", over[i]);
    }
    munmap(zeros, most);
}

// ---- SM4

static void sm4_random(void)
{
    uint8_t key[DL_SM4_KEY_BYTES], block[DL_SM4_BLOCK_BYTES], expected[DL_SM4_BLOCK_BYTES];
    for (size_t i = 0; i < cases; i++) {
        random_bytes(key, sizeof key);
        random_bytes(block, sizeof block);
        lend();
        uint16_t code = dl_sm4(key, sizeof key, block, sizeof block, lent, DL_SM4_BLOCK_BYTES);
        openssl_sm4(key, block, expected);
        check(gave(code, expected, sizeof expected), "dl_sm4, case %zu", i);
    }
}

// Fifty blocks under each key, whose round keys are made once.
static void sm4_keys_once(void)
{
    uint8_t key[DL_SM4_KEY_BYTES], block[DL_SM4_BLOCK_BYTES], expected[DL_SM4_BLOCK_BYTES];
    uint32_t keys[DL_SM4_ROUND_KEYS];
    for (size_t i = 0; i < cases; i++) {
        if (i % 50 == 0) {
            random_bytes(key, sizeof key);
            if (dl_sm4_keys(key, sizeof key, keys, DL_SM4_ROUND_KEYS) != DL_DONE)
                memset(keys, 0, sizeof keys);
        }
        random_bytes(block, sizeof block);
        lend();
        uint16_t code = dl_sm4_encrypt(keys, DL_SM4_ROUND_KEYS, block, sizeof block, lent, DL_SM4_BLOCK_BYTES);
        openssl_sm4(key, block, expected);
        check(gave(code, expected, sizeof expected), "dl_sm4_encrypt, case %zu", i);
    }
}

// Every key length and block length to 40 and every output length to 20: one combination is taken.
static void sm4_lengths(void)
{
    for (size_t key_len = 0; key_len <= MOST_LENGTH; key_len++)
        for (size_t block_len = 0; block_len <= MOST_LENGTH; block_len++) {
            uint8_t *key = allocate(key_len), *block = allocate(block_len), expected[DL_SM4_BLOCK_BYTES];
            random_bytes(key, key_len);
            random_bytes(block, block_len);
            int lengths_fit = key_len == DL_SM4_KEY_BYTES && block_len == DL_SM4_BLOCK_BYTES;
            if (lengths_fit)
                openssl_sm4(key, block, expected);
            for (size_t out_len = 0; out_len <= MOST_OUT; out_len++) {
                lend();
                uint16_t code = dl_sm4(key, key_len, block, block_len, lent, out_len);
                int as_said = lengths_fit && out_len >= DL_SM4_BLOCK_BYTES
                    ? gave(code, expected, sizeof expected) : refused(code);
                check(as_said, "dl_sm4, lengths %zu %zu %zu", key_len, block_len, out_len);
            }
            free(key);
            free(block);
        }
}

static void sm4_keys_lengths(void)
{
    for (size_t key_len = 0; key_len <= MOST_LENGTH; key_len++) {
        uint8_t *key = allocate(key_len);
        uint32_t expected[DL_SM4_ROUND_KEYS];
        random_bytes(key, key_len);
        // that 32 words are the right ones is the business of sm4_keys_once and of the standard's example
        if (key_len == DL_SM4_KEY_BYTES)
            dl_sm4_keys(key, key_len, expected, DL_SM4_ROUND_KEYS);
        for (size_t keys_len = 0; keys_len <= 2 * DL_SM4_ROUND_KEYS; keys_len++) {
            lend();
            uint16_t code = dl_sm4_keys(key, key_len, lent_words, keys_len);
            int as_said = key_len == DL_SM4_KEY_BYTES && keys_len >= DL_SM4_ROUND_KEYS
                ? gave(code, expected, sizeof expected) : refused(code);
            check(as_said, "dl_sm4_keys, lengths %zu %zu", key_len, keys_len);
        }
        free(key);
    }
}

// One combination of lengths for dl_sm4_encrypt, under the key's round keys as far as they reach.
static void compare_encrypt_lengths(const uint8_t *key, size_t keys_len, size_t block_len)
{
    uint32_t *keys = allocate(WORD * keys_len), made[MOST_LENGTH] = {0};
    uint8_t *block = allocate(block_len), expected[DL_SM4_BLOCK_BYTES];
    dl_sm4_keys(key, DL_SM4_KEY_BYTES, made, DL_SM4_ROUND_KEYS);
    memcpy(keys, made, WORD * keys_len);
    random_bytes(block, block_len);
    int lengths_fit = keys_len == DL_SM4_ROUND_KEYS && block_len == DL_SM4_BLOCK_BYTES;
    if (lengths_fit)
        openssl_sm4(key, block, expected);
    for (size_t out_len = 0; out_len <= MOST_OUT; out_len++) {
        lend();
        uint16_t code = dl_sm4_encrypt(keys, keys_len, block, block_len, lent, out_len);
        int as_said = lengths_fit && out_len >= DL_SM4_BLOCK_BYTES
            ? gave(code, expected, sizeof expected) : refused(code);
        check(as_said, "dl_sm4_encrypt, lengths %zu %zu %zu", keys_len, block_len, out_len);
    }
    free(keys);
    free(block);
}

static void sm4_encrypt_lengths(void)
{
    uint8_t key[DL_SM4_KEY_BYTES];
    random_bytes(key, sizeof key);
    for (size_t keys_len = 0; keys_len <= MOST_LENGTH; keys_len++)
        for (size_t block_len = 0; block_len <= MOST_LENGTH; block_len++)
            compare_encrypt_lengths(key, keys_len, block_len);
}

// ---- the examples that the standards print

static const uint8_t example_key[] = {0x01, 0x23, 0x45, 0x67, 0x89, 0xab, 0xcd, 0xef,
                                      0xfe, 0xdc, 0xba, 0x98, 0x76, 0x54, 0x32, 0x10};

// GB/T 32905, A.1 and A.2.
static void sm3_examples(void)
{
    static const uint8_t abc[] = {0x66, 0xc7, 0xf0, 0xf4, 0x62, 0xee, 0xed, 0xd9, 0xd1, 0xf2, 0xd4,
                                  0x6b, 0xdc, 0x10, 0xe4, 0xe2, 0x41, 0x67, 0xc4, 0x87, 0x5c, 0xf2,
                                  0xf7, 0xa2, 0x29, 0x7d, 0xa0, 0x2b, 0x8f, 0x4b, 0xa8, 0xe0};
    static const uint8_t abcd_16[] = {0xde, 0xbe, 0x9f, 0xf9, 0x22, 0x75, 0xb8, 0xa1, 0x38, 0x60, 0x48,
                                      0x89, 0xc1, 0x8e, 0x5a, 0x4d, 0x6f, 0xdb, 0x70, 0xe5, 0x38, 0x7e,
                                      0x57, 0x65, 0x29, 0x3d, 0xcb, 0xa3, 0x9c, 0x0c, 0x57, 0x32};
    uint8_t message[64];
    for (size_t i = 0; i < sizeof message; i++)
        message[i] = "abcd"[i % 4];
    lend();
    check(gave(dl_sm3(message, 3, lent, DL_SM3_DIGEST_BYTES), abc, sizeof abc), "dl_sm3 of 'abc'");
    lend();
    check(gave(dl_sm3(message, 64, lent, DL_SM3_DIGEST_BYTES), abcd_16, sizeof abcd_16), "dl_sm3 of 16 times 'abcd'");
}

// GB/T 32907, A.1: the round keys and the block.
static void sm4_example(void)
{
    static const uint32_t keys[DL_SM4_ROUND_KEYS] = {
        0xf12186f9, 0x41662b61, 0x5a6ab19a, 0x7ba92077, 0x367360f4, 0x776a0c61, 0xb6bb89b3, 0x24763151,
        0xa520307c, 0xb7584dbd, 0xc30753ed, 0x7ee55b57, 0x6988608c, 0x30d895b7, 0x44ba14af, 0x104495a1,
        0xd120b428, 0x73b55fa3, 0xcc874966, 0x92244439, 0xe89e641f, 0x98ca015a, 0xc7159060, 0x99e1fd2e,
        0xb79bd80c, 0x1d2115b0, 0x0e228aeb, 0xf1780c81, 0x428d3654, 0x62293496, 0x01cf72e5, 0x9124a012};
    static const uint8_t once[] = {0x68, 0x1e, 0xdf, 0x34, 0xd2, 0x06, 0x96, 0x5e,
                                   0x86, 0xb3, 0xe9, 0x4f, 0x53, 0x6e, 0x42, 0x46};
    lend();
    check(gave(dl_sm4_keys(example_key, 16, lent_words, DL_SM4_ROUND_KEYS), keys, sizeof keys), "dl_sm4_keys");
    lend();
    check(gave(dl_sm4(example_key, 16, example_key, 16, lent, 16), once, sizeof once), "dl_sm4");
    lend();
    check(gave(dl_sm4_encrypt(keys, DL_SM4_ROUND_KEYS, example_key, 16, lent, 16), once, sizeof once), "dl_sm4_encrypt");
}

// GB/T 32907, A.2: the block encrypted 1,000,000 times.
static void sm4_million(void)
{
    static const uint8_t expected[] = {0x59, 0x52, 0x98, 0xc7, 0xc6, 0xfd, 0x27, 0x1f,
                                       0x04, 0x02, 0xf8, 0x04, 0xc3, 0x3d, 0x3f, 0x66};
    uint32_t keys[DL_SM4_ROUND_KEYS];
    uint8_t block[DL_SM4_BLOCK_BYTES], out[DL_SM4_BLOCK_BYTES] = {0};
    int done = dl_sm4_keys(example_key, 16, keys, DL_SM4_ROUND_KEYS) == DL_DONE;
    memcpy(block, example_key, sizeof block);
    for (int i = 0; i < 1000000 && done; i++) {
        done = dl_sm4_encrypt(keys, DL_SM4_ROUND_KEYS, block, sizeof block, out, sizeof out) == DL_DONE;
        memcpy(block, out, sizeof block);
    }
    check(done && memcmp(block, expected, sizeof expected) == 0, "dl_sm4_encrypt, 1,000,000 times");
}

static const struct test tests[] = {
    {"SM3, the standard's examples", sm3_examples, 0},
    {"SM3, every length from 0 to 300", sm3_every_length, 0},
    {"SM3, lengths around multiples of 64", sm3_around_blocks, 0},
    {"SM3, lengths up to 1 MiB", sm3_long_messages, 1},
    {"SM3, 2^29 bytes up to 2^32 - 1", sm3_great_lengths, 1},
    {"SM3, bytes past the digest stay", sm3_past_the_digest, 0},
    {"SM3 refuses a digest under 32 bytes", sm3_short_digest, 0},
    {"SM3 refuses 2^32 bytes and more", sm3_too_long, 1},
    {"SM4, the standard's example and its round keys", sm4_example, 0},
    {"SM4, the standard's million encryptions", sm4_million, 1},
    {"SM4, random keys and blocks", sm4_random, 0},
    {"SM4, round keys made once for fifty blocks", sm4_keys_once, 0},
    {"SM4, every combination of lengths", sm4_lengths, 0},
    {"SM4 round keys, every combination of lengths", sm4_keys_lengths, 0},
    {"SM4 under round keys, every combination of lengths", sm4_encrypt_lengths, 0},
};

int main(int argc, char **argv)
{
    return run_tests(tests, sizeof tests / sizeof *tests, 20000, argc, argv);
}
