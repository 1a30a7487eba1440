// The hash and the cipher beside OpenSSL and libgcrypt: prints rows of the report's table.
#define _POSIX_C_SOURCE 200809L
#include "dykeladder.h"
#include "racing.h"

#include <gcrypt.h>
#include <openssl/evp.h>

enum { MESSAGE = 32, LONG_MESSAGE = 1 << 24, KEY = DL_SM4_KEY_BYTES, BLOCK = DL_SM4_BLOCK_BYTES };

static uint8_t message[MESSAGE], long_message[LONG_MESSAGE], key[KEY], block[BLOCK];
static uint32_t round_keys[DL_SM4_ROUND_KEYS];
static EVP_CIPHER *sm4;
static EVP_CIPHER_CTX *keyed_each_time, *keyed_once;
static gcry_cipher_hd_t gcrypt_keyed_once;

static void put_number(uint8_t *to, uint64_t number)
{
    number = __builtin_bswap64(number);
    memcpy(to, &number, sizeof number);
}

// ---- the contestants

static void ours_sm3(uint64_t number)
{
    put_number(message + 16, number);
    dl_sm3(message, MESSAGE, out, sizeof out);
}

static void openssl_sm3(uint64_t number)
{
    put_number(message + 16, number);
    EVP_Digest(message, MESSAGE, out, NULL, EVP_sm3(), NULL);
}

static void gcrypt_sm3(uint64_t number)
{
    put_number(message + 16, number);
    gcry_md_hash_buffer(GCRY_MD_SM3, out, message, MESSAGE);
}

static void ours_long_sm3(uint64_t number)
{
    put_number(long_message, number);
    dl_sm3(long_message, LONG_MESSAGE, out, sizeof out);
}

static void openssl_long_sm3(uint64_t number)
{
    put_number(long_message, number);
    EVP_Digest(long_message, LONG_MESSAGE, out, NULL, EVP_sm3(), NULL);
}

static void ours_sm4(uint64_t number)
{
    put_number(block, number);
    dl_sm4(key, KEY, block, BLOCK, out, BLOCK);
}

static void openssl_sm4(uint64_t number)
{
    int n;
    put_number(block, number);
    EVP_EncryptInit_ex2(keyed_each_time, sm4, key, NULL, NULL);
    EVP_EncryptUpdate(keyed_each_time, out, &n, block, BLOCK);
}

static void ours_sm4_keyed(uint64_t number)
{
    put_number(block, number);
    dl_sm4_encrypt(round_keys, DL_SM4_ROUND_KEYS, block, BLOCK, out, BLOCK);
}

static void openssl_sm4_keyed(uint64_t number)
{
    int n;
    put_number(block, number);
    EVP_EncryptUpdate(keyed_once, out, &n, block, BLOCK);
}

static void gcrypt_sm4_keyed(uint64_t number)
{
    put_number(block, number);
    gcry_cipher_encrypt(gcrypt_keyed_once, out, BLOCK, block, BLOCK);
}

// ---- the races

static struct race races[] = {
    {"SM3, 32 bytes", 30, 2000, 1,
     {{"dl_sm3", ours_sm3, 0, 0}, {"libgcrypt", gcrypt_sm3, 0, 0}, {"OpenSSL EVP_Digest", openssl_sm3, 0, 0}},
     {0, 1.0, 2.5}},
    {"SM3, 16 MiB", 4, 1, 1,
     {{"dl_sm3", ours_long_sm3, 0, 0}, {"OpenSSL EVP_Digest", openssl_long_sm3, 0, 0}},
     {0, 1.0}},
    {"SM4 block, key set each time", 30, 2000, 1,
     {{"dl_sm4", ours_sm4, 0, 0}, {"OpenSSL EVP", openssl_sm4, 0, 0}},
     {0, 1.3}},
    {"SM4 block, round keys once", 30, 2000, 1,
     {{"dl_sm4_encrypt", ours_sm4_keyed, 0, 0}, {"OpenSSL EVP_EncryptUpdate", openssl_sm4_keyed, 0, 0},
      {"libgcrypt", gcrypt_sm4_keyed, 0, 0}},
     {0, 1.0, 0}},
};

static EVP_CIPHER_CTX *keyed_context(void)
{
    EVP_CIPHER_CTX *context = EVP_CIPHER_CTX_new();
    if (EVP_EncryptInit_ex2(context, sm4, key, NULL, NULL) != 1 || EVP_CIPHER_CTX_set_padding(context, 0) != 1)
        die("OpenSSL has no SM4");
    return context;
}

static void set_up(void)
{
    for (size_t i = 0; i < KEY; i++)
        key[i] = message[i] = (uint8_t)(i * 7);
    for (size_t i = 0; i < LONG_MESSAGE; i++)
        long_message[i] = (uint8_t)(i * 7);
    if (dl_sm4_keys(key, KEY, round_keys, DL_SM4_ROUND_KEYS) != DL_DONE)
        die("dl_sm4_keys refuses");
    sm4 = EVP_CIPHER_fetch(NULL, "SM4-ECB", NULL);
    keyed_each_time = keyed_context();
    keyed_once = keyed_context();
    gcry_check_version(NULL);
    gcry_control(GCRYCTL_DISABLE_SECMEM, 0);
    gcry_control(GCRYCTL_INITIALIZATION_FINISHED, 0);
    if (gcry_cipher_open(&gcrypt_keyed_once, GCRY_CIPHER_SM4, GCRY_CIPHER_MODE_ECB, 0) != 0
        || gcry_cipher_setkey(gcrypt_keyed_once, key, KEY) != 0)
        die("libgcrypt has no SM4");
}

int main(void)
{
    set_up();
    run_races(races, sizeof races / sizeof *races, 10);
    return 0;
}
