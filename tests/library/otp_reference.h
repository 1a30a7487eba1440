// The password and the line of document 01 (Part 2 and "Line program") over OpenSSL's libcrypto, written from the document alone.
#ifndef OTP_REFERENCE_H
#define OTP_REFERENCE_H

#include <openssl/evp.h>
#include <stdint.h>
#include <stdio.h>
#include <stdlib.h>
#include <string.h>

enum {
    OTP_SM3 = 3,
    OTP_SM4 = 4,
    OTP_BLOCK = 16, // of SM4, in bytes
    OTP_LEAST_KEY = 16,
    OTP_MOST_KEY = 32,
    OTP_LEAST_CHALLENGE = 4,
    OTP_MOST_CHALLENGE = 32,
    OTP_LEAST_DIGITS = 6,
    OTP_MOST_DIGITS = 10,
    OTP_MOST_ID = 48, // T, C and the longest Q, filled to whole blocks
};

struct otp_arguments {
    unsigned algorithm;
    const uint8_t *key;
    size_t key_len;
    int has_time, has_count;
    uint64_t time;
    uint32_t count;
    const uint8_t *challenge;
    size_t challenge_len; // 0: absent
    unsigned digits;
};

// ---- libcrypto, each algorithm fetched and each context made once

static struct {
    EVP_MD *sm3;
    EVP_MD_CTX *digest;
    EVP_CIPHER_CTX *cipher;
} otp_library;

static inline void otp_require(int worked)
{
    if (!worked) {
        fputs("libcrypto fails\n", stderr);
        exit(2);
    }
}

static inline void otp_open_library(void)
{
    EVP_CIPHER *sm4 = EVP_CIPHER_fetch(NULL, "SM4-ECB", NULL);
    otp_library.sm3 = EVP_MD_fetch(NULL, "SM3", NULL);
    otp_library.digest = EVP_MD_CTX_new();
    otp_library.cipher = EVP_CIPHER_CTX_new();
    otp_require(sm4 != NULL && otp_library.sm3 != NULL && otp_library.digest != NULL && otp_library.cipher != NULL);
    otp_require(EVP_EncryptInit_ex2(otp_library.cipher, sm4, NULL, NULL, NULL)
                && EVP_CIPHER_CTX_set_padding(otp_library.cipher, 0));
    EVP_CIPHER_free(sm4);
}

// ---- the password

static inline int otp_in_range(const struct otp_arguments *a)
{
    for (size_t i = 0; i < a->challenge_len && i < OTP_MOST_CHALLENGE; i++)
        if (a->challenge[i] < 0x21 || a->challenge[i] > 0x7e)
            return 0;
    return (a->algorithm == OTP_SM3 || a->algorithm == OTP_SM4)
        && a->key_len >= OTP_LEAST_KEY && a->key_len <= OTP_MOST_KEY
        && (a->has_time || a->has_count)
        && (a->challenge_len == 0 || a->challenge_len >= OTP_LEAST_CHALLENGE) && a->challenge_len <= OTP_MOST_CHALLENGE
        && a->digits >= OTP_LEAST_DIGITS && a->digits <= OTP_MOST_DIGITS;
}

// The number, big-endian in n bytes; gives n.
static inline size_t otp_put_number(uint8_t *to, uint64_t number, size_t n)
{
    for (size_t i = n; i-- > 0; number >>= 8)
        to[i] = (uint8_t)number;
    return n;
}

// Lays ID with zeros behind it, and gives its length, which is 16 or more.
static inline size_t otp_make_id(const struct otp_arguments *a, uint8_t id[OTP_MOST_ID])
{
    size_t n = 0;
    memset(id, 0, OTP_MOST_ID);
    if (a->has_time)
        n += otp_put_number(id + n, a->time, 8);
    if (a->has_count)
        n += otp_put_number(id + n, a->count, 4);
    if (a->challenge_len > 0)
        memcpy(id + n, a->challenge, a->challenge_len);
    n += a->challenge_len;
    return n < 16 ? 16 : n;
}

static inline size_t otp_sm3(const struct otp_arguments *a, const uint8_t *id, size_t id_len, uint8_t *out)
{
    EVP_MD_CTX *digest = otp_library.digest;
    otp_require(EVP_DigestInit_ex2(digest, otp_library.sm3, NULL) && EVP_DigestUpdate(digest, a->key, a->key_len)
                && EVP_DigestUpdate(digest, id, id_len) && EVP_DigestFinal_ex(digest, out, NULL));
    return 32;
}

// block = block + other, as 128-bit numbers; the carry out of them is dropped.
static inline void otp_add_block(uint8_t *block, const uint8_t *other)
{
    unsigned carry = 0;
    for (int i = OTP_BLOCK; i-- > 0; carry >>= 8) {
        carry += (unsigned)block[i] + other[i];
        block[i] = (uint8_t)carry;
    }
}

static inline size_t otp_sm4(const struct otp_arguments *a, const uint8_t *id, size_t id_len, uint8_t *out)
{
    EVP_CIPHER_CTX *cipher = otp_library.cipher;
    uint8_t block[OTP_BLOCK] = {0};
    int n;
    otp_require(EVP_EncryptInit_ex2(cipher, NULL, a->key, NULL, NULL));
    // the first block is added to zero
    for (size_t i = 0; i < id_len; i += OTP_BLOCK) {
        otp_add_block(block, id + i);
        otp_require(EVP_EncryptUpdate(cipher, out, &n, block, OTP_BLOCK));
        memcpy(block, out, OTP_BLOCK);
    }
    return OTP_BLOCK;
}

// Writes the password's digits and no more; gives 0, and writes nothing, if an argument is bad.
static inline int otp_password(const struct otp_arguments *a, uint8_t *password)
{
    uint8_t id[OTP_MOST_ID], out[EVP_MAX_MD_SIZE];
    if (!otp_in_range(a))
        return 0;
    if (otp_library.sm3 == NULL)
        otp_open_library();
    size_t id_len = otp_make_id(a, id);
    size_t n = a->algorithm == OTP_SM3 ? otp_sm3(a, id, id_len, out) : otp_sm4(a, id, id_len, out);
    uint32_t sum = 0;
    for (size_t i = 0; i < n; i += 4)
        sum += (uint32_t)out[i] << 24 | (uint32_t)out[i + 1] << 16 | (uint32_t)out[i + 2] << 8 | out[i + 3];
    for (size_t i = a->digits; i-- > 0; sum /= 10)
        password[i] = (uint8_t)('0' + sum % 10);
    return 1;
}

// ---- the line

struct otp_field {
    const char *text;
    size_t len;
};

enum { OTP_FIELDS = 6 };

// Splits the line at its commas, of which there must be five.
static inline int otp_split(const char *line, size_t n, struct otp_field fields[OTP_FIELDS])
{
    const char *end = line + n;
    for (int i = 0; i < OTP_FIELDS; i++) {
        const char *comma = memchr(line, ',', (size_t)(end - line));
        int is_last = i == OTP_FIELDS - 1;
        if ((comma == NULL) != is_last)
            return 0;
        fields[i].text = line;
        fields[i].len = (size_t)((is_last ? end : comma) - line);
        line = is_last ? end : comma + 1;
    }
    return 1;
}

// A decimal number without leading zeros, `most` at most.
static inline int otp_read_number(struct otp_field field, uint64_t most, uint64_t *number)
{
    if (field.len == 0 || (field.len > 1 && field.text[0] == '0'))
        return 0;
    *number = 0;
    for (size_t i = 0; i < field.len; i++) {
        unsigned digit = (unsigned)(field.text[i] - '0');
        if (digit > 9 || *number > (most - digit) / 10)
            return 0;
        *number = *number * 10 + digit;
    }
    return 1;
}

// The value of a hexadecimal digit, or -1. A table, since digits and letters in random order mislead a row of branches.
static inline int otp_hex_digit(char c)
{
    static const signed char one_more[256] = {
        ['0'] = 1, ['1'] = 2, ['2'] = 3, ['3'] = 4, ['4'] = 5, ['5'] = 6, ['6'] = 7, ['7'] = 8, ['8'] = 9, ['9'] = 10,
        ['a'] = 11, ['b'] = 12, ['c'] = 13, ['d'] = 14, ['e'] = 15, ['f'] = 16,
        ['A'] = 11, ['B'] = 12, ['C'] = 13, ['D'] = 14, ['E'] = 15, ['F'] = 16};
    return one_more[(unsigned char)c] - 1;
}

static inline int otp_read_key(struct otp_field field, uint8_t key[OTP_MOST_KEY])
{
    if (field.len % 2 != 0 || field.len > 2 * OTP_MOST_KEY)
        return 0;
    for (size_t i = 0; i < field.len / 2; i++) {
        int high = otp_hex_digit(field.text[2 * i]), low = otp_hex_digit(field.text[2 * i + 1]);
        if (high < 0 || low < 0)
            return 0;
        key[i] = (uint8_t)(high << 4 | low);
    }
    return 1;
}

// Reads `key,T,C,Q,algorithm,digits`; gives 0 for a line not so made. The arguments point into the line and to the key.
static inline int otp_read_line(const char *line, size_t n, uint8_t key[OTP_MOST_KEY], struct otp_arguments *a)
{
    struct otp_field field[OTP_FIELDS];
    uint64_t count = 0, algorithm, digits;
    if (!otp_split(line, n, field))
        return 0;
    *a = (struct otp_arguments){.key = key, .key_len = field[0].len / 2, .has_time = field[1].len > 0,
                                .has_count = field[2].len > 0, .challenge = (const uint8_t *)field[3].text,
                                .challenge_len = field[3].len};
    if (!otp_read_key(field[0], key) || !otp_read_number(field[4], 255, &algorithm)
        || !otp_read_number(field[5], 255, &digits))
        return 0;
    if (a->has_time && !otp_read_number(field[1], UINT64_MAX, &a->time))
        return 0;
    if (a->has_count && !otp_read_number(field[2], UINT32_MAX, &count))
        return 0;
    a->count = (uint32_t)count;
    a->algorithm = (unsigned)algorithm;
    a->digits = (unsigned)digits;
    return 1;
}

#endif
