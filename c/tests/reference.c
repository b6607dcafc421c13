#include "../../bench/reference.h"

#include <string.h>

#include "reference.h"

static void add_block(const uint8_t *key, size_t length, uint8_t pad,
                      void (*add)(const void *bytes, size_t length)) {
    uint32_t sha1[5] = {0x67452301, 0xEFCDAB89, 0x98BADCFE, 0x10325476, 0xC3D2E1F0}, sha256[8];
    uint8_t block[64] = {0};
    int i;
    if (length != 0) memcpy(block, key, length);
    for (i = 0; i < 64; i++) block[i] ^= pad;
    memcpy(sha256, SHA256_START, sizeof sha256);
    sha1_block(sha1, block);
    sha256_block(sha256, block);
    add(block, sizeof block);
    add(sha1, sizeof sha1);
    add(sha256, sizeof sha256);
}

void secrets_of(const void *key, size_t length, void (*add)(const void *bytes, size_t length)) {
    add(key, length);
    add_block(key, length, 0x36, add);
    add_block(key, length, 0x5C, add);
}

void digest_of(int algorithm, const void *bytes, size_t length, uint8_t *result) {
    digest(algorithm, bytes, length, bytes, 0, result);
}

void hmac_of(int algorithm, const char *key, const uint8_t *bytes, size_t length, uint8_t *result) {
    hmac(algorithm, key, strlen(key), bytes, length, result);
}

/* A digest of bytes that come one after the other. */
typedef struct {
    int algorithm;
    uint32_t state[8];
    uint8_t block[64];
    size_t length;
} hasher;

static void begin(hasher *it, int algorithm) {
    memset(it, 0, sizeof *it);
    it->algorithm = algorithm;
    if (algorithm == 1) memcpy(it->state, SHA1_START, sizeof SHA1_START);
    else memcpy(it->state, SHA256_START, sizeof SHA256_START);
}

static void put(hasher *it, const void *bytes, size_t length) {
    const uint8_t *from = bytes;
    size_t i;
    for (i = 0; i < length; i++) {
        it->block[it->length++ % 64] = from[i];
        if (it->length % 64 == 0) (it->algorithm == 1 ? sha1_block : sha256_block)(it->state, it->block);
    }
}

static void end(hasher *it, uint8_t *result) {
    static const uint8_t ones[] = {0x80}, zeros[64] = {0};
    const size_t length = it->length;
    uint8_t bits[8] = {0};
    size_t i;
    put32(bits, (uint32_t)((uint64_t)length * 8 >> 32));
    put32(bits + 4, (uint32_t)(length * 8));
    put(it, ones, 1);
    put(it, zeros, (64 + 56 - it->length % 64) % 64);
    put(it, bits, sizeof bits);
    for (i = 0; i < digest_length(it->algorithm) / 4; i++) put32(result + 4 * i, it->state[i]);
}

/* Begins with a key, XORed with a pad. */
static void begin_keyed(hasher *it, int algorithm, const uint8_t *key, size_t length, uint8_t pad) {
    uint8_t block[64] = {0};
    size_t i;
    if (length > 64) {
        begin(it, algorithm);
        put(it, key, length);
        end(it, block);
    } else if (length != 0) memcpy(block, key, length);
    for (i = 0; i < 64; i++) block[i] ^= pad;
    begin(it, algorithm);
    put(it, block, sizeof block);
}

void own_hmac(int algorithm, const void *key, size_t key_length, const uint8_t *front,
              size_t front_length, const uint8_t *back, size_t back_length, uint8_t *result) {
    hasher it;
    uint8_t inner[32];
    begin_keyed(&it, algorithm, key, key_length, 0x36);
    put(&it, front, front_length);
    put(&it, back, back_length);
    end(&it, inner);
    begin_keyed(&it, algorithm, key, key_length, 0x5C);
    put(&it, inner, digest_length(algorithm));
    end(&it, result);
}

uint32_t checksum_of(const uint8_t *bytes, size_t length) { return reference_crc(bytes, length); }
