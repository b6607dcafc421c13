/* HMAC-SHA1 of a text, which the library computes of messages alone. */
#include "server.h"

#include "../sha1.h"

enum { BLOCK = 64 };

/* What was taken in so far. */
typedef struct {
    uint32_t state[SHA1_LENGTH / 4];
    uint64_t length;
    uint8_t block[BLOCK];
} hash;

static void put32(uint8_t *to, uint32_t number) {
    for (int i = 0; i < 4; i++) to[i] = (uint8_t)(number >> (24 - 8 * i));
}

static void take_in(hash *into, const void *bytes, size_t length) {
    for (size_t i = 0; i < length; i++) {
        into->block[into->length++ % BLOCK] = ((const uint8_t *)bytes)[i];
        if (into->length % BLOCK == 0) sha1_block(into->state, into->block);
    }
}

static void begin(hash *begun) {
    memcpy(begun->state, SHA1_START, sizeof begun->state);
    begun->length = 0;
}

static void end(hash *ended, uint8_t result[SHA1_LENGTH]) {
    static const uint8_t padding[BLOCK] = {0x80};
    uint64_t bits = ended->length * 8;
    uint8_t length[8];
    put32(length, (uint32_t)(bits >> 32));
    put32(length + 4, (uint32_t)bits);
    take_in(ended, padding, 1 + (2 * BLOCK - 9 - ended->length % BLOCK) % BLOCK);
    take_in(ended, length, sizeof length);
    for (int i = 0; i < SHA1_LENGTH / 4; i++) put32(result + 4 * i, ended->state[i]);
}

/* Begins with the block of a key, of at most so many bytes, under a mask. */
static void begin_with(hash *begun, const uint8_t *key, size_t length, uint8_t mask) {
    uint8_t block[BLOCK] = {0};
    memcpy(block, key, length);
    for (int i = 0; i < BLOCK; i++) block[i] ^= mask;
    begin(begun);
    take_in(begun, block, sizeof block);
}

void hmac_sha1(const void *key, size_t key_length, const void *text, size_t length,
               uint8_t result[SHA1_LENGTH]) {
    hash of;
    uint8_t short_key[SHA1_LENGTH];
    if (key_length > BLOCK) {
        begin(&of);
        take_in(&of, key, key_length);
        end(&of, short_key);
        key = short_key;
        key_length = sizeof short_key;
    }
    begin_with(&of, key, key_length, 0x36);
    take_in(&of, text, length);
    end(&of, result);
    begin_with(&of, key, key_length, 0x5C);
    take_in(&of, result, SHA1_LENGTH);
    end(&of, result);
}
