/* The functions of stun_bench.h by way of c/stun_types.h: what a C program pays for the same work. It lacks those
   for which that header has no call (not_there.c). With -DOWN_HMACS the HMACs of messages are those of a file that is
   compiled with it, such as c/examples/hmac_nettle.c. */
#include "stun_bench.h"
#include "../c/stun_types.h"
#include <stdlib.h>
#include <string.h>

static const stun_types_id ID = {{1, 2, 3, 4, 5, 6, 7, 8, 9, 10, 11, 12}};

static uint64_t number(const uint8_t *bytes) {
    return (uint64_t)bytes[0] << 24 | (uint64_t)bytes[1] << 16 | (uint64_t)bytes[2] << 8 | bytes[3];
}

static uint64_t verdict(stun_types_answer answer, const stun_types_validated *validated) {
    if (answer.code == STUN_TYPES_OK) return validated->algorithm == STUN_TYPES_INTEGRITY_SHA1 ? 1 : 2;
    return answer.code == STUN_TYPES_INTEGRITY_FAILED ? 3 : 4;
}

uint64_t stun_bench_parse(const uint8_t *message, size_t length) {
    if (stun_types_parse(message, length).code != STUN_TYPES_OK) return 0;
    return (uint64_t)1 << 40 | number(message);
}

uint64_t stun_bench_iterate(const uint8_t *message, size_t length) {
    stun_types_cursor cursor = STUN_TYPES_CURSOR;
    stun_types_attribute attribute;
    uint64_t sum = 0;
    while (stun_types_next(message, length, &cursor, &attribute)) {
        uint64_t first = attribute.length == 0 ? 0 : message[attribute.value_at];
        sum = sum * 31 + (attribute.value_at - 4) + ((uint64_t)attribute.type << 20)
              + ((uint64_t)attribute.length << 40) + first;
    }
    return sum;
}

static uint64_t offset_of(const uint8_t *message, size_t length, uint16_t type) {
    stun_types_attribute attribute;
    return stun_types_find(message, length, type, &attribute) ? attribute.value_at - 4 : 0;
}

uint64_t stun_bench_find(const uint8_t *message, size_t length, uint32_t type, uint64_t rounds) {
    uint64_t sum = 0;
    if (stun_types_parse(message, length).code != STUN_TYPES_OK) return 0;
    while (rounds--) sum += offset_of(message, length, (uint16_t)type);
    return sum;
}

uint64_t stun_bench_print(const uint8_t *message, size_t length) {
    static char text[1 << 20];
    size_t written = 0;
    if (stun_types_print(message, length, text, sizeof text, &written).code != STUN_TYPES_OK) return 0;
    return written;
}

static void has_succeeded(stun_types_answer answer) {
    if (answer.code != STUN_TYPES_OK) abort();
}

static stun_types_key short_key(const uint8_t *password, size_t password_length) {
    stun_types_key key = STUN_TYPES_KEY_INIT;
    has_succeeded(stun_types_key_short_term(&key, password, password_length));
    return key;
}

/* A ready key, and what receives, validates and signs with it. */
#ifndef OWN_HMACS
typedef stun_types_key ready_key;

static ready_key *make_ready(const uint8_t *password, size_t password_length) {
    ready_key *key = malloc(sizeof *key);
    if (key == NULL) abort();
    *key = short_key(password, password_length);
    return key;
}

static void free_ready(ready_key *key) {
    stun_types_key_free(key);
    free(key);
}

static bool is_message(const uint8_t *message, size_t length) {
    return stun_types_parse(message, length).code == STUN_TYPES_OK;
}

#define validate stun_types_validate
#define add_integrity stun_types_add_integrity
#else
#include "../c/examples/own_hmacs.h"

typedef own_key ready_key;

static ready_key *make_ready(const uint8_t *password, size_t password_length) {
    ready_key *key = own_key_new(password, password_length);
    if (key == NULL) abort();
    return key;
}

static void free_ready(ready_key *key) { own_key_free(key); }

/* (validating parses the message before it computes the HMAC) */
static bool is_message(const uint8_t *message, size_t length) {
    (void)message, (void)length;
    return true;
}

#define validate own_validate
#define add_integrity own_add_integrity
#endif

/* Frees two keys, and returns whether they had the same bytes. */
static uint64_t were_equal(stun_types_key *one, stun_types_key *other) {
    uint8_t bytes[2][64];
    size_t lengths[2];
    stun_types_integrity algorithm;
    has_succeeded(stun_types_key_bytes(one, bytes[0], sizeof bytes[0], &lengths[0], &algorithm));
    has_succeeded(stun_types_key_bytes(other, bytes[1], sizeof bytes[1], &lengths[1], &algorithm));
    stun_types_key_free(one);
    stun_types_key_free(other);
    return lengths[0] == lengths[1] && memcmp(bytes[0], bytes[1], lengths[0]) == 0;
}

uint64_t stun_bench_short_key(const uint8_t *password, size_t password_length) {
    stun_types_key one = short_key(password, password_length), other = short_key(password, password_length);
    return were_equal(&one, &other);
}

uint64_t stun_bench_long_key(const uint8_t *user, size_t user_length, const uint8_t *realm, size_t realm_length,
                             const uint8_t *password, size_t password_length, uint32_t algorithm) {
    stun_types_key keys[2] = {STUN_TYPES_KEY_INIT, STUN_TYPES_KEY_INIT};
    stun_types_password by = algorithm == 1 ? STUN_TYPES_PASSWORD_MD5 : STUN_TYPES_PASSWORD_SHA256;
    for (int i = 0; i < 2; i++)
        has_succeeded(stun_types_key_long_term(&keys[i], user, user_length, realm, realm_length, password,
                                               password_length, by));
    return were_equal(&keys[0], &keys[1]);
}

uint64_t stun_bench_validate(const uint8_t *message, size_t length, const uint8_t *password, size_t password_length,
                             uint64_t rounds) {
    ready_key *key = make_ready(password, password_length);
    uint64_t sum = 0;
    while (rounds--) {
        stun_types_validated validated;
        sum += verdict(validate(message, length, key, &validated), &validated);
    }
    free_ready(key);
    return sum;
}

uint64_t stun_bench_validate_credentials(const uint8_t *message, size_t length, const uint8_t *password,
                                         size_t password_length, uint64_t rounds) {
    uint64_t sum = 0;
    while (rounds--) {
        stun_types_validated validated;
        stun_types_answer answer
            = stun_types_validate_short_term(message, length, password, password_length, &validated);
        sum += verdict(answer, &validated);
    }
    return sum;
}

uint64_t stun_bench_receive(const uint8_t *message, size_t length, const uint8_t *password, size_t password_length,
                            uint64_t rounds) {
    ready_key *key = make_ready(password, password_length);
    uint64_t sum = 0;
    while (rounds--) {
        stun_types_validated validated;
        if (!is_message(message, length)) continue;
        sum += offset_of(message, length, STUN_TYPES_ATTRIBUTE_USERNAME) << 8;
        sum += offset_of(message, length, STUN_TYPES_ATTRIBUTE_PRIORITY) << 24;
        sum += verdict(validate(message, length, key, &validated), &validated);
    }
    free_ready(key);
    return sum;
}

/* Writes the check, signed if there is a key, and returns how many bytes it has, or 0. */
static size_t write_check(const uint8_t *user, size_t user_length, const ready_key *key, stun_types_integrity algorithm,
                          uint8_t *room, size_t size) {
    static const uint8_t priority[4] = {0x6E, 0x00, 0x01, 0xFF};
    static const uint8_t controlled[8] = {0x93, 0x2F, 0xF9, 0xB1, 0x51, 0x26, 0x3B, 0x36};
    size_t written = 0;
    uint16_t request = stun_types_message_type(STUN_TYPES_CLASS_REQUEST, STUN_TYPES_METHOD_BINDING);
    if (stun_types_begin(room, size, request, &ID, &written).code
        || stun_types_add(room, size, &written, STUN_TYPES_ATTRIBUTE_USERNAME, user, user_length).code
        || stun_types_add(room, size, &written, STUN_TYPES_ATTRIBUTE_PRIORITY, priority, sizeof priority).code
        || stun_types_add(room, size, &written, STUN_TYPES_ATTRIBUTE_ICE_CONTROLLED, controlled, sizeof controlled).code)
        return 0;
    if (key && (add_integrity(room, size, &written, key, algorithm).code
                || stun_types_add_fingerprint(room, size, &written).code))
        return 0;
    return written;
}

static uint64_t written_answer(const uint8_t *room, size_t length) {
    return length == 0 ? 0 : (uint64_t)length << 32 | number(room + length - 4);
}

uint64_t stun_bench_write_slice(const uint8_t *user, size_t user_length, const uint8_t *password, size_t password_length,
                                uint32_t algorithm, uint8_t *destination, size_t destination_length, uint64_t rounds) {
    ready_key *key = make_ready(password, password_length);
    stun_types_integrity attribute = algorithm == 1 ? STUN_TYPES_INTEGRITY_SHA1 : STUN_TYPES_INTEGRITY_SHA256;
    uint64_t sum = 0;
    while (rounds--) {
        size_t length = write_check(user, user_length, key, attribute, destination, destination_length);
        sum += written_answer(destination, length);
    }
    free_ready(key);
    return sum;
}

uint64_t stun_bench_write_plain_slice(const uint8_t *user, size_t user_length, uint8_t *destination,
                                      size_t destination_length, uint64_t rounds) {
    uint64_t sum = 0;
    while (rounds--) {
        size_t length = write_check(user, user_length, NULL, STUN_TYPES_INTEGRITY_SHA1, destination, destination_length);
        sum += written_answer(destination, length);
    }
    return sum;
}
