/* Keys that the library makes once, and what they are by the model. */
#include <string.h>

#include "fuzz.h"

pair pairs[PAIRS];

/* A key of bytes, made for an algorithm. */
static void make(pair *one, const void *bytes, size_t length, stun_types_integrity algorithm) {
    one->key = stun_types_key_none();
    SUCCEEDS(stun_types_key_from_bytes(&one->key, bytes, length, algorithm));
    one->model.is_there = true;
    one->model.algorithm = algorithm;
    one->model.length = length;
    memcpy(one->model.bytes, bytes, length);
}

/* That of `user`, `realm` and `pass`. */
static void make_login(pair *one, stun_types_password algorithm) {
    const model_text texts[] = {
        {(const uint8_t *)"user", 4}, {(const uint8_t *)"realm", 5}, {(const uint8_t *)"pass", 4}};
    one->key = stun_types_key_none();
    SUCCEEDS(stun_types_key_long_term(&one->key, "user", 4, "realm", 5, "pass", 4, algorithm));
    HOLDS(model_long_term_key(texts, algorithm, &one->model).code == STUN_TYPES_OK);
}

void make_pairs(void) {
    uint8_t bytes[100];
    size_t i;
    if (pairs[PASSWORD].model.is_there) return;
    for (i = 0; i < sizeof bytes; i++) bytes[i] = (uint8_t)(i * 37);
    pairs[NO_KEY].key = stun_types_key_none();
    make(&pairs[PASSWORD], "pass", 4, STUN_TYPES_INTEGRITY_ANY);
    make(&pairs[PASSWORD_SHA1], "pass", 4, STUN_TYPES_INTEGRITY_SHA1);
    make(&pairs[PASSWORD_SHA256], "pass", 4, STUN_TYPES_INTEGRITY_SHA256);
    make_login(&pairs[LOGIN_MD5], STUN_TYPES_PASSWORD_MD5);
    make_login(&pairs[LOGIN_SHA256], STUN_TYPES_PASSWORD_SHA256);
    make(&pairs[LONG_KEY], bytes, sizeof bytes, STUN_TYPES_INTEGRITY_ANY);
    make(&pairs[SECRET], bytes + 1, 32, STUN_TYPES_INTEGRITY_ANY);
}

void free_pairs(void) {
    size_t i;
    for (i = 0; i < PAIRS; i++) {
        stun_types_keys_free(&pairs[i].key, 1);
        HOLDS(pairs[i].key.at == NULL && pairs[i].key.held == 0);
        pairs[i].model.is_there = false;
    }
}
