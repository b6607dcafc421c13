/* Whether a message is one that a peer with the same password or key has signed. */
#include "call.h"

#include <string.h>

#include "../own_hmacs.h"

/* The verdict by a key. */
static stun_types_answer by_key(slice octets, const stun_types_key *key,
                                stun_types_validated *validated) {
    return stun_types_validate(octets.bytes, octets.length, key, validated);
}

/* Answers with a verdict; if it refuses, *validated is zeros. */
static void answer_verdict(stun_types_answer result, const stun_types_validated *validated) {
    if (!is_taken(result)) CHECK(is_zero(validated, sizeof *validated));
    else {
        CHECK(validated->reserved == 0 && validated->hmac_length >= 16);
        answer_algorithm(validated->algorithm);
    }
}

/* Checks that the verdict by a key's HMAC is the same, which other code computes. */
static void check_by_hmac(slice octets, const stun_types_key *key, stun_types_answer result,
                          const stun_types_validated *validated) {
    stun_types_validated *other = NEW(stun_types_validated);
    CHECK(is_same_answer(result, own_validate(octets, key, other)));
    CHECK(memcmp(other, validated, sizeof *other) == 0);
}

/* Checks that the verdict by a key is the same, and that by a policy which takes as short an HMAC. */
static void check_by_key(slice octets, const stun_types_key *key, stun_types_answer result,
                         const stun_types_validated *validated) {
    static const stun_types_policy lax = {STUN_TYPES_INTEGRITY_ANY, 16, 0, 0};
    stun_types_validated *other = NEW(stun_types_validated);
    CHECK(is_same_answer(result, by_key(octets, key, other)));
    CHECK(memcmp(other, validated, sizeof *other) == 0);
    CHECK(is_same_answer(result, stun_types_validate_by_policy(octets.bytes, octets.length, &lax,
                                                               key, other)));
    CHECK(memcmp(other, validated, sizeof *other) == 0);
    check_by_hmac(octets, key, result, validated);
}

static void password(void) {
    slice given_password = call_octets(), octets = call_octets();
    stun_types_key key = STUN_TYPES_KEY_INIT, same = STUN_TYPES_KEY_INIT;
    stun_types_validated *validated = NEW(stun_types_validated);
    stun_types_answer result;
    if (is_secret(given_password) && make_key(&same, given_password, STUN_TYPES_INTEGRITY_ANY)
        && is_taken(stun_types_key_short_term(&key, given_password.bytes, given_password.length))) {
        result = stun_types_validate_short_term(octets.bytes, octets.length, given_password.bytes,
                                              given_password.length, validated);
        answer_verdict(result, validated);
        if (result.code != STUN_TYPES_OUT_OF_MEMORY) {
            check_by_key(octets, &key, result, validated);
            check_by_key(octets, &same, result, validated);
        }
    }
    stun_types_key_free(&key);
    stun_types_key_free(&same);
}

static void login(void) {
    slice user = call_octets(), realm = call_octets(), secret = call_octets();
    slice octets = call_octets(), signature;
    stun_types_key keys[2] = {STUN_TYPES_KEY_INIT, STUN_TYPES_KEY_INIT};
    stun_types_validated *validated = NEW(stun_types_validated);
    bool is_sha256;
    size_t at;
    stun_types_answer result = OK_ANSWER;
    if (!is_secret(secret)) return;
    keep_secret(secret);
    for (at = 0; at < 2 && result.code == STUN_TYPES_OK; at++)
        result = stun_types_key_long_term(&keys[at], user.bytes, user.length, realm.bytes,
                                          realm.length, secret.bytes, secret.length,
                                          at == 0 ? STUN_TYPES_PASSWORD_MD5
                                                  : STUN_TYPES_PASSWORD_SHA256);
    if (is_taken(result)) {
        result = stun_types_validate_long_term(octets.bytes, octets.length, user.bytes, user.length,
                                               realm.bytes, realm.length, secret.bytes,
                                               secret.length, validated);
        answer_verdict(result, validated);
        /* (by the key for SHA-256, if the message shows its attribute) */
        is_sha256 = find_value(octets, STUN_TYPES_ATTRIBUTE_MESSAGE_INTEGRITY_SHA256, &signature);
        if (result.code != STUN_TYPES_OUT_OF_MEMORY)
            check_by_key(octets, &keys[is_sha256], result, validated);
    }
    stun_types_key_free(&keys[0]);
    stun_types_key_free(&keys[1]);
}

static void key(void) {
    const char *word = call_word();
    stun_types_integrity made_for = algorithm_of(word == NULL ? "" : word);
    stun_types_validated *validated = NEW(stun_types_validated);
    slice bytes = call_octets(), octets = call_octets();
    stun_types_key made = STUN_TYPES_KEY_INIT, copy = STUN_TYPES_KEY_INIT;
    if (make_key(&made, bytes, made_for) && is_taken(stun_types_key_copy(&copy, &made))) {
        stun_types_answer result = by_key(octets, &made, validated);
        answer_verdict(result, validated);
        check_by_hmac(octets, &made, result, validated);
        CHECK(is_same_answer(result, by_key(octets, &copy, validated)));
    }
    stun_types_key_free(&made);
    stun_types_key_free(&copy);
}

const verb verbs_of_validate[] = {
    {"password", password, true}, {"login", login, true},
    {"key", key, true}, {NULL, NULL, false},
};
