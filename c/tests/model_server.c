#include "model_server.h"

#include <string.h>

#define NONE ((stun_types_integrity)0)

static const stun_types_answer OK = {STUN_TYPES_OK, 0, 0, 0};

/* ---- lists of password algorithms */

bool model_are_passwords(const uint16_t *algorithms, size_t count) {
    size_t i;
    for (i = 0; i < count && i <= 16; i++)
        if (algorithms[i] != STUN_TYPES_PASSWORD_MD5 && algorithms[i] != STUN_TYPES_PASSWORD_SHA256)
            return false;
    return count <= 16;
}

void model_list_of(const uint16_t *algorithms, size_t count, uint8_t *list) {
    size_t i;
    memset(list, 0, 4 * count);
    for (i = 0; i < count; i++) list[4 * i + 1] = (uint8_t)algorithms[i];
}

uint32_t model_listed(const uint8_t *list, size_t length, unsigned wanted) {
    size_t at = 0;
    while (length - at >= 4) {
        unsigned number = model_number(list + at), parameters = model_number(list + at + 2);
        if (length - at < 4 + model_padded(parameters)) return 0;
        if (parameters == 0 && (number == 1 || number == 2) && (wanted & number) != 0)
            return number;
        at += 4 + model_padded(parameters);
    }
    return 0;
}

bool model_promises(const uint8_t *bytes, const model_list *shown, uint32_t *features) {
    const stun_types_attribute *nonce = model_find(shown, 0x0015);
    model_text text;
    *features = 0;
    if (nonce == NULL) return false;
    text.bytes = bytes + nonce->value_at;
    text.length = nonce->length;
    return model_features(text, features) && (*features & 1) != 0;
}

/* ---- what both tables share */

static stun_types_answer decided(stun_types_authentication *told, uint32_t kind, uint32_t code) {
    told->kind = (stun_types_authentication_kind)kind;
    told->error_code = (stun_types_code)code;
    return OK;
}

/* Whether an integrity attribute is shown that counts by a policy, and with a key if there is one. */
static bool counts(const model_list *shown, const stun_types_policy *policy, const model_key *key) {
    static const uint32_t both[] = {STUN_TYPES_INTEGRITY_SHA1, STUN_TYPES_INTEGRITY_SHA256};
    size_t i;
    for (i = 0; i < 2; i++)
        if ((policy->algorithm == STUN_TYPES_INTEGRITY_ANY || policy->algorithm == both[i])
            && (key == NULL || model_serves(key, both[i])) && model_find(shown, both[i]) != NULL)
            return true;
    return false;
}

/* Whether the usage uses FINGERPRINT, and none is shown. */
static bool lacks_fingerprint(const model_list *shown, const stun_types_policy *policy) {
    return policy->fingerprint != 0 && model_find(shown, 0x8028) == NULL;
}

/* The algorithm of the last integrity attribute that counts, if it is right; or 0. */
static stun_types_integrity proof(const uint8_t *bytes, size_t length,
                                  const stun_types_policy *policy, const model_key *key) {
    stun_types_validated validated;
    stun_types_answer answer = model_validate(bytes, length, policy, key, &validated);
    return answer.code == STUN_TYPES_OK ? validated.algorithm : NONE;
}

static stun_types_answer begun(const uint8_t *bytes, size_t length, const stun_types_policy *policy,
                               stun_types_authentication *told, model_list *shown) {
    stun_types_answer fault = model_parse(bytes, length);
    memset(told, 0, sizeof *told);
    if (fault.code != STUN_TYPES_OK) return fault;
    if (!model_is_policy(policy)) return model_answer(STUN_TYPES_BAD_ARGUMENT, 0, 0, 0);
    model_shown(bytes, length, shown);
    return OK;
}

/* ---- short-term credentials (RFC 8489, section 9.1.3) */

stun_types_answer model_short_term(const uint8_t *bytes, size_t length,
                                   const stun_types_policy *policy, const model_key *key,
                                   stun_types_authentication *told) {
    static model_list shown;
    stun_types_answer fault = begun(bytes, length, policy, told, &shown);
    unsigned class_bits = fault.code == STUN_TYPES_OK ? model_number(bytes) & 0x0110 : 0;
    uint32_t reject = class_bits == 0 ? STUN_TYPES_REFUSED : STUN_TYPES_DISCARDED;
    bool is_request = class_bits == 0;
    if (fault.code != STUN_TYPES_OK) return fault;
    if (lacks_fingerprint(&shown, policy)) return decided(told, STUN_TYPES_DISCARDED, 0);
    if ((class_bits & 0x0100) != 0) return decided(told, STUN_TYPES_NOT_CHECKED, 0);
    if (!counts(&shown, policy, NULL) || model_find(&shown, 0x0006) == NULL)
        return decided(told, reject, is_request ? 400 : 0);
    if (!key->is_there) return decided(told, reject, is_request ? 401 : 0);
    if (!counts(&shown, policy, key)) return decided(told, reject, is_request ? 400 : 0);
    told->algorithm = proof(bytes, length, policy, key);
    if (told->algorithm == NONE) return decided(told, reject, is_request ? 401 : 0);
    told->reply_algorithm = told->algorithm;
    return decided(told, STUN_TYPES_ACCEPTED, 0);
}

/* ---- long-term credentials (RFC 8489, section 9.2.4) */

/* The third check, if the nonce promises a list: what the request chooses, or 0 if it is refused. */
static uint32_t chosen(const uint8_t *bytes, const model_list *shown, const model_login *login) {
    const stun_types_attribute *one = model_find(shown, 0x001D), *list = model_find(shown, 0x8002);
    uint8_t sent[64];
    uint32_t number;
    if (one == NULL || list == NULL) return 0;
    model_list_of(login->algorithms, login->count, sent);
    if (login->nonce_state == STUN_TYPES_NONCE_VALID
        && (list->length != 4 * login->count
            || memcmp(bytes + list->value_at, sent, list->length) != 0))
        return 0;
    if (one->length != 4) return 0;
    number = model_listed(bytes + one->value_at, 4, 3);
    return model_listed(bytes + list->value_at, list->length, number) == 0 ? 0 : number;
}

static bool are_same(const model_key *one, const model_key *other) {
    return one->is_there && other->is_there && one->length == other->length
           && memcmp(one->bytes, other->bytes, one->length) == 0;
}

stun_types_answer model_long_term(const uint8_t *bytes, size_t length,
                                  const stun_types_policy *policy, const model_login *login,
                                  stun_types_authentication *told) {
    static model_list shown;
    stun_types_answer fault = begun(bytes, length, policy, told, &shown);
    const model_key *key = login->md5;
    uint32_t features, choice = 0;
    bool is_named, is_hashed;
    if (fault.code != STUN_TYPES_OK) return fault;
    if (login->nonce_state > STUN_TYPES_NONCE_STALE
        || !model_are_passwords(login->algorithms, login->count))
        return model_answer(STUN_TYPES_BAD_ARGUMENT, 0, 0, 0);
    if (lacks_fingerprint(&shown, policy)) return decided(told, STUN_TYPES_DISCARDED, 0);
    if ((model_number(bytes) & 0x0110) != 0) return decided(told, STUN_TYPES_NOT_CHECKED, 0);
    if (!counts(&shown, policy, NULL)) return decided(told, STUN_TYPES_REFUSED, 401);
    is_named = model_find(&shown, 0x0006) != NULL;
    is_hashed = model_find(&shown, 0x001E) != NULL;
    if (is_named == is_hashed || model_find(&shown, 0x0014) == NULL
        || model_find(&shown, 0x0015) == NULL)
        return decided(told, STUN_TYPES_REFUSED, 400);
    if (model_promises(bytes, &shown, &features)
        && (model_find(&shown, 0x001D) != NULL || model_find(&shown, 0x8002) != NULL)) {
        choice = chosen(bytes, &shown, login);
        if (choice == 0) return decided(told, STUN_TYPES_REFUSED, 400);
        if (choice == STUN_TYPES_PASSWORD_SHA256) key = login->sha256;
    }
    if (!key->is_there) return decided(told, STUN_TYPES_REFUSED, 401);
    told->algorithm = proof(bytes, length, policy, key);
    if (told->algorithm == NONE) return decided(told, STUN_TYPES_REFUSED, 401);
    if (login->nonce_state != STUN_TYPES_NONCE_VALID) {
        told->algorithm = NONE;
        return decided(told, STUN_TYPES_REFUSED, 438);
    }
    told->reply_algorithm = choice == 0 ? STUN_TYPES_INTEGRITY_SHA1 : STUN_TYPES_INTEGRITY_SHA256;
    told->password_algorithm = are_same(key, login->md5) ? STUN_TYPES_PASSWORD_MD5
                                                         : STUN_TYPES_PASSWORD_SHA256;
    return decided(told, STUN_TYPES_ACCEPTED, 0);
}
