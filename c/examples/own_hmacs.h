/* Validates and signs messages by HMACs that the program computes by its own code instead of the library's. It
 * is compiled with a file that computes them: hmac_nettle.c, or hmac_openssl.c. */
#ifndef OWN_HMACS_H
#define OWN_HMACS_H

#include <string.h>

#include "stun_types.h"

/* A key that is ready for HMACs by both algorithms. Several threads may use it at once. */
typedef struct own_key own_key;

/* Makes a key of bytes, which are copied: a password, or what stun_types_key_bytes returns. length isn't 0:
 * anybody can sign with the empty key. NULL: it can't be made. */
own_key *own_key_new(const void *bytes, size_t length);

/* Overwrites a key, and frees it; does nothing with NULL. */
void own_key_free(own_key *key);

/* Computes the HMAC by covered->algorithm over covered->first, and then message[4] to
 * message[covered->length - 1]. It sets hmac->algorithm to covered->algorithm, and writes the whole HMAC to
 * hmac->bytes: 20 bytes by SHA-1, 32 by SHA-256, also if the attribute's value is truncated. False: it can't
 * be computed now. */
bool own_hmac(const own_key *key, const stun_types_covered *covered, const uint8_t *message,
              stun_types_hmac *hmac);

/* Does what stun_types_validate does. NO_KEY: the HMAC can't be computed now. */
static inline stun_types_answer own_validate(const uint8_t *message, size_t length, const own_key *key,
                                             stun_types_validated *validated) {
    stun_types_covered covered;
    stun_types_hmac hmac;
    stun_types_answer a = stun_types_covered_text(message, length, STUN_TYPES_INTEGRITY_ANY, &covered);
    memset(validated, 0, sizeof *validated);
    if (!a.code && !own_hmac(key, &covered, message, &hmac)) a.code = STUN_TYPES_NO_KEY;
    if (a.code) return a;
    return stun_types_validate_with_hmac(message, length, STUN_TYPES_INTEGRITY_ANY, &hmac, validated);
}

/* Does what stun_types_add_integrity does. NO_KEY: the HMAC can't be computed now. */
static inline stun_types_answer own_add_integrity(uint8_t *room, size_t size, size_t *written,
                                                  const own_key *key, stun_types_integrity algorithm) {
    stun_types_covered covered;
    stun_types_hmac hmac;
    stun_types_answer a = stun_types_next_covered_text(room, size, *written, algorithm, &covered);
    if (!a.code && !own_hmac(key, &covered, room, &hmac)) a.code = STUN_TYPES_NO_KEY;
    return a.code ? a : stun_types_add_hmac(room, size, written, &covered, &hmac);
}

/* Decides on a request under short-term credentials, in a usage that uses FINGERPRINT, as
 * stun_types_authenticate_short_term does (RFC 8489, section 9.1.3); the class isn't tested. key is that of
 * the user whom its USERNAME names; NULL: there is no such user. NOT_DECIDED: the bytes don't parse, or the
 * HMAC can't be computed now. */
static inline stun_types_authentication own_authenticate_short_term(const uint8_t *request, size_t length,
                                                                    const own_key *key) {
    stun_types_authentication decided = {.kind = STUN_TYPES_REFUSED};
    stun_types_validated by = {.hmac_length = 0};
    stun_types_attribute found;
    bool is_signed = stun_types_find(request, length, STUN_TYPES_ATTRIBUTE_MESSAGE_INTEGRITY, &found) ||
                     stun_types_find(request, length, STUN_TYPES_ATTRIBUTE_MESSAGE_INTEGRITY_SHA256, &found);
    stun_types_answer a = stun_types_parse(request, length);
    if (a.code) {
        decided.kind = STUN_TYPES_NOT_DECIDED;
    } else if (!stun_types_find(request, length, STUN_TYPES_ATTRIBUTE_FINGERPRINT, &found)) {
        decided.kind = STUN_TYPES_DISCARDED;
    } else if (!is_signed || !stun_types_find(request, length, STUN_TYPES_ATTRIBUTE_USERNAME, &found)) {
        decided.error_code = STUN_TYPES_CODE_BAD_REQUEST;
    } else if (key == NULL) {
        decided.error_code = STUN_TYPES_CODE_UNAUTHORIZED;
    } else if ((a = own_validate(request, length, key, &by)).code == STUN_TYPES_NO_KEY) {
        decided.kind = STUN_TYPES_NOT_DECIDED;
    } else if (a.code || (by.algorithm == STUN_TYPES_INTEGRITY_SHA256 && by.hmac_length < 32)) {
        decided.error_code = STUN_TYPES_CODE_UNAUTHORIZED; /* a cut HMAC is for usages that allow it */
    } else {
        decided.kind = STUN_TYPES_ACCEPTED;
        decided.algorithm = decided.reply_algorithm = by.algorithm;
    }
    return decided;
}

/* Finishes the reply to a request that was accepted, as stun_types_finish_reply does with a FINGERPRINT. */
static inline stun_types_answer own_finish_reply(uint8_t *room, size_t size, size_t *written,
                                                 const stun_types_authentication *accepted,
                                                 const own_key *key) {
    stun_types_answer a = own_add_integrity(room, size, written, key, accepted->reply_algorithm);
    return a.code ? a : stun_types_add_fingerprint(room, size, written);
}

#endif
