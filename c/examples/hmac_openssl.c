/* HMACs for own_hmacs.h by libcrypto of OpenSSL 3.
 *
 *     cc -O2 -I c -DOWN_HMACS c/examples/ice_responder.c c/examples/hmac_openssl.c libstun_types.a \
 *         -lcrypto -o ice_responder
 *
 * With -DPROPERTIES='"fips=yes"' OpenSSL's FIPS provider alone computes them, which openssl.cnf has to load:
 * without it no key can be made. Whether your build of it is validated, its certificate says. */
#include <openssl/core_names.h>
#include <openssl/evp.h>
#include <openssl/params.h>
#include <stdlib.h>

#include "own_hmacs.h"

#ifndef PROPERTIES
#define PROPERTIES ""
#endif

/* Contexts with the key, which are never updated: each HMAC uses a duplicate, so several threads may use a key
 * at once. */
struct own_key {
    EVP_MAC_CTX *sha1, *sha256;
};

static EVP_MAC_CTX *begun(const char *digest, const void *bytes, size_t length) {
    OSSL_PARAM settings[] = {
        OSSL_PARAM_construct_utf8_string(OSSL_MAC_PARAM_DIGEST, (char *)digest, 0),
        OSSL_PARAM_construct_utf8_string(OSSL_MAC_PARAM_PROPERTIES, PROPERTIES, 0),
        OSSL_PARAM_construct_end(),
    };
    EVP_MAC *mac = EVP_MAC_fetch(NULL, OSSL_MAC_NAME_HMAC, PROPERTIES);
    EVP_MAC_CTX *made = mac != NULL ? EVP_MAC_CTX_new(mac) : NULL;
    if (made != NULL && EVP_MAC_init(made, bytes, length, settings) != 1) {
        EVP_MAC_CTX_free(made);
        made = NULL;
    }
    EVP_MAC_free(mac);
    return made;
}

own_key *own_key_new(const void *bytes, size_t length) {
    own_key *key = malloc(sizeof *key);
    if (key == NULL) return NULL;
    key->sha1 = begun("SHA1", bytes, length);
    key->sha256 = begun("SHA256", bytes, length);
    if (key->sha1 != NULL && key->sha256 != NULL) return key;
    own_key_free(key);
    return NULL;
}

void own_key_free(own_key *key) {
    if (key == NULL) return;
    EVP_MAC_CTX_free(key->sha1);
    EVP_MAC_CTX_free(key->sha256);
    free(key);
}

bool own_hmac(const own_key *key, const stun_types_covered *covered, const uint8_t *message,
              stun_types_hmac *hmac) {
    bool is_sha1 = covered->algorithm == STUN_TYPES_INTEGRITY_SHA1;
    size_t head = sizeof covered->first, length;
    EVP_MAC_CTX *work = EVP_MAC_CTX_dup(is_sha1 ? key->sha1 : key->sha256);
    bool is_done = work != NULL && EVP_MAC_update(work, covered->first, head) == 1 &&
                   EVP_MAC_update(work, message + head, (size_t)covered->length - head) == 1 &&
                   EVP_MAC_final(work, hmac->bytes, &length, sizeof hmac->bytes) == 1;
    hmac->algorithm = covered->algorithm;
    EVP_MAC_CTX_free(work);
    return is_done;
}
