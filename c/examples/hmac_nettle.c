/* HMACs for own_hmacs.h by nettle 3, whose digests use the SHA instructions of a processor that has them, if
 * it was built with --enable-fat, as Debian's is.
 *
 *     cc -O2 -I c -DOWN_HMACS c/examples/ice_responder.c c/examples/hmac_nettle.c libstun_types.a \
 *         -lnettle -o ice_responder */
#define _DEFAULT_SOURCE /* explicit_bzero */
#include <nettle/hmac.h>
#include <stdlib.h>

#include "own_hmacs.h"

/* States with the key set: each HMAC starts from a copy. */
struct own_key {
    struct hmac_sha1_ctx sha1;
    struct hmac_sha256_ctx sha256;
};

own_key *own_key_new(const void *bytes, size_t length) {
    own_key *key = malloc(sizeof *key);
    if (key == NULL) return NULL;
    hmac_sha1_set_key(&key->sha1, length, bytes);
    hmac_sha256_set_key(&key->sha256, length, bytes);
    return key;
}

void own_key_free(own_key *key) {
    if (key != NULL) explicit_bzero(key, sizeof *key);
    free(key);
}

bool own_hmac(const own_key *key, const stun_types_covered *covered, const uint8_t *message,
              stun_types_hmac *hmac) {
    size_t rest = (size_t)covered->length - sizeof covered->first;
    hmac->algorithm = covered->algorithm;
    if (covered->algorithm == STUN_TYPES_INTEGRITY_SHA1) {
        struct hmac_sha1_ctx state = key->sha1;
        hmac_sha1_update(&state, sizeof covered->first, covered->first);
        hmac_sha1_update(&state, rest, message + sizeof covered->first);
        hmac_sha1_digest(&state, SHA1_DIGEST_SIZE, hmac->bytes);
    } else {
        struct hmac_sha256_ctx state = key->sha256;
        hmac_sha256_update(&state, sizeof covered->first, covered->first);
        hmac_sha256_update(&state, rest, message + sizeof covered->first);
        hmac_sha256_digest(&state, SHA256_DIGEST_SIZE, hmac->bytes);
    }
    return true;
}
