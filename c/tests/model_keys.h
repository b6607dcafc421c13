/* The model's keys and nonces: digests, what credentials make of them, and nonces that a server doesn't
 * store. */
#ifndef MODEL_KEYS_H
#define MODEL_KEYS_H

#include "model.h"

/* A text: bytes of the caller's. */
typedef struct {
    const uint8_t *bytes;
    size_t length;
} model_text;

/* The digest of one text, or of several that follow one another with a colon between each two, by a
   password algorithm: MD5 (RFC 1321) of 16 bytes, or SHA-256 of 32. Returns its length. */
size_t model_digest(uint32_t algorithm, const model_text *texts, size_t count, uint8_t *result);

/* The HMAC (RFC 2104) of at most 70,000 bytes under a key, by an integrity algorithm. */
void model_hmac_of(uint32_t algorithm, const model_key *key, const uint8_t *bytes, size_t length,
                   uint8_t *hmac);

/* The key of a long-term credential: user, realm and password. */
stun_types_answer model_long_term_key(const model_text *texts, uint32_t algorithm, model_key *key);

/* The features that a nonce begins with; false if it begins with no cookie. The cookie of features. */
bool model_features(model_text nonce, uint32_t *features);
void model_cookie(uint32_t features, uint8_t *cookie);

/* Nonces of a server: by which secret and features, for which client, and how long they are valid. */
typedef struct {
    const model_key *secret;
    uint32_t features;
    uint64_t window;
    const stun_types_address *client;
} model_server;

/* Why a server makes no nonces. The nonce that is made at a time, of STUN_TYPES_NONCE_LENGTH bytes.
   What it knows at a time of a nonce. */
stun_types_answer model_server_fault(const model_server *server);
void model_nonce(const model_server *server, uint64_t time, uint8_t *nonce);
uint32_t model_nonce_state(const model_server *server, uint64_t now, model_text nonce);

#endif
