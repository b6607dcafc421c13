/* The model's server: the tables of docs/PROTOCOL.md by which it authenticates. */
#ifndef MODEL_SERVER_H
#define MODEL_SERVER_H

#include "model_keys.h"

/* Whether these are password algorithms, and no more than 16; the first bytes of the list of them, of
   4 * count in all. */
bool model_are_passwords(const uint16_t *algorithms, size_t count);
void model_list_of(const uint16_t *algorithms, size_t count, uint8_t *list);

/* The first password algorithm on a list that is one of those wanted (a sum of 1 for MD5 and 2 for
   SHA-256); 0 if there is none. */
uint32_t model_listed(const uint8_t *list, size_t length, unsigned wanted);

/* Whether the first NONCE that a message shows promises PASSWORD-ALGORITHMS, and the features that it
   begins with. */
bool model_promises(const uint8_t *bytes, const model_list *shown, uint32_t *features);

/* What a server does with a message. */
stun_types_answer model_short_term(const uint8_t *bytes, size_t length,
                                   const stun_types_policy *policy, const model_key *key,
                                   stun_types_authentication *told);

/* What it knows of a nonce, and the keys of a user. */
typedef struct {
    uint32_t nonce_state;
    const uint16_t *algorithms;
    size_t count;
    const model_key *md5, *sha256;
} model_login;

stun_types_answer model_long_term(const uint8_t *bytes, size_t length,
                                  const stun_types_policy *policy, const model_login *login,
                                  stun_types_authentication *told);

#endif
