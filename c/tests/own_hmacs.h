/* Signing and validating by HMACs that code computes which isn't the library's: by the calls for that, in
 * two halves. */
#ifndef OWN_HMACS_H
#define OWN_HMACS_H

#include "check.h"

/* The HMAC under a key of what was reported of a message. */
stun_types_hmac own_hmac_of(const stun_types_key *key, const stun_types_covered *covered,
                            const uint8_t *bytes);

/* What stun_types_validate does with the key. */
stun_types_answer own_validate(slice octets, const stun_types_key *key,
                               stun_types_validated *validated);

/* What stun_types_add_integrity does with a key that serves. */
stun_types_answer own_add(uint8_t *bytes, size_t size, size_t *written, const stun_types_key *key,
                          stun_types_integrity algorithm);

#endif
