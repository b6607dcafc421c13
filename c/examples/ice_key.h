/* The key of an ICE agent, which is its password: it authenticates checks, and signs the answers. It is the
 * library's or, with -DOWN_HMACS, one for HMACs that the program's own code computes. */
#ifndef ICE_KEY_H
#define ICE_KEY_H

#include <string.h>

#include "stun_types.h"

static inline bool ice_is_fine(stun_types_answer answer) { return answer.code == STUN_TYPES_OK; }

#ifndef OWN_HMACS

typedef stun_types_key ice_key;

static const ice_key ice_no_key = STUN_TYPES_KEY_INIT;

/* Makes the key of a password. False: it can't be made. */
static inline bool ice_make_key(ice_key *key, const char *password) {
    *key = ice_no_key;
    return ice_is_fine(stun_types_key_short_term(key, password, strlen(password)));
}

static inline void ice_free_key(ice_key *key) { stun_types_key_free(key); }

/* Decides on a check; key is NULL if it is for no user of the agent. */
static inline stun_types_authentication ice_authenticate(const uint8_t *check, size_t length,
                                                         const ice_key *key) {
    static const stun_types_policy policy = {.fingerprint = 1}; /* ICE uses FINGERPRINT */
    stun_types_authentication decision;
    stun_types_answer a = stun_types_authenticate_short_term(
        check, length, &policy, key != NULL ? key : &ice_no_key, &decision);
    if (!ice_is_fine(a)) decision.kind = STUN_TYPES_NOT_DECIDED;
    return decision;
}

/* Signs the answer to a check that was accepted, and adds a FINGERPRINT. */
static inline bool ice_finish_reply(uint8_t *reply, size_t size, size_t *length,
                                    const stun_types_authentication *accepted, const ice_key *key) {
    return ice_is_fine(
        stun_types_finish_reply(reply, size, length, accepted, key, &ice_no_key, true));
}

#else

#include "own_hmacs.h"

typedef own_key *ice_key;

static inline bool ice_make_key(ice_key *key, const char *password) {
    *key = *password != 0 ? own_key_new(password, strlen(password)) : NULL; /* anybody has the empty key */
    return *key != NULL;
}

static inline void ice_free_key(ice_key *key) { own_key_free(*key); }

static inline stun_types_authentication ice_authenticate(const uint8_t *check, size_t length,
                                                         const ice_key *key) {
    return own_authenticate_short_term(check, length, key != NULL ? *key : NULL);
}

static inline bool ice_finish_reply(uint8_t *reply, size_t size, size_t *length,
                                    const stun_types_authentication *accepted, const ice_key *key) {
    return ice_is_fine(own_finish_reply(reply, size, length, accepted, *key));
}

#endif

#endif
