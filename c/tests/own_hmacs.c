#include "own_hmacs.h"

#include <stdlib.h>
#include <string.h>

#include "reference.h"

/* The bytes of a key, and what it was made for. */
static slice bytes_of(const stun_types_key *key, stun_types_integrity *made_for) {
    static uint8_t bytes[1 << 17];
    slice it = {bytes, 0};
    ANSWERS(stun_types_key_bytes(key, bytes, sizeof bytes, &it.length, made_for), OK_ANSWER);
    return it;
}

stun_types_hmac own_hmac_of(const stun_types_key *key, const stun_types_covered *covered,
                            const uint8_t *bytes) {
    stun_types_integrity made_for;
    slice secret = bytes_of(key, &made_for);
    stun_types_hmac hmac;
    /* (what follows an HMAC-SHA1 isn't read) */
    memset(&hmac, FILL, sizeof hmac);
    hmac.algorithm = covered->algorithm;
    if (covered->length < 20) abort();
    own_hmac(covered->algorithm == STUN_TYPES_INTEGRITY_SHA1 ? 1 : 2, secret.bytes, secret.length,
             covered->first, sizeof covered->first, bytes + 4, (size_t)covered->length - 4, hmac.bytes);
    return hmac;
}

stun_types_answer own_validate(slice octets, const stun_types_key *key,
                               stun_types_validated *validated) {
    stun_types_covered *covered = NEW(stun_types_covered);
    stun_types_hmac hmac;
    stun_types_integrity made_for;
    stun_types_answer first, second;
    (void)bytes_of(key, &made_for);
    first = stun_types_covered_text(octets.bytes, octets.length, made_for, covered);
    if (first.code == STUN_TYPES_OK) hmac = own_hmac_of(key, covered, octets.bytes);
    else {
        CHECK(is_zero(covered, sizeof *covered));
        memset(&hmac, 0, sizeof hmac);
        hmac.algorithm = STUN_TYPES_INTEGRITY_SHA256;
    }
    second = stun_types_validate_with_hmac(octets.bytes, octets.length, made_for,
                                           (const void *)given(&hmac, sizeof hmac).bytes, validated);
    if (first.code != STUN_TYPES_OK) ANSWERS(second, first);
    else
        CHECK(second.code == STUN_TYPES_OK ? validated->algorithm == covered->algorithm
                                           : second.code == STUN_TYPES_INTEGRITY_FAILED);
    return second;
}

stun_types_answer own_add(uint8_t *bytes, size_t size, size_t *written, const stun_types_key *key,
                          stun_types_integrity algorithm) {
    stun_types_covered *covered = NEW(stun_types_covered);
    stun_types_hmac hmac;
    stun_types_answer answer
        = stun_types_next_covered_text(bytes, size, *written, algorithm, covered);
    if (answer.code != STUN_TYPES_OK) {
        CHECK(is_zero(covered, sizeof *covered));
        return answer;
    }
    CHECK(covered->algorithm == algorithm && covered->length == *written);
    hmac = own_hmac_of(key, covered, bytes);
    return stun_types_add_hmac(bytes, size, written, covered,
                               (const void *)given(&hmac, sizeof hmac).bytes);
}
