/* Keys: C sees none of their bytes, and no HMAC but in a message. */
#include "call.h"

static void userhash(void) {
    slice user = call_octets(), realm = call_octets();
    stun_types_hash *hash = NEW(stun_types_hash);
    stun_types_answer result =
        stun_types_userhash(user.bytes, user.length, realm.bytes, realm.length, hash);
    if (is_taken(result)) answer_octets(hash->bytes, sizeof hash->bytes);
}

const verb verbs_of_keys[] = {{"userhash", userhash, false}, {NULL, NULL, false}};
