#include "keychain.h"

#include "heap.h"

stun_types_key *no_key(void) {
    static const stun_types_key none = STUN_TYPES_KEY_INIT;
    stun_types_key *key = NEW(stun_types_key);
    *key = none;
    return key;
}

stun_types_key *password_key(slice password) {
    stun_types_key *key = no_key();
    heap_allow(true);
    ANSWERS(stun_types_key_short_term(key, password.bytes, password.length), OK_ANSWER);
    heap_allow(false);
    return key;
}

stun_types_key *bytes_key(slice bytes, stun_types_integrity algorithm) {
    stun_types_key *key = no_key();
    heap_allow(true);
    ANSWERS(stun_types_key_from_bytes(key, bytes.bytes, bytes.length, algorithm), OK_ANSWER);
    heap_allow(false);
    return key;
}

stun_types_key *login_key(stun_types_password algorithm) {
    slice user = text("user"), realm = text("realm"), password = text("pass");
    stun_types_key *key = no_key();
    heap_allow(true);
    ANSWERS(stun_types_key_long_term(key, user.bytes, user.length, realm.bytes, realm.length,
                                     password.bytes, password.length, algorithm), OK_ANSWER);
    heap_allow(false);
    return key;
}
