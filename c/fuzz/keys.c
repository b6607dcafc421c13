/* Keys: each way to make one, what it holds then, and what it signs and validates. */
#include <string.h>

#include "fuzz.h"

static const stun_types_policy LAX = {STUN_TYPES_INTEGRITY_ANY, 16, 0, 0};

/* That the key holds what the model says: its bytes are written in each room that has enough. */
static void check_held(const stun_types_key *key, const model_key *expected, source *from) {
    unsigned how = take(from);
    size_t size = how % 2 == 0 ? expected->length : expected->length + how % 8 - 4;
    size_t *written = NEW(size_t), fits;
    stun_types_integrity *algorithm = NEW(stun_types_integrity);
    stun_types_answer fault = FINE, answer;
    uint8_t *room;
    if (size > expected->length + 8) size = 0;
    fits = size < expected->length ? size : expected->length;
    room = place(size);
    answer = stun_types_key_bytes(key, room, size, written, algorithm);
    if (!expected->is_there) fault = model_answer(STUN_TYPES_NO_KEY, 0, 0, 0);
    else if (fits < expected->length)
        fault = model_answer(STUN_TYPES_TOO_SMALL, 0, expected->length, size);
    HOLDS(is_same(answer, fault));
    if (answer.code != STUN_TYPES_OK) {
        HOLDS(is_filled(room, size) && is_filled(written, sizeof *written)
              && is_filled(algorithm, sizeof *algorithm));
        return;
    }
    HOLDS(*written == expected->length && (uint32_t)*algorithm == expected->algorithm);
    HOLDS(expected->length == 0 || memcmp(room, expected->bytes, expected->length) == 0);
    HOLDS(is_filled(room + fits, size - fits));
}

/* Makes a key by one of the calls; if it is refused, the key is what it was. */
static void make_key(stun_types_key *key, model_key *expected, source *from) {
    static const uint32_t algorithms[]
        = {STUN_TYPES_INTEGRITY_ANY, STUN_TYPES_INTEGRITY_SHA1, STUN_TYPES_INTEGRITY_SHA256};
    unsigned how = take(from);
    model_text texts[3]
        = {take_text(from, "user"), take_text(from, "realm"), take_text(from, "pass")};
    uint32_t algorithm;
    stun_types_answer answer, fault = FINE;
    if (how % 4 < 2) {
        algorithm = take_below(from, 2, 8) + 1;
        answer = stun_types_key_long_term(key, texts[0].bytes, texts[0].length, texts[1].bytes,
                                          texts[1].length, texts[2].bytes, texts[2].length,
                                          (stun_types_password)algorithm);
        HOLDS(is_same(answer, model_long_term_key(texts, algorithm, expected)));
        return;
    }
    if (how % 4 == 2) {
        algorithm = STUN_TYPES_INTEGRITY_ANY;
        answer = stun_types_key_short_term(key, texts[2].bytes, texts[2].length);
    } else {
        algorithm = how % 64 == 63 ? take_four(from) : algorithms[how / 4 % 3];
        answer = stun_types_key_from_bytes(key, texts[2].bytes, texts[2].length,
                                           (stun_types_integrity)algorithm);
        if (algorithm != algorithms[0] && algorithm != algorithms[1] && algorithm != algorithms[2])
            fault = BAD_ARGUMENT;
    }
    if (texts[2].length == 0) fault = BAD_ARGUMENT;
    HOLDS(is_same(answer, fault));
    if (fault.code != STUN_TYPES_OK) return;
    expected->is_there = true;
    expected->algorithm = algorithm;
    expected->length = texts[2].length;
    memcpy(expected->bytes, texts[2].bytes, texts[2].length);
}

/* A copy is the same key; so is one that is made of the bytes. If there is none, the other stays. */
static void check_copies(const stun_types_key *key, const model_key *expected, source *from) {
    stun_types_key *other = NEW(stun_types_key);
    model_key made;
    stun_types_answer answer;
    memset(&made, 0, sizeof made);
    *other = stun_types_key_none();
    if (take(from) % 2 == 0) make_key(other, &made, from);
    answer = stun_types_key_copy(other, key);
    HOLDS(is_same(answer, expected->is_there ? FINE : model_answer(STUN_TYPES_NO_KEY, 0, 0, 0)));
    check_held(other, expected->is_there ? expected : &made, from);
    check_held(key, expected, from);
    if (expected->is_there) {
        uint8_t *bytes = place(expected->length);
        size_t written = 0;
        stun_types_integrity algorithm = STUN_TYPES_INTEGRITY_ANY;
        SUCCEEDS(stun_types_key_bytes(key, bytes, expected->length, &written, &algorithm));
        SUCCEEDS(stun_types_key_from_bytes(other, bytes, written, algorithm));
        check_held(other, expected, from);
    }
    stun_types_keys_free(other, 1);
    HOLDS(other->at == NULL && other->held == 0);
}

/* What the key signs is what the model signs, and validates. */
static void check_signing(const stun_types_key *key, const model_key *expected, source *from) {
    static const uint8_t id[12] = {3, 1, 4};
    static text message;
    stun_types_integrity algorithm = take(from) % 2 == 0 ? STUN_TYPES_INTEGRITY_SHA1
                                                         : STUN_TYPES_INTEGRITY_SHA256;
    stun_types_validated *told = NEW(stun_types_validated), wanted;
    uint8_t *room = place(100);
    size_t written = 28;
    stun_types_answer answer, fault = FINE;
    start(&message, 0x0001, id);
    append(&message, 0x8022, "fuzz", 4);
    memcpy(room, message.bytes, written);
    answer = stun_types_add_integrity(room, 100, &written, key, algorithm);
    if (!expected->is_there) fault = model_answer(STUN_TYPES_NO_KEY, 0, 0, 0);
    else if (!model_serves(expected, algorithm)) fault = BAD_ARGUMENT;
    HOLDS(is_same(answer, fault));
    if (fault.code == STUN_TYPES_OK) sign(&message, algorithm, expected);
    HOLDS(written == message.length && memcmp(room, message.bytes, written) == 0);
    answer = stun_types_validate(room, written, key, told);
    HOLDS(is_same(answer, model_validate(room, written, &LAX, expected, &wanted)));
    HOLDS(memcmp(told, &wanted, sizeof wanted) == 0);
    HOLDS((told->algorithm == algorithm) == (fault.code == STUN_TYPES_OK));
}

/* Validations by texts: by a password, and by a user, a realm and a password, whose key by SHA-256
   checks a MESSAGE-INTEGRITY-SHA256, and that by MD5 a MESSAGE-INTEGRITY. */
static void check_texts(source *from) {
    static const uint8_t id[12] = {2, 7, 1};
    static text message;
    model_text texts[3]
        = {take_text(from, "user"), take_text(from, "realm"), take_text(from, "pass")};
    model_key password = {true, 0, 0, {0}}, md5, sha256;
    stun_types_validated *told = NEW(stun_types_validated), wanted;
    const uint8_t *bytes;
    unsigned how = take(from);
    stun_types_answer answer, short_term;
    password.length = texts[2].length;
    memcpy(password.bytes, texts[2].bytes, texts[2].length);
    memset(&md5, 0, sizeof md5);
    memset(&sha256, 0, sizeof sha256);
    answer = model_long_term_key(texts, STUN_TYPES_PASSWORD_MD5, &md5);
    password.is_there = texts[2].length != 0;
    (void)model_long_term_key(texts, STUN_TYPES_PASSWORD_SHA256, &sha256);
    start(&message, 0x0101, id);
    if (how % 4 == 1 || how % 4 == 2)
        sign(&message, STUN_TYPES_INTEGRITY_SHA1, how / 4 % 4 == 0 ? &password : &md5);
    if (how % 4 >= 2)
        sign(&message, STUN_TYPES_INTEGRITY_SHA256,
             how / 4 % 4 == 0   ? &password
             : how / 4 % 4 == 1 ? &md5
                                : &sha256);
    if (how / 16 == 15) change(&message, from);
    bytes = give(message.bytes, message.length);
    short_term = model_validate(bytes, message.length, &LAX, &password, &wanted);
    if (short_term.code == STUN_TYPES_NO_KEY) short_term = BAD_ARGUMENT;
    HOLDS(is_same(stun_types_validate_short_term(bytes, message.length, texts[2].bytes,
                                                 texts[2].length, told),
                  short_term));
    HOLDS(memcmp(told, &wanted, sizeof wanted) == 0);
    memset(&wanted, 0, sizeof wanted);
    if (model_parse(bytes, message.length).code != STUN_TYPES_OK)
        answer = model_parse(bytes, message.length);
    else if (answer.code == STUN_TYPES_OK) {
        static model_list shown;
        model_shown(bytes, message.length, &shown);
        answer = model_validate(bytes, message.length, &LAX,
                                model_find(&shown, 0x001C) != NULL ? &sha256 : &md5, &wanted);
    }
    HOLDS(is_same(stun_types_validate_long_term(bytes, message.length, texts[0].bytes,
                                                texts[0].length, texts[1].bytes, texts[1].length,
                                                texts[2].bytes, texts[2].length, told),
                  answer));
    HOLDS(memcmp(told, &wanted, sizeof wanted) == 0);
}

static void check_userhash(source *from) {
    model_text texts[2] = {take_text(from, "user"), take_text(from, "realm")};
    stun_types_hash *hash = NEW(stun_types_hash);
    uint8_t wanted[32];
    stun_types_answer answer = stun_types_userhash(texts[0].bytes, texts[0].length, texts[1].bytes,
                                                   texts[1].length, hash);
    if (model_is_utf8(texts[0].bytes, texts[0].length)
        && model_is_utf8(texts[1].bytes, texts[1].length)) {
        HOLDS(is_same(answer, FINE));
        (void)model_digest(STUN_TYPES_PASSWORD_SHA256, texts, 2, wanted);
        HOLDS(memcmp(hash->bytes, wanted, sizeof wanted) == 0);
    } else {
        HOLDS(is_same(answer, model_answer(STUN_TYPES_INVALID_DATA, 0, 0, 0)));
        HOLDS(is_filled(hash, sizeof *hash));
    }
}

/* Of several keys in a row the first so many are freed, and the others hold what they held. */
static void check_freed(source *from) {
    enum { KEYS = 3 };
    static model_key expected[KEYS];
    stun_types_key *keys = place(KEYS * sizeof *keys);
    size_t freed = take(from) % (KEYS + 1), i;
    memset(expected, 0, sizeof expected);
    for (i = 0; i < KEYS; i++) keys[i] = stun_types_key_none();
    for (i = 0; i < KEYS; i++)
        if (take(from) % 4 != 0) make_key(&keys[i], &expected[i], from);
    stun_types_keys_free(keys, freed);
    for (i = 0; i < freed; i++) HOLDS(keys[i].at == NULL && keys[i].held == 0);
    for (i = 0; i < freed; i++) expected[i].is_there = false;
    for (i = 0; i < KEYS; i++) check_held(&keys[i], &expected[i], from);
    stun_types_keys_free(keys, KEYS);
    stun_types_keys_free(NULL, 0);
}

void check_keys(source *from) {
    static model_key expected;
    stun_types_key *key = NEW(stun_types_key);
    unsigned steps = take(from) % 4, i;
    memset(&expected, 0, sizeof expected);
    *key = stun_types_key_none();
    for (i = 0; i < steps; i++) {
        make_key(key, &expected, from);
        check_held(key, &expected, from);
    }
    check_copies(key, &expected, from);
    check_signing(key, &expected, from);
    stun_types_keys_free(key, 1);
    check_freed(from);
    check_texts(from);
    check_userhash(from);
}
