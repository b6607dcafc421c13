/* Keys that aren't made, texts that aren't UTF-8, each byte of a signed message changed, and
 * memory: each allocation refused, and what is given back. */
#include <stdlib.h>
#include <string.h>

#include "check.h"
#include "heap.h"
#include "keychain.h"
#include "reference.h"
#include "samples.h"
#include "tests.h"

#define HEADER(length) "0001" length "2112A442 0000000000000000000003E8"

static void test_no_key(void) {
    slice bytes;
    stun_types_validated *validated;
    row("stun_types_validate", "a key that holds none");
    bytes = hex(CHECK_SHA1);
    validated = NEW(stun_types_validated);
    ANSWERS(stun_types_validate(bytes.bytes, bytes.length, no_key(), validated),
            PLAIN(STUN_TYPES_NO_KEY));
    CHECK(is_zero(validated, sizeof *validated));
}

/* Each byte of a signed message that is changed is noticed. (A type of another attribute in the
   place of a MESSAGE-INTEGRITY-SHA256 leaves a message that validates by SHA-1, as the answer
   says.) */
static void test_changes(void) {
    static const char *const messages[] = {CHECK_SHA1, CHECK_SHA256, CHECK_BOTH};
    static const char *const names[] = {"SHA-1", "SHA-256", "both"};
    size_t i, at;
    for (i = 0; i < COUNT(messages); i++) {
        slice bytes;
        stun_types_key *key;
        row("stun_types_validate, each byte changed", names[i]);
        bytes = hex(messages[i]);
        key = password_key(text("pass"));
        for (at = 0; at < bytes.length; at++) {
            uint8_t other[200];
            stun_types_validated validated;
            stun_types_answer answer;
            if (bytes.length > sizeof other) abort();
            memcpy(other, bytes.bytes, bytes.length);
            other[at] ^= 0x04;
            answer = stun_types_validate(other, bytes.length, key, &validated);
            if (answer.code != STUN_TYPES_OK) CHECK(is_zero(&validated, sizeof validated));
            else if (i < 2 || validated.algorithm == STUN_TYPES_INTEGRITY_SHA256)
                fail("the byte at %zu", at);
        }
        stun_types_key_free(key);
    }
}

/* ---- credentials whose texts aren't UTF-8: after the errors of stun_types_parse */

static const struct {
    const char *name, *message, *user, *realm, *password;
    uint32_t code;
    uint64_t expected, actual;
} logins[] = {
    {"a user that isn't UTF-8", CHECK_LONG_MD5, "FF", "7265616C6D", "70617373",
     STUN_TYPES_INVALID_DATA, 0, 0},
    {"a realm that isn't UTF-8", CHECK_LONG_MD5, "75736572", "72C3", "70617373",
     STUN_TYPES_INVALID_DATA, 0, 0},
    {"a password that isn't UTF-8", CHECK_LONG_MD5, "75736572", "7265616C6D", "80",
     STUN_TYPES_INVALID_DATA, 0, 0},
    {"an empty password", CHECK_LONG_MD5, "75736572", "7265616C6D", "", STUN_TYPES_BAD_ARGUMENT, 0, 0},
    {"an empty password, and a user that isn't UTF-8", CHECK_LONG_MD5, "FF", "7265616C6D", "",
     STUN_TYPES_BAD_ARGUMENT, 0, 0},
    {"an empty password, and no message", "00", "75736572", "7265616C6D", "", STUN_TYPES_TRUNCATED, 20,
     1},
    {"a user that isn't UTF-8, and no message", "00", "FF", "7265616C6D", "70617373",
     STUN_TYPES_TRUNCATED, 20, 1},
};

static void test_logins(void) {
    size_t i;
    for (i = 0; i < COUNT(logins); i++) {
        slice bytes, user, realm, password;
        stun_types_validated *validated;
        row("stun_types_validate_long_term", logins[i].name);
        bytes = hex(logins[i].message);
        user = hex(logins[i].user);
        realm = hex(logins[i].realm);
        password = hex(logins[i].password);
        validated = NEW(stun_types_validated);
        heap_allow(true);
        ANSWERS(stun_types_validate_long_term(bytes.bytes, bytes.length, user.bytes, user.length,
                                              realm.bytes, realm.length, password.bytes,
                                              password.length, validated),
                LENGTHS(logins[i].code, logins[i].expected, logins[i].actual));
        heap_allow(false);
        CHECK(is_zero(validated, sizeof *validated));
        CHECK(heap_held() == 0);
    }
}

/* A client signs by SHA-256 with the key by MD5 if the server prefers MD5: the call that makes its own
   keys doesn't try that one. */
static void test_preferred_md5(void) {
    static const stun_types_id id = {{0}};
    stun_types_key *key;
    stun_types_validated *validated;
    uint8_t *bytes;
    size_t *written;
    row("stun_types_validate_long_term", "SHA-256 with the key by MD5");
    key = login_key(STUN_TYPES_PASSWORD_MD5);
    validated = NEW(stun_types_validated);
    written = NEW(size_t);
    bytes = room(56);
    ANSWERS(stun_types_begin(bytes, 56, 0x0001, &id, written), OK_ANSWER);
    ANSWERS(stun_types_add_integrity(bytes, 56, written, key, STUN_TYPES_INTEGRITY_SHA256), OK_ANSWER);
    heap_allow(true);
    ANSWERS(stun_types_validate_long_term(bytes, 56, "user", 4, "realm", 5, "pass", 4, validated),
            PLAIN(STUN_TYPES_INTEGRITY_FAILED));
    heap_allow(false);
    ANSWERS(stun_types_validate(bytes, 56, key, validated), OK_ANSWER);
    CHECK(validated->algorithm == STUN_TYPES_INTEGRITY_SHA256);
    stun_types_key_free(key);
}

/* Anybody can sign by no password: such a message isn't valid. */
static void test_empty_password(void) {
    slice bytes;
    stun_types_validated *validated;
    row("stun_types_validate_short_term", "an empty password");
    bytes = hex(CHECK_EMPTY);
    validated = NEW(stun_types_validated);
    ANSWERS(stun_types_validate_short_term(bytes.bytes, bytes.length, NULL, 0, validated),
            PLAIN(STUN_TYPES_BAD_ARGUMENT));
    CHECK(is_zero(validated, sizeof *validated));
}

/* ---- keys that were never begun hold none, whatever their bytes repeat */

static void test_not_begun(void) {
    static const uint8_t fills[] = {0x00, 0x01, 0x7F, 0xEE, 0xFF};
    size_t i;
    for (i = 0; i < COUNT(fills); i++) {
        stun_types_key *key, *other;
        slice bytes;
        stun_types_validated *validated;
        row("a key that was never begun", "bytes that repeat");
        bytes = hex(CHECK_SHA256);
        validated = NEW(stun_types_validated);
        key = NEW(stun_types_key);
        other = no_key();
        memset(key, fills[i], sizeof *key);
        ANSWERS(stun_types_validate(bytes.bytes, bytes.length, key, validated),
                PLAIN(STUN_TYPES_NO_KEY));
        ANSWERS(stun_types_key_copy(other, key), PLAIN(STUN_TYPES_NO_KEY));
        stun_types_key_free(key);
        CHECK(is_zero(key, sizeof *key));
        memset(key, fills[i], sizeof *key);
        heap_allow(true);
        ANSWERS(stun_types_key_short_term(key, "pass", 4), OK_ANSWER);
        heap_allow(false);
        ANSWERS(stun_types_validate(bytes.bytes, bytes.length, key, validated), OK_ANSWER);
        stun_types_key_free(key);
        CHECK(heap_held() == 0);
    }
}

static void test_hashes(void) {
    static const char *const names[][2] = {{"FF", "61"}, {"61", "61C3"}};
    size_t i;
    for (i = 0; i < COUNT(names); i++) {
        slice user, realm;
        stun_types_hash *hash;
        row("stun_types_userhash", i == 0 ? "a user that isn't UTF-8" : "a realm that isn't UTF-8");
        user = hex(names[i][0]);
        realm = hex(names[i][1]);
        hash = NEW(stun_types_hash);
        ANSWERS(stun_types_userhash(user.bytes, user.length, realm.bytes, realm.length, hash),
                PLAIN(STUN_TYPES_INVALID_DATA));
        CHECK(is_untouched(hash, sizeof *hash));
    }
}

/* ---- keys that aren't made: the key stays as it was */

typedef stun_types_answer (*key_call)(stun_types_key *key);

static stun_types_answer long_term(stun_types_key *key, const char *user, const char *realm,
                                   const char *password, stun_types_password algorithm) {
    slice name = hex(user), place = hex(realm), secret = hex(password);
    return stun_types_key_long_term(key, name.bytes, name.length, place.bytes, place.length,
                                    secret.bytes, secret.length, algorithm);
}

static stun_types_answer long_user(stun_types_key *key) {
    return long_term(key, "FF", "61", "61", STUN_TYPES_PASSWORD_MD5);
}

static stun_types_answer long_realm(stun_types_key *key) {
    return long_term(key, "61", "C3", "61", STUN_TYPES_PASSWORD_SHA256);
}

static stun_types_answer long_password(stun_types_key *key) {
    return long_term(key, "61", "61", "80", STUN_TYPES_PASSWORD_MD5);
}

static stun_types_answer long_zero(stun_types_key *key) {
    return long_term(key, "61", "61", "61", (stun_types_password)0);
}

/* (an integrity algorithm by mistake) */
static stun_types_answer long_sha1(stun_types_key *key) {
    return long_term(key, "61", "61", "61", (stun_types_password)STUN_TYPES_INTEGRITY_SHA1);
}

static stun_types_answer long_sha256(stun_types_key *key) {
    return long_term(key, "61", "61", "61", (stun_types_password)STUN_TYPES_INTEGRITY_SHA256);
}

static stun_types_answer long_three(stun_types_key *key) {
    return long_term(key, "61", "61", "61", (stun_types_password)3);
}

static stun_types_answer long_most(stun_types_key *key) {
    return long_term(key, "61", "61", "61", (stun_types_password)UINT32_MAX);
}

/* (a password algorithm by mistake) */
static stun_types_answer bytes_md5(stun_types_key *key) {
    slice bytes = hex("61*16");
    return stun_types_key_from_bytes(key, bytes.bytes, bytes.length,
                                     (stun_types_integrity)STUN_TYPES_PASSWORD_MD5);
}

static stun_types_answer bytes_sha256(stun_types_key *key) {
    slice bytes = hex("61*16");
    return stun_types_key_from_bytes(key, bytes.bytes, bytes.length,
                                     (stun_types_integrity)STUN_TYPES_PASSWORD_SHA256);
}

static stun_types_answer copy_none(stun_types_key *key) {
    return stun_types_key_copy(key, no_key());
}

static stun_types_answer short_empty(stun_types_key *key) {
    return stun_types_key_short_term(key, NULL, 0);
}

static stun_types_answer long_empty(stun_types_key *key) {
    return long_term(key, "61", "61", "", STUN_TYPES_PASSWORD_SHA256);
}

static stun_types_answer bytes_empty(stun_types_key *key) {
    return stun_types_key_from_bytes(key, NULL, 0, STUN_TYPES_INTEGRITY_ANY);
}

static stun_types_answer asked_empty(stun_types_key *key) {
    static const uint16_t both[] = {STUN_TYPES_PASSWORD_SHA256, STUN_TYPES_PASSWORD_MD5};
    slice asks = hex(CHALLENGE);
    return stun_types_key_for(key, asks.bytes, asks.length, both, 2, "user", 4, NULL, 0);
}

static stun_types_answer bytes_most(stun_types_key *key) {
    slice bytes = hex("61*16");
    return stun_types_key_from_bytes(key, bytes.bytes, bytes.length,
                                     (stun_types_integrity)UINT32_MAX);
}

static const struct {
    const char *name;
    key_call call;
    uint32_t code;
} not_made[] = {
    {"long-term, the user isn't UTF-8", long_user, STUN_TYPES_INVALID_DATA},
    {"long-term, the realm isn't UTF-8", long_realm, STUN_TYPES_INVALID_DATA},
    {"long-term, the password isn't UTF-8", long_password, STUN_TYPES_INVALID_DATA},
    {"long-term, password algorithm 0", long_zero, STUN_TYPES_BAD_ARGUMENT},
    {"long-term, an integrity algorithm for a password algorithm", long_sha1,
     STUN_TYPES_BAD_ARGUMENT},
    {"long-term, the other one", long_sha256, STUN_TYPES_BAD_ARGUMENT},
    {"long-term, algorithm 3", long_three, STUN_TYPES_BAD_ARGUMENT},
    {"long-term, the greatest algorithm", long_most, STUN_TYPES_BAD_ARGUMENT},
    {"bytes, a password algorithm for an integrity algorithm", bytes_md5, STUN_TYPES_BAD_ARGUMENT},
    {"bytes, the other one", bytes_sha256, STUN_TYPES_BAD_ARGUMENT},
    {"bytes, the greatest algorithm", bytes_most, STUN_TYPES_BAD_ARGUMENT},
    {"a copy of no key", copy_none, STUN_TYPES_NO_KEY},
    {"short-term, an empty password", short_empty, STUN_TYPES_BAD_ARGUMENT},
    {"long-term, an empty password", long_empty, STUN_TYPES_BAD_ARGUMENT},
    {"bytes, none", bytes_empty, STUN_TYPES_BAD_ARGUMENT},
    {"for a challenge, an empty password", asked_empty, STUN_TYPES_BAD_ARGUMENT},
};

static void check_key_is_pass(const stun_types_key *key) {
    slice bytes = hex(CHECK_SHA256);
    stun_types_validated *validated = NEW(stun_types_validated);
    ANSWERS(stun_types_validate(bytes.bytes, bytes.length, key, validated), OK_ANSWER);
    CHECK(validated->algorithm == STUN_TYPES_INTEGRITY_SHA256 && validated->hmac_length == 32);
    CHECK(validated->reserved == 0);
}

static void check_refused_key(size_t i, stun_types_key *key) {
    stun_types_key before = *key;
    long held = heap_held();
    stun_types_answer answer;
    heap_allow(true);
    answer = not_made[i].call(key);
    heap_allow(false);
    ANSWERS(answer, PLAIN(not_made[i].code));
    CHECK(key->at == before.at && key->held == before.held);
    CHECK(heap_held() == held);
}

static void test_not_made(void) {
    size_t i;
    for (i = 0; i < COUNT(not_made); i++) {
        stun_types_key *key;
        row("a key that isn't made", not_made[i].name);
        check_refused_key(i, no_key());
        key = password_key(text("pass"));
        check_refused_key(i, key);
        check_key_is_pass(key);
        stun_types_key_free(key);
        CHECK(heap_held() == 0);
    }
}

/* ---- memory: each allocation refused in turn, and no secret in what is given back */

static stun_types_answer make_short(stun_types_key *key) {
    slice password = text("pass");
    return stun_types_key_short_term(key, password.bytes, password.length);
}

static stun_types_answer make_md5(stun_types_key *key) {
    return long_term(key, "75736572", "7265616C6D", "70617373", STUN_TYPES_PASSWORD_MD5);
}

static stun_types_answer make_sha256(stun_types_key *key) {
    return long_term(key, "75736572", "7265616C6D", "70617373", STUN_TYPES_PASSWORD_SHA256);
}

static stun_types_answer make_bytes(stun_types_key *key) {
    slice bytes = hex(KEY_MD5);
    return stun_types_key_from_bytes(key, bytes.bytes, bytes.length, STUN_TYPES_INTEGRITY_SHA1);
}

/* (of a key that was made before, by which nothing is allocated here) */
static stun_types_key *copied;

static stun_types_answer make_copy(stun_types_key *key) { return stun_types_key_copy(key, copied); }

static const struct {
    const char *name;
    key_call call;
    const char *message;
    stun_types_integrity algorithm;
} made[] = {
    {"stun_types_key_short_term", make_short, CHECK_SHA1, STUN_TYPES_INTEGRITY_SHA1},
    {"stun_types_key_long_term, by MD5", make_md5, CHECK_LONG_MD5, STUN_TYPES_INTEGRITY_SHA1},
    {"stun_types_key_long_term, by SHA-256", make_sha256, CHECK_LONG_SHA256,
     STUN_TYPES_INTEGRITY_SHA256},
    {"stun_types_key_from_bytes", make_bytes, CHECK_LONG_MD5, STUN_TYPES_INTEGRITY_SHA1},
    {"stun_types_key_copy", make_copy, CHECK_LONG_SHA256, STUN_TYPES_INTEGRITY_SHA256},
};

static void add_secrets(void) {
    slice md5 = hex(KEY_MD5), sha256 = hex(KEY_SHA256);
    heap_forget_secrets();
    secrets_of("pass", 4, heap_add_secret);
    secrets_of(md5.bytes, md5.length, heap_add_secret);
    heap_add_secret(sha256.bytes, sha256.length);
    heap_add_secret("user:realm:pass", 15);
}

static void check_makes_one(size_t i, const stun_types_key *key) {
    slice bytes = hex(made[i].message);
    stun_types_validated *validated = NEW(stun_types_validated);
    ANSWERS(stun_types_validate(bytes.bytes, bytes.length, key, validated), OK_ANSWER);
    CHECK(validated->algorithm == made[i].algorithm);
    CHECK(validated->hmac_length == (made[i].algorithm == STUN_TYPES_INTEGRITY_SHA1 ? 20 : 32));
}

/* Makes the key over what it holds, and refuses each allocation of it in turn. */
static void check_made(size_t i, stun_types_key *key, bool is_pass) {
    long number;
    for (number = 1; number < 100; number++) {
        stun_types_key before = *key;
        long held = heap_held(), asked;
        stun_types_answer answer;
        heap_allow(true);
        heap_refuse(number);
        answer = made[i].call(key);
        asked = heap_asked();
        heap_allow(false);
        if (asked < number) {
            ANSWERS(answer, OK_ANSWER);
            break;
        }
        ANSWERS(answer, PLAIN(STUN_TYPES_OUT_OF_MEMORY));
        CHECK(key->at == before.at && key->held == before.held);
        CHECK(heap_held() == held);
        if (is_pass) check_key_is_pass(key);
    }
    CHECK(number > 1 && number < 100);
}

static void check_makes(size_t i, stun_types_key *key, long held) {
    check_makes_one(i, key);
    stun_types_key_free(key);
    CHECK(key->at == NULL && key->held == 0);
    CHECK(heap_held() == held);
    stun_types_key_free(key);
    CHECK(key->at == NULL && key->held == 0);
}

/* What a copy is made of. */
static long hold_copied(size_t i) {
    copied = made[i].call == make_copy ? login_key(STUN_TYPES_PASSWORD_SHA256) : no_key();
    return heap_held();
}

static void test_memory(void) {
    size_t i;
    for (i = 0; i < COUNT(made); i++) {
        stun_types_key *key;
        long held;
        row("each allocation refused in turn", made[i].name);
        add_secrets();
        held = hold_copied(i);
        key = no_key();
        check_made(i, key, false);
        check_makes(i, key, held);
        stun_types_key_free(copied);
        row("each allocation refused in turn, over another key", made[i].name);
        held = hold_copied(i);
        key = password_key(text("pass"));
        check_made(i, key, true);
        check_makes(i, key, held);
        stun_types_key_free(copied);
    }
    row("stun_types_key_free", "a key that holds none, and NULL");
    stun_types_key_free(no_key());
    stun_types_key_free(NULL);
    heap_forget_secrets();
}

/* Validation by credentials, each allocation of it refused in turn. */
static void test_refused_validations(void) {
    static const char *const names[] = {"short-term", "long-term"};
    size_t i;
    for (i = 0; i < COUNT(names); i++) {
        slice bytes, user, realm, password;
        stun_types_validated *validated;
        long number, asked;
        row("a validation, each allocation refused in turn", names[i]);
        add_secrets();
        bytes = hex(i == 0 ? CHECK_SHA256 : CHECK_LONG_SHA256);
        user = text("user");
        realm = text("realm");
        password = text("pass");
        validated = NEW(stun_types_validated);
        for (number = 1; number < 100; number++) {
            stun_types_answer answer;
            heap_allow(true);
            heap_refuse(number);
            if (i == 0)
                answer = stun_types_validate_short_term(bytes.bytes, bytes.length, password.bytes,
                                                        password.length, validated);
            else
                answer = stun_types_validate_long_term(bytes.bytes, bytes.length, user.bytes,
                                                       user.length, realm.bytes, realm.length,
                                                       password.bytes, password.length, validated);
            asked = heap_asked();
            heap_allow(false);
            CHECK(heap_held() == 0);
            if (asked < number) {
                ANSWERS(answer, OK_ANSWER);
                break;
            }
            ANSWERS(answer, PLAIN(STUN_TYPES_OUT_OF_MEMORY));
            CHECK(is_zero(validated, sizeof *validated));
        }
        CHECK(number > 1 && number < 100);
        heap_forget_secrets();
    }
}

/* ---- the bytes of keys */

static const struct {
    const char *name, *bytes;
    stun_types_integrity algorithm;
    size_t size;
    uint32_t code;
} exported[] = {
    {"of both algorithms", KEY_MD5, STUN_TYPES_INTEGRITY_ANY, 16, STUN_TYPES_OK},
    {"of SHA-1, in more room", KEY_MD5, STUN_TYPES_INTEGRITY_SHA1, 20, STUN_TYPES_OK},
    {"of SHA-256", KEY_SHA256, STUN_TYPES_INTEGRITY_SHA256, 32, STUN_TYPES_OK},
    {"of one byte", "61", STUN_TYPES_INTEGRITY_ANY, 1, STUN_TYPES_OK},
    {"of one byte, in no room", "61", STUN_TYPES_INTEGRITY_ANY, 0, STUN_TYPES_TOO_SMALL},
    {"in less room", KEY_SHA256, STUN_TYPES_INTEGRITY_SHA256, 31, STUN_TYPES_TOO_SMALL},
};

static void test_key_bytes(void) {
    size_t i;
    for (i = 0; i < COUNT(exported); i++) {
        slice bytes;
        stun_types_key *key;
        uint8_t *place;
        size_t *written;
        stun_types_integrity *algorithm;
        row("stun_types_key_bytes", exported[i].name);
        bytes = hex(exported[i].bytes);
        key = bytes_key(bytes, exported[i].algorithm);
        place = room(exported[i].size);
        written = NEW(size_t);
        algorithm = NEW(stun_types_integrity);
        if (exported[i].code == STUN_TYPES_OK) {
            ANSWERS(stun_types_key_bytes(key, place, exported[i].size, written, algorithm), OK_ANSWER);
            CHECK(*written == bytes.length && *algorithm == exported[i].algorithm);
            CHECK_BYTES(place, bytes.length, bytes);
            CHECK(is_untouched(place + bytes.length, exported[i].size - bytes.length));
        } else {
            ANSWERS(stun_types_key_bytes(key, place, exported[i].size, written, algorithm),
                    LENGTHS(STUN_TYPES_TOO_SMALL, bytes.length, exported[i].size));
            CHECK(is_untouched(place, exported[i].size) && is_untouched(written, sizeof *written));
            CHECK(is_untouched(algorithm, sizeof *algorithm));
        }
        stun_types_key_free(key);
    }
    row("stun_types_key_bytes", "a key that holds none");
    {
        size_t *written = NEW(size_t);
        stun_types_integrity *algorithm = NEW(stun_types_integrity);
        ANSWERS(stun_types_key_bytes(no_key(), room(4), 4, written, algorithm),
                PLAIN(STUN_TYPES_NO_KEY));
    }
}

/* ---- by a policy */

static const struct {
    const char *name, *message;
    stun_types_policy policy;
    stun_types_integrity made_for;
    uint32_t code, type;
    uint64_t expected, actual;
    stun_types_integrity algorithm;
    uint32_t hmac_length;
} policies[] = {
    {"a policy of zeros, SHA-1", CHECK_SHA1, {STUN_TYPES_INTEGRITY_ANY, 0, 0, 0},
     STUN_TYPES_INTEGRITY_ANY, STUN_TYPES_OK, 0, 0, 0, STUN_TYPES_INTEGRITY_SHA1, 20},
    {"a policy of zeros, SHA-256", CHECK_SHA256, {STUN_TYPES_INTEGRITY_ANY, 0, 0, 0},
     STUN_TYPES_INTEGRITY_ANY, STUN_TYPES_OK, 0, 0, 0, STUN_TYPES_INTEGRITY_SHA256, 32},
    {"a policy of zeros, an HMAC of 16 bytes", CHECK_CUT, {STUN_TYPES_INTEGRITY_ANY, 0, 0, 0},
     STUN_TYPES_INTEGRITY_ANY, STUN_TYPES_HMAC_TOO_SHORT, 0, 32, 16, STUN_TYPES_INTEGRITY_ANY, 0},
    {"20 bytes, an HMAC of 16 bytes", CHECK_CUT, {STUN_TYPES_INTEGRITY_ANY, 20, 0, 0},
     STUN_TYPES_INTEGRITY_ANY, STUN_TYPES_HMAC_TOO_SHORT, 0, 20, 16, STUN_TYPES_INTEGRITY_ANY, 0},
    {"16 bytes, an HMAC of 16 bytes", CHECK_CUT, {STUN_TYPES_INTEGRITY_ANY, 16, 0, 0},
     STUN_TYPES_INTEGRITY_ANY, STUN_TYPES_OK, 0, 0, 0, STUN_TYPES_INTEGRITY_SHA256, 16},
    {"SHA-1 alone, both", CHECK_BOTH, {STUN_TYPES_INTEGRITY_SHA1, 0, 0, 0},
     STUN_TYPES_INTEGRITY_ANY, STUN_TYPES_OK, 0, 0, 0, STUN_TYPES_INTEGRITY_SHA1, 20},
    {"SHA-256 alone, both", CHECK_BOTH, {STUN_TYPES_INTEGRITY_SHA256, 0, 0, 0},
     STUN_TYPES_INTEGRITY_ANY, STUN_TYPES_OK, 0, 0, 0, STUN_TYPES_INTEGRITY_SHA256, 32},
    {"SHA-256 alone, SHA-1", CHECK_SHA1, {STUN_TYPES_INTEGRITY_SHA256, 0, 0, 0},
     STUN_TYPES_INTEGRITY_ANY, STUN_TYPES_MISSING_ATTRIBUTE, 8, 0, 0, STUN_TYPES_INTEGRITY_ANY, 0},
    {"both, a key for SHA-1", CHECK_BOTH, {STUN_TYPES_INTEGRITY_ANY, 0, 0, 0},
     STUN_TYPES_INTEGRITY_SHA1, STUN_TYPES_OK, 0, 0, 0, STUN_TYPES_INTEGRITY_SHA1, 20},
    {"SHA-1 alone, a key for SHA-1", CHECK_BOTH, {STUN_TYPES_INTEGRITY_SHA1, 0, 0, 0},
     STUN_TYPES_INTEGRITY_SHA1, STUN_TYPES_OK, 0, 0, 0, STUN_TYPES_INTEGRITY_SHA1, 20},
    {"SHA-256 alone, a key for SHA-1", CHECK_BOTH, {STUN_TYPES_INTEGRITY_SHA256, 0, 0, 0},
     STUN_TYPES_INTEGRITY_SHA1, STUN_TYPES_BAD_ARGUMENT, 0, 0, 0, STUN_TYPES_INTEGRITY_ANY, 0},
    {"a FINGERPRINT, which is missing", CHECK_SHA1, {STUN_TYPES_INTEGRITY_ANY, 0, 1, 0},
     STUN_TYPES_INTEGRITY_ANY, STUN_TYPES_MISSING_ATTRIBUTE, 0x8028, 0, 0, STUN_TYPES_INTEGRITY_ANY,
     0},
    {"an HMAC of at least 17 bytes", CHECK_SHA1, {STUN_TYPES_INTEGRITY_ANY, 17, 0, 0},
     STUN_TYPES_INTEGRITY_ANY, STUN_TYPES_BAD_ARGUMENT, 0, 0, 0, STUN_TYPES_INTEGRITY_ANY, 0},
    {"of at least 36 bytes", CHECK_SHA1, {STUN_TYPES_INTEGRITY_ANY, 36, 0, 0},
     STUN_TYPES_INTEGRITY_ANY, STUN_TYPES_BAD_ARGUMENT, 0, 0, 0, STUN_TYPES_INTEGRITY_ANY, 0},
    {"a spare word that isn't 0", CHECK_SHA1, {STUN_TYPES_INTEGRITY_ANY, 0, 0, 1},
     STUN_TYPES_INTEGRITY_ANY, STUN_TYPES_BAD_ARGUMENT, 0, 0, 0, STUN_TYPES_INTEGRITY_ANY, 0},
    {"a password algorithm for an integrity algorithm", CHECK_SHA1,
     {(stun_types_integrity)STUN_TYPES_PASSWORD_MD5, 0, 0, 0}, STUN_TYPES_INTEGRITY_ANY,
     STUN_TYPES_BAD_ARGUMENT, 0, 0, 0, STUN_TYPES_INTEGRITY_ANY, 0},
};

static void test_policies(void) {
    size_t i;
    for (i = 0; i < COUNT(policies); i++) {
        slice bytes, policy;
        stun_types_key *key;
        stun_types_validated *validated;
        row("stun_types_validate_by_policy", policies[i].name);
        bytes = hex(policies[i].message);
        policy = given(&policies[i].policy, sizeof policies[i].policy);
        key = bytes_key(text("pass"), policies[i].made_for);
        validated = NEW(stun_types_validated);
        heap_allow(true);
        ANSWERS(stun_types_validate_by_policy(bytes.bytes, bytes.length,
                                              (const void *)policy.bytes, key, validated),
                answer_of(policies[i].code, policies[i].type, policies[i].expected,
                          policies[i].actual));
        heap_allow(false);
        CHECK(validated->algorithm == policies[i].algorithm && validated->reserved == 0);
        CHECK(validated->hmac_length == policies[i].hmac_length);
        stun_types_key_free(key);
    }
    row("stun_types_validate_by_policy", "a key that holds none");
    {
        static const stun_types_policy strict = {STUN_TYPES_INTEGRITY_ANY, 0, 0, 0};
        slice bytes = hex(CHECK_SHA1);
        stun_types_validated *validated = NEW(stun_types_validated);
        ANSWERS(stun_types_validate_by_policy(bytes.bytes, bytes.length, &strict, no_key(),
                                              validated),
                PLAIN(STUN_TYPES_NO_KEY));
        CHECK(is_zero(validated, sizeof *validated));
    }
    row("stun_types_validate_by_policy", "the policies that the header names");
    {
        static const stun_types_policy both = STUN_TYPES_POLICY_BOTH;
        static const stun_types_policy sha256 = STUN_TYPES_POLICY_SHA256;
        slice bytes = hex(CHECK_SHA1);
        stun_types_key *key = password_key(text("pass"));
        stun_types_validated *validated = NEW(stun_types_validated);
        CHECK(is_zero(&both, sizeof both));
        ANSWERS(stun_types_validate_by_policy(bytes.bytes, bytes.length, &both, key, validated),
                OK_ANSWER);
        CHECK(validated->algorithm == STUN_TYPES_INTEGRITY_SHA1);
        heap_allow(true);
        ANSWERS(stun_types_validate_by_policy(bytes.bytes, bytes.length, &sha256, key, validated),
                answer_of(STUN_TYPES_MISSING_ATTRIBUTE, STUN_TYPES_ATTRIBUTE_MESSAGE_INTEGRITY,
                          0, 0));
        heap_allow(false);
        CHECK(is_zero(validated, sizeof *validated));
        stun_types_key_free(key);
    }
    row("stun_types_validate", "an HMAC of 16 bytes");
    {
        slice bytes = hex(CHECK_CUT);
        stun_types_key *key = password_key(text("pass"));
        stun_types_validated *validated = NEW(stun_types_validated);
        ANSWERS(stun_types_validate(bytes.bytes, bytes.length, key, validated), OK_ANSWER);
        CHECK(validated->algorithm == STUN_TYPES_INTEGRITY_SHA256 && validated->hmac_length == 16);
        stun_types_key_free(key);
    }
    /* (the copy of the key that serves one algorithm alone) */
    row("stun_types_validate_by_policy", "an allocation that is refused");
    {
        static const stun_types_policy one = {STUN_TYPES_INTEGRITY_SHA1, 0, 0, 0};
        slice bytes = hex(CHECK_SHA1);
        stun_types_key *key = password_key(text("pass"));
        stun_types_validated *validated = NEW(stun_types_validated);
        heap_allow(true);
        heap_refuse(1);
        ANSWERS(stun_types_validate_by_policy(bytes.bytes, bytes.length, &one, key, validated),
                PLAIN(STUN_TYPES_OUT_OF_MEMORY));
        heap_allow(false);
        CHECK(is_zero(validated, sizeof *validated));
        stun_types_key_free(key);
    }
}

void test_keys(void) {
    test_no_key();
    test_key_bytes();
    test_policies();
    test_changes();
    test_logins();
    test_preferred_md5();
    test_empty_password();
    test_not_begun();
    test_hashes();
    test_not_made();
    test_memory();
    test_refused_validations();
}
