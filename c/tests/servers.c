/* Servers: families of addresses, and what an authentication refuses to look at. */
#include <string.h>

#include "check.h"
#include "heap.h"
#include "keychain.h"
#include "samples.h"
#include "tests.h"

static void test_other_families(void) {
    static const uint16_t families[] = {0, 1, 2, 5, 7, 0xFFFF};
    size_t i;
    row("stun_types_binding_reply", "other families");
    for (i = 0; i < COUNT(families); i++) {
        slice bytes = hex("0001 0000 2112A442 00*12");
        uint8_t *place = room(100);
        size_t *reply_length = NEW(size_t);
        stun_types_address source;
        memset(&source, 0, sizeof source);
        source.family = families[i];
        ANSWERS(
            stun_types_binding_reply(bytes.bytes, bytes.length, &source, place, 100, reply_length),
            PLAIN(STUN_TYPES_BAD_ARGUMENT));
        CHECK(is_untouched(place, 100) && *reply_length == 0);
    }
}

/* ---- what an authentication refuses to look at */

#define ANY STUN_TYPES_INTEGRITY_ANY

static const struct {
    const char *name;
    stun_types_policy policy;
    uint32_t nonce_state;
    uint16_t algorithms[17];
    size_t algorithms_count;
    bool is_short_too;
    uint32_t code;
} arguments[] = {
    {"algorithm 1 of the policy", {(stun_types_integrity)1, 32, 0, 0}, 1, {1}, 1, true,
     STUN_TYPES_BAD_ARGUMENT},
    {"algorithm 2 of the policy", {(stun_types_integrity)2, 32, 0, 0}, 1, {1}, 1, true,
     STUN_TYPES_BAD_ARGUMENT},
    {"the greatest algorithm of the policy", {(stun_types_integrity)UINT32_MAX, 32, 0, 0}, 1, {1}, 1,
     true, STUN_TYPES_BAD_ARGUMENT},
    {"an HMAC of at least 1 byte", {ANY, 1, 0, 0}, 1, {1}, 1, true, STUN_TYPES_BAD_ARGUMENT},
    {"of at least 12 bytes", {ANY, 12, 0, 0}, 1, {1}, 1, true, STUN_TYPES_BAD_ARGUMENT},
    {"of at least 17 bytes", {ANY, 17, 0, 0}, 1, {1}, 1, true, STUN_TYPES_BAD_ARGUMENT},
    {"of at least 33 bytes", {ANY, 33, 0, 0}, 1, {1}, 1, true, STUN_TYPES_BAD_ARGUMENT},
    {"of at least 100 bytes", {ANY, 100, 0, 0}, 1, {1}, 1, true, STUN_TYPES_BAD_ARGUMENT},
    {"a spare word that isn't 0", {ANY, 32, 0, 1}, 1, {1}, 1, true, STUN_TYPES_BAD_ARGUMENT},
    {"another state", {ANY, 32, 0, 0}, 3, {1}, 1, false, STUN_TYPES_BAD_ARGUMENT},
    {"the greatest state", {ANY, 32, 0, 0}, UINT32_MAX, {1}, 1, false, STUN_TYPES_BAD_ARGUMENT},
    {"password algorithm 0", {ANY, 32, 0, 0}, 1, {0}, 1, false, STUN_TYPES_BAD_ARGUMENT},
    {"password algorithm 3", {ANY, 32, 0, 0}, 1, {1, 3}, 2, false, STUN_TYPES_BAD_ARGUMENT},
    {"17 password algorithms", {ANY, 32, 0, 0}, 1,
     {1, 1, 1, 1, 1, 1, 1, 1, 1, 1, 1, 1, 1, 1, 1, 1, 1}, 17, false, STUN_TYPES_BAD_ARGUMENT},
    {"16 password algorithms", {ANY, 32, 0, 0}, 1, {1, 1, 1, 1, 1, 1, 1, 1, 1, 1, 1, 1, 1, 1, 1, 1},
     16, false, STUN_TYPES_OK},
    {"16 bytes", {ANY, 16, 0, 0}, 1, {1}, 1, false, STUN_TYPES_OK},
    {"20 bytes", {ANY, 20, 0, 0}, 1, {1}, 1, false, STUN_TYPES_OK},
    {"24 bytes", {ANY, 24, 0, 0}, 1, {1}, 1, false, STUN_TYPES_OK},
    {"28 bytes", {ANY, 28, 0, 0}, 1, {1}, 1, false, STUN_TYPES_OK},
    {"zeros alone", {ANY, 0, 0, 0}, 0, {1}, 1, false, STUN_TYPES_OK},
};

static void test_arguments(void) {
    size_t i;
    for (i = 0; i < COUNT(arguments); i++) {
        slice bytes, algorithms;
        stun_types_policy policy = arguments[i].policy;
        stun_types_authentication *authentication;
        row("an authentication", arguments[i].name);
        bytes = hex("0001 0000 2112A442 00*12");
        algorithms = given(arguments[i].algorithms, 2 * arguments[i].algorithms_count);
        authentication = NEW(stun_types_authentication);
        heap_allow(true);
        ANSWERS(stun_types_authenticate_long_term(bytes.bytes, bytes.length, &policy,
                                                  (stun_types_nonce_state)arguments[i].nonce_state,
                                                  (const void *)algorithms.bytes,
                                                  arguments[i].algorithms_count, no_key(), no_key(),
                                                  authentication),
                PLAIN(arguments[i].code));
        heap_allow(false);
        if (arguments[i].code == STUN_TYPES_OK) {
            CHECK(authentication->kind == STUN_TYPES_REFUSED && authentication->error_code == 401);
            CHECK(authentication->reserved == 0);
            continue;
        }
        CHECK(is_zero(authentication, sizeof *authentication));
        if (!arguments[i].is_short_too) continue;
        heap_allow(true);
        ANSWERS(stun_types_authenticate_short_term(bytes.bytes, bytes.length, &policy, no_key(),
                                                   authentication), PLAIN(arguments[i].code));
        heap_allow(false);
        CHECK(is_zero(authentication, sizeof *authentication));
    }
}

/* A policy of zeros doesn't take an HMAC that is cut: the message of CHECK_SHA256 with the first 16
   bytes of its HMAC, computed by Python's hmac. */
static void test_strict(void) {
    static const struct {
        const char *name;
        uint32_t min_hmac_length;
        stun_types_authentication_kind kind;
    } strict[] = {
        {"zeros", 0, STUN_TYPES_REFUSED},
        {"20 bytes", 20, STUN_TYPES_REFUSED},
        {"16 bytes", 16, STUN_TYPES_ACCEPTED},
    };
    size_t i;
    for (i = 0; i < COUNT(strict); i++) {
        slice bytes;
        stun_types_key *key;
        stun_types_policy policy;
        stun_types_authentication *authentication;
        row("stun_types_authenticate_short_term, an HMAC of 16 bytes", strict[i].name);
        bytes = hex(CHECK_CUT);
        key = password_key(text("pass"));
        memset(&policy, 0, sizeof policy);
        policy.min_hmac_length = strict[i].min_hmac_length;
        authentication = NEW(stun_types_authentication);
        heap_allow(true);
        ANSWERS(stun_types_authenticate_short_term(bytes.bytes, bytes.length, &policy, key,
                                                   authentication), OK_ANSWER);
        heap_allow(false);
        CHECK(authentication->kind == strict[i].kind);
        stun_types_key_free(key);
    }
}

void test_servers(void) {
    test_strict();
    test_other_families();
    test_arguments();
}
