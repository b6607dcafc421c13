/* Clients: times at the end of the clock, arguments that are refused, what stays as it was if
 * memory is refused, and what is no transaction. */
#include <string.h>

#include "check.h"
#include "heap.h"
#include "keychain.h"
#include "reference.h"
#include "samples.h"
#include "tests.h"

static const stun_types_schedule DEFAULT = STUN_TYPES_SCHEDULE;
static const uint16_t NO_TYPES[1] = {0};

/* ---- stun_types_transaction_poll */

static stun_types_action polled(stun_types_transaction *transaction, uint64_t now) {
    stun_types_action *action = NEW(stun_types_action);
    ANSWERS(stun_types_transaction_poll(transaction, now, action), OK_ANSWER);
    CHECK(action->reserved == 0);
    return *action;
}

/* A transaction without credentials that begins at a time. */
static stun_types_transaction *begun_at(uint64_t now) {
    slice request = hex(REQUEST);
    stun_types_transaction *transaction = NEW(stun_types_transaction);
    ANSWERS(stun_types_transaction_begin(transaction, request.bytes, request.length, &DEFAULT,
                                         STUN_TYPES_UDP, STUN_TYPES_UNPROTECTED, no_key(), now),
            OK_ANSWER);
    return transaction;
}

static void test_moments(void) {
    stun_types_transaction *transaction;
    stun_types_action action;
    row("stun_types_transaction_poll", "a beginning that isn't 0");
    transaction = begun_at(1000000);
    CHECK(polled(transaction, 0).kind == STUN_TYPES_SEND_NOW);
    action = polled(transaction, 0);
    CHECK(action.kind == STUN_TYPES_WAIT && action.until == 1000500);
    CHECK(polled(transaction, 1000500).kind == STUN_TYPES_SEND_NOW);
    action = polled(transaction, 1000500);
    CHECK(action.kind == STUN_TYPES_WAIT && action.until == 1001500);
    row("stun_types_transaction_poll", "a moment that is later than the greatest");
    transaction = begun_at(UINT64_MAX - 1);
    CHECK(polled(transaction, UINT64_MAX - 1).kind == STUN_TYPES_SEND_NOW);
    action = polled(transaction, UINT64_MAX);
    CHECK(action.kind == STUN_TYPES_WAIT && action.until == UINT64_MAX);
}

/* ---- stun_types_transaction_begin */

static const struct {
    const char *name, *request;
    uint32_t transport, protection;
    enum { NO_KEY, BOTH, ONE, OTHER } key;
    uint32_t code;
} begun[] = {
    {"a key that isn't looked at", REQUEST, 1, 4, BOTH, STUN_TYPES_OK},
    {"short-term, without a key", REQUEST_SHA1, 1, 1, NO_KEY, STUN_TYPES_NO_KEY},
    {"long-term, without a key", REQUEST_SHA1, 1, 2, NO_KEY, STUN_TYPES_NO_KEY},
    {"short-term, a key for one algorithm", REQUEST_SHA1, 1, 1, ONE, STUN_TYPES_OK},
    {"long-term, a key for one algorithm", REQUEST_SHA1, 1, 2, ONE, STUN_TYPES_BAD_ARGUMENT},
    {"short-term, a key for the other algorithm", REQUEST_SHA1, 1, 1, OTHER, STUN_TYPES_NOT_SIGNED},
    {"long-term, a key for the other algorithm", REQUEST_SHA1, 1, 2, OTHER, STUN_TYPES_BAD_ARGUMENT},
    {"short-term, unsigned, without a key", REQUEST, 1, 1, NO_KEY, STUN_TYPES_NOT_SIGNED},
    {"transport 0", REQUEST, 0, 4, NO_KEY, STUN_TYPES_BAD_ARGUMENT},
    {"another transport", REQUEST, 3, 4, NO_KEY, STUN_TYPES_BAD_ARGUMENT},
    {"the greatest transport", REQUEST, UINT32_MAX, 4, NO_KEY, STUN_TYPES_BAD_ARGUMENT},
    {"a first request, and a key that isn't looked at", REQUEST, 1, 3, BOTH, STUN_TYPES_OK},
    {"no request", SUCCESS, 1, 4, NO_KEY, STUN_TYPES_NOT_A_REQUEST},
    {"signed, unprotected", REQUEST_SHA1, 1, 4, NO_KEY, STUN_TYPES_SIGNED},
    {"protection 0", REQUEST, 1, 0, NO_KEY, STUN_TYPES_BAD_ARGUMENT},
    {"another protection", REQUEST, 1, 5, BOTH, STUN_TYPES_BAD_ARGUMENT},
    {"the greatest protection", REQUEST, 1, UINT32_MAX, BOTH, STUN_TYPES_BAD_ARGUMENT},
};

/* What a transaction is before another begins in its place: of zeros, of ones, or one that waits. */
enum { ZEROS, ONES, WAITING, BEFORES };

static stun_types_transaction *before_it(unsigned what) {
    stun_types_transaction *transaction = begun_at(0);
    CHECK(polled(transaction, 0).kind == STUN_TYPES_SEND_NOW);
    if (what != WAITING) memset(transaction, what == ZEROS ? 0 : 0xFF, sizeof *transaction);
    return transaction;
}

/* What is left of a beginning that failed is no transaction: nothing is to be done. */
static void check_none(stun_types_transaction *transaction) {
    stun_types_action *action = NEW(stun_types_action);
    slice response = hex(SUCCESS);
    size_t place;
    uint64_t until;
    CHECK(is_zero(transaction, sizeof *transaction));
    ANSWERS(stun_types_transaction_poll(transaction, 0, action), PLAIN(STUN_TYPES_BAD_ARGUMENT));
    CHECK(action->kind == STUN_TYPES_NO_ACTION && is_zero(action, sizeof *action));
    CHECK(!stun_types_transactions_find(transaction, 1, response.bytes, response.length, &place));
    CHECK(!stun_types_transactions_next(transaction, 1, &until));
}

static void test_begin(void) {
    size_t at;
    for (at = 0; at < BEFORES * COUNT(begun); at++) {
        const size_t i = at / BEFORES;
        slice request;
        stun_types_transaction *transaction;
        stun_types_key *key;
        row("stun_types_transaction_begin", begun[i].name);
        request = hex(begun[i].request);
        transaction = before_it(at % BEFORES);
        key = begun[i].key == NO_KEY ? no_key()
            : begun[i].key == BOTH   ? password_key(text("secret"))
            : begun[i].key == ONE    ? bytes_key(text("secret"), STUN_TYPES_INTEGRITY_SHA1)
                                     : bytes_key(text("secret"), STUN_TYPES_INTEGRITY_SHA256);
        ANSWERS(stun_types_transaction_begin(transaction, request.bytes, request.length, &DEFAULT,
                                             (stun_types_transport)begun[i].transport,
                                             (stun_types_protection)begun[i].protection, key, 0),
                PLAIN(begun[i].code));
        if (begun[i].code != STUN_TYPES_OK) check_none(transaction);
        stun_types_key_free(key);
    }
    row("stun_types_transaction_begin", "no message");
    for (at = 0; at < BEFORES; at++) {
        stun_types_transaction *transaction = before_it((unsigned)at);
        slice request = hex("0001 0000 2112A442");
        ANSWERS(stun_types_transaction_begin(transaction, request.bytes, request.length, &DEFAULT,
                                             STUN_TYPES_UDP, STUN_TYPES_UNPROTECTED, no_key(), 0),
                LENGTHS(STUN_TYPES_TRUNCATED, 20, 8));
        check_none(transaction);
    }
}

static const struct {
    const char *name;
    stun_types_schedule schedule;
    uint32_t code;
} schedules[] = {
    {"16 bytes", {500, 39500, 7, 16, 16, 0, 0}, STUN_TYPES_OK},
    {"32 bytes", {500, 39500, 7, 16, 32, 0, 0}, STUN_TYPES_OK},
    {"zero bytes, for 32", {500, 39500, 7, 16, 0, 0, 0}, STUN_TYPES_OK},
    {"12 bytes", {500, 39500, 7, 16, 12, 0, 0}, STUN_TYPES_BAD_ARGUMENT},
    {"17 bytes", {500, 39500, 7, 16, 17, 0, 0}, STUN_TYPES_BAD_ARGUMENT},
    {"100 bytes", {500, 39500, 7, 16, 100, 0, 0}, STUN_TYPES_BAD_ARGUMENT},
    {"a spare word that isn't 0", {500, 39500, 7, 16, 0, 0, 1}, STUN_TYPES_BAD_ARGUMENT},
    {"no first interval", {0, 39500, 7, 16, 0, 0, 0}, STUN_TYPES_OUT_OF_RANGE},
    {"no time over TCP", {500, 0, 7, 16, 0, 0, 0}, STUN_TYPES_OUT_OF_RANGE},
    {"no request", {500, 39500, 0, 16, 0, 0, 0}, STUN_TYPES_OUT_OF_RANGE},
    {"no last wait", {500, 39500, 7, 0, 0, 0, 0}, STUN_TYPES_OUT_OF_RANGE},
    {"the shortest", {1, 1, 1, 1, 0, 0, 0}, STUN_TYPES_OK},
};

static void test_schedules(void) {
    size_t i;
    for (i = 0; i < COUNT(schedules); i++) {
        slice request, schedule;
        stun_types_transaction *transaction;
        row("stun_types_transaction_begin, a schedule", schedules[i].name);
        request = hex(REQUEST);
        schedule = given(&schedules[i].schedule, sizeof schedules[i].schedule);
        transaction = before_it(i % BEFORES);
        ANSWERS(stun_types_transaction_begin(transaction, request.bytes, request.length,
                                             (const void *)schedule.bytes, STUN_TYPES_UDP,
                                             STUN_TYPES_UNPROTECTED, no_key(), 0),
                PLAIN(schedules[i].code));
        if (schedules[i].code != STUN_TYPES_OK)
            check_none(transaction);
        else
            CHECK(transaction->reserved == 0);
    }
}

/* ---- stun_types_transaction_receive */

/* Checks that a call is refused, and changes nothing. */
static void check_refused(stun_types_transaction *transaction, const stun_types_key *key,
                          slice bytes, slice understood, uint32_t code) {
    stun_types_received *received = NEW(stun_types_received);
    stun_types_transaction before = *transaction;
    ANSWERS(stun_types_transaction_receive(transaction, key, bytes.bytes, bytes.length,
                                           (const void *)understood.bytes, understood.length / 2,
                                           received),
            PLAIN(code));
    CHECK(is_zero(received, sizeof *received));
    CHECK(memcmp(&before, transaction, sizeof before) == 0);
}

static void check_success(stun_types_transaction *transaction, const stun_types_key *key,
                          slice bytes, slice understood) {
    stun_types_received *received = NEW(stun_types_received);
    heap_allow(true);
    ANSWERS(stun_types_transaction_receive(transaction, key, bytes.bytes, bytes.length,
                                           (const void *)understood.bytes, understood.length / 2,
                                           received),
            OK_ANSWER);
    heap_allow(false);
    CHECK(received->kind == STUN_TYPES_TAKEN_SUCCESS && received->number == 0);
}

/* A transaction whose request is signed by SHA-1, and was sent at 0. */
static stun_types_transaction *sent(stun_types_protection protection, const stun_types_key *key) {
    slice request = hex(REQUEST_SHA1);
    stun_types_transaction *transaction = NEW(stun_types_transaction);
    ANSWERS(stun_types_transaction_begin(transaction, request.bytes, request.length, &DEFAULT,
                                         STUN_TYPES_UDP, protection, key, 0),
            OK_ANSWER);
    CHECK(polled(transaction, 0).kind == STUN_TYPES_SEND_NOW);
    return transaction;
}

static void test_arguments(void) {
    static const uint16_t many[1000] = {[999] = 0x7FFF};
    stun_types_transaction *transaction;
    stun_types_key *key;
    slice bytes, list;
    row("stun_types_transaction_receive", "a thousand types");
    transaction = begun_at(0);
    CHECK(polled(transaction, 0).kind == STUN_TYPES_SEND_NOW);
    bytes = hex(SUCCESS_UNKNOWN);
    list = given(many, sizeof many);
    check_success(transaction, no_key(), bytes, list);
    row("stun_types_transaction_receive", "without the key");
    key = bytes_key(text("secret"), STUN_TYPES_INTEGRITY_ANY);
    transaction = sent(STUN_TYPES_SHORT_TERM, key);
    bytes = hex(SUCCESS_SHA1);
    check_refused(transaction, no_key(), bytes, hex(""), STUN_TYPES_NO_KEY);
    check_success(transaction, key, bytes, hex(""));
    stun_types_key_free(key);
    row("stun_types_transaction_receive", "long-term, a key for one algorithm");
    key = bytes_key(text("secret"), STUN_TYPES_INTEGRITY_ANY);
    transaction = sent(STUN_TYPES_LONG_TERM, key);
    stun_types_key_free(key);
    key = bytes_key(text("secret"), STUN_TYPES_INTEGRITY_SHA1);
    bytes = hex(SUCCESS_SHA1);
    check_refused(transaction, key, bytes, hex(""), STUN_TYPES_BAD_ARGUMENT);
    stun_types_key_free(key);
    row("stun_types_transaction_receive", "short-term, a key that didn't sign the request");
    key = bytes_key(text("secret"), STUN_TYPES_INTEGRITY_ANY);
    transaction = sent(STUN_TYPES_SHORT_TERM, key);
    stun_types_key_free(key);
    key = bytes_key(text("secret"), STUN_TYPES_INTEGRITY_SHA256);
    bytes = hex(SUCCESS_SHA1);
    check_refused(transaction, key, bytes, hex(""), STUN_TYPES_NOT_SIGNED);
    stun_types_key_free(key);
    row("what is no transaction", "a spare word that isn't 0");
    transaction = begun_at(0);
    transaction->reserved = 1;
    check_refused(transaction, no_key(), hex(SUCCESS), hex(""), STUN_TYPES_BAD_ARGUMENT);
}

/* A message that is signed by an integrity algorithm. */
static size_t signed_message(uint8_t *bytes, size_t size, stun_types_class message_class,
                             const stun_types_key *key, stun_types_integrity algorithm) {
    static const stun_types_id id = {{1}};
    size_t length = 0;
    ANSWERS(stun_types_begin(bytes, size,
                             stun_types_message_type(message_class, STUN_TYPES_METHOD_BINDING), &id,
                             &length),
            OK_ANSWER);
    ANSWERS(stun_types_add_integrity(bytes, size, &length, key, algorithm), OK_ANSWER);
    return length;
}

/* A client and a validation agree on which key goes with which attribute: a long-term key by either
   password algorithm serves both. */
static void test_long_term_keys(void) {
    static const stun_types_password passwords[] = {STUN_TYPES_PASSWORD_MD5,
                                                    STUN_TYPES_PASSWORD_SHA256};
    static const stun_types_integrity algorithms[] = {STUN_TYPES_INTEGRITY_SHA1,
                                                      STUN_TYPES_INTEGRITY_SHA256};
    static const char *const names[] = {"by MD5, a MESSAGE-INTEGRITY", "by MD5, SHA-256",
                                        "by SHA-256, a MESSAGE-INTEGRITY", "by SHA-256, SHA-256"};
    size_t i;
    for (i = 0; i < 4; i++) {
        stun_types_key *key;
        stun_types_transaction *transaction;
        stun_types_received *received;
        stun_types_validated *validated;
        uint8_t *bytes;
        size_t length;
        row("a long-term key", names[i]);
        key = login_key(passwords[i / 2]);
        transaction = NEW(stun_types_transaction);
        received = NEW(stun_types_received);
        validated = NEW(stun_types_validated);
        bytes = room(60);
        length = signed_message(bytes, 60, STUN_TYPES_CLASS_REQUEST, key, algorithms[i % 2]);
        ANSWERS(stun_types_transaction_begin(transaction, bytes, length, &DEFAULT, STUN_TYPES_UDP,
                                             STUN_TYPES_LONG_TERM, key, 0),
                OK_ANSWER);
        CHECK(polled(transaction, 0).kind == STUN_TYPES_SEND_NOW);
        length = signed_message(bytes, 60, STUN_TYPES_CLASS_SUCCESS, key, algorithms[i % 2]);
        heap_allow(true);
        ANSWERS(stun_types_transaction_receive(transaction, key, bytes, length, NO_TYPES, 0,
                                               received),
                OK_ANSWER);
        heap_allow(false);
        CHECK(received->kind == STUN_TYPES_TAKEN_SUCCESS);
        CHECK(received->algorithm == algorithms[i % 2] && received->reserved == 0);
        ANSWERS(stun_types_validate(bytes, length, key, validated), OK_ANSWER);
        CHECK(validated->algorithm == algorithms[i % 2]);
        stun_types_key_free(key);
    }
}

/* A copy of the key is made. Each allocation is refused in turn, which changes nothing. */
static void test_memory(void) {
    static const stun_types_protection protections[] = {STUN_TYPES_SHORT_TERM, STUN_TYPES_LONG_TERM};
    size_t i;
    for (i = 0; i < COUNT(protections); i++) {
        stun_types_protection protection = protections[i];
        stun_types_key *key;
        stun_types_transaction *transaction;
        slice bytes;
        long number, held;
        row("stun_types_transaction_receive, each allocation refused in turn",
            protection == STUN_TYPES_SHORT_TERM ? "short-term" : "long-term");
        heap_forget_secrets();
        secrets_of("secret", 6, heap_add_secret);
        key = bytes_key(text("secret"), STUN_TYPES_INTEGRITY_ANY);
        held = heap_held();
        transaction = sent(protection, key);
        bytes = hex(SUCCESS_SHA1);
        for (number = 1; number < 100; number++) {
            stun_types_received *received = NEW(stun_types_received);
            stun_types_transaction before = *transaction;
            stun_types_answer answer;
            long asked;
            heap_allow(true);
            heap_refuse(number);
            answer = stun_types_transaction_receive(transaction, key, bytes.bytes, bytes.length,
                                                    NO_TYPES, 0, received);
            asked = heap_asked();
            heap_allow(false);
            CHECK(heap_held() == held);
            if (asked < number) {
                ANSWERS(answer, OK_ANSWER);
                CHECK(received->kind == STUN_TYPES_TAKEN_SUCCESS);
                break;
            }
            ANSWERS(answer, PLAIN(STUN_TYPES_OUT_OF_MEMORY));
            CHECK(memcmp(&before, transaction, sizeof before) == 0);
            CHECK(is_zero(received, sizeof *received));
        }
        CHECK(number > 1 && number < 100);
        stun_types_key_free(key);
        heap_forget_secrets();
    }
}

/* ---- what is no transaction */

static void test_no_transactions(void) {
    static const uint8_t fills[] = {0x00, 0xEE, 0xFF};
    size_t i;
    for (i = 0; i < COUNT(fills); i++) {
        stun_types_transaction *transaction;
        stun_types_action *action;
        stun_types_received *received;
        slice bytes;
        row("what is no transaction", fills[i] == 0      ? "zeros"
                                      : fills[i] == 0xFF ? "ones"
                                                         : "others");
        transaction = NEW(stun_types_transaction);
        memset(transaction, fills[i], sizeof *transaction);
        action = NEW(stun_types_action);
        received = NEW(stun_types_received);
        bytes = hex(SUCCESS);
        ANSWERS(stun_types_transaction_poll(transaction, 0, action),
                PLAIN(STUN_TYPES_BAD_ARGUMENT));
        ANSWERS(stun_types_transaction_receive(transaction, no_key(), bytes.bytes, bytes.length,
                                               NO_TYPES, 0, received),
                PLAIN(STUN_TYPES_BAD_ARGUMENT));
        ANSWERS(stun_types_transaction_stop_sending(transaction), PLAIN(STUN_TYPES_BAD_ARGUMENT));
        ANSWERS(stun_types_transaction_cancel(transaction), PLAIN(STUN_TYPES_BAD_ARGUMENT));
        ANSWERS(stun_types_transaction_fail(transaction), PLAIN(STUN_TYPES_BAD_ARGUMENT));
        CHECK(is_zero(action, sizeof *action) && is_zero(received, sizeof *received));
    }
}

/* A method has 12 bits. */
static void test_methods(void) {
    static const uint16_t methods[] = {0x0FFF, 0x1000, 0xEFFF, 0xF000, 0xFFFF};
    size_t i;
    row("what is no transaction", "a method of more than 12 bits");
    for (i = 0; i < COUNT(methods); i++) {
        stun_types_transaction *transaction = begun_at(0);
        stun_types_action *action = NEW(stun_types_action);
        transaction->method = methods[i];
        ANSWERS(stun_types_transaction_poll(transaction, 0, action),
                PLAIN(i == 0 ? STUN_TYPES_OK : STUN_TYPES_BAD_ARGUMENT));
    }
}

/* ---- stun_types_challenge_of */

static const struct {
    const char *name, *tried;
    bool was_tried;
    uint16_t supported[17];
    size_t supported_count;
    uint32_t code;
} challenges[] = {
    {"password algorithm 0", "FF", true, {0}, 1, STUN_TYPES_BAD_ARGUMENT},
    {"password algorithm 3", "", false, {1, 3}, 2, STUN_TYPES_BAD_ARGUMENT},
    {"17 algorithms", "", false, {1, 1, 1, 1, 1, 1, 1, 1, 1, 1, 1, 1, 1, 1, 1, 1, 1}, 17,
     STUN_TYPES_BAD_ARGUMENT},
    {"a realm that isn't UTF-8", "6578FF", true, {1, 2}, 2, STUN_TYPES_INVALID_DATA},
    {"a realm that isn't looked at", "6578FF", false, {1, 2}, 2, STUN_TYPES_OK},
    {"the realm, which isn't looked at", "6578616D706C652E6F7267", false, {1, 2}, 2, STUN_TYPES_OK},
    {"the realm", "6578616D706C652E6F7267", true, {1, 2}, 2, STUN_TYPES_SAME_CREDENTIALS},
    {"the empty realm", "", true, {1, 2}, 2, STUN_TYPES_OK},
};

static void test_challenges(void) {
    size_t i;
    for (i = 0; i < COUNT(challenges); i++) {
        slice bytes, tried, supported;
        stun_types_challenge *challenge;
        row("stun_types_challenge_of", challenges[i].name);
        bytes = hex(CHALLENGE);
        tried = hex(challenges[i].tried);
        supported = given(challenges[i].supported, 2 * challenges[i].supported_count);
        challenge = NEW(stun_types_challenge);
        ANSWERS(stun_types_challenge_of(bytes.bytes, bytes.length, (const void *)supported.bytes,
                                        challenges[i].supported_count, challenges[i].was_tried,
                                        tried.bytes, tried.length, i % 2 == 0, challenge),
                PLAIN(challenges[i].code));
        if (challenges[i].code != STUN_TYPES_OK) CHECK(is_untouched(challenge, sizeof *challenge));
    }
}

void test_clients(void) {
    test_moments();
    test_begin();
    test_schedules();
    test_arguments();
    test_long_term_keys();
    test_memory();
    test_no_transactions();
    test_methods();
    test_challenges();
}
