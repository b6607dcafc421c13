/* One key in several threads: threads [ROUNDS]. Four threads sign and validate with the same keys at
 * once, and what each round writes and answers is compared with what one thread alone wrote and was
 * answered. The last line is 'N passed, M failed'. */
#define _POSIX_C_SOURCE 200112L
#include <pthread.h>
#include <stdio.h>
#include <stdlib.h>
#include <string.h>
#include <time.h>

#include "stun_types.h"

#define COUNT(array) (sizeof(array) / sizeof *(array))

enum { THREADS = 4, KEYS = 4, ALGORITHMS = 2, ROOM = 200, ROUNDS = 3000, SECONDS = 60 };

/* The keys that all threads share: of a password, of a login by either digest, and with bytes. */
static stun_types_key keys[KEYS];

/* What a round writes and is answered: with each key and by each algorithm a message, and what it
   is taken for by each key; and what the calls of a server and of a client answer. */
typedef struct {
    uint8_t message[ROOM];
    size_t length;
    stun_types_answer written, valid[KEYS], changed, by_policy;
    stun_types_validated validated[KEYS], validated_by_policy;
    stun_types_answer short_term, long_term;
    stun_types_authentication by_short_term, by_long_term;
    stun_types_answer begun, polled, received;
    stun_types_transaction transaction;
    stun_types_received outcome;
} signed_message;

typedef struct {
    signed_message by[KEYS][ALGORITHMS];
} results;

static results expected;
static pthread_barrier_t start;
static unsigned long rounds = ROUNDS;
static time_t last_second;

static stun_types_answer write_message(signed_message *made, const stun_types_key *key,
                                       uint32_t message_class, uint32_t algorithm) {
    const stun_types_id id = {{1, 2, 3, 4, 5, 6, 7, 8, 9, 10, 11, 12}};
    uint16_t type = stun_types_message_type(message_class, STUN_TYPES_METHOD_BINDING);
    stun_types_answer a = stun_types_begin(made->message, ROOM, type, &id, &made->length);
    if (!a.code) a = stun_types_add(made->message, ROOM, &made->length, STUN_TYPES_ATTRIBUTE_USERNAME,
                                    "user", 4);
    if (!a.code) a = stun_types_add(made->message, ROOM, &made->length, STUN_TYPES_ATTRIBUTE_REALM,
                                    "realm", 5);
    if (!a.code) a = stun_types_add(made->message, ROOM, &made->length, STUN_TYPES_ATTRIBUTE_NONCE,
                                    "nonce", 5);
    if (!a.code) a = stun_types_add_integrity(made->message, ROOM, &made->length, key, algorithm);
    if (!a.code) a = stun_types_add_fingerprint(made->message, ROOM, &made->length);
    return a;
}

static void validate(signed_message *made) {
    static const stun_types_policy one = {STUN_TYPES_INTEGRITY_SHA1, 0, 0, 0};
    uint8_t changed[ROOM];
    stun_types_validated validated;
    size_t i;
    for (i = 0; i < KEYS; i++)
        made->valid[i] = stun_types_validate(made->message, made->length, &keys[i],
                                             &made->validated[i]);
    made->by_policy = stun_types_validate_by_policy(made->message, made->length, &one, &keys[1],
                                                    &made->validated_by_policy);
    /* (without its FINGERPRINT, which shows a change too) */
    memcpy(changed, made->message, ROOM);
    changed[3] = (uint8_t)(changed[3] - 8);
    changed[24] ^= 1;
    made->changed = stun_types_validate(changed, made->length - 8, &keys[0], &validated);
}

static void serve(signed_message *made, const stun_types_key *key) {
    const stun_types_policy policy = {STUN_TYPES_INTEGRITY_ANY, 16, 0, 0};
    const uint16_t no_algorithms[1] = {0};
    made->short_term = stun_types_authenticate_short_term(made->message, made->length, &policy, key,
                                                          &made->by_short_term);
    made->long_term = stun_types_authenticate_long_term(
        made->message, made->length, &policy, STUN_TYPES_NONCE_VALID, no_algorithms, 0, key, key,
        &made->by_long_term);
}

/* (a copy of the key is made and freed for what is received) */
static void ask(signed_message *made, const stun_types_key *key, uint32_t algorithm) {
    const stun_types_schedule schedule = STUN_TYPES_SCHEDULE;
    const uint16_t none[1] = {0};
    stun_types_action action;
    signed_message response;
    memset(&response, 0, sizeof response);
    made->begun = stun_types_transaction_begin(&made->transaction, made->message, made->length,
                                               &schedule, STUN_TYPES_UDP, STUN_TYPES_SHORT_TERM, key,
                                               0);
    if (made->begun.code) return;
    made->polled = stun_types_transaction_poll(&made->transaction, 0, &action);
    write_message(&response, key, STUN_TYPES_CLASS_SUCCESS, algorithm);
    made->received = stun_types_transaction_receive(&made->transaction, key, response.message,
                                                    response.length, none, 0, &made->outcome);
}

static void go(results *out) {
    size_t k, a;
    memset(out, 0, sizeof *out);
    for (k = 0; k < KEYS; k++) {
        const stun_types_key *key = &keys[k];
        for (a = 0; a < ALGORITHMS; a++) {
            uint32_t algorithm = a == 0 ? STUN_TYPES_INTEGRITY_SHA1 : STUN_TYPES_INTEGRITY_SHA256;
            signed_message *made = &out->by[k][a];
            made->written = write_message(made, key, STUN_TYPES_CLASS_REQUEST, algorithm);
            validate(made);
            serve(made, key);
            ask(made, key, algorithm);
        }
    }
}

typedef struct {
    pthread_t thread;
    results last;
    unsigned long done, wrong;
} worker;

static void *work(void *argument) {
    worker *self = argument;
    pthread_barrier_wait(&start);
    while (self->done < rounds && (self->done % 64 != 0 || time(NULL) < last_second)) {
        go(&self->last);
        if (memcmp(&self->last, &expected, sizeof expected) != 0) self->wrong++;
        self->done++;
    }
    return NULL;
}

/* ---- what one thread alone is answered is checked too */

static long passed, failed;

static void check(int line, int holds, const char *text) {
    if (holds) {
        passed++;
        return;
    }
    failed++;
    printf("threads.c, line %d: %s\n", line, text);
}
#define CHECK(text) check(__LINE__, (text) != 0, #text)

static void make_keys(void) {
    static const stun_types_key none = STUN_TYPES_KEY_INIT;
    size_t i;
    for (i = 0; i < KEYS; i++) keys[i] = none;
    CHECK(!stun_types_key_short_term(&keys[0], "pass", 4).code);
    CHECK(!stun_types_key_long_term(&keys[1], "user", 4, "realm", 5, "pass", 4, STUN_TYPES_PASSWORD_MD5)
               .code);
    CHECK(!stun_types_key_long_term(&keys[2], "user", 4, "realm", 5, "pass", 4, STUN_TYPES_PASSWORD_SHA256)
               .code);
    CHECK(!stun_types_key_from_bytes(&keys[3], "pass", 4, STUN_TYPES_INTEGRITY_ANY).code);
}

static void check_expected(void) {
    size_t k, a, i;
    go(&expected);
    for (k = 0; k < KEYS; k++)
        for (a = 0; a < ALGORITHMS; a++) {
            const signed_message *made = &expected.by[k][a];
            uint32_t algorithm = a == 0 ? STUN_TYPES_INTEGRITY_SHA1 : STUN_TYPES_INTEGRITY_SHA256;
            CHECK(!made->written.code);
            CHECK(made->changed.code == STUN_TYPES_INTEGRITY_FAILED);
            for (i = 0; i < KEYS; i++) {
                int same = i == k || (i + k == 3 && (i == 0 || k == 0));
                if (!same) CHECK(made->valid[i].code != STUN_TYPES_OK);
                else {
                    CHECK(!made->valid[i].code);
                    CHECK(made->validated[i].algorithm == algorithm);
                }
            }
            CHECK(!made->short_term.code);
            CHECK(made->by_short_term.kind == STUN_TYPES_ACCEPTED);
            CHECK(!made->long_term.code);
            CHECK(!made->begun.code);
            CHECK(!made->polled.code);
            CHECK(!made->received.code);
        }
}

int main(int count, char **arguments) {
    static worker workers[THREADS];
    size_t i;
    if (count > 1) rounds = strtoul(arguments[1], NULL, 10);
    make_keys();
    check_expected();
    last_second = time(NULL) + SECONDS;
    if (pthread_barrier_init(&start, NULL, THREADS) != 0) return 2;
    for (i = 0; i < THREADS; i++)
        if (pthread_create(&workers[i].thread, NULL, work, &workers[i]) != 0) return 2;
    for (i = 0; i < THREADS; i++) {
        if (pthread_join(workers[i].thread, NULL) != 0) return 2;
        CHECK(workers[i].done > 0);
        if (workers[i].wrong != 0)
            printf("thread %lu: %lu of %lu rounds differ\n", (unsigned long)i, workers[i].wrong,
                   workers[i].done);
        CHECK(workers[i].wrong == 0);
    }
    pthread_barrier_destroy(&start);
    for (i = 0; i < KEYS; i++) {
        stun_types_key_free(&keys[i]);
        CHECK(keys[i].at == NULL && keys[i].held == 0);
    }
    printf("%ld passed, %ld failed\n", passed, failed);
    return failed != 0 || passed == 0;
}
