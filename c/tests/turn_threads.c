/* TURN servers in several threads: turn_threads [ROUNDS]. Four threads have a server each, and then
 * one that they share by a lock; the keys of the user and the secret of the nonces are one for all.
 * In each round a client gets an allocation, uses it and ends it, and what the server does is
 * compared with what it did for one thread alone. The last line is 'N passed, M failed'. */
#define _POSIX_C_SOURCE 200112L
#include <pthread.h>
#include <stdio.h>
#include <stdlib.h>
#include <string.h>
#include <time.h>

#include "stun_types.h"

enum { THREADS = 4, ROOM = 500, STEPS = 9, ROUNDS = 1000, SECONDS = 60 };

static stun_types_key secret = STUN_TYPES_KEY_INIT, md5_key = STUN_TYPES_KEY_INIT,
                      sha256_key = STUN_TYPES_KEY_INIT;
static const stun_types_address peer = {{198, 51, 100, 7}, 4000, 4};
static const stun_types_address own = {{203, 0, 113, 1}, 3478, 4};

/* What a server does in each step of a round: but for the number of the socket, the same in each
   round. */
typedef struct {
    uint32_t answer, kind, code, took, ended, length, port;
} step;

typedef struct {
    step steps[STEPS];
    stun_types_turn_delivery delivery;
    uint8_t head[STUN_TYPES_TURN_HEAD];
} results;

/* A client: its server, the lock for that if it is shared, and where it has come to. */
typedef struct {
    stun_types_turn *server;
    pthread_mutex_t *lock;
    stun_types_five_tuple from;
    stun_types_turn_ready ready;
    uint64_t relay;
    uint8_t message[ROOM];
    size_t length, next;
    results done;
} agent;

static void lock(agent *self) {
    if (self->lock != NULL && pthread_mutex_lock(self->lock) != 0) abort();
}

static void unlock(agent *self) {
    if (self->lock != NULL && pthread_mutex_unlock(self->lock) != 0) abort();
}

static void must(stun_types_answer answer) {
    if (answer.code == STUN_TYPES_OK) return;
    printf("turn_threads.c: code %u\n", (unsigned)answer.code);
    abort();
}

/* ---- a round */

static void begin(agent *self, stun_types_class message_class, stun_types_method method) {
    const stun_types_id id = {{1, 2, 3, 4, 5, 6, 7, 8, 9, 10, 11, 12}};
    must(stun_types_begin(self->message, ROOM, stun_types_message_type(message_class, method), &id,
                          &self->length));
}

static void add(agent *self, uint16_t type, const void *value, size_t length) {
    must(stun_types_add(self->message, ROOM, &self->length, type, value, length));
}

static void add_peer(agent *self) {
    must(stun_types_add_xor_address(self->message, ROOM, &self->length,
                                    STUN_TYPES_ATTRIBUTE_XOR_PEER_ADDRESS, &peer));
}

static void sign(agent *self) {
    uint8_t nonce[STUN_TYPES_NONCE_LENGTH];
    size_t length = 0;
    must(stun_types_make_nonce(&secret, 0, 600, 7, &self->from.client, nonce, sizeof nonce,
                               &length));
    add(self, STUN_TYPES_ATTRIBUTE_USERNAME, "user", 4);
    add(self, STUN_TYPES_ATTRIBUTE_REALM, "realm", 5);
    add(self, STUN_TYPES_ATTRIBUTE_NONCE, nonce, length);
    must(stun_types_add_integrity(self->message, ROOM, &self->length, &md5_key,
                                  STUN_TYPES_INTEGRITY_SHA1));
}

static void take(agent *self) {
    stun_types_turn_datagram datagram;
    stun_types_turn_action action;
    stun_types_answer answer;
    uint8_t room[ROOM];
    step *done = &self->done.steps[self->next++];
    memset(&datagram, 0, sizeof datagram);
    datagram.bytes = self->message;
    datagram.length = self->length;
    datagram.from = self->from;
    datagram.ready = self->ready;
    datagram.looked_up = 1;
    lock(self);
    answer = stun_types_turn_client(self->server, 7000000000, &datagram, &md5_key, &sha256_key, room,
                                    ROOM, &action);
    unlock(self);
    done->answer = answer.code;
    done->kind = action.kind;
    done->code = action.code;
    done->took = action.ipv4.took;
    done->ended = (uint32_t)action.ended;
    done->length = (uint32_t)action.length;
    done->port = action.peer.port;
    if (action.ipv4.took) self->relay = action.ipv4.relay;
    else if (action.kind == STUN_TYPES_TURN_TO_PEER && action.relay != self->relay)
        done->answer = 99;
}

static void request(agent *self, stun_types_method method) {
    begin(self, STUN_TYPES_CLASS_REQUEST, method);
    if (method == STUN_TYPES_METHOD_ALLOCATE)
        add(self, STUN_TYPES_ATTRIBUTE_REQUESTED_TRANSPORT, "\x11\0\0", 4);
    if (method == STUN_TYPES_METHOD_REFRESH) add(self, STUN_TYPES_ATTRIBUTE_LIFETIME, "\0\0\0", 4);
    if (method == STUN_TYPES_METHOD_CHANNEL_BIND)
        add(self, STUN_TYPES_ATTRIBUTE_CHANNEL_NUMBER, "\x40\0\0", 4);
    if (method == STUN_TYPES_METHOD_CHANNEL_BIND || method == STUN_TYPES_METHOD_CREATE_PERMISSION)
        add_peer(self);
    sign(self);
    take(self);
}

static void send_data(agent *self) {
    begin(self, STUN_TYPES_CLASS_INDICATION, STUN_TYPES_METHOD_SEND);
    add_peer(self);
    add(self, STUN_TYPES_ATTRIBUTE_DATA, "abc", 3);
    take(self);
    memcpy(self->message, "\x40\0\0\3abc", 7);
    self->length = 7;
    take(self);
}

static void arrive(agent *self) {
    const stun_types_id id = {{7}};
    stun_types_answer answer;
    lock(self);
    answer = stun_types_turn_peer(self->server, 7000000000, &peer, self->relay, 3, &id,
                                  self->done.head, sizeof self->done.head, &self->done.delivery);
    unlock(self);
    self->done.steps[self->next++].answer = answer.code;
    /* (the clients of threads that share a server have other ports) */
    if (self->done.delivery.to.client.port != self->from.client.port) abort();
    self->done.delivery.to.client.port = 0;
}

/* (the relayed addresses of others have not expired either) */
static void poll_sockets(agent *self) {
    lock(self);
    if (stun_types_turn_poll(self->server, 7000000000) != 0) abort();
    unlock(self);
}

static void go(agent *self) {
    memset(&self->done, 0, sizeof self->done);
    self->next = 0;
    begin(self, STUN_TYPES_CLASS_REQUEST, STUN_TYPES_METHOD_ALLOCATE);
    take(self);
    request(self, STUN_TYPES_METHOD_ALLOCATE);
    request(self, STUN_TYPES_METHOD_CREATE_PERMISSION);
    request(self, STUN_TYPES_METHOD_CHANNEL_BIND);
    send_data(self);
    arrive(self);
    request(self, STUN_TYPES_METHOD_REFRESH);
    poll_sockets(self);
    request(self, STUN_TYPES_METHOD_REFRESH);
}

/* ---- threads */

static results expected;
static pthread_barrier_t start;
static unsigned long rounds = ROUNDS;
static time_t last_second;

typedef struct {
    pthread_t thread;
    agent agent;
    unsigned long done, wrong;
} worker;

static void *work(void *argument) {
    worker *self = argument;
    pthread_barrier_wait(&start);
    while (self->done < rounds && (self->done % 16 != 0 || time(NULL) < last_second)) {
        go(&self->agent);
        if (memcmp(&self->agent.done, &expected, sizeof expected) != 0) self->wrong++;
        self->done++;
    }
    return NULL;
}

static long passed, failed;

static void check(int line, int holds, const char *text) {
    if (holds) {
        passed++;
        return;
    }
    failed++;
    printf("turn_threads.c, line %d: %s\n", line, text);
}
#define CHECK(text) check(__LINE__, (text) != 0, #text)

static void make_server(stun_types_turn *server) {
    stun_types_turn_settings settings;
    memset(&settings, 0, sizeof settings);
    settings.window = 600;
    settings.limits = stun_types_turn_limits_default();
    settings.limits.relays = THREADS;
    settings.limits.relays_per_user = THREADS;
    settings.realm = "realm";
    settings.realm_length = 5;
    settings.software = "a server";
    settings.software_length = 8;
    settings.listening = &own;
    settings.listening_count = 1;
    CHECK(!stun_types_turn_new(server, &settings, &secret).code);
}

static void begin_agent(agent *self, stun_types_turn *server, pthread_mutex_t *lock,
                        size_t number) {
    memset(self, 0, sizeof *self);
    self->server = server;
    self->lock = lock;
    self->from.client = peer;
    self->from.client.port = (uint16_t)(5000 + number);
    self->from.server = own;
    self->ready.any_ipv4 = own;
    self->ready.any_ipv4.port = (uint16_t)(50000 + number);
}

/* What one thread alone is answered is checked too. */
static void check_expected(void) {
    static const uint32_t codes[STEPS] = {401, 0, 0, 0, 0, 0, 0, 0, 437};
    stun_types_turn server = STUN_TYPES_TURN_INIT;
    static agent one;
    size_t i;
    make_server(&server);
    begin_agent(&one, &server, NULL, 0);
    go(&one);
    expected = one.done;
    CHECK(one.next == STEPS);
    for (i = 0; i < STEPS; i++) {
        CHECK(expected.steps[i].answer == STUN_TYPES_OK && expected.steps[i].code == codes[i]);
        CHECK(expected.steps[i].took == (i == 1) && expected.steps[i].ended == (i == 7));
    }
    CHECK(expected.steps[4].kind == STUN_TYPES_TURN_TO_PEER && expected.steps[4].length == 3);
    CHECK(expected.steps[5].kind == STUN_TYPES_TURN_TO_PEER && expected.steps[5].port == 4000);
    CHECK(expected.delivery.sends == 1 && expected.delivery.head_length == 4);
    stun_types_turn_free(&server);
}

/* Runs the threads: each with a server, or all with the first by a lock. */
static int run(int are_shared) {
    static worker workers[THREADS];
    static stun_types_turn servers[THREADS];
    static pthread_mutex_t mutex = PTHREAD_MUTEX_INITIALIZER;
    size_t i;
    memset(workers, 0, sizeof workers);
    for (i = 0; i < THREADS; i++) {
        stun_types_turn *server = &servers[are_shared ? 0 : i];
        if (i == 0 || !are_shared) {
            *server = stun_types_turn_none();
            make_server(server);
        }
        begin_agent(&workers[i].agent, server, are_shared ? &mutex : NULL, i);
    }
    for (i = 0; i < THREADS; i++)
        if (pthread_create(&workers[i].thread, NULL, work, &workers[i]) != 0) return 0;
    for (i = 0; i < THREADS; i++) {
        if (pthread_join(workers[i].thread, NULL) != 0) return 0;
        CHECK(workers[i].done > 0);
        if (workers[i].wrong != 0)
            printf("thread %lu, %s: %lu of %lu rounds differ\n", (unsigned long)i,
                   are_shared ? "a lock" : "its server", workers[i].wrong, workers[i].done);
        CHECK(workers[i].wrong == 0);
    }
    for (i = 0; i < THREADS; i++) {
        if (i == 0 || !are_shared) stun_types_turn_free(&servers[i]);
        CHECK(servers[i].at == NULL && servers[i].held == 0);
    }
    return 1;
}

int main(int count, char **arguments) {
    if (count > 1) rounds = strtoul(arguments[1], NULL, 10);
    CHECK(
        !stun_types_key_from_bytes(&secret, "a secret of the server", 22, STUN_TYPES_INTEGRITY_ANY)
             .code);
    CHECK(!stun_types_key_long_term(&md5_key, "user", 4, "realm", 5, "pass", 4,
                                    STUN_TYPES_PASSWORD_MD5)
               .code);
    CHECK(!stun_types_key_long_term(&sha256_key, "user", 4, "realm", 5, "pass", 4,
                                    STUN_TYPES_PASSWORD_SHA256)
               .code);
    check_expected();
    last_second = time(NULL) + SECONDS;
    if (pthread_barrier_init(&start, NULL, THREADS) != 0) return 2;
    if (!run(0) || !run(1)) return 2;
    pthread_barrier_destroy(&start);
    stun_types_key_free(&secret);
    stun_types_key_free(&md5_key);
    stun_types_key_free(&sha256_key);
    printf("%ld passed, %ld failed\n", passed, failed);
    return failed != 0 || passed == 0;
}
