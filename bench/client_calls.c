/* Makes calls of a TURN client many times, without sockets: for bench/relays, which measures them.
 *
 *     cc -O2 -I c bench/client_calls.c libstun_types.a -o client_calls
 *     ./client_calls TIMES ROUNDS CALL..
 *
 * It makes two clients over UDP and IPv4, each with 32 peers at as many IP addresses, and answers their requests
 * itself, signed with MESSAGE-INTEGRITY: one has a channel of each peer, one a permission.
 *
 * Then each CALL, which is a name of `rows`, has a process of its own, which makes it TIMES times, of the peers in
 * turn, in each of so many ROUNDS; `none` makes no call. Its nanoseconds are printed, of the fastest round. Under
 * callgrind with --instr-atstart=no only the rounds are counted, and reported at the end of the process.
 *
 * The status is 0 if each call is answered as its row says, 1 if one is not, and 2 if it couldn't begin. */
#define _POSIX_C_SOURCE 200809L
#include <stdio.h>
#include <stdlib.h>
#include <string.h>
#include <sys/wait.h>
#include <time.h>
#include <unistd.h>
#include <valgrind/callgrind.h>

#include "stun_types.h"

enum { PEERS = 32, DATA = 100, ROOM = 1000, HEAD = STUN_TYPES_ALLOCATION_HEAD };

static const uint64_t SECOND = 1000000000;
static const char USER[] = "user", REALM[] = "example.org", PASSWORD[] = "a password";

typedef struct {
    uint8_t bytes[ROOM];
    size_t length;
} message;

typedef enum { NOTHING, SEND, RECEIVE, POLL, CHANGES } what;

typedef struct {
    const char *name;
    what is;
    bool bound;     /* of the client with channels */
    bool is_known;  /* of peers that it has, from the server */
    uint32_t gives; /* the length of the head, or whether data is shown */
} row;

static const row rows[] = {
    {"none", NOTHING, true, true, 0},
    {"send,channel", SEND, true, true, 4},
    {"send,indication", SEND, false, true, 36},
    {"send,refused", SEND, false, false, 0},
    {"data,channel", RECEIVE, true, true, 1},
    {"data,indication", RECEIVE, false, true, 1},
    {"data,refused", RECEIVE, false, false, 0},
    {"poll", POLL, true, true, 0},
    {"changes", CHANGES, true, true, 0},
};

static stun_types_allocation clients[2] = {STUN_TYPES_ALLOCATION_INIT, STUN_TYPES_ALLOCATION_INIT};
static stun_types_key key = STUN_TYPES_KEY_INIT;
static uint64_t now = 1000 * SECOND;
static size_t times, rounds;
static message inputs[PEERS];

static void stop(const char *why) {
    fprintf(stderr, "client_calls: %s\n", why);
    exit(2);
}

static void need(stun_types_answer answer) {
    if (answer.code != STUN_TYPES_OK) stop(stun_types_status_text(answer.code));
}

static stun_types_address ipv4(uint32_t address, uint16_t port) {
    stun_types_address it = {.family = 4, .port = port};
    for (int i = 0; i < 4; i++) it.octets[i] = (uint8_t)(address >> (24 - 8 * i));
    return it;
}

static stun_types_address server_address(void) { return ipv4(0xC0000201, 3478); }

/* From PEERS on one that isn't named. */
static stun_types_address peer_at(size_t at) { return ipv4((uint32_t)(0x08080800 + at), 4000); }

static stun_types_id new_id(void) {
    static uint32_t number;
    stun_types_id id = {{0}};
    number++;
    memcpy(id.bytes, &number, sizeof number);
    return id;
}

/* ---- The server ---------------------------------------------------------------------------------- */

static void add(message *made, uint16_t type, const void *value, size_t length) {
    need(stun_types_add(made->bytes, ROOM, &made->length, type, value, length));
}

static void add_address(message *made, uint16_t type, stun_types_address address) {
    need(stun_types_add_xor_address(made->bytes, ROOM, &made->length, type, &address));
}

/* Answers a request: a 401 if it isn't signed, and otherwise a success. */
static void answer(const message *request, message *reply) {
    stun_types_header header;
    stun_types_attribute found;
    bool is_signed = stun_types_find(request->bytes, request->length, STUN_TYPES_ATTRIBUTE_MESSAGE_INTEGRITY,
                                     &found);
    need(stun_types_read_header(request->bytes, request->length, &header));
    need(stun_types_begin_reply(reply->bytes, ROOM, request->bytes, request->length,
                                is_signed ? STUN_TYPES_CLASS_SUCCESS : STUN_TYPES_CLASS_ERROR, &reply->length));
    if (!is_signed) {
        need(stun_types_add_error(reply->bytes, ROOM, &reply->length, STUN_TYPES_CODE_UNAUTHORIZED, "", 0));
        add(reply, STUN_TYPES_ATTRIBUTE_REALM, REALM, strlen(REALM));
        add(reply, STUN_TYPES_ATTRIBUTE_NONCE, "a nonce", 7);
        return;
    }
    if (header.method == STUN_TYPES_METHOD_ALLOCATE) {
        add_address(reply, STUN_TYPES_ATTRIBUTE_XOR_RELAYED_ADDRESS, ipv4(0xC0000202, 50000));
        add_address(reply, STUN_TYPES_ATTRIBUTE_XOR_MAPPED_ADDRESS, ipv4(0x0A000001, 50000));
        need(stun_types_add_u32(reply->bytes, ROOM, &reply->length, STUN_TYPES_ATTRIBUTE_LIFETIME, 3600));
    }
    need(stun_types_add_integrity(reply->bytes, ROOM, &reply->length, &key, STUN_TYPES_INTEGRITY_SHA1));
}

/* Has a client ask for what it wants, until nothing is due. */
static void settle(stun_types_allocation *client) {
    message request = {.length = 0}, reply;
    stun_types_allocation_data data;
    stun_types_allocation_change change;
    stun_types_address from = server_address();
    uint64_t wake;
    do {
        stun_types_id id = new_id();
        need(stun_types_allocation_poll(client, now, &id, request.bytes, ROOM, &request.length, &wake));
        if (request.length == 0) break;
        answer(&request, &reply);
        need(stun_types_allocation_datagram(client, now, &from, reply.bytes, reply.length, &data));
    } while (true);
    while (stun_types_allocation_changes(client, &change)) {
        if (change.kind > STUN_TYPES_ALLOCATION_BOUND) stop("a client has failed");
    }
}

static void make_client(stun_types_allocation *client, stun_types_allocation_wish wish) {
    stun_types_allocation_settings settings;
    memset(&settings, 0, sizeof settings);
    settings.server = server_address();
    settings.transport = STUN_TYPES_UDP;
    settings.user = USER;
    settings.user_length = strlen(USER);
    settings.password = PASSWORD;
    settings.password_length = strlen(PASSWORD);
    need(stun_types_allocation_new(client, &settings));
    need(stun_types_allocation_want(client, now, STUN_TYPES_ALLOCATION_ALLOCATE, &settings.server));
    for (size_t at = 0; at < PEERS; at++) {
        stun_types_address peer = peer_at(at);
        need(stun_types_allocation_want(client, now, wish, &peer));
    }
    settle(client);
}

/* ---- Calls ------------------------------------------------------------------------------------- */

/* What the server sends of a peer. */
static void prepare(const row *of, size_t at) {
    static const uint8_t data[DATA] = {1};
    message *made = &inputs[at];
    stun_types_id id = new_id();
    if (of->bound) {
        need(stun_types_write_channel_data((uint16_t)(0x4000 + at), data, DATA, false, made->bytes, ROOM,
                                           &made->length));
        return;
    }
    need(stun_types_begin(made->bytes, ROOM,
                          stun_types_message_type(STUN_TYPES_CLASS_INDICATION, STUN_TYPES_METHOD_DATA), &id,
                          &made->length));
    add_address(made, STUN_TYPES_ATTRIBUTE_XOR_PEER_ADDRESS, peer_at(of->is_known ? at : PEERS + at));
    add(made, STUN_TYPES_ATTRIBUTE_DATA, data, DATA);
}

static bool sends(const row *of, stun_types_allocation *client, size_t at) {
    static const stun_types_id id = {{1}};
    static uint8_t head[HEAD];
    stun_types_allocation_head around;
    stun_types_address peer = peer_at(of->is_known ? at : PEERS + at);
    stun_types_answer answer =
        stun_types_allocation_send(client, now, DATA, &peer, &id, head, HEAD, &around);
    return answer.code == STUN_TYPES_OK && around.sends == (of->gives != 0) && around.length == of->gives;
}

static bool receives(const row *of, stun_types_allocation *client, size_t at) {
    stun_types_allocation_data data;
    stun_types_address from = server_address();
    const message *input = &inputs[at];
    stun_types_answer answer =
        stun_types_allocation_datagram(client, now, &from, input->bytes, input->length, &data);
    return answer.code == STUN_TYPES_OK && data.shown == of->gives && data.length == DATA * of->gives;
}

static bool polls(stun_types_allocation *client) {
    static const stun_types_id id = {{1}};
    static uint8_t room[ROOM];
    size_t length = 1;
    uint64_t wake = 0;
    return stun_types_allocation_poll(client, now, &id, room, ROOM, &length, &wake).code == STUN_TYPES_OK &&
           length == 0 && wake > now;
}

/* Makes a call; whether it is answered as its row says. */
static bool makes(const row *of, stun_types_allocation *client, size_t at) {
    stun_types_allocation_change change;
    switch (of->is) {
    case SEND: return sends(of, client, at);
    case RECEIVE: return receives(of, client, at);
    case POLL: return polls(client);
    case CHANGES: return !stun_types_allocation_changes(client, &change);
    default: return of->gives == 0 && client != NULL;
    }
}

static double clock_now(void) {
    struct timespec read;
    clock_gettime(CLOCK_MONOTONIC, &read);
    return (double)read.tv_sec * 1e9 + (double)read.tv_nsec;
}

/* Makes the calls of a row, and prints how long one takes. Whether each is answered as it says. */
static bool measure(const row *of) {
    stun_types_allocation *client = &clients[of->bound ? 0 : 1];
    double least = 1e18;
    size_t right = 0;
    for (size_t at = 0; at < PEERS; at++) prepare(of, at);
    for (size_t round = 0; round < rounds; round++) {
        double began = clock_now();
        CALLGRIND_START_INSTRUMENTATION;
        for (size_t i = 0; i < times; i++) right += makes(of, client, i % PEERS);
        CALLGRIND_STOP_INSTRUMENTATION;
        double took = (clock_now() - began) / (double)times;
        if (took < least) least = took;
    }
    printf("%s %.1f\n", of->name, least);
    if (right == times * rounds) return true;
    fprintf(stderr, "client_calls: %s: %zu of %zu are answered so\n", of->name, right, times * rounds);
    return false;
}

/* The same in a process of its own. */
static bool measure_apart(const row *of) {
    int status = 0;
    pid_t child = fork();
    if (child == 0) exit(measure(of) && fflush(stdout) == 0 ? 0 : 1);
    return child > 0 && waitpid(child, &status, 0) == child && status == 0;
}

static const row *row_of(const char *name) {
    for (size_t i = 0; i < sizeof rows / sizeof *rows; i++) {
        if (strcmp(rows[i].name, name) == 0) return &rows[i];
    }
    fprintf(stderr, "client_calls: %s is no call\n", name);
    exit(2);
}

int main(int count, char **words) {
    bool right = true;
    times = count > 3 ? strtoul(words[1], NULL, 10) : 0;
    rounds = count > 3 ? strtoul(words[2], NULL, 10) : 0;
    if (times == 0 || rounds == 0) return fprintf(stderr, "usage: client_calls TIMES ROUNDS CALL..\n"), 2;
    need(stun_types_key_long_term(&key, USER, strlen(USER), REALM, strlen(REALM), PASSWORD, strlen(PASSWORD),
                                  STUN_TYPES_PASSWORD_MD5));
    make_client(&clients[0], STUN_TYPES_ALLOCATION_BIND);
    make_client(&clients[1], STUN_TYPES_ALLOCATION_PERMIT);
    for (int i = 3; i < count; i++) right &= measure_apart(row_of(words[i]));
    return right ? 0 : 1;
}
