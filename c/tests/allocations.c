/* A TURN client in C: making one and ending it, and what its calls refuse. What it does then is asked by the
 * rows of vectors/turn-client. */
#include <string.h>

#include "check.h"
#include "heap.h"
#include "tests.h"

static const stun_types_address server = {{203, 0, 113, 1}, 3478, 4}, peer = {{192, 0, 2, 17}, 49152, 4};
static const stun_types_id id;

/* Settings with a user and a password. */
static stun_types_allocation_settings *good_settings(void) {
    stun_types_allocation_settings *it = NEW(stun_types_allocation_settings);
    const slice user = text("George"), password = text("secret");
    memset(it, 0, sizeof *it);
    it->server = server;
    it->transport = STUN_TYPES_UDP;
    it->user = user.bytes;
    it->user_length = user.length;
    it->password = password.bytes;
    it->password_length = password.length;
    return it;
}

static stun_types_allocation *no_client(void) {
    static const stun_types_allocation none = STUN_TYPES_ALLOCATION_INIT;
    return (void *)copy(&none, sizeof none);
}

/* A client of these settings. */
static stun_types_allocation *client_of(const stun_types_allocation_settings *settings) {
    stun_types_allocation *client = no_client();
    heap_allow(true);
    ANSWERS(stun_types_allocation_new(client, settings), OK_ANSWER);
    return client;
}

/* ---- a struct that holds no client */

static void check_no_client(const char *name, uint8_t byte) {
    stun_types_allocation *client = NEW(stun_types_allocation);
    stun_types_allocation_data *data = NEW(stun_types_allocation_data);
    stun_types_allocation_head *around = NEW(stun_types_allocation_head);
    stun_types_allocation_change *change = NEW(stun_types_allocation_change);
    size_t *length = NEW(size_t);
    uint64_t *wake = NEW(uint64_t);
    uint8_t *head = room(STUN_TYPES_ALLOCATION_HEAD), *out = room(64);
    const slice datagram = text("a datagram");
    row("a TURN client", name);
    memset(client, byte, sizeof *client);
    ANSWERS(stun_types_allocation_want(client, 0, STUN_TYPES_ALLOCATION_ALLOCATE, &peer),
            PLAIN(STUN_TYPES_BAD_ARGUMENT));
    ANSWERS(stun_types_allocation_datagram(client, 0, &server, datagram.bytes, datagram.length, data),
            PLAIN(STUN_TYPES_BAD_ARGUMENT));
    CHECK(is_zero(data, sizeof *data));
    ANSWERS(stun_types_allocation_poll(client, 0, &id, out, 64, length, wake), PLAIN(STUN_TYPES_BAD_ARGUMENT));
    CHECK(is_untouched(out, 64) && is_untouched(length, sizeof *length) && is_untouched(wake, sizeof *wake));
    ANSWERS(stun_types_allocation_send(client, 0, 1, &peer, &id, head, STUN_TYPES_ALLOCATION_HEAD, around),
            PLAIN(STUN_TYPES_BAD_ARGUMENT));
    CHECK(is_untouched(head, STUN_TYPES_ALLOCATION_HEAD) && is_zero(around, sizeof *around));
    ANSWERS(stun_types_allocation_send_whole(client, 0, 1, &peer, &id, head, STUN_TYPES_ALLOCATION_HEAD, around),
            PLAIN(STUN_TYPES_BAD_ARGUMENT));
    CHECK(is_untouched(head, STUN_TYPES_ALLOCATION_HEAD) && is_zero(around, sizeof *around));
    CHECK(!stun_types_allocation_changes(client, change) && is_zero(change, sizeof *change));
    stun_types_allocation_free(client);
    stun_types_allocation_free(NULL);
}

/* ---- what it is made by */

static void check_settings(const char *name, const stun_types_allocation_settings *settings,
                           stun_types_answer expected) {
    stun_types_allocation *client = no_client();
    row("what a TURN client is made by", name);
    heap_allow(true);
    ANSWERS(stun_types_allocation_new(client, settings), expected);
    CHECK((client->held != 0) == (expected.code == STUN_TYPES_OK));
    stun_types_allocation_free(client);
    CHECK(is_zero(client, sizeof *client));
}

#define WITH(name, field, value, expected) \
    do { \
        stun_types_allocation_settings *it = good_settings(); \
        it->field = value; \
        check_settings(name, it, expected); \
    } while (0)
#define WRONG PLAIN(STUN_TYPES_BAD_ARGUMENT)

static void check_text(const char *name, const void **text_of, size_t *length_of, slice value,
                       stun_types_allocation_settings *it, stun_types_answer expected) {
    *text_of = value.bytes;
    *length_of = value.length;
    check_settings(name, it, expected);
}

static void test_settings(void) {
    stun_types_allocation_settings *it;
    WITH("nothing but what is needed", port, 0, OK_ANSWER);
    WITH("an even port", port, STUN_TYPES_ALLOCATION_PORT_EVEN, OK_ANSWER);
    WITH("a pair of ports", port, STUN_TYPES_ALLOCATION_PORT_PAIR, OK_ANSWER);
    WITH("a token of zeros", port, STUN_TYPES_ALLOCATION_PORT_RESERVED, OK_ANSWER);
    WITH("no such port", port, 4, WRONG);
    WITH("a token with any port", token, 1, WRONG);
    WITH("the DF bit", dont_fragment, 1, OK_ANSWER);
    WITH("the server's family", server.family, 0, WRONG);
    WITH("no transport", transport, (stun_types_transport)0, WRONG);
    WITH("another transport", transport, (stun_types_transport)3, WRONG);
    WITH("TCP", transport, STUN_TYPES_TCP, OK_ANSWER);
    WITH("IPv4", family, 4, OK_ANSWER);
    WITH("IPv6", family, 6, OK_ANSWER);
    WITH("another family", family, 5, WRONG);
    WITH("4,096 peers", peers, 4096, OK_ANSWER);
    WITH("4,097 peers", peers, 4097, WRONG);
    WITH("16 peers in one request", named, 16, OK_ANSWER);
    WITH("17 peers in one request", named, 17, WRONG);
    WITH("255 sendings", sends, 255, OK_ANSWER);
    WITH("256 sendings", sends, 256, WRONG);
    WITH("255 retries", retries, 255, OK_ANSWER);
    WITH("256 retries", retries, 256, WRONG);
    WITH("MD5", algorithm, STUN_TYPES_PASSWORD_MD5, OK_ANSWER);
    WITH("another algorithm", algorithm, 3, WRONG);
    WITH("the longest waits", rto, UINT32_MAX, OK_ANSWER);
    WITH("no byte of password", password_length, 0, WRONG);
    WITH("no byte of user", user_length, 0, OK_ANSWER);
    it = good_settings();
    it->port = STUN_TYPES_ALLOCATION_PORT_RESERVED;
    it->token = UINT64_MAX;
    check_settings("a token", it, OK_ANSWER);
    it->port = STUN_TYPES_ALLOCATION_PORT_PAIR;
    check_settings("a token and a pair of ports", it, WRONG);
    it = good_settings();
    check_text("508 bytes of user", &it->user, &it->user_length, hex("41*508"), it, OK_ANSWER);
    it = good_settings();
    check_text("509 bytes of user", &it->user, &it->user_length, hex("41*509"), it,
               LENGTHS(STUN_TYPES_TOO_LARGE, 508, 509));
    it = good_settings();
    check_text("a user that isn't UTF-8", &it->user, &it->user_length, hex("FF"), it,
               PLAIN(STUN_TYPES_INVALID_DATA));
    it = good_settings();
    check_text("a password that isn't UTF-8", &it->password, &it->password_length, hex("FF"), it,
               PLAIN(STUN_TYPES_INVALID_DATA));
    it = good_settings();
    check_text("software", &it->software, &it->software_length, text("a client"), it, OK_ANSWER);
    it = good_settings();
    check_text("software that isn't UTF-8", &it->software, &it->software_length, hex("FF"), it,
               PLAIN(STUN_TYPES_INVALID_DATA));
    it = good_settings();
    check_text("764 bytes of software", &it->software, &it->software_length, hex("41*764"), it,
               LENGTHS(STUN_TYPES_TOO_LARGE, 763, 764));
}

/* ---- refused calls */

static void test_wishes(void) {
    stun_types_allocation *client;
    stun_types_allocation_settings *settings = good_settings();
    stun_types_address other = peer;
    row("a TURN client", "wishes that are refused");
    settings = good_settings();
    settings->peers = 1;
    client = client_of(settings);
    ANSWERS(stun_types_allocation_want(client, 0, (stun_types_allocation_wish)0, &peer), WRONG);
    ANSWERS(stun_types_allocation_want(client, 0, (stun_types_allocation_wish)6, &peer), WRONG);
    other.family = 0;
    ANSWERS(stun_types_allocation_want(client, 0, STUN_TYPES_ALLOCATION_PERMIT, &other), WRONG);
    ANSWERS(stun_types_allocation_want(client, 0, STUN_TYPES_ALLOCATION_BIND, &other), WRONG);
    ANSWERS(stun_types_allocation_want(client, 0, STUN_TYPES_ALLOCATION_DROP, &other), WRONG);
    ANSWERS(stun_types_allocation_want(client, 0, STUN_TYPES_ALLOCATION_DROP, &peer), OK_ANSWER);
    ANSWERS(stun_types_allocation_want(client, 0, STUN_TYPES_ALLOCATION_ALLOCATE, &other), OK_ANSWER);
    other.family = 6;
    ANSWERS(stun_types_allocation_want(client, 0, STUN_TYPES_ALLOCATION_PERMIT, &other),
            PLAIN(STUN_TYPES_OTHER_FAMILY));
    ANSWERS(stun_types_allocation_want(client, 0, STUN_TYPES_ALLOCATION_PERMIT, &peer), OK_ANSWER);
    other = peer;
    other.port++;
    ANSWERS(stun_types_allocation_want(client, 0, STUN_TYPES_ALLOCATION_PERMIT, &other), OK_ANSWER);
    ANSWERS(stun_types_allocation_want(client, 0, STUN_TYPES_ALLOCATION_BIND, &other),
            PLAIN(STUN_TYPES_FULL));
    stun_types_allocation_free(client);
}

/* The requests of a client have the number that it was made with, and its software. */
static void test_polls(void) {
    stun_types_allocation_settings *settings;
    stun_types_allocation *client;
    const slice software = text("me");
    uint8_t *out = room(44), *small = room(43);
    size_t *length = NEW(size_t);
    uint64_t *wake = NEW(uint64_t);
    row("a TURN client", "a poll with too little room counts as one that is lost");
    settings = good_settings();
    settings->software = software.bytes;
    settings->software_length = software.length;
    settings->rto = 100;
    settings->sends = 2;
    settings->fingerprint = 1;
    client = client_of(settings);
    ANSWERS(stun_types_allocation_poll(client, 5, &id, out, 44, length, wake), OK_ANSWER);
    CHECK(*length == 0 && *wake == UINT64_MAX);
    ANSWERS(stun_types_allocation_want(client, 5, STUN_TYPES_ALLOCATION_ALLOCATE, &peer), OK_ANSWER);
    ANSWERS(stun_types_allocation_poll(client, 5, &id, small, 43, length, wake),
            LENGTHS(STUN_TYPES_TOO_SMALL, 44, 43));
    CHECK(*length == 0 && *wake == 100000005 && is_untouched(small, 43));
    ANSWERS(stun_types_allocation_poll(client, 100000005, &id, out, 44, length, wake), OK_ANSWER);
    CHECK(*length == 44 && *wake == 1700000005);
    ANSWERS(stun_types_allocation_poll(client, 1700000005, &id, out, 44, length, wake), OK_ANSWER);
    CHECK(*length == 0);
    stun_types_allocation_free(client);
}

/* ---- the longest request */

/* The server of the longest request, and what it sends. */
typedef struct {
    slice user, password, realm, nonce;
    uint8_t *bytes;
    size_t length;
} long_server;

enum { SENT_MOST = 2000, LONGEST = 3284, PEERS_MOST = 16 };

static void add_to(long_server *it, uint16_t type, slice value) {
    ANSWERS(stun_types_add(it->bytes, SENT_MOST, &it->length, type, value.bytes, value.length), OK_ANSWER);
}

/* Begins the reply of a class to a request. */
static void reply_to(long_server *it, slice request, stun_types_class class) {
    it->bytes = room(SENT_MOST);
    ANSWERS(stun_types_begin_reply(it->bytes, SENT_MOST, request.bytes, request.length, class, &it->length),
            OK_ANSWER);
}

/* A 401 with the longest realm and nonce, whose nonce promises the list of password algorithms. */
static void challenge_from(long_server *it, slice request) {
    reply_to(it, request, STUN_TYPES_CLASS_ERROR);
    ANSWERS(stun_types_add_error(it->bytes, SENT_MOST, &it->length, 401, "", 0), OK_ANSWER);
    add_to(it, STUN_TYPES_ATTRIBUTE_REALM, it->realm);
    add_to(it, STUN_TYPES_ATTRIBUTE_NONCE, it->nonce);
    add_to(it, STUN_TYPES_ATTRIBUTE_PASSWORD_ALGORITHMS, hex("0002 0000 0001 0000"));
}

/* The allocation, signed with the user's key. */
static void grant_from(long_server *it, slice request) {
    const stun_types_address relayed = {{0x20, 1, 0x0D, 0xB8}, 50000, 6};
    stun_types_key key = STUN_TYPES_KEY_INIT;
    reply_to(it, request, STUN_TYPES_CLASS_SUCCESS);
    ANSWERS(stun_types_add_xor_address(it->bytes, SENT_MOST, &it->length,
                                       STUN_TYPES_ATTRIBUTE_XOR_RELAYED_ADDRESS, &relayed), OK_ANSWER);
    ANSWERS(stun_types_add_xor_address(it->bytes, SENT_MOST, &it->length, STUN_TYPES_ATTRIBUTE_XOR_MAPPED_ADDRESS,
                                       &server), OK_ANSWER);
    ANSWERS(stun_types_add_u32(it->bytes, SENT_MOST, &it->length, STUN_TYPES_ATTRIBUTE_LIFETIME, 600), OK_ANSWER);
    ANSWERS(stun_types_key_long_term(&key, it->user.bytes, it->user.length, it->realm.bytes, it->realm.length,
                                     it->password.bytes, it->password.length, STUN_TYPES_PASSWORD_SHA256),
            OK_ANSWER);
    ANSWERS(stun_types_add_integrity(it->bytes, SENT_MOST, &it->length, &key, STUN_TYPES_INTEGRITY_SHA256),
            OK_ANSWER);
    stun_types_key_free(&key);
}

/* The client's next request, which has a room of 3,400 bytes. */
static slice long_request(stun_types_allocation *client, uint8_t number) {
    stun_types_id its_id = {{0}};
    uint8_t *out = room(3400);
    size_t *length = NEW(size_t);
    uint64_t *wake = NEW(uint64_t);
    its_id.bytes[11] = number;
    ANSWERS(stun_types_allocation_poll(client, 0, &its_id, out, 3400, length, wake), OK_ANSWER);
    CHECK(*length > 0 && is_untouched(out + *length, 3400 - *length));
    return given(out, *length);
}

static void send_to(stun_types_allocation *client, const long_server *it) {
    stun_types_allocation_data *data = NEW(stun_types_allocation_data);
    ANSWERS(stun_types_allocation_datagram(client, 0, &server, it->bytes, it->length, data), OK_ANSWER);
    CHECK(data->shown == 0);
}

/* How many peers a message names, by the last octets of their addresses: the transaction ID is zeros. */
static size_t peers_of(slice message) {
    stun_types_cursor cursor = stun_types_cursor_first();
    stun_types_attribute found;
    uint32_t seen = 0;
    size_t count = 0;
    while (stun_types_next(message.bytes, message.length, &cursor, &found)) {
        if (found.type == STUN_TYPES_ATTRIBUTE_XOR_PEER_ADDRESS) seen |= 1u << message.bytes[found.value_at + 19];
    }
    for (; seen != 0; seen >>= 1) count += seen & 1;
    return count;
}

/* A client of IPv6 peers whose next request is the longest: the user, the realm, the nonce and the software
 * are as long as they may be, and the request names 16 peers. */
static stun_types_allocation *long_client(void) {
    stun_types_allocation_settings *settings = good_settings();
    long_server it = {hex("75*508"), text("secret"), hex("72*763"), joined(text("obMatJos2gAAA"), hex("6E*750")),
                      NULL, 0};
    const slice software = hex("73*763");
    stun_types_allocation *client;
    stun_types_address other = {{0x20, 1, 0x0D, 0xB8}, 4000, 6};
    size_t at;
    settings->user = it.user.bytes;
    settings->user_length = it.user.length;
    settings->password = it.password.bytes;
    settings->password_length = it.password.length;
    settings->software = software.bytes;
    settings->software_length = software.length;
    settings->fingerprint = 1;
    settings->family = 6;
    settings->named = PEERS_MOST;
    client = client_of(settings);
    ANSWERS(stun_types_allocation_want(client, 0, STUN_TYPES_ALLOCATION_ALLOCATE, &other), OK_ANSWER);
    challenge_from(&it, long_request(client, 1));
    send_to(client, &it);
    grant_from(&it, long_request(client, 2));
    send_to(client, &it);
    for (at = 0; at <= PEERS_MOST; at++) {
        other.octets[15] = (uint8_t)at;
        ANSWERS(stun_types_allocation_want(client, 0, STUN_TYPES_ALLOCATION_PERMIT, &other), OK_ANSWER);
    }
    return client;
}

/* Its longest request, which a poll has so many bytes for. */
static void check_longest(const char *name, size_t size, stun_types_answer expected) {
    stun_types_allocation *client;
    uint8_t *out;
    size_t *length, written;
    uint64_t *wake;
    row("a TURN client", name);
    out = room(size);
    length = NEW(size_t);
    wake = NEW(uint64_t);
    client = long_client();
    ANSWERS(stun_types_allocation_poll(client, 0, &id, out, size, length, wake), expected);
    written = *length;
    CHECK(is_untouched(out + written, size - written));
    if (expected.code == STUN_TYPES_OK) CHECK(written == LONGEST && peers_of(given(out, written)) == PEERS_MOST);
    else CHECK(written == 0);
    stun_types_allocation_free(client);
}

/* ---- attempts */

static bool follows(stun_types_allocation_attempt *attempt, uint32_t why, uint16_t code,
                    const stun_types_address *to) {
    static stun_types_allocation_change ended;
    ended.kind = STUN_TYPES_ALLOCATION_OVER;
    ended.why = (stun_types_allocation_end)why;
    ended.code = code;
    ended.server = *to;
    return stun_types_allocation_attempt_next(attempt, &ended);
}

static void check_attempts(void) {
    stun_types_allocation_attempt *it = NEW(stun_types_allocation_attempt), before;
    stun_types_address next = server;
    unsigned at;
    row("attempts", "three at each of four servers");
    memset(it, 0, sizeof *it);
    it->server = server;
    for (at = 0; at < 3; at++) {
        CHECK(follows(it, STUN_TYPES_ALLOCATION_REJECTED, 437, &server) && it->tries == 1);
        CHECK(follows(it, STUN_TYPES_ALLOCATION_REJECTED, 437, &server) && it->tries == 2);
        before = *it;
        CHECK(!follows(it, STUN_TYPES_ALLOCATION_REJECTED, 437, &server));
        CHECK(!follows(it, STUN_TYPES_ALLOCATION_REJECTED, 403, &server));
        CHECK(!follows(it, STUN_TYPES_ALLOCATION_MOVED, 300, &server));
        CHECK(memcmp(it, &before, sizeof before) == 0);
        next.port++;
        CHECK(follows(it, STUN_TYPES_ALLOCATION_MOVED, 300, &next) && it->tries == 0 && it->servers == at + 1);
        CHECK(it->server.port == next.port && it->before[0].port == next.port - 1);
        CHECK(it->before[at].port == server.port && it->before[at].family == 4);
    }
    next.port++;
    CHECK(!follows(it, STUN_TYPES_ALLOCATION_MOVED, 300, &next));
    row("attempts", "that are none");
    memset(it, 0, sizeof *it);
    CHECK(!follows(it, STUN_TYPES_ALLOCATION_REJECTED, 437, &server));
    it->server = server;
    it->servers = 4;
    CHECK(!follows(it, STUN_TYPES_ALLOCATION_REJECTED, 437, &server));
    it->servers = 1;
    CHECK(!follows(it, STUN_TYPES_ALLOCATION_REJECTED, 437, &server));
    it->servers = 0;
    it->tries = 3;
    CHECK(!follows(it, STUN_TYPES_ALLOCATION_REJECTED, 437, &server));
}

void test_allocations(void) {
    check_no_client("none, of zeros", 0);
    check_no_client("none, of a repeated byte", FILL);
    check_no_client("none, of ones", 0xFF);
    row("a TURN client", "STUN_TYPES_ALLOCATION_INIT");
    CHECK(stun_types_allocation_none().at == NULL && stun_types_allocation_none().held == 0);
    test_settings();
    test_wishes();
    test_polls();
    check_longest("the longest request", LONGEST, OK_ANSWER);
    check_longest("a byte too few for the longest request", LONGEST - 1,
                  LENGTHS(STUN_TYPES_TOO_SMALL, LONGEST, LONGEST - 1));
    check_attempts();
}
