/* A TURN server in C: what the rows of vectors/ can't say of datagrams, ends, rooms and memory. */
#include <string.h>

#include "check.h"
#include "heap.h"
#include "keychain.h"
#include "tests.h"
#include "turn_site.h"

/* ---- arguments of a datagram */

static void other_client(void) { site.from->client.family = 5; }
static void no_client(void) { site.from->client.family = 0; }
static void other_server(void) { site.from->server.family = 5; }
static void other_stream(void) { site.from->stream = 2; }
static void other_any_ipv4(void) { site.ready->any_ipv4.family = 5; }
static void other_even_ipv4(void) { site.ready->even_ipv4.family = 0xFFFF; }
static void other_any_ipv6(void) { site.ready->any_ipv6.family = 1; }
static void other_even_ipv6(void) { site.ready->even_ipv6.family = 2; }
static void ipv6_for_ipv4(void) { site.ready->any_ipv4.family = 6; }
static void even_ipv6_for_ipv4(void) { site.ready->even_ipv4.family = 6; }
static void ipv4_for_ipv6(void) { site.ready->any_ipv6.family = 4; }
static void even_ipv4_for_ipv6(void) { site.ready->even_ipv6.family = 4; }
static void next_ipv6_for_ipv4(void) { site.ready->next_ipv4.family = 6; }
static void next_ipv4_for_ipv6(void) { site.ready->next_ipv6.family = 4; }

static const struct {
    const char *name;
    void (*change)(void);
} arguments[] = {
    {"a client of another family", other_client},
    {"a client of no family", no_client},
    {"a server of another family", other_server},
    {"another transport", other_stream},
    {"a socket of another family", other_any_ipv4},
    {"a socket of the greatest family", other_even_ipv4},
    {"a socket of family 1", other_any_ipv6},
    {"a socket of family 2", other_even_ipv6},
    {"an IPv6 address for IPv4", ipv6_for_ipv4},
    {"an even IPv6 address for IPv4", even_ipv6_for_ipv4},
    {"an IPv4 address for IPv6", ipv4_for_ipv6},
    {"an even IPv4 address for IPv6", even_ipv4_for_ipv6},
    {"an IPv6 address to be reserved for IPv4", next_ipv6_for_ipv4},
    {"an IPv4 address to be reserved for IPv6", next_ipv4_for_ipv6},
};

static void test_arguments(void) {
    size_t i;
    for (i = 0; i < COUNT(arguments); i++) {
        stun_types_five_tuple before;
        stun_types_turn_ready sockets;
        turn_nonce nonce;
        site_begin(arguments[i].name);
        before = *site.from;
        sockets = *site.ready;
        nonce = turn_nonce_at(&site.nonces, 0, &site_client);
        site_write_allocate(1);
        turn_sign(&site.message, &site.alice, STUN_TYPES_PASSWORD_MD5, &nonce);
        arguments[i].change();
        ANSWERS(site_take_in(site.server, 0, site_datagram(), SITE_ROOM),
                PLAIN(STUN_TYPES_BAD_ARGUMENT));
        CHECK(is_zero(site.action, sizeof *site.action));
        *site.from = before;
        *site.ready = sockets;
        site_take(0, site_datagram());
        CHECK(site.action->kind == STUN_TYPES_TURN_RESPONSE && site.action->ipv4.took == 1);
        site_end();
    }
}

static void test_peer_arguments(void) {
    static const uint16_t families[] = {0, 1, 2, 5, 7, 0xFFFF};
    size_t i;
    for (i = 0; i < COUNT(families); i++) {
        stun_types_turn_delivery *delivery;
        const stun_types_id id = turn_id(5);
        stun_types_address address = site_peer;
        uint8_t *head;
        site_begin("a peer of another family");
        CHECK(site_allocate(0, 1) == 0);
        address.family = families[i];
        head = room(STUN_TYPES_TURN_HEAD);
        delivery = NEW(stun_types_turn_delivery);
        ANSWERS(turn_from_peer(site.server, 0, site.action->ipv4.relay, &address, 3, &id, head,
                               STUN_TYPES_TURN_HEAD, delivery),
                PLAIN(STUN_TYPES_BAD_ARGUMENT));
        CHECK(is_untouched(head, STUN_TYPES_TURN_HEAD) && is_zero(delivery, sizeof *delivery));
        ANSWERS(turn_from_peer(site.server, 0, site.action->ipv4.relay, &address, 3, &id, room(0), 0,
                               delivery),
                PLAIN(STUN_TYPES_BAD_ARGUMENT));
        site_end();
    }
}

/* ---- what comes with a datagram */

/* A spare word that isn't 0 is refused, and nothing is done. Any other number than 0 says that the keys
   were looked up: here there are none. */
static void test_words(void) {
    static const uint32_t words[] = {1, (uint32_t)1 << 31};
    stun_types_turn_datagram datagram;
    turn_nonce nonce;
    size_t i;
    site_begin("a spare word of a datagram, and looked_up");
    nonce = turn_nonce_at(&site.nonces, 0, &site_client);
    site_write_allocate(1);
    turn_sign(&site.message, &site.alice, STUN_TYPES_PASSWORD_SHA256, &nonce);
    datagram = site_given(site_datagram());
    for (i = 0; i < COUNT(words); i++) {
        datagram.reserved = words[i];
        memset(site.place, FILL, SITE_ROOM);
        ANSWERS(stun_types_turn_client(site.server, 0, &datagram, no_key(), no_key(), site.place,
                                       SITE_ROOM, site.action),
                PLAIN(STUN_TYPES_BAD_ARGUMENT));
        CHECK(is_zero(site.action, sizeof *site.action) && is_untouched(site.place, SITE_ROOM));
    }
    datagram.reserved = 0;
    for (i = 1; i < 0x10000; i *= 2) {
        datagram.looked_up = (uint16_t)i;
        ANSWERS(stun_types_turn_client(site.server, 0, &datagram, no_key(), no_key(), site.place,
                                       SITE_ROOM, site.action),
                OK_ANSWER);
        CHECK(site.action->kind == STUN_TYPES_TURN_RESPONSE && site.action->code == 401);
    }
    site_end();
}

/* ---- keys that are needed */

static void test_needs_key(void) {
    turn_call call;
    slice bytes;
    turn_nonce nonce;
    stun_types_turn_datagram datagram;
    int i;
    site_begin("a key is needed, and nothing changes");
    nonce = turn_nonce_at(&site.nonces, 0, &site_client);
    site_write_allocate(1);
    turn_sign(&site.message, &site.alice, STUN_TYPES_PASSWORD_SHA256, &nonce);
    bytes = site_datagram();
    datagram = site_given(bytes);
    for (i = 0; i < 2; i++) {
        memset(site.place, FILL, SITE_ROOM);
        /* (keys that weren't looked up don't count) */
        const stun_types_key *md5 = i == 0 ? no_key() : &site.alice.md5;
        const stun_types_key *sha256 = i == 0 ? no_key() : &site.alice.sha256;
        ANSWERS(stun_types_turn_client(site.server, 700 * SECOND, &datagram, md5, sha256, site.place,
                                       SITE_ROOM, site.action),
                OK_ANSWER);
        CHECK(site.action->kind == STUN_TYPES_TURN_NEEDS_KEY
              && is_untouched(site.place, SITE_ROOM));
        CHECK(site.action->ipv4.took == 0 && site.action->ipv6.took == 0 && site.action->ended == 0
              && site.action->code == 0 && site.action->length == 0 && site.action->relay == 0);
    }
    site_take(0, bytes);
    CHECK(site.action->kind == STUN_TYPES_TURN_RESPONSE && site.action->code == 0
          && site.action->ipv4.took == 1);
    CHECK(site_refresh(600 * SECOND, 600) == 437);
    call.server = site.server;
    call.from = site.from;
    call.ready = site.ready;
    call.room = site.place;
    call.size = SITE_ROOM;
    call.action = site.action;
    ANSWERS(turn_take(&call, 0, bytes, NULL), OK_ANSWER);
    CHECK(site.action->kind == STUN_TYPES_TURN_RESPONSE && site.action->code == 401
          && site.action->ipv4.took == 0);
    site_end();
}

/* A key by one password algorithm alone is that of no user by the other. */
static void test_one_key(void) {
    turn_user both;
    site_begin("a key by one password algorithm");
    both = site.alice;
    site.alice.sha256 = stun_types_key_none();
    site_write_allocate(1);
    CHECK(site_ask_by(0, STUN_TYPES_PASSWORD_MD5) == 0 && site.action->ipv4.took == 1);
    site.alice.sha256 = both.sha256;
    site.alice.md5 = stun_types_key_none();
    turn_begin(&site.message, STUN_TYPES_CLASS_REQUEST, STUN_TYPES_METHOD_REFRESH, 100);
    CHECK(site_ask_by(0, STUN_TYPES_PASSWORD_SHA256) == 0);
    site.alice = both;
    site_end();
}

/* A key that was made for the integrity attribute that the response doesn't have: the request takes
   effect, and there is no response. */
static void test_other_key(void) {
    turn_user both;
    turn_nonce nonce;
    uint8_t bytes[16];
    size_t length;
    stun_types_integrity algorithm;
    slice asked;
    site_begin("a key for the other integrity attribute");
    both = site.alice;
    nonce = turn_nonce_at(&site.nonces, 0, &site_client);
    site_write_allocate(1);
    turn_add(&site.message, STUN_TYPES_ATTRIBUTE_USERNAME, "alice", 5);
    turn_add(&site.message, STUN_TYPES_ATTRIBUTE_REALM, turn_realm, strlen(turn_realm));
    turn_add(&site.message, STUN_TYPES_ATTRIBUTE_NONCE, nonce.bytes, sizeof nonce.bytes);
    ANSWERS(stun_types_add_integrity(site.message.bytes, sizeof site.message.bytes,
                                     &site.message.length, &site.alice.md5,
                                     STUN_TYPES_INTEGRITY_SHA256),
            OK_ANSWER);
    asked = site_datagram();
    ANSWERS(stun_types_key_bytes(&site.alice.md5, bytes, sizeof bytes, &length, &algorithm),
            OK_ANSWER);
    site.alice.md5 = stun_types_key_none();
    ANSWERS(stun_types_key_from_bytes(&site.alice.md5, bytes, length, STUN_TYPES_INTEGRITY_SHA256),
            OK_ANSWER);
    ANSWERS(site_take_in(site.server, 0, asked, SITE_ROOM), PLAIN(STUN_TYPES_INVALID_DATA));
    CHECK(site.action->kind == STUN_TYPES_TURN_NOTHING && site.action->length == 0
          && site.action->code == 0);
    CHECK(site.action->ipv4.took == 1
          && turn_is_same_address(&site.action->ipv4.relayed, &site.ready->any_ipv4));
    stun_types_key_free(&site.alice.md5);
    site.alice = both;
    site_take(0, asked);
    CHECK(site.action->kind == STUN_TYPES_TURN_RESPONSE && site.action->code == 0
          && site.action->ipv4.took == 0);
    site_end();
}

/* ---- responses, and the sockets that allocations take */

static void test_again(void) {
    uint8_t first[SITE_ROOM];
    size_t length;
    uint64_t relay;
    slice bytes;
    site_begin("the same request twice");
    CHECK(site_allocate(0, 1) == 0 && site.action->ipv4.took == 1);
    CHECK(turn_is_same_address(&site.action->ipv4.relayed, &site.ready->any_ipv4));
    relay = site.action->ipv4.relay;
    length = site.action->length;
    memcpy(first, site_response().bytes, length);
    bytes = site_datagram();
    site.ready->any_ipv4.port++;
    site_take(0, bytes);
    CHECK(site.action->ipv4.took == 0 && site.action->code == 0 && site.action->length == length);
    CHECK(memcmp(site_response().bytes, first, length) == 0);
    site.from->client.port++;
    CHECK(site_allocate(0, 1) == 0 && site.action->ipv4.took == 1 && site.action->ipv4.relay != relay);
    CHECK(turn_is_same_address(&site.action->ipv4.relayed, &site.ready->any_ipv4));
    site_end();
}

static void test_even(void) {
    stun_types_address address;
    site_begin("a socket with an even port");
    site_write_allocate(1);
    turn_add(&site.message, STUN_TYPES_ATTRIBUTE_EVEN_PORT, "", 1);
    CHECK(site_ask(0) == 0 && site.action->ipv4.took == 1);
    address = site_relayed();
    CHECK(turn_is_same_address(&site.action->ipv4.relayed, &site.ready->even_ipv4));
    CHECK(turn_is_same_address(&address, &site.ready->even_ipv4));
    site.from->client.port++;
    site.ready->even_ipv4.family = 0;
    site_write_allocate(1);
    turn_add(&site.message, STUN_TYPES_ATTRIBUTE_EVEN_PORT, "", 1);
    CHECK(site_ask(0) == 508 && site.action->ipv4.took == 0);
    CHECK(site_allocate(0, 2) == 0 && site.action->ipv4.took == 1);
    site_end();
}

/* A family that the server doesn't relay isn't offered, even if a socket is ready; any number but 0 says
   that it does. */
static void test_families(void) {
    static const uint16_t relays[] = {0, 1, 2, 0x8000};
    size_t i;
    for (i = 0; i < COUNT(relays); i++) {
        turn_making it;
        site_begin_alone("a server without IPv4, and with it");
        it = site_making();
        it.settings.limits.ipv4 = relays[i];
        site_begin_by(&it);
        CHECK(site_allocate(0, 1) == (relays[i] == 0 ? 440u : 0u));
        CHECK(site.action->ipv4.took == (relays[i] != 0) && site.action->ipv6.took == 0);
        site_end();
    }
}

/* Asks for a relayed address of each family. */
static uint32_t allocate_both(uint64_t now) {
    site_write_allocate(1);
    turn_add_first(&site.message, STUN_TYPES_ATTRIBUTE_ADDITIONAL_ADDRESS_FAMILY, 2);
    return site_ask(now);
}

static const stun_types_address own_ipv6 = {
    {0x20, 1, 0x0D, 0xB8, 0, 0, 0, 0, 0, 0, 0, 0, 0, 0, 0, 1}, 50003, 6};

/* A response may have taken two sockets; each is a relayed address with a number and an end of its own. */
static void test_both_families(void) {
    stun_types_turn_opened ipv4, ipv6;
    uint64_t ended[2];
    slice bytes;
    site_begin("a relayed address of each family");
    site.ready->any_ipv6 = own_ipv6;
    CHECK(allocate_both(0) == 0);
    ipv4 = site.action->ipv4;
    ipv6 = site.action->ipv6;
    CHECK(ipv4.took == 1 && ipv6.took == 1 && ipv4.relay != ipv6.relay);
    CHECK(turn_is_same_address(&ipv4.relayed, &site.ready->any_ipv4));
    CHECK(turn_is_same_address(&ipv6.relayed, &site.ready->any_ipv6));
    CHECK(stun_types_turn_count(site.server) == 2);
    bytes = site_datagram();
    site_take(0, bytes);
    CHECK(site.action->code == 0 && site.action->ipv4.took == 0 && site.action->ipv6.took == 0);
    CHECK(stun_types_turn_end(site.server, 0, ipv6.relay) == 1);
    CHECK(stun_types_turn_ended(site.server, ended, 2, 0) == 1 && ended[0] == ipv6.relay);
    CHECK(stun_types_turn_count(site.server) == 1 && site_permit(0, &site_peer) == 0);
    CHECK(site_refresh(0, 0) == 0 && site.action->ended == 1);
    CHECK(stun_types_turn_ended(site.server, ended, 2, 0) == 1 && ended[0] == ipv4.relay);
    site_end();
    site_begin("one of them has no socket");
    CHECK(allocate_both(0) == 0);
    CHECK(site.action->ipv4.took == 1 && is_zero(&site.action->ipv6, sizeof site.action->ipv6));
    site_end();
}

/* Responses that are signed have the SOFTWARE that the server was given; a 420 and what isn't signed
   have none. */
static void test_software(void) {
    turn_making it;
    slice value = {NULL, 0}, all;
    site_begin_alone("SOFTWARE");
    it = site_making();
    it.software = text("a server");
    site_begin_by(&it);
    CHECK(site_allocate(0, 1) == 0);
    all = site_response();
    CHECK(turn_find(all.bytes, all.length, STUN_TYPES_ATTRIBUTE_SOFTWARE, &value));
    CHECK_BYTES(value.bytes, value.length, it.software);
    site_write_allocate(2);
    site_take(0, site_datagram());
    all = site_response();
    CHECK(site.action->kind == STUN_TYPES_TURN_RESPONSE && site.action->code == 401
          && site.action->ipv4.took == 0);
    CHECK(!turn_find(all.bytes, all.length, STUN_TYPES_ATTRIBUTE_SOFTWARE, &value));
    turn_begin(&site.message, STUN_TYPES_CLASS_REQUEST, STUN_TYPES_METHOD_REFRESH, 3);
    turn_add(&site.message, 0x7FFF, "", 0);
    CHECK(site_ask(0) == 420);
    all = site_response();
    CHECK(!turn_find(all.bytes, all.length, STUN_TYPES_ATTRIBUTE_SOFTWARE, &value));
    CHECK(turn_find(all.bytes, all.length, STUN_TYPES_ATTRIBUTE_UNKNOWN_ATTRIBUTES, &value));
    CHECK_BYTES(value.bytes, value.length, hex("7FFF"));
    site_end();
}

/* A nonce that promises no algorithms is sent with none. */
static void test_features(void) {
    uint32_t features;
    for (features = 0; features < 4; features++) {
        turn_making it;
        slice all, value = {NULL, 0};
        uint32_t told = 9;
        site_begin_alone("features");
        it = site_making();
        it.settings.features = site.nonces.features = features;
        site_begin_by(&it);
        site_write_allocate(1);
        site_take(7 * SECOND, site_datagram());
        all = site_response();
        CHECK(site.action->code == 401);
        CHECK(turn_find(all.bytes, all.length, STUN_TYPES_ATTRIBUTE_NONCE, &value));
        CHECK(stun_types_security_features(value.bytes, value.length, &told) && told == features);
        CHECK(turn_find(all.bytes, all.length, STUN_TYPES_ATTRIBUTE_PASSWORD_ALGORITHMS, &value)
              == (features % 2 == 1));
        CHECK(site_allocate(7 * SECOND, 1) == 0);
        site_end();
    }
}

/* A nonce is valid for a window, by the seconds of the clock. */
static void test_window(void) {
    static const uint64_t windows[] = {600, 20, 0};
    size_t i;
    for (i = 0; i < COUNT(windows); i++) {
        turn_making it;
        turn_nonce nonce;
        const uint64_t end = 1001 + windows[i];
        site_begin_alone("the window of a nonce");
        it = site_making();
        it.settings.window = windows[i];
        site_begin_by(&it);
        nonce = turn_nonce_at(&site.nonces, 1000, &site_client);
        site_write_allocate(1);
        turn_sign(&site.message, &site.alice, STUN_TYPES_PASSWORD_MD5, &nonce);
        site_take(end * SECOND, site_datagram());
        CHECK(site.action->code == 438 && site.action->ipv4.took == 0);
        site_take(end * SECOND - 1, site_datagram());
        CHECK(site.action->code == 0 && site.action->ipv4.took == 1);
        site_end();
    }
}

/* ---- rooms that are too small */

/* A request takes effect if there is no room for its response, and is answered when it is sent
   again. */
static void test_small_room(void) {
    stun_types_answer small;
    slice bytes;
    size_t size;
    uint64_t relay;
    site_begin("a room that is too small");
    CHECK(site_allocate(0, 1) == 0);
    size = site.action->length;
    relay = site.action->ipv4.relay;
    site.from->client.port++;
    site.ready->any_ipv4.port++;
    site_write_allocate(1);
    {
        const turn_nonce nonce = turn_nonce_at(&site.nonces, 0, &site.from->client);
        turn_sign(&site.message, &site.alice, STUN_TYPES_PASSWORD_MD5, &nonce);
    }
    bytes = site_datagram();
    small = site_take_in(site.server, 0, bytes, size - 1);
    ANSWERS(small, LENGTHS(STUN_TYPES_TOO_SMALL, size, size - 1));
    CHECK(site.action->ipv4.took == 1 && site.action->ipv4.relay != relay);
    CHECK(turn_is_same_address(&site.action->ipv4.relayed, &site.ready->any_ipv4));
    relay = site.action->ipv4.relay;
    site_take(0, bytes);
    CHECK(site.action->kind == STUN_TYPES_TURN_RESPONSE && site.action->code == 0
          && site.action->ipv4.took == 0);
    CHECK(site.action->length == size && site_permit(0, &site_peer) == 0
          && site_sends_to(0, &site_peer));
    CHECK(site.action->relay == relay);
    site_end();
}

/* Each size that is too small, for each kind of response. */
static void test_sizes(void) {
    static const char *const names[] = {"sizes, a success", "sizes, a 401", "sizes, a 437",
                                        "sizes, a reply to a Binding request", "sizes, a 420"};
    size_t i, size, whole;
    for (i = 0; i < COUNT(names); i++) {
        slice bytes;
        const turn_nonce *signs;
        turn_nonce nonce;
        site_begin(names[i]);
        nonce = turn_nonce_at(&site.nonces, 0, &site_client);
        signs = i == 1 || i == 3 ? NULL : &nonce;
        turn_begin(&site.message, STUN_TYPES_CLASS_REQUEST,
                   i == 3  ? STUN_TYPES_METHOD_BINDING
                   : i < 2 ? STUN_TYPES_METHOD_ALLOCATE
                           : STUN_TYPES_METHOD_REFRESH,
                   1);
        if (i < 2) turn_add_first(&site.message, STUN_TYPES_ATTRIBUTE_REQUESTED_TRANSPORT, 17);
        if (i == 4) turn_add(&site.message, 0x7FFF, "", 0);
        if (signs != NULL) turn_sign(&site.message, &site.alice, STUN_TYPES_PASSWORD_SHA256, signs);
        bytes = site_datagram();
        site_take(0, bytes);
        CHECK(site.action->kind == STUN_TYPES_TURN_RESPONSE);
        whole = site.action->length;
        for (size = 0; size <= whole; size++) {
            stun_types_answer answer = site_take_in(site.server, 0, bytes, size);
            if (size == whole) ANSWERS(answer, OK_ANSWER);
            else
                CHECK(answer.code == STUN_TYPES_TOO_SMALL && answer.actual == size
                      && answer.expected > size && answer.expected <= whole);
        }
        site_end();
    }
}

/* A room of 1,000 bytes is enough for the longest texts: a 401 with that realm, and the response to an
   Allocate request with that software and all that it may have. */
static void test_longest(void) {
    size_t i;
    for (i = 0; i < 2; i++) {
        turn_making it;
        turn_call call;
        turn_nonce nonce;
        slice value = {NULL, 0};
        site_begin_alone(i == 0 ? "the longest realm" : "the longest software");
        it = site_making();
        if (i == 0) it.realm = hex("61*763");
        else it.software = hex("61*763");
        site_begin_by(&it);
        site.from->client.family = 6;
        nonce = turn_nonce_at(&site.nonces, 0, &site.from->client);
        site_write_allocate(1);
        turn_add_first(&site.message, STUN_TYPES_ATTRIBUTE_ADDITIONAL_ADDRESS_FAMILY, 2);
        if (i == 1) turn_sign(&site.message, &site.alice, STUN_TYPES_PASSWORD_SHA256, &nonce);
        ANSWERS(stun_types_add_fingerprint(site.message.bytes, sizeof site.message.bytes,
                                           &site.message.length),
                OK_ANSWER);
        call.server = site.server;
        call.from = site.from;
        call.ready = site.ready;
        call.room = room(1000);
        call.size = 1000;
        call.action = site.action;
        ANSWERS(turn_take(&call, 0, site_datagram(), &site.alice), OK_ANSWER);
        CHECK(site.action->kind == STUN_TYPES_TURN_RESPONSE
              && site.action->code == (i == 0 ? 401u : 0u));
        CHECK(turn_find(call.room, site.action->length,
                        i == 0 ? STUN_TYPES_ATTRIBUTE_REALM : STUN_TYPES_ATTRIBUTE_SOFTWARE, &value)
              && value.length == 763);
        site_end();
    }
}

/* ---- data of peers */

static void test_heads(void) {
    static const size_t sizes[] = {0, 4, 36, 47};
    stun_types_turn_delivery *delivery;
    const stun_types_id id = turn_id(5);
    uint64_t relay;
    size_t i;
    site_begin("a head that is too small");
    CHECK(site_allocate(0, 1) == 0);
    relay = site.action->ipv4.relay;
    CHECK(site_permit(0, &site_peer) == 0);
    for (i = 0; i < COUNT(sizes); i++) {
        uint8_t *head = room(sizes[i]);
        delivery = NEW(stun_types_turn_delivery);
        ANSWERS(turn_from_peer(site.server, 0, relay, &site_peer, 3, &id, head, sizes[i], delivery),
                LENGTHS(STUN_TYPES_TOO_SMALL, STUN_TYPES_TURN_HEAD, sizes[i]));
        CHECK(is_untouched(head, sizes[i]) && is_zero(delivery, sizeof *delivery));
    }
    {
        uint8_t *head = room(60);
        ANSWERS(turn_from_peer(site.server, 0, relay, &site_peer, 3, &id, head, 60,
                               NEW(stun_types_turn_delivery)),
                OK_ANSWER);
        CHECK(is_untouched(head, 24) && head[24] == 0 && head[25] == 0x17 && head[59] == 3);
    }
    delivery = site_deliver(0, relay, &site_peer, 3);
    CHECK(delivery->sends == 1 && delivery->head_length == 36 && delivery->padding == 1);
    CHECK(turn_is_same_address(&delivery->to.client, &site.from->client));
    CHECK(turn_is_same_address(&delivery->to.server, &site.from->server)
          && delivery->to.stream == 0);
    delivery = site_deliver(0, relay, &site_other_peer, 3);
    CHECK(is_zero(delivery, sizeof *delivery));
    delivery = site_deliver(0, relay ^ 1, &site_peer, 3);
    CHECK(is_zero(delivery, sizeof *delivery));
    delivery = site_deliver(0, relay, &site_peer, SIZE_MAX);
    CHECK(is_zero(delivery, sizeof *delivery));
    site_end();
}

/* ChannelData over UDP needs no padding, and a Data indication has it. */
static void test_padding(void) {
    unsigned stream;
    size_t length;
    for (stream = 0; stream < 2; stream++) {
        uint64_t relay;
        stun_types_address port = site_peer;
        site_begin(stream ? "padding on a stream" : "padding over UDP");
        site.from->stream = (uint16_t)stream;
        CHECK(site_allocate(0, 1) == 0);
        relay = site.action->ipv4.relay;
        CHECK(site_bind(0, 0x4000, &site_peer) == 0);
        port.port++;
        for (length = 0; length < 9; length++) {
            const uint16_t zeros = (uint16_t)((4 - length % 4) % 4);
            stun_types_turn_delivery *delivery = site_deliver(0, relay, &site_peer, length);
            CHECK(delivery->sends == 1 && delivery->head_length == 4);
            CHECK(delivery->padding == (stream ? zeros : 0) && delivery->to.stream == stream);
            delivery = site_deliver(0, relay, &port, length);
            CHECK(delivery->sends == 1 && delivery->head_length == 36);
            CHECK(delivery->padding == zeros);
        }
        site_end();
    }
}

/* ---- ends */

/* How many of these numbers are among the ended ones, which are read by so many at a time. */
static size_t count_ended(const uint64_t *relays, size_t count, size_t portion) {
    bool is_ended[8] = {false};
    size_t first = 0, wrote, j, k, all = 0;
    do {
        uint64_t *ended = (uint64_t *)(void *)room(portion * sizeof *ended);
        wrote = stun_types_turn_ended(site.server, ended, portion, first);
        CHECK(wrote <= portion);
        for (j = 0; j < wrote && j < portion; j++)
            for (k = 0; k < count; k++)
                if (relays[k] == ended[j]) {
                    CHECK(!is_ended[k]);
                    is_ended[k] = true;
                }
        CHECK(is_untouched(ended + wrote, (portion - wrote) * sizeof *ended));
        first += wrote;
    } while (wrote > 0);
    for (k = 0; k < count; k++) all += is_ended[k];
    CHECK(all == first);
    return all;
}

/* Makes a server, and gets this many relayed addresses for as many clients. */
static void begin_relays(const char *name, uint64_t *relays, size_t count) {
    turn_making it;
    size_t i, j;
    site_begin_alone(name);
    it = site_making();
    it.settings.limits.relays_per_user = (uint32_t)count;
    site_begin_by(&it);
    for (i = 0; i < count; i++) {
        site.from->client.port = (uint16_t)(6000 + i);
        site.ready->any_ipv4.port = (uint16_t)(50000 + i);
        CHECK(site_allocate(0, 1) == 0);
        relays[i] = site.action->ipv4.relay;
        CHECK((relays[i] & 0xFFFFFF) < it.settings.limits.relays);
        for (j = 0; j < i; j++) CHECK((relays[j] & 0xFFFFFF) != (relays[i] & 0xFFFFFF));
    }
}

/* What has expired is ended by a poll, by a client's datagram whatever it is, or by a peer's. */
static void test_ends(void) {
    static const char *const names[] = {"ended by a poll", "by a datagram that is dropped", "by a request",
                                        "by a peer's datagram", "by another end", "by another user's end"};
    uint64_t relays[5], one;
    size_t i, portion;
    for (i = 0; i < COUNT(names); i++)
        for (portion = 1; portion <= 6; portion += 2) {
            size_t ended = 0;
            begin_relays(names[i], relays, 5);
            CHECK(stun_types_turn_poll(site.server, 600 * SECOND - 1) == 0);
            CHECK(stun_types_turn_ended(site.server, &one, 1, 0) == 0);
            CHECK(stun_types_turn_count(site.server) == 5);
            CHECK(stun_types_turn_next_due(site.server) == 600 * SECOND);
            switch (i) {
            case 0: ended = stun_types_turn_poll(site.server, 600 * SECOND); break;
            case 1:
                site_take(600 * SECOND, text("?"));
                CHECK(site.action->kind == STUN_TYPES_TURN_NOTHING);
                ended = site.action->ended;
                break;
            case 2:
                CHECK(site_refresh(600 * SECOND, 600) == 437);
                ended = site.action->ended;
                break;
            case 3: {
                const stun_types_turn_delivery *told =
                    site_deliver(600 * SECOND, relays[0], &site_peer, 3);
                CHECK(told->sends == 0);
                ended = told->ended;
                break;
            }
            case 4: ended = stun_types_turn_end(site.server, 600 * SECOND, relays[0]); break;
            default: ended = site_end_user(600 * SECOND, "bob");
            }
            CHECK(ended == 5 && count_ended(relays, 5, portion) == 5);
            CHECK(stun_types_turn_ended(site.server, &one, 1, 5) == 0);
            CHECK(stun_types_turn_ended(site.server, &one, 1, SIZE_MAX) == 0);
            CHECK(stun_types_turn_ended(site.server, NULL, 0, 0) == 0);
            CHECK(stun_types_turn_count(site.server) == 0);
            CHECK(stun_types_turn_next_due(site.server) == UINT64_MAX);
            CHECK(stun_types_turn_poll(site.server, 600 * SECOND) == 0);
            CHECK(stun_types_turn_ended(site.server, &one, 1, 0) == 0);
            site_end();
        }
}

/* The caller ends one relayed address, or all of a user: the others stay. */
static void test_ending(void) {
    turn_user alice;
    uint64_t relays[4], other, one = 0;
    begin_relays("ended by the caller", relays, 4);
    alice = site.alice;
    turn_user_make(&site.alice, "bob", "builder");
    site.from->client.port = 7000;
    CHECK(site_allocate(0, 1) == 0);
    other = site.action->ipv4.relay;
    turn_user_free(&site.alice);
    site.alice = alice;
    CHECK(stun_types_turn_end(site.server, 0, other ^ 1) == 0);
    CHECK(stun_types_turn_end(site.server, 0, relays[2]) == 1);
    CHECK(stun_types_turn_ended(site.server, &one, 1, 0) == 1 && one == relays[2]);
    CHECK(stun_types_turn_end(site.server, 0, relays[2]) == 0);
    CHECK(site_end_user(0, "carol") == 0);
    CHECK(site_end_user(0, "") == 0);
    CHECK(site_end_user(0, "alice") == 3);
    CHECK(count_ended(relays, 4, 2) == 3 && stun_types_turn_count(site.server) == 1);
    CHECK(site_end_user(0, "bob") == 1);
    CHECK(stun_types_turn_ended(site.server, &one, 1, 0) == 1 && one == other);
    site_end();
}

/* A call that does nothing reports nothing, and leaves what the last one ended. */
static void test_ended_stays(void) {
    uint64_t relays[2], one = 0;
    stun_types_turn_datagram datagram;
    begin_relays("a call that does nothing", relays, 2);
    CHECK(stun_types_turn_end(site.server, 0, relays[1]) == 1);
    datagram = site_given(text("?"));
    datagram.reserved = 1;
    ANSWERS(stun_types_turn_client(site.server, 600 * SECOND, &datagram, no_key(), no_key(), site.place,
                                   SITE_ROOM, site.action),
            PLAIN(STUN_TYPES_BAD_ARGUMENT));
    CHECK(is_zero(site.action, sizeof *site.action));
    CHECK(stun_types_turn_ended(site.server, &one, 1, 0) == 1 && one == relays[1]);
    CHECK(stun_types_turn_count(site.server) == 1);
    site_end();
}

/* ---- two servers, and the ends of the clock */

static void test_two(void) {
    stun_types_turn *other;
    turn_making it;
    site_begin("two servers side by side");
    other = NEW(stun_types_turn);
    *other = site_none;
    it = site_making();
    it.settings.seed[0] = 99;
    ANSWERS(site_make(other, &it), OK_ANSWER);
    CHECK(site_allocate(0, 1) == 0 && site_permit(0, &site_peer) == 0
          && site_sends_to(0, &site_peer));
    ANSWERS(site_take_in(other, 0, site_datagram(), SITE_ROOM), OK_ANSWER);
    CHECK(site.action->kind == STUN_TYPES_TURN_NOTHING);
    stun_types_turn_free(site.server);
    *site.server = *other;
    CHECK(site_refresh(0, 600) == 437 && site_allocate(0, 1) == 0 && site.action->ipv4.took == 1);
    site_end();
}

static void test_clock(void) {
    uint64_t relay;
    site_begin("the last moments of the clock");
    CHECK(site_allocate(UINT64_MAX - 1, 1) == 0 && site_lifetime() == 600);
    relay = site.action->ipv4.relay;
    CHECK(site_permit(UINT64_MAX - 1, &site_peer) == 0 && site_sends_to(UINT64_MAX, &site_peer));
    CHECK(site_refresh(UINT64_MAX, 600) == 0 && site_lifetime() == 600);
    CHECK(stun_types_turn_poll(site.server, UINT64_MAX) == 0 && relay != UINT64_MAX);
    CHECK(stun_types_turn_next_due(site.server) == UINT64_MAX && stun_types_turn_count(site.server) == 1);
    site_end();
}

/* ---- refused memory */

/* Making a server, with each allocation refused: nothing is made, nothing stays, and the next call
   makes one. */
static void test_refused_making(void) {
    long number, refused = 1;
    for (number = 1; refused != 0; number++) {
        turn_making it;
        long held;
        stun_types_answer answer;
        site_begin_alone("refused memory, making one");
        it = site_making();
        it.software = text("a server");
        it.denied[0].address = it.allowed[0].address = site_peer;
        it.denied[0].length = it.allowed[0].length = 32;
        it.denied_count = it.allowed_count = 1;
        held = heap_held();
        heap_refuse(number);
        answer = site_make(site.server, &it);
        refused = heap_refused();
        heap_refuse(0);
        if (refused == 0) ANSWERS(answer, OK_ANSWER);
        else {
            ANSWERS(answer, PLAIN(STUN_TYPES_OUT_OF_MEMORY));
            CHECK(memcmp(site.server, &site_none, sizeof site_none) == 0 && heap_held() == held);
            site_begin_by(&it);
        }
        CHECK(site_allocate(0, 1) == 0);
        site_end();
    }
}

/* Making one anew: the server that was there stays, with its allocation. */
static void test_refused_again(void) {
    long number, refused = 1;
    for (number = 1; refused != 0; number++) {
        turn_making it;
        stun_types_answer answer;
        site_begin("refused memory, making one anew");
        it = site_making();
        CHECK(site_allocate(0, 1) == 0);
        heap_refuse(number);
        answer = site_make(site.server, &it);
        refused = heap_refused();
        heap_refuse(0);
        if (refused == 0) ANSWERS(answer, OK_ANSWER);
        else ANSWERS(answer, PLAIN(STUN_TYPES_OUT_OF_MEMORY));
        CHECK(site_refresh(0, 600) == (refused == 0 ? 437u : 0u));
        site_end();
    }
}

/* Replacing the rules: those that were there stay, and nothing is kept of the new ones. */
static void test_refused_rules(void) {
    long number, refused = 1;
    for (number = 1; refused != 0; number++) {
        turn_making it;
        long held;
        stun_types_answer answer;
        site_begin("refused memory, replacing the rules");
        it = site_making();
        CHECK(site_allocate(0, 1) == 0);
        it.denied[0].address = it.allowed[0].address = site_peer;
        it.denied[0].length = it.allowed[0].length = 32;
        it.denied_count = it.allowed_count = 1;
        held = heap_held();
        heap_refuse(number);
        answer = site_set_rules(site.server, &it);
        refused = heap_refused();
        heap_refuse(0);
        if (refused == 0) ANSWERS(answer, OK_ANSWER);
        else {
            ANSWERS(answer, PLAIN(STUN_TYPES_OUT_OF_MEMORY));
            CHECK(heap_held() == held);
        }
        CHECK(site_permit(0, &site_peer) == (refused == 0 ? 403u : 0u));
        site_end();
    }
}

/* Requests, each allocation of which is refused in turn: unsigned, refused, answered, and an
   indication. The same request, sent again, is answered as it would have been. */
static const struct {
    const char *name;
    stun_types_method method;
    bool is_signed, is_known;
    uint32_t code;
} requests[] = {
    {"refused memory, a Binding request", STUN_TYPES_METHOD_BINDING, false, true, 0},
    {"refused memory, an unknown type", STUN_TYPES_METHOD_REFRESH, true, false, 420},
    {"refused memory, an unsigned request", STUN_TYPES_METHOD_ALLOCATE, false, true, 401},
    {"refused memory, an allocation", STUN_TYPES_METHOD_ALLOCATE, true, true, 0},
    {"refused memory, a refresh of nothing", STUN_TYPES_METHOD_REFRESH, true, true, 437},
};

static void test_refused_requests(void) {
    size_t i;
    long number, refused;
    for (i = 0; i < COUNT(requests); i++)
        for (number = 1, refused = 1; refused != 0; number++) {
            stun_types_answer answer;
            slice bytes;
            turn_nonce nonce;
            uint32_t took;
            site_begin(requests[i].name);
            nonce = turn_nonce_at(&site.nonces, 0, &site_client);
            turn_begin(&site.message, STUN_TYPES_CLASS_REQUEST, requests[i].method, 1);
            if (requests[i].method == STUN_TYPES_METHOD_ALLOCATE)
                turn_add_first(&site.message, STUN_TYPES_ATTRIBUTE_REQUESTED_TRANSPORT, 17);
            if (!requests[i].is_known) turn_add(&site.message, 0x7FFE, "", 0);
            if (requests[i].is_signed)
                turn_sign(&site.message, &site.alice, STUN_TYPES_PASSWORD_SHA256, &nonce);
            bytes = site_datagram();
            heap_refuse(number);
            answer = site_take_in(site.server, 0, bytes, SITE_ROOM);
            refused = heap_refused();
            heap_refuse(0);
            took = site.action->ipv4.took;
            if (refused != 0) {
                ANSWERS(answer, PLAIN(STUN_TYPES_OUT_OF_MEMORY));
                site_take(0, bytes);
                took += site.action->ipv4.took;
            } else ANSWERS(answer, OK_ANSWER);
            CHECK(site.action->kind == STUN_TYPES_TURN_RESPONSE
                  && site.action->code == requests[i].code);
            CHECK(took
                  == (requests[i].method == STUN_TYPES_METHOD_ALLOCATE && requests[i].is_signed));
            site_end();
        }
}

/* Data, and what peers send, takes no memory. */
static void test_no_memory(void) {
    uint64_t relay;
    site_begin("data takes no memory");
    CHECK(site_allocate(0, 1) == 0);
    relay = site.action->ipv4.relay;
    CHECK(site_bind(0, 0x4000, &site_peer) == 0);
    heap_allow(false);
    CHECK(site_sends_to(0, &site_peer));
    turn_channel_data(&site.message, 0x4000, text("abc"));
    site_take(0, site_datagram());
    CHECK(site.action->kind == STUN_TYPES_TURN_TO_PEER && site.action->at == 4
          && site.action->length == 3);
    CHECK(site_deliver(0, relay, &site_peer, 3)->sends == 1);
    CHECK(stun_types_turn_poll(site.server, 0) == 0 && stun_types_turn_count(site.server) == 1);
    CHECK(stun_types_turn_end(site.server, 0, relay) == 1);
    CHECK(stun_types_turn_ended(site.server, &relay, 1, 0) == 1);
    CHECK(site_end_user(0, "alice") == 0);
    heap_allow(true);
    site_end();
}

void test_turn_answers(void) {
    test_arguments();
    test_peer_arguments();
    test_words();
    test_needs_key();
    test_one_key();
    test_other_key();
    test_again();
    test_even();
    test_families();
    test_both_families();
    test_software();
    test_features();
    test_window();
    test_small_room();
    test_sizes();
    test_longest();
    test_heads();
    test_padding();
    test_ends();
    test_ending();
    test_ended_stays();
    test_two();
    test_clock();
    test_refused_making();
    test_refused_again();
    test_refused_rules();
    test_refused_requests();
    test_no_memory();
}
