/* A TURN server in C: reserved sockets, ICMP packets, and fields of the IP header. */
#include <string.h>

#include "check.h"
#include "heap.h"
#include "tests.h"
#include "turn_site.h"

/* ---- reserved sockets */

#define TOKEN 0xF00DFACE12345678

static void begin_reserving(const char *name, uint32_t reservations) {
    turn_making it;
    site_begin_alone(name);
    it = site_making();
    it.settings.limits.reservations = reservations;
    site_begin_by(&it);
    site.ready->next_ipv4 = site.ready->even_ipv4;
    site.ready->next_ipv4.port++;
}

/* Takes the message, which is signed by alice, with her keys and a token; returns its code. */
static uint32_t ask_with(uint64_t now, uint64_t token) {
    const turn_nonce nonce = turn_nonce_at(&site.nonces, now / SECOND, &site.from->client);
    stun_types_turn_datagram it;
    turn_sign(&site.message, &site.alice, STUN_TYPES_PASSWORD_MD5, &nonce);
    it = site_given(site_datagram());
    it.looked_up = 1;
    it.token = token;
    ANSWERS(stun_types_turn_client(site.server, now, &it, &site.alice.md5, &site.alice.sha256, site.place, SITE_ROOM,
                                   site.action),
            OK_ANSWER);
    CHECK(site.action->kind == STUN_TYPES_TURN_RESPONSE);
    return site.action->code;
}

static uint32_t reserve(uint64_t now, uint64_t id, uint64_t token) {
    site_write_allocate(id);
    turn_add(&site.message, STUN_TYPES_ATTRIBUTE_EVEN_PORT, "\x80", 1);
    return ask_with(now, token);
}

static uint32_t claim(uint64_t now, uint64_t id, const char *token) {
    site_write_allocate(id);
    turn_add(&site.message, STUN_TYPES_ATTRIBUTE_RESERVATION_TOKEN, token, 8);
    return ask_with(now, 0);
}

static const char token_bytes[] = "\xF0\x0D\xFA\xCE\x12\x34\x56\x78";

static void test_reserved(void) {
    slice value = {NULL, 0}, all;
    stun_types_address next;
    uint64_t over[2];
    begin_reserving("a socket that is reserved and claimed", 1);
    next = site.ready->next_ipv4;
    CHECK(reserve(0, 1, TOKEN) == 0 && site.action->reserves == 1 && site.action->reserved == TOKEN);
    CHECK(site.action->claims == 0 && site.action->claimed == 0);
    CHECK(turn_is_same_address(&site.action->ipv4.relayed, &site.ready->even_ipv4));
    all.bytes = site.place;
    all.length = site.action->length;
    CHECK(turn_find(all.bytes, all.length, STUN_TYPES_ATTRIBUTE_RESERVATION_TOKEN, &value));
    CHECK(value.length == 8 && memcmp(value.bytes, token_bytes, 8) == 0);
    CHECK(reserve(0, 1, 7) == 0 && site.action->reserves == 0 && site.action->reserved == 0
          && site.action->ipv4.took == 0); /* (the same request again) */
    site.from->client.port++;
    CHECK(reserve(0, 2, 8) == 508 && site.action->reserves == 0); /* (there is one already) */
    CHECK(claim(0, 3, "\xF0\x0D\xFA\xCE\x12\x34\x56\x79") == 508 && site.action->claims == 0);
    CHECK(claim(0, 4, token_bytes) == 0 && site.action->claims == 1 && site.action->claimed == TOKEN);
    CHECK(site.action->reserves == 0 && site.action->reserved == 0 && site.action->ipv4.took == 1);
    CHECK(turn_is_same_address(&site.action->ipv4.relayed, &next));
    site.from->client.port++;
    CHECK(claim(0, 5, token_bytes) == 508 && site.action->claims == 0);
    CHECK(stun_types_turn_poll(site.server, 31 * SECOND) == 0);
    CHECK(stun_types_turn_over(site.server, over, 2, 0) == 0);
    site_end();
}

static void test_over(void) {
    uint64_t over[3];
    begin_reserving("sockets that are reserved too long", 2);
    CHECK(reserve(0, 1, TOKEN) == 0 && site.action->reserves == 1);
    site.from->client.port++;
    CHECK(reserve(SECOND, 2, 5) == 0 && site.action->reserves == 1 && site.action->reserved == 5);
    CHECK(stun_types_turn_next_due(site.server) == 30 * SECOND);
    CHECK(stun_types_turn_poll(site.server, 30 * SECOND - 1) == 0);
    memset(over, FILL, sizeof over);
    CHECK(stun_types_turn_over(site.server, over, 3, 0) == 0 && is_untouched(over, sizeof over));
    CHECK(stun_types_turn_poll(site.server, 31 * SECOND) == 0);
    CHECK(stun_types_turn_over(site.server, over, 3, 0) == 2 && over[0] + over[1] == TOKEN + 5);
    CHECK(is_untouched(over + 2, 8));
    memset(over, FILL, sizeof over);
    CHECK(stun_types_turn_over(site.server, over, 1, 1) == 1 && (over[0] == 5 || over[0] == TOKEN));
    CHECK(is_untouched(over + 1, 16) && stun_types_turn_over(site.server, over, 1, 2) == 0);
    CHECK(stun_types_turn_over(site.server, over, 1, SIZE_MAX) == 0);
    site.from->client.port++;
    CHECK(claim(31 * SECOND, 3, token_bytes) == 508);
    CHECK(stun_types_turn_over(site.server, over, 3, 0) == 0);
    site_end();
}

/* Without one of both sockets nothing is reserved; the next one is of its family. */
static void test_ready(void) {
    begin_reserving("without a socket to be reserved", 1);
    site.ready->next_ipv4.family = 0;
    CHECK(reserve(0, 1, TOKEN) == 508 && site.action->reserves == 0);
    site_write_allocate(2);
    turn_add(&site.message, STUN_TYPES_ATTRIBUTE_EVEN_PORT, "", 1);
    CHECK(ask_with(0, TOKEN) == 0 && site.action->reserves == 0);
    site_end();
    begin_reserving("without an even socket", 1);
    site.ready->even_ipv4.family = 0;
    CHECK(reserve(0, 1, TOKEN) == 508 && site.action->reserves == 0);
    site_end();
    begin_reserving("without reservations", 0);
    CHECK(reserve(0, 1, TOKEN) == 508 && site.action->reserves == 0);
    site_end();
    begin_reserving("a socket of IPv6 to be reserved", 1);
    site.ready->even_ipv6 = site.ready->next_ipv6 = site_own;
    site.ready->even_ipv6.family = site.ready->next_ipv6.family = 6;
    site.ready->next_ipv6.port++;
    site_write_allocate(1);
    turn_add_first(&site.message, STUN_TYPES_ATTRIBUTE_REQUESTED_ADDRESS_FAMILY, 2);
    turn_add(&site.message, STUN_TYPES_ATTRIBUTE_EVEN_PORT, "\x80", 1);
    CHECK(ask_with(0, TOKEN) == 0 && site.action->reserves == 1 && site.action->ipv6.took == 1);
    site.from->client.port++;
    CHECK(claim(0, 2, token_bytes) == 0 && site.action->claims == 1 && site.action->ipv4.took == 0);
    CHECK(turn_is_same_address(&site.action->ipv6.relayed, &site.ready->next_ipv6));
    site_end();
}

/* ---- ICMP packets */

static void test_icmp(void) {
    static const struct {
        uint8_t kind, code;
        uint32_t given;
        bool sends;
        uint32_t told;
    } rows[] = {{3, 0, 7, true, 0},  {3, 4, 1300, true, 1300}, {3, 3, 1300, true, 0}, {11, 1, 1, true, 0},
                {4, 0, 0, false, 0}, {12, 0, 0, false, 0},     {0, 0, 0, false, 0},   {8, 0, 0, false, 0}};
    static const size_t sizes[] = {0, 44, 55};
    turn_making it;
    const stun_types_id id = turn_id(5);
    stun_types_turn_notice *notice;
    stun_types_icmp error = {0, 3, 3};
    uint8_t *place;
    uint64_t relay;
    size_t i;
    site_begin_alone("ICMP packets");
    it = site_making();
    it.settings.limits.icmp = 1;
    site_begin_by(&it);
    notice = NEW(stun_types_turn_notice);
    place = room(60);
    CHECK(site_allocate(0, 1) == 0);
    relay = site.action->ipv4.relay;
    CHECK(site_permit(0, &site_peer) == 0);
    for (i = 0; i < COUNT(rows); i++) {
        slice value = {NULL, 0};
        stun_types_address peer;
        error.icmp_type = rows[i].kind;
        error.code = rows[i].code;
        error.data = rows[i].given;
        memset(place, FILL, 60);
        ANSWERS(stun_types_turn_icmp(site.server, 0, &site_peer, relay, &error, &id, place, 60, notice), OK_ANSWER);
        CHECK(notice->sends == rows[i].sends && notice->ended == 0);
        if (!rows[i].sends) {
            CHECK(is_zero(notice, sizeof *notice) && is_untouched(place, 60));
            continue;
        }
        CHECK(notice->length == 44 && is_untouched(place + 44, 16) && notice->to.stream == 0);
        CHECK(turn_is_same_address(&notice->to.client, &site.from->client));
        CHECK(turn_is_same_address(&notice->to.server, &site.from->server));
        peer = turn_address(place, 44, STUN_TYPES_ATTRIBUTE_XOR_PEER_ADDRESS);
        CHECK(place[0] == 0 && place[1] == 0x17 && turn_is_same_address(&peer, &site_peer));
        CHECK(turn_find(place, 44, STUN_TYPES_ATTRIBUTE_ICMP, &value) && value.length == 8);
        CHECK(value.bytes[0] == 0 && value.bytes[1] == 0 && value.bytes[2] == rows[i].kind
              && value.bytes[3] == rows[i].code);
        value.bytes += 4;
        value.length = 4;
        CHECK(turn_number(value) == rows[i].told);
    }
    error.icmp_type = 3;
    memset(place, FILL, 60);
    ANSWERS(stun_types_turn_icmp(site.server, 0, &site_other_peer, relay, &error, &id, place, 60, notice), OK_ANSWER);
    CHECK(is_zero(notice, sizeof *notice) && is_untouched(place, 60));
    ANSWERS(stun_types_turn_icmp(site.server, 0, &site_peer, relay ^ 1, &error, &id, place, 60, notice), OK_ANSWER);
    CHECK(is_zero(notice, sizeof *notice) && is_untouched(place, 60));
    for (i = 0; i < COUNT(sizes); i++) {
        uint8_t *small = room(sizes[i]);
        ANSWERS(stun_types_turn_icmp(site.server, 0, &site_peer, relay, &error, &id, small, sizes[i], notice),
                LENGTHS(STUN_TYPES_TOO_SMALL, STUN_TYPES_TURN_NOTICE, sizes[i]));
        CHECK(is_zero(notice, sizeof *notice) && is_untouched(small, sizes[i]));
    }
    {
        stun_types_address nobody = site_peer;
        nobody.family = 5;
        ANSWERS(stun_types_turn_icmp(site.server, 0, &nobody, relay, &error, &id, place, 60, notice),
                PLAIN(STUN_TYPES_BAD_ARGUMENT));
        CHECK(is_zero(notice, sizeof *notice) && is_untouched(place, 60));
    }
    ANSWERS(stun_types_turn_icmp(site.server, 600 * SECOND, &site_peer, relay, &error, &id, place, 60, notice),
            OK_ANSWER);
    CHECK(notice->sends == 0 && notice->ended == 1 && is_untouched(place, 60));
    site_end();
    site_begin("ICMP packets, without the setting");
    notice = NEW(stun_types_turn_notice);
    place = room(60);
    memset(place, FILL, 60);
    CHECK(site_allocate(0, 1) == 0);
    relay = site.action->ipv4.relay;
    CHECK(site_permit(0, &site_peer) == 0);
    ANSWERS(stun_types_turn_icmp(site.server, 0, &site_peer, relay, &error, &id, place, 60, notice), OK_ANSWER);
    CHECK(is_zero(notice, sizeof *notice) && is_untouched(place, 60));
    site_end();
    row("a TURN server", "ICMP packets without a server");
    notice = NEW(stun_types_turn_notice);
    place = room(60);
    {
        stun_types_turn none = STUN_TYPES_TURN_INIT;
        ANSWERS(stun_types_turn_icmp(&none, 0, &site_peer, 0, &error, &id, place, 60, notice),
                PLAIN(STUN_TYPES_BAD_ARGUMENT));
        CHECK(is_zero(notice, sizeof *notice));
        CHECK(stun_types_turn_over(&none, &relay, 1, 0) == 0);
    }
}

/* ---- fields of the IP header */

enum { UNSET = STUN_TYPES_FIELD_UNSET };

static void test_fields(void) {
    static const struct {
        size_t length;
        uint16_t stream, from, to, dont_fragment;
        uint16_t received[4]; /* hop limit, DSCP, ECN and DF */
        uint16_t sends, sent[4];
    } rows[] = {
        {100, 0, 4, 4, 0, {UNSET, UNSET, UNSET, UNSET}, 1, {UNSET, 0, 0, 0}},
        {100, 0, 4, 4, 1, {1, 46, 3, 0}, 1, {UNSET, 46, 3, 1}},
        {100, 0, 4, 4, 0, {0, 63, 1, 1}, 1, {UNSET, 63, 1, 1}},
        {100, 0, 4, 6, 1, {64, 46, 2, 0}, 1, {63, 46, 2, 0}},
        {100, 0, 4, 6, 1, {2, 0, 0, UNSET}, 1, {1, 0, 0, UNSET}},
        {100, 0, 6, 6, 0, {255, 8, 0, 1}, 1, {254, 8, 0, 1}},
        {100, 0, 6, 4, 0, {UNSET, 8, 0, 1}, 1, {UNSET, 8, 0, 0}},
        {1232, 0, 6, 4, 1, {9, 8, 0, 1}, 1, {8, 8, 0, 0}},
        {1233, 0, 6, 4, 1, {9, 8, 0, 1}, 1, {8, 8, 0, 1}},
        {100, 0, 6, 6, 0, {1, 8, 0, 1}, 0, {0, 0, 0, 0}},
        {100, 0, 4, 6, 0, {0, 8, 0, 1}, 0, {0, 0, 0, 0}},
        {100, 1, 4, 4, 1, {1, 46, 3, 1}, 1, {UNSET, 46, 0, 1}},
        {100, 1, 6, 6, 7, {0, UNSET, 3, 1}, 1, {UNSET, 0, 0, 1}},
        {100, 1, 6, 4, 0, {1, 1, 3, 1}, 1, {UNSET, 1, 0, 0}},
    };
    stun_types_turn_relayed given;
    stun_types_turn_sent told, *sent = &told;
    stun_types_turn_relayed *relayed = &given;
    uint16_t *const fields[] = {&given.stream,       &given.from,          &given.to,
                                &given.received.ecn, &given.received.dscp, &given.received.hop_limit,
                                &given.received.dont_fragment};
    static const uint16_t wrong[] = {2, 5, 0, 4, 64, 256, 2};
    size_t i;
    row("fields of the IP header", "of data that is relayed");
    for (i = 0; i < COUNT(rows); i++) {
        const uint16_t *came = rows[i].received, *wanted = rows[i].sent;
        memset(relayed, 0, sizeof *relayed);
        relayed->length = rows[i].length;
        relayed->stream = rows[i].stream;
        relayed->from = rows[i].from;
        relayed->to = rows[i].to;
        relayed->dont_fragment = rows[i].dont_fragment;
        relayed->received.hop_limit = came[0];
        relayed->received.dscp = came[1];
        relayed->received.ecn = came[2];
        relayed->received.dont_fragment = came[3];
        memset(sent, FILL, sizeof *sent);
        ANSWERS(stun_types_turn_fields(relayed, sent), OK_ANSWER);
        CHECK(sent->sends == rows[i].sends && sent->fields.hop_limit == wanted[0] && sent->fields.dscp == wanted[1]);
        CHECK(sent->fields.ecn == wanted[2] && sent->fields.dont_fragment == wanted[3]);
    }
    row("fields of the IP header", "that are none");
    for (i = 0; i < 2 * COUNT(fields); i++) {
        const uint16_t before = *fields[i / 2];
        const bool is_field = i / 2 >= 3;
        *fields[i / 2] = i % 2 == 0 ? wrong[i / 2] : is_field ? UNSET - 1 : UNSET;
        memset(sent, FILL, sizeof *sent);
        ANSWERS(stun_types_turn_fields(relayed, sent), PLAIN(STUN_TYPES_BAD_ARGUMENT));
        CHECK(is_zero(sent, sizeof *sent));
        *fields[i / 2] = before;
    }
    ANSWERS(stun_types_turn_fields(relayed, sent), OK_ANSWER);
}

void test_turn_more(void) {
    test_reserved();
    test_over();
    test_ready();
    test_icmp();
    test_fields();
}
