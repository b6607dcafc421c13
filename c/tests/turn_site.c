#include "turn_site.h"

#include <string.h>

#include "heap.h"

const stun_types_turn site_none = STUN_TYPES_TURN_INIT;
const stun_types_address site_client = {{192, 0, 2, 1}, 32853, 4};
const stun_types_address site_own = {{203, 0, 113, 1}, 3478, 4};
const stun_types_address site_peer = {{198, 51, 100, 7}, 4000, 4};
const stun_types_address site_other_peer = {{198, 51, 100, 8}, 4000, 4};

const stun_types_turn_settings site_settings = {600,
                                                {1, 2},
                                                STUN_TYPES_POLICY_BOTH,
                                                {8, 3, 0, 3600, 1, 1, 0, 0, 0, 0},
                                                STUN_TYPES_FEATURE_PASSWORD_ALGORITHMS
                                                    | STUN_TYPES_FEATURE_USERNAME_ANONYMITY,
                                                NULL,
                                                0,
                                                NULL,
                                                0,
                                                NULL,
                                                0,
                                                NULL,
                                                0,
                                                NULL,
                                                0,
                                                0};

turn_site site;

turn_making site_making(void) {
    turn_making it;
    memset(&it, 0, sizeof it);
    it.settings = site_settings;
    it.realm = text(turn_realm);
    it.software = text("");
    it.secret = &site.nonces.secret;
    it.listening[0] = site_own;
    it.listening_count = 1;
    return it;
}

/* A copy of structs, to be read. */
static const void *list(const void *all, size_t count, size_t size) {
    return given(all, count * size).bytes;
}

static const stun_types_turn_settings *settings_of(const turn_making *it) {
    stun_types_turn_settings settings = it->settings;
    settings.realm = it->realm.bytes;
    settings.realm_length = it->realm.length;
    settings.software = it->software.bytes;
    settings.software_length = it->software.length;
    settings.denied = list(it->denied, it->denied_count, sizeof *it->denied);
    settings.denied_count = it->denied_count;
    settings.allowed = list(it->allowed, it->allowed_count, sizeof *it->allowed);
    settings.allowed_count = it->allowed_count;
    settings.listening = list(it->listening, it->listening_count, sizeof *it->listening);
    settings.listening_count = it->listening_count;
    return list(&settings, 1, sizeof settings);
}

stun_types_answer site_make(stun_types_turn *to, const turn_making *it) {
    return stun_types_turn_new(to, settings_of(it), it->secret);
}

stun_types_answer site_set_rules(stun_types_turn *of, const turn_making *it) {
    return stun_types_turn_set_rules(of, settings_of(it));
}

void site_begin_alone(const char *name) {
    row("a TURN server", name);
    heap_allow(true);
    turn_nonces_make(&site.nonces, site_settings.features, site_settings.window);
    turn_user_make(&site.alice, "alice", "wonderland");
    site.server = NEW(stun_types_turn);
    *site.server = site_none;
    site.from = NEW(stun_types_five_tuple);
    site.from->client = site_client;
    site.from->server = site_own;
    site.from->stream = 0;
    site.ready = NEW(stun_types_turn_ready);
    memset(site.ready, 0, sizeof *site.ready);
    site.ready->any_ipv4 = site_own;
    site.ready->any_ipv4.port = 50001;
    site.ready->even_ipv4 = site_own;
    site.ready->even_ipv4.port = 50002;
    site.action = NEW(stun_types_turn_action);
    site.place = room(SITE_ROOM);
}

void site_begin_by(const turn_making *it) {
    ANSWERS(site_make(site.server, it), OK_ANSWER);
    CHECK(site.server->at != NULL);
}

void site_begin(const char *name) {
    turn_making it;
    site_begin_alone(name);
    it = site_making();
    site_begin_by(&it);
}

void site_end(void) {
    stun_types_turn_free(site.server);
    CHECK(memcmp(site.server, &site_none, sizeof site_none) == 0);
    turn_user_free(&site.alice);
    turn_nonces_free(&site.nonces);
    heap_allow(false);
}

/* ---- datagrams */

slice site_datagram(void) { return given(site.message.bytes, site.message.length); }

stun_types_turn_datagram site_given(slice bytes) {
    stun_types_turn_datagram it;
    memset(&it, 0, sizeof it);
    it.bytes = bytes.bytes;
    it.length = bytes.length;
    it.from = *site.from;
    it.ready = *site.ready;
    return it;
}

stun_types_answer site_take_in(stun_types_turn *to, uint64_t now, slice bytes, size_t size) {
    turn_call call;
    call.server = to;
    call.from = site.from;
    call.ready = site.ready;
    call.room = guarded_end(site.place, SITE_ROOM, size);
    call.size = size;
    call.action = site.action;
    return turn_take(&call, now, bytes, &site.alice);
}

void site_take(uint64_t now, slice bytes) {
    ANSWERS(site_take_in(site.server, now, bytes, SITE_ROOM), OK_ANSWER);
}

uint32_t site_ask_by(uint64_t now, stun_types_password algorithm) {
    const turn_nonce nonce = turn_nonce_at(&site.nonces, now / SECOND, &site.from->client);
    turn_sign(&site.message, &site.alice, algorithm, &nonce);
    site_take(now, site_datagram());
    return site.action->kind == STUN_TYPES_TURN_RESPONSE ? site.action->code : UINT32_MAX;
}

uint32_t site_ask(uint64_t now) { return site_ask_by(now, STUN_TYPES_PASSWORD_MD5); }

void site_write_allocate(uint64_t id) {
    turn_begin(&site.message, STUN_TYPES_CLASS_REQUEST, STUN_TYPES_METHOD_ALLOCATE, id);
    turn_add_first(&site.message, STUN_TYPES_ATTRIBUTE_REQUESTED_TRANSPORT, 17);
}

uint32_t site_allocate(uint64_t now, uint64_t id) {
    site_write_allocate(id);
    return site_ask(now);
}

uint32_t site_refresh(uint64_t now, uint32_t seconds) {
    turn_begin(&site.message, STUN_TYPES_CLASS_REQUEST, STUN_TYPES_METHOD_REFRESH, 100);
    turn_add_u32(&site.message, STUN_TYPES_ATTRIBUTE_LIFETIME, seconds);
    return site_ask(now);
}

uint32_t site_permit(uint64_t now, const stun_types_address *address) {
    turn_begin(&site.message, STUN_TYPES_CLASS_REQUEST, STUN_TYPES_METHOD_CREATE_PERMISSION, 101);
    turn_add_peer(&site.message, address);
    return site_ask(now);
}

uint32_t site_bind(uint64_t now, uint16_t number, const stun_types_address *address) {
    turn_begin(&site.message, STUN_TYPES_CLASS_REQUEST, STUN_TYPES_METHOD_CHANNEL_BIND, 102);
    turn_add_channel(&site.message, number);
    turn_add_peer(&site.message, address);
    return site_ask(now);
}

bool site_sends_to(uint64_t now, const stun_types_address *address) {
    turn_begin(&site.message, STUN_TYPES_CLASS_INDICATION, STUN_TYPES_METHOD_SEND, 103);
    turn_add_peer(&site.message, address);
    turn_add(&site.message, STUN_TYPES_ATTRIBUTE_DATA, "abc", 3);
    site_take(now, site_datagram());
    if (site.action->kind != STUN_TYPES_TURN_TO_PEER) {
        CHECK(site.action->kind == STUN_TYPES_TURN_NOTHING);
        return false;
    }
    CHECK(turn_is_same_address(&site.action->peer, address) && site.action->length == 3);
    CHECK(memcmp(site.message.bytes + site.action->at, "abc", 3) == 0);
    return true;
}

slice site_response(void) {
    slice bytes;
    bytes.bytes = guarded_end(site.place, SITE_ROOM, SITE_ROOM);
    bytes.length = site.action->length;
    return bytes;
}

uint32_t site_lifetime(void) {
    slice value = {NULL, 0}, all = site_response();
    CHECK(turn_find(all.bytes, all.length, STUN_TYPES_ATTRIBUTE_LIFETIME, &value));
    return turn_number(value);
}

stun_types_address site_relayed(void) {
    slice all = site_response();
    return turn_address(all.bytes, all.length, STUN_TYPES_ATTRIBUTE_XOR_RELAYED_ADDRESS);
}

size_t site_end_user(uint64_t now, const char *name) {
    stun_types_hash *user = NEW(stun_types_hash);
    const slice one = text(name), realm = text(turn_realm);
    ANSWERS(stun_types_userhash(one.bytes, one.length, realm.bytes, realm.length, user), OK_ANSWER);
    return stun_types_turn_end_user(site.server, now, user);
}

stun_types_turn_delivery *site_deliver(uint64_t now, uint64_t relay,
                                       const stun_types_address *address, size_t length) {
    stun_types_turn_delivery *delivery = NEW(stun_types_turn_delivery);
    const stun_types_id id = turn_id(5);
    ANSWERS(turn_from_peer(site.server, now, relay, address, length, &id,
                           room(STUN_TYPES_TURN_HEAD), STUN_TYPES_TURN_HEAD, delivery),
            OK_ANSWER);
    return delivery;
}
