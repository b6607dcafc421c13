#include "turn_client.h"

#include <stdlib.h>
#include <string.h>

#include "heap.h"

const char turn_realm[] = "example.org";

/* ---- keys and nonces */

static void make_key(stun_types_key *key, const char *name, const char *password,
                     stun_types_password algorithm) {
    static const stun_types_key none = STUN_TYPES_KEY_INIT;
    *key = none;
    ANSWERS(stun_types_key_long_term(key, name, strlen(name), turn_realm, strlen(turn_realm),
                                     password, strlen(password), algorithm),
            OK_ANSWER);
}

void turn_user_make(turn_user *user, const char *name, const char *password) {
    heap_own(true);
    user->name = name;
    make_key(&user->md5, name, password, STUN_TYPES_PASSWORD_MD5);
    make_key(&user->sha256, name, password, STUN_TYPES_PASSWORD_SHA256);
    heap_own(false);
}

void turn_user_free(turn_user *user) {
    stun_types_key_free(&user->md5);
    stun_types_key_free(&user->sha256);
}

slice turn_nonces_make(turn_nonces *nonces, uint32_t features, uint64_t window) {
    static const stun_types_key none = STUN_TYPES_KEY_INIT;
    static const uint8_t bytes[] = "a secret that the server draws..";
    slice secret;
    secret.bytes = bytes;
    secret.length = 32;
    nonces->secret = none;
    nonces->features = features;
    nonces->window = window;
    heap_own(true);
    ANSWERS(stun_types_key_from_bytes(&nonces->secret, bytes, 32, STUN_TYPES_INTEGRITY_ANY),
            OK_ANSWER);
    heap_own(false);
    return secret;
}

void turn_nonces_free(turn_nonces *nonces) { stun_types_key_free(&nonces->secret); }

turn_nonce turn_nonce_at(const turn_nonces *nonces, uint64_t seconds,
                         const stun_types_address *client) {
    turn_nonce nonce;
    size_t written = 0;
    memset(&nonce, 0, sizeof nonce);
    heap_own(true);
    ANSWERS(stun_types_make_nonce(&nonces->secret, nonces->features, nonces->window, seconds,
                                  client, nonce.bytes, sizeof nonce.bytes, &written),
            OK_ANSWER);
    heap_own(false);
    return nonce;
}

/* ---- writing */

stun_types_id turn_id(uint64_t number) {
    stun_types_id id;
    unsigned i;
    memset(&id, 0, sizeof id);
    for (i = 0; i < 8; i++) id.bytes[11 - i] = (uint8_t)(number >> 8 * i);
    return id;
}

void turn_begin(turn_message *message, stun_types_class message_class, stun_types_method method,
                uint64_t id) {
    stun_types_id bytes = turn_id(id);
    message->length = 0;
    ANSWERS(stun_types_begin(message->bytes, sizeof message->bytes,
                             stun_types_message_type(message_class, method), &bytes,
                             &message->length),
            OK_ANSWER);
}

void turn_add(turn_message *message, uint16_t type, const void *value, size_t length) {
    ANSWERS(stun_types_add(message->bytes, sizeof message->bytes, &message->length, type, value,
                           length),
            OK_ANSWER);
}

void turn_add_u32(turn_message *message, uint16_t type, uint32_t number) {
    ANSWERS(
        stun_types_add_u32(message->bytes, sizeof message->bytes, &message->length, type, number),
        OK_ANSWER);
}

void turn_add_peer(turn_message *message, const stun_types_address *peer) {
    ANSWERS(stun_types_add_xor_address(message->bytes, sizeof message->bytes, &message->length,
                                       STUN_TYPES_ATTRIBUTE_XOR_PEER_ADDRESS, peer),
            OK_ANSWER);
}

void turn_add_first(turn_message *message, uint16_t type, uint8_t number) {
    uint8_t value[4] = {0};
    value[0] = number;
    turn_add(message, type, value, sizeof value);
}

void turn_add_channel(turn_message *message, uint16_t number) {
    uint8_t value[4] = {0};
    value[0] = (uint8_t)(number >> 8);
    value[1] = (uint8_t)number;
    turn_add(message, STUN_TYPES_ATTRIBUTE_CHANNEL_NUMBER, value, sizeof value);
}

void turn_sign(turn_message *message, const turn_user *user, stun_types_password algorithm,
               const turn_nonce *nonce) {
    static const uint8_t list[] = {0, 2, 0, 0, 0, 1, 0, 0}, sha256[] = {0, 2, 0, 0};
    bool is_md5 = algorithm == STUN_TYPES_PASSWORD_MD5;
    turn_add(message, STUN_TYPES_ATTRIBUTE_USERNAME, user->name, strlen(user->name));
    turn_add(message, STUN_TYPES_ATTRIBUTE_REALM, turn_realm, strlen(turn_realm));
    turn_add(message, STUN_TYPES_ATTRIBUTE_NONCE, nonce->bytes, sizeof nonce->bytes);
    if (!is_md5) {
        turn_add(message, STUN_TYPES_ATTRIBUTE_PASSWORD_ALGORITHMS, list, sizeof list);
        turn_add(message, STUN_TYPES_ATTRIBUTE_PASSWORD_ALGORITHM, sha256, sizeof sha256);
    }
    ANSWERS(
        stun_types_add_integrity(message->bytes, sizeof message->bytes, &message->length,
                                 is_md5 ? &user->md5 : &user->sha256,
                                 is_md5 ? STUN_TYPES_INTEGRITY_SHA1 : STUN_TYPES_INTEGRITY_SHA256),
        OK_ANSWER);
}

void turn_channel_data(turn_message *message, uint16_t number, slice data) {
    message->bytes[0] = (uint8_t)(number >> 8);
    message->bytes[1] = (uint8_t)number;
    message->bytes[2] = (uint8_t)(data.length >> 8);
    message->bytes[3] = (uint8_t)data.length;
    if (data.length + 4 > sizeof message->bytes) abort();
    if (data.length != 0) memcpy(message->bytes + 4, data.bytes, data.length);
    message->length = data.length + 4;
}

/* ---- reading */

bool turn_find(const uint8_t *bytes, size_t length, uint16_t type, slice *value) {
    stun_types_attribute attribute;
    if (!stun_types_find(bytes, length, type, &attribute)) return false;
    value->bytes = bytes + attribute.value_at;
    value->length = attribute.length;
    return true;
}

uint32_t turn_number(slice value) {
    CHECK(value.length == 4);
    if (value.length != 4) return 0;
    return (uint32_t)value.bytes[0] << 24 | (uint32_t)value.bytes[1] << 16
           | (uint32_t)value.bytes[2] << 8 | value.bytes[3];
}

stun_types_address turn_address(const uint8_t *bytes, size_t length, uint16_t type) {
    stun_types_attribute attribute;
    stun_types_address address;
    memset(&address, 0, sizeof address);
    CHECK(stun_types_find(bytes, length, type, &attribute));
    if (stun_types_find(bytes, length, type, &attribute))
        ANSWERS(stun_types_read_xor_address(bytes, length, &attribute, &address), OK_ANSWER);
    return address;
}

bool turn_is_same_address(const stun_types_address *one, const stun_types_address *other) {
    return one->family == other->family && one->port == other->port
           && memcmp(one->octets, other->octets, one->family == 4 ? 4 : 16) == 0;
}

/* ---- calls */

/* One call, with the keys of a user if they are looked up. If it fails, nothing is done. */
static stun_types_answer take_once(const turn_call *call, uint64_t now, slice datagram,
                                   bool is_looked_up, const turn_user *user) {
    static const stun_types_key none = STUN_TYPES_KEY_INIT;
    stun_types_turn_datagram it;
    stun_types_answer answer;
    bool is_known = is_looked_up && user != NULL;
    memset(call->room, FILL, call->size);
    memset(call->action, FILL, sizeof *call->action);
    memset(&it, 0, sizeof it);
    it.bytes = datagram.bytes;
    it.length = datagram.length;
    it.from = *call->from;
    it.ready = *call->ready;
    it.looked_up = is_looked_up;
    answer = stun_types_turn_client(call->server, now, &it, is_known ? &user->md5 : &none,
                                    is_known ? &user->sha256 : &none, call->room, call->size,
                                    call->action);
    if (answer.code == STUN_TYPES_OK && call->action->kind == STUN_TYPES_TURN_RESPONSE)
        CHECK(
            call->action->length >= 20 && call->action->length <= call->size
            && is_untouched(call->room + call->action->length, call->size - call->action->length));
    else CHECK(is_untouched(call->room, call->size));
    return answer;
}

stun_types_answer turn_take(const turn_call *call, uint64_t now, slice datagram,
                            const turn_user *user) {
    stun_types_answer answer = take_once(call, now, datagram, false, NULL);
    if (answer.code != STUN_TYPES_OK || call->action->kind != STUN_TYPES_TURN_NEEDS_KEY)
        return answer;
    CHECK(call->action->ipv4.took == 0 && call->action->ipv6.took == 0
          && call->action->ended == 0 && call->action->code == 0);
    answer = take_once(call, now, datagram, true, user);
    if (answer.code == STUN_TYPES_OK) CHECK(call->action->kind != STUN_TYPES_TURN_NEEDS_KEY);
    return answer;
}

stun_types_answer turn_from_peer(stun_types_turn *server, uint64_t now, uint64_t relay,
                                 const stun_types_address *peer, size_t data_length,
                                 const stun_types_id *id, uint8_t *head, size_t head_size,
                                 stun_types_turn_delivery *delivery) {
    return stun_types_turn_peer(server, now, peer, relay, data_length, id, head, head_size,
                                delivery);
}
