/* A TURN server: datagrams of its clients, right, changed and any, those of peers, ends and
 * moments. What it does is what the model does. */
#include <string.h>

#include "../tests/model_turn.h"
#include "fuzz.h"

enum { EVENTS = 30, RESPONSE = 1500 };
#define SECOND ((uint64_t)1000000000)

static model_turn model;
static stun_types_turn *server;
static uint64_t now;
static text message;

static const stun_types_address own = {{203, 0, 113, 1}, 3478, 4};

/* The clients, those of a tunnel too, and the peers, of which some are forbidden. */
static const stun_types_address clients[] = {
    {{192, 0, 2, 1}, 5001, 4},
    {{192, 0, 2, 1}, 5002, 4},
    {{0x20, 1, 0x0D, 0xB8, 0, 0, 0, 0, 0, 0, 0, 0, 0, 0, 0, 6}, 5001, 6},
    {{0x20, 2, 0xC0, 0, 2, 1, 0, 0, 0, 0, 0, 0, 0, 0, 0, 7}, 5001, 6},
};
static const stun_types_address peers[] = {
    {{198, 51, 100, 7}, 4000, 4},
    {{198, 51, 100, 7}, 4001, 4},
    {{198, 51, 100, 8}, 4000, 4},
    {{0x20, 1, 0x0D, 0xB8, 0, 0, 0, 0, 0, 0, 0, 0, 0, 0, 0, 0x17}, 4000, 6},
    {{203, 0, 113, 1}, 3478, 4},
    {{203, 0, 113, 1}, 50002, 4},
    {{10, 0, 0, 1}, 4000, 4},
    {{0xFD, 0, 0, 0, 0, 0, 0, 0, 0, 0, 0, 0, 0, 0, 0, 1}, 4000, 6},
};

/* The keys of the users by both password algorithms; the second's may be made for one integrity
   algorithm. */
static const pair *keys[MODEL_TURN_USERS][2] = {{&pairs[LOGIN_MD5], &pairs[LOGIN_SHA256]}};

/* ---- messages of clients */

static void append_address(unsigned type, const stun_types_address *address) {
    stun_types_address written = *address;
    uint8_t value[20] = {0};
    model_xor(message.bytes, &written);
    value[1] = written.family == 4 ? 1 : 2;
    value[2] = (uint8_t)(written.port >> 8);
    value[3] = (uint8_t)written.port;
    memcpy(value + 4, written.octets, 16);
    append(&message, type, value, written.family == 4 ? 8 : 20);
}

/* A peer: often one of few, and any port or address of them. */
static void take_peer(source *from) {
    unsigned how = take(from);
    stun_types_address peer = peers[how % 4 != 0 ? how / 4 % 3 : how / 4 % 8];
    if (how % 32 == 31) peer.octets[3] = (uint8_t)take(from);
    append_address(0x0012, &peer);
}

static void append_number(unsigned type, uint32_t number, size_t length) {
    uint8_t value[8] = {0};
    value[0] = (uint8_t)(number >> 24);
    value[1] = (uint8_t)(number >> 16);
    value[2] = (uint8_t)(number >> 8);
    value[3] = (uint8_t)number;
    append(&message, type, value, length);
}

static void take_lifetime(source *from) {
    static const uint32_t seconds[] = {0, 0, 0, 1, 600, 601, 3600, UINT32_MAX};
    unsigned how = take(from);
    if (how % 2 == 1) append_number(0x000D, seconds[how / 2 % 8], how == 255 ? 3 : 4);
}

/* One of few channels, also of those that only an older client binds. */
static uint32_t channel_of(unsigned how) {
    return (model.settings.limits.old_channels != 0 && how / 64 == 1 ? 0x5000 : 0x4000) + how % 3;
}

/* What a request of a method has, but for its credentials; one in some has another length or value. */
static void take_asked(source *from, unsigned method) {
    unsigned how = take(from), i;
    if (method == STUN_TYPES_METHOD_ALLOCATE) {
        if (how % 32 != 31) append_number(0x0019, how % 32 == 30 ? how << 24 : 17u << 24, 4);
        if (how / 32 >= 5) append_number(0x0017, (how / 32 - 4) << 24, how == 250 ? 3 : 4);
        if (how / 32 == 4 && how % 2 == 0) append_number(0x0018, how % 4 == 0 ? 0 : 0x80u << 24, 1);
        if (how / 32 == 3 && how % 4 == 0)
            append_number(0x8000, how % 16 == 4 ? 1u << 24 : 2u << 24, 4);
        if (how % 64 == 13) append(&message, 0x0022, "12345678", how == 13 ? 7 : 8);
    }
    if (method == STUN_TYPES_METHOD_REFRESH && how % 8 == 7)
        append_number(0x0017, how / 8 % 4 << 24, how == 255 ? 5 : 4);
    if (method == STUN_TYPES_METHOD_ALLOCATE || method == STUN_TYPES_METHOD_REFRESH)
        take_lifetime(from);
    if (method == STUN_TYPES_METHOD_CHANNEL_BIND && how % 32 != 31)
        append_number(0x000C, how % 32 == 30 ? take_four(from) : channel_of(how) << 16,
                      how == 93 ? 2 : 4);
    if (method == STUN_TYPES_METHOD_CREATE_PERMISSION)
        for (i = 0; i < (how >= 254 ? how - 190 : how % 4); i++) take_peer(from);
    if (method == STUN_TYPES_METHOD_CREATE_PERMISSION && how == 252)
        for (i = 0; i < 20; i++) {
            stun_types_address peer = peers[0];
            peer.octets[3] = (uint8_t)(i + how % 3);
            append_address(0x0012, &peer);
        }
    if (method == STUN_TYPES_METHOD_CHANNEL_BIND && how / 32 != 7) take_peer(from);
    if (how == 77) append(&message, 0x7FFF, "", 0);
}

/* Answers the challenge of a user's server, of the moment or a stale one. */
static void take_credentials(source *from, const stun_types_address *client) {
    static const uint8_t list[] = {0, 2, 0, 0, 0, 1, 0, 0}, chosen[2][4] = {{0, 1}, {0, 2}};
    unsigned how = take(from), user = how % 8 == 7;
    const model_text texts[] = {model.users[user].name, model.realm};
    bool is_listed = how / 8 % 2 == 1, is_sha256 = is_listed && how / 16 % 4 != 0;
    uint8_t nonce[STUN_TYPES_NONCE_LENGTH], hash[32];
    model_server made;
    made.secret = model.secret;
    made.features = model.settings.features;
    made.window = model.settings.window;
    made.client = client;
    model_nonce(&made, now / SECOND - (how >= 254 ? made.window + how % 2 : 0), nonce);
    if (how % 64 != 62) append(&message, 0x0006, texts[0].bytes, texts[0].length);
    else append(&message, 0x001E, hash, model_digest(STUN_TYPES_PASSWORD_SHA256, texts, 2, hash));
    append(&message, 0x0014, texts[1].bytes, texts[1].length);
    append(&message, 0x0015, nonce, sizeof nonce);
    if (is_listed) append(&message, 0x8002, list, sizeof list);
    if (is_listed) append(&message, 0x001D, chosen[is_sha256], 4);
    sign(&message, how / 64 % 2 == 0 ? STUN_TYPES_INTEGRITY_SHA1 : STUN_TYPES_INTEGRITY_SHA256,
         &keys[user][how == 253 ? !is_sha256 : is_sha256]->model);
    if (how / 128 == 1) finger(&message);
}

static void take_message(source *from, unsigned kind, const stun_types_address *client) {
    static const unsigned methods[] = {
        STUN_TYPES_METHOD_ALLOCATE,     STUN_TYPES_METHOD_ALLOCATE,
        STUN_TYPES_METHOD_REFRESH,      STUN_TYPES_METHOD_CREATE_PERMISSION,
        STUN_TYPES_METHOD_CHANNEL_BIND, STUN_TYPES_METHOD_CHANNEL_BIND,
        STUN_TYPES_METHOD_BINDING};
    uint8_t id[12] = {0};
    unsigned how = take(from);
    id[11] = (uint8_t)(how % 4);
    if (kind < COUNT(methods)) {
        start(&message, methods[kind], id);
        if (kind == COUNT(methods) - 1) {
            if (how / 16 == 0) append(&message, 0x0006, "user", 4);
            if (how / 16 == 1) finger(&message);
            if (how / 16 == 2) append(&message, 0x001A, "", 0);
            if (how / 16 >= 8) take_credentials(from, client);
            return;
        }
        take_asked(from, methods[kind]);
        if (how / 4 % 16 == 14) change(&message, from);
        if (how / 4 % 16 != 15) take_credentials(from, client);
    } else if (kind == COUNT(methods)) {
        start(&message, 0x0016, id);
        take_peer(from);
        if (how / 4 % 16 != 15) append(&message, 0x0013, "some data", take(from) % 10);
        if (how == 77) append(&message, 0x001A, "", 0);
    } else {
        message.length = 4 + take(from) % 8;
        memset(message.bytes, 0, message.length + 16);
        message.bytes[0] = (uint8_t)(how / 4 % 16 == 15 ? take(from) : channel_of(how) >> 8);
        message.bytes[1] = (uint8_t)channel_of(how);
        message.bytes[3] = (uint8_t)(message.length - 4);
        message.length += how / 4 % 16;
    }
    if (take(from) % 16 == 15 && message.length > 0) change(&message, from);
}

/* ---- what the server does with them */

static bool has(const model_list *shown, unsigned type) { return model_find(shown, type) != NULL; }

/* That a response says what the model says. */
static void check_response(const uint8_t *room, size_t length, const model_turn_done *done) {
    static const stun_types_policy both = STUN_TYPES_POLICY_BOTH;
    static model_list shown;
    const stun_types_attribute *found;
    stun_types_validated validated;
    stun_types_address address;
    uint16_t code = 0;
    size_t i, relayed = 0, missing = 0;
    HOLDS(model_parse(room, length).code == STUN_TYPES_OK);
    HOLDS(model_number(room)
          == (model_number(message.bytes) | (done->action.code == 0 ? 0x0100u : 0x0110u)));
    HOLDS(memcmp(room + 8, message.bytes + 8, 12) == 0);
    model_shown(room, length, &shown);
    found = model_find(&shown, 0x0009);
    HOLDS((found == NULL) == (done->action.code == 0));
    if (found != NULL) model_error(room + found->value_at, found->length, &code);
    HOLDS(code == done->action.code);
    HOLDS(has(&shown, 0x0014) == (code == 401 || code == 438));
    if (done->key == NULL) HOLDS(!has(&shown, 0x0008) && !has(&shown, 0x001C));
    else {
        HOLDS(model_validate(room, length, &both, done->key, &validated).code == STUN_TYPES_OK);
        HOLDS(validated.algorithm == done->algorithm);
    }
    found = model_find(&shown, 0x000D);
    HOLDS((found != NULL) == done->has_lifetime);
    if (found != NULL)
        HOLDS(found->length == 4
              && ((uint32_t)model_number(room + found->value_at) << 16
                  | model_number(room + found->value_at + 2))
                     == done->lifetime);
    found = model_find(&shown, 0x8023);
    HOLDS((found != NULL) == (done->alternate.family != 0));
    if (found != NULL) {
        HOLDS(model_address(room + found->value_at, found->length, &address).code == STUN_TYPES_OK);
        HOLDS(model_is_same_address(&address, &done->alternate));
    }
    for (i = 0; i < shown.count; i++) {
        const uint8_t *value = room + shown.all[i].value_at;
        if (shown.all[i].type == 0x0016) {
            HOLDS(model_address(value, shown.all[i].length, &address).code == STUN_TYPES_OK);
            model_xor(room, &address);
            HOLDS(model_is_same_address(&address, &done->relayed[address.family == 4 ? 0 : 1]));
            relayed++;
        }
        if (shown.all[i].type == 0x8001) {
            HOLDS(shown.all[i].length >= 4 && (value[0] == 1 || value[0] == 2));
            HOLDS(value[2] * 100u + value[3] == done->missing[value[0] - 1]);
            missing++;
        }
    }
    HOLDS(relayed == (size_t)(done->relayed[0].family != 0) + (done->relayed[1].family != 0));
    HOLDS(missing == (size_t)(done->missing[0] != 0) + (done->missing[1] != 0));
}

/* The numbers of the sockets that calls ended. */
static uint64_t closed[MODEL_TURN_ALLOCATIONS + 1];
static size_t closed_count;

/* Reads those of the last call, of which it says how many: so many at a time. */
static void take_ended(size_t count, size_t portion) {
    size_t first, wrote;
    for (first = 0; first <= count; first += wrote) {
        uint64_t *numbers = place(portion * sizeof *numbers);
        size_t i;
        wrote = stun_types_turn_ended(server, numbers, portion, first);
        HOLDS(wrote == (count - first < portion ? count - first : portion));
        for (i = 0; i < wrote && closed_count < MODEL_TURN_ALLOCATIONS; i++)
            closed[closed_count++] = numbers[i];
        for (; i < portion; i++) HOLDS(is_filled(&numbers[i], sizeof numbers[i]));
        if (wrote == 0) break;
    }
}

/* That they are those of the model, each once. */
static void check_ended(void) {
    size_t i, j, same;
    HOLDS(closed_count == model.ended_count);
    for (i = 0; i < model.ended_count; i++) {
        for (j = same = 0; j < closed_count; j++) same += closed[j] == model.ended[i];
        HOLDS(same == 1);
    }
    closed_count = 0;
}

/* The socket that the model takes of a family, or none. */
static void check_opened(const stun_types_turn_opened *told, model_allocation *opened) {
    size_t i;
    HOLDS(told->took == (opened != NULL));
    if (opened == NULL) {
        HOLDS(told->relay == 0 && told->relayed.family == 0);
        return;
    }
    HOLDS(model_is_same_address(&told->relayed, &opened->relayed));
    for (i = 0; i < MODEL_TURN_ALLOCATIONS; i++)
        HOLDS(&model.all[i] == opened || !model.all[i].takes_place || model.all[i].relay != told->relay);
    opened->relay = told->relay;
}

/* That it does what the model does; a room may be too small for the response. */
static void check_done(stun_types_answer answer, const stun_types_turn_action *action,
                       const uint8_t *room, size_t size, const model_turn_done *done) {
    bool is_response = done->action.kind == STUN_TYPES_TURN_RESPONSE;
    check_opened(&action->ipv4, done->opened[0]);
    check_opened(&action->ipv6, done->opened[1]);
    if (answer.code != STUN_TYPES_OK) {
        HOLDS(is_response);
        if (answer.code != STUN_TYPES_INVALID_DATA)
            HOLDS(answer.code == STUN_TYPES_TOO_SMALL && answer.actual == size
                  && answer.expected > size);
        else HOLDS(done->key != NULL && !model_serves(done->key, done->algorithm));
        HOLDS(action->kind == STUN_TYPES_TURN_NOTHING && action->code == 0 && action->length == 0);
        HOLDS(is_filled(room, size));
        return;
    }
    HOLDS(action->kind == done->action.kind && action->code == done->action.code);
    if (is_response) {
        HOLDS(action->length <= size && is_filled(room + action->length, size - action->length));
        check_response(room, action->length, done);
        return;
    }
    HOLDS(is_filled(room, size));
    HOLDS(action->at == done->action.at && action->length == done->action.length);
    HOLDS(action->relay == done->action.relay
          && action->dont_fragment == done->action.dont_fragment
          && model_is_same_address(&action->peer, &done->action.peer));
}

/* The sockets that are ready: each allocation gets one of its own. */
static stun_types_turn_ready ready_of(unsigned how, uint16_t port_of_next) {
    stun_types_turn_ready ready;
    memset(&ready, 0, sizeof ready);
    if (how % 16 < 14) ready.any_ipv4 = own;
    if (how % 16 < 12) ready.even_ipv4 = own;
    if (how / 16 % 4 < 2) ready.any_ipv6 = ready.even_ipv6 = clients[2];
    ready.any_ipv4.port = ready.even_ipv4.port = port_of_next;
    ready.any_ipv6.port = ready.even_ipv6.port = port_of_next;
    return ready;
}

/* The message as a datagram from there. */
static const stun_types_turn_datagram *datagram_of(const stun_types_five_tuple *tuple,
                                                   const stun_types_turn_ready *ready,
                                                   bool looked_up) {
    stun_types_turn_datagram it;
    memset(&it, 0, sizeof it);
    it.bytes = give(message.bytes, message.length);
    it.length = message.length;
    it.from = *tuple;
    it.ready = *ready;
    it.looked_up = looked_up;
    return copy_of(&it, sizeof it);
}

static void check_client(source *from, const stun_types_five_tuple *tuple, uint16_t next) {
    unsigned how = take(from), user;
    const stun_types_turn_ready ready = ready_of(how, next);
    size_t size = how == 255 ? take(from) : RESPONSE;
    uint8_t *room = place(size);
    stun_types_turn_action *action = NEW(stun_types_turn_action);
    stun_types_answer answer;
    model_turn_done done;
    model_turn_client(&model, now, tuple, &ready, message.bytes, message.length, &done);
    user = model_turn_user(&model, message.bytes, message.length);
    answer = stun_types_turn_client(server, now, datagram_of(tuple, &ready, how / 64 == 3),
                                    &pairs[NO_KEY].key, &pairs[NO_KEY].key, room, size, action);
    if (how / 64 == 3 && done.is_request) {
        /* (nobody's keys, as for an unknown user: a request that is accepted changes the model) */
        HOLDS(action->kind != STUN_TYPES_TURN_NEEDS_KEY && action->ipv4.took == 0 && action->ipv6.took == 0);
        take_ended(action->ended, 3);
        HOLDS(answer.code != STUN_TYPES_OK || (action->code >= 400 && action->code <= 438));
        memset(room, FILL, size);
        answer = stun_types_turn_client(server, now, datagram_of(tuple, &ready, false),
                                        &pairs[NO_KEY].key, &pairs[NO_KEY].key, room, size, action);
    }
    if (answer.code == STUN_TYPES_OK && action->kind == STUN_TYPES_TURN_NEEDS_KEY) {
        HOLDS(done.is_request && is_filled(room, size) && action->ended == 0 && action->code == 0);
        HOLDS(action->ipv4.took == 0 && action->ipv6.took == 0);
        answer = stun_types_turn_client(
            server, now, datagram_of(tuple, &ready, true),
            user < MODEL_TURN_USERS ? &keys[user][0]->key : &pairs[NO_KEY].key,
            user < MODEL_TURN_USERS ? &keys[user][1]->key : &pairs[NO_KEY].key, room, size, action);
    }
    take_ended(action->ended, 1 + how % 3);
    check_ended();
    check_done(answer, action, room, size, &done);
}

/* ---- peers, polls, and other arguments */

/* That what is sent to a client is ChannelData, or a Data indication of the peer. */
static void check_sent(const uint8_t *head, size_t length, const stun_types_address *peer,
                       unsigned channel, const stun_types_turn_delivery *told) {
    static text sent;
    static model_list shown;
    const stun_types_attribute *found;
    stun_types_address address;
    if (channel != 0) {
        HOLDS(model_number(head) == channel && model_number(head + 2) == length);
        return;
    }
    memset(sent.bytes, 0, 48 + length + 3);
    memcpy(sent.bytes, head, told->head_length);
    sent.length = told->head_length + length + told->padding;
    HOLDS(model_parse(sent.bytes, sent.length).code == STUN_TYPES_OK);
    HOLDS(model_number(sent.bytes) == 0x0017 && memcmp(sent.bytes + 8, "transactions", 12) == 0);
    model_shown(sent.bytes, sent.length, &shown);
    found = model_find(&shown, 0x0012);
    HOLDS(found != NULL
          && model_address(sent.bytes + found->value_at, found->length, &address).code
                 == STUN_TYPES_OK);
    model_xor(sent.bytes, &address);
    HOLDS(model_is_same_address(&address, peer));
    found = model_find(&shown, 0x0013);
    HOLDS(found != NULL && found->length == length && found->value_at == told->head_length);
}

static void check_peer(source *from) {
    unsigned how = take(from), channel;
    const stun_types_address *peer = copy_of(&peers[how % 8], sizeof *peers);
    uint64_t relay = model.all[how / 8 % MODEL_TURN_ALLOCATIONS].relay + (how / 32 == 7);
    size_t length = how / 32 == 6 ? 65450 + take(from) % 110u
                    : how == 160  ? SIZE_MAX
                                  : take(from) % 32u;
    size_t size = STUN_TYPES_TURN_HEAD + (how / 32 == 5 ? take(from) % 9u : 0);
    uint8_t *head = place(size);
    const stun_types_id *id = copy_of("transactions", sizeof *id);
    stun_types_turn_delivery *told = NEW(stun_types_turn_delivery), expected;
    channel = model_turn_peer(&model, now, relay, peer, length, &expected);
    SUCCEEDS(stun_types_turn_peer(server, now, peer, relay, length, id, head, size, told));
    HOLDS(told->sends == expected.sends && told->head_length == expected.head_length
          && told->padding == expected.padding && told->to.stream == expected.to.stream);
    HOLDS(model_is_same_address(&told->to.client, &expected.to.client)
          && model_is_same_address(&told->to.server, &expected.to.server));
    HOLDS(is_filled(head, size - told->head_length));
    if (told->sends == 1) check_sent(head + size - told->head_length, length, peer, channel, told);
    take_ended(told->ended, 2);
    check_ended();
}

/* An ICMP packet goes to the client that data of the peer would go to. */
static void check_icmp(source *from) {
    static const uint8_t types[][8] = {{3, 11, 3, 11, 4, 1, 0, 255}, {1, 2, 3, 1, 4, 11, 0, 255}};
    unsigned how = take(from), more = take(from);
    const stun_types_address *peer = copy_of(&peers[how % 8], sizeof *peers);
    uint64_t relay = model.all[how / 8 % MODEL_TURN_ALLOCATIONS].relay + (how / 32 == 7);
    const uint8_t kind = types[peer->family == 6][more % 8];
    const stun_types_icmp error = {take_four(from), kind, (uint8_t)(more / 8 % 5)};
    const bool is_too_large = peer->family == 4 ? kind == 3 && error.code == 4 : kind == 2;
    const uint8_t value[] = {0, 0, kind, error.code, (uint8_t)(error.data >> 24), (uint8_t)(error.data >> 16),
                             (uint8_t)(error.data >> 8), (uint8_t)error.data};
    static const uint8_t zeros[4];
    size_t size = STUN_TYPES_TURN_NOTICE + more / 64;
    uint8_t *room = place(size);
    const stun_types_id *id = copy_of("transactions", sizeof *id);
    stun_types_turn_notice *told = NEW(stun_types_turn_notice);
    stun_types_turn_delivery expected;
    static model_list shown;
    const stun_types_attribute *found;
    stun_types_address address;
    model_turn_peer(&model, now, relay, peer, 0, &expected);
    if (model.settings.limits.icmp == 0 || more % 8 >= 4) memset(&expected, 0, sizeof expected);
    SUCCEEDS(stun_types_turn_icmp(server, now, peer, relay, copy_of(&error, sizeof error), id, room, size, told));
    HOLDS(told->sends == expected.sends && told->to.stream == expected.to.stream);
    HOLDS(model_is_same_address(&told->to.client, &expected.to.client)
          && model_is_same_address(&told->to.server, &expected.to.server));
    HOLDS(told->length == (told->sends == 0 ? 0u : peer->family == 4 ? 44u : 56u));
    HOLDS(is_filled(room + told->length, size - told->length));
    take_ended(told->ended, 2);
    check_ended();
    if (told->sends == 0) return;
    HOLDS(model_parse(room, told->length).code == STUN_TYPES_OK);
    HOLDS(model_number(room) == 0x0017 && memcmp(room + 8, "transactions", 12) == 0);
    model_shown(room, told->length, &shown);
    found = model_find(&shown, 0x8004);
    HOLDS(shown.count == 2 && found != NULL && found->length == 8);
    HOLDS(memcmp(room + found->value_at, value, 4) == 0);
    HOLDS(memcmp(room + found->value_at + 4, is_too_large ? value + 4 : zeros, 4) == 0);
    found = model_find(&shown, 0x0012);
    HOLDS(found != NULL && model_address(room + found->value_at, found->length, &address).code == STUN_TYPES_OK);
    model_xor(room, &address);
    HOLDS(model_is_same_address(&address, peer));
}

/* A field that may be unset, or too great. */
static uint16_t take_field(source *from, unsigned most) {
    unsigned how = take(from);
    return (uint16_t)(how % 8 == 7 ? STUN_TYPES_FIELD_UNSET : how == 6 ? most + 1 : how == 14 ? 2 * most : how % (most + 1));
}

static bool is_field(unsigned field, unsigned most) { return field <= most || field == STUN_TYPES_FIELD_UNSET; }

/* Fields of the IP header, by RFC 8656, sections 13 to 15. */
static void check_fields(source *from) {
    static const uint16_t families[] = {4, 6, 4, 6, 4, 6, 0, 5};
    unsigned how = take(from), left;
    stun_types_turn_relayed *it = NEW(stun_types_turn_relayed);
    stun_types_turn_sent *told = NEW(stun_types_turn_sent);
    const stun_types_ip_fields *came = &it->received;
    bool is_routed, is_whole;
    memset(it, 0, sizeof *it);
    it->stream = how % 16 == 15 ? 2 : how % 2;
    it->from = families[how / 2 % 8];
    it->to = families[how / 16 % 8];
    it->dont_fragment = how / 128;
    it->length = take(from) % 4 == 0 ? 1230 + take(from) % 6u : take(from);
    it->received.hop_limit = take_field(from, 255);
    it->received.dscp = take_field(from, 63);
    it->received.ecn = take_field(from, 3);
    it->received.dont_fragment = take_field(from, 1);
    const stun_types_answer answer = stun_types_turn_fields(it, told);
    bool is_right = it->stream < 2 && it->from >= 4 && it->from != 5 && it->to >= 4 && it->to != 5
                    && is_field(came->hop_limit, 255) && is_field(came->dscp, 63) && is_field(came->ecn, 3)
                    && is_field(came->dont_fragment, 1);
    HOLDS(is_same(answer, is_right ? FINE : BAD_ARGUMENT));
    is_routed = it->stream == 0 && (it->from == 6 || it->to == 6);
    if (!is_right || (is_routed && came->hop_limit <= 1)) {
        HOLDS(told->sends == 0 && told->fields.hop_limit == 0 && told->fields.dscp == 0 && told->fields.ecn == 0
              && told->fields.dont_fragment == 0);
        return;
    }
    left = is_routed && came->hop_limit != STUN_TYPES_FIELD_UNSET ? came->hop_limit - 1u : STUN_TYPES_FIELD_UNSET;
    is_whole = came->dont_fragment == 1;
    HOLDS(told->sends == 1 && told->fields.hop_limit == left);
    HOLDS(told->fields.dscp == (came->dscp == STUN_TYPES_FIELD_UNSET ? 0 : came->dscp));
    HOLDS(told->fields.ecn == (it->stream == 1 || came->ecn == STUN_TYPES_FIELD_UNSET ? 0 : came->ecn));
    if (it->stream == 1) HOLDS(told->fields.dont_fragment == it->dont_fragment);
    else if (!is_routed) HOLDS(told->fields.dont_fragment == (it->dont_fragment == 1 || is_whole));
    else if (it->to == 4 && came->dont_fragment != STUN_TYPES_FIELD_UNSET)
        HOLDS(told->fields.dont_fragment == (is_whole && it->length > 1232));
    else HOLDS(told->fields.dont_fragment == came->dont_fragment);
}

/* The flow on a channel, of a client or of any other 5-tuple. */
static void check_flow(source *from, const stun_types_five_tuple *tuple) {
    unsigned how = take(from), number = how < 128 ? 0x4000 + how % 4 : take_two(from);
    stun_types_five_tuple client = *tuple;
    stun_types_flow *flow = NEW(stun_types_flow), expected;
    bool is_named, is_found;
    if (how % 64 == 63) *(how == 63 ? &client.server.family : &client.stream) = (uint16_t)take(from);
    is_named = (client.server.family == 4 || client.server.family == 6) && client.stream < 2;
    model_turn_flow(&model, &client, number, &expected);
    if (!is_named) memset(&expected, 0, sizeof expected);
    is_found = stun_types_turn_flow(server, copy_of(&client, sizeof client), (uint16_t)number, flow);
    HOLDS(is_found == (expected.peer.family != 0) && flow->relay == expected.relay);
    HOLDS(flow->expires_at == expected.expires_at && model_is_same_address(&flow->peer, &expected.peer));
}

/* What has expired ends, and a relayed address, or all of a user. */
static void check_ends(source *from) {
    unsigned how = take(from), which = how / 4 % MODEL_TURN_ALLOCATIONS;
    size_t count;
    if (how % 8 == 1) {
        const uint64_t relay = model.all[which].relay + (how / 64 == 3);
        model_turn_end(&model, now, relay);
        count = stun_types_turn_end(server, now, relay);
    } else if (how % 8 == 2) {
        const unsigned user = which % (MODEL_TURN_USERS + 1);
        const model_text name = user < MODEL_TURN_USERS ? model.users[user].name : model.realm;
        const model_text texts[] = {name, model.realm};
        stun_types_hash *hash = NEW(stun_types_hash);
        model_digest(STUN_TYPES_PASSWORD_SHA256, texts, 2, hash->bytes);
        model_turn_end_user(&model, now, user);
        count = stun_types_turn_end_user(server, now, hash);
    } else {
        model_turn_poll(&model, now);
        count = stun_types_turn_poll(server, now);
    }
    take_ended(count, 1 + how % 3);
    check_ended();
}

/* Other rules, which deny one address and port, other limits, or another server; no rules and no server that name
   a family that isn't one. */
static void check_changes(source *from) {
    unsigned how = take(from);
    stun_types_address address = how / 2 % 8 == 7 ? own : peers[how / 2 % 8];
    if (how / 16 == 15) address.family = (uint16_t)(1 + how % 3);
    if (how % 2 == 0) {
        stun_types_turn_settings settings = model.settings;
        settings.listening = copy_of(&address, sizeof address);
        const stun_types_answer told = stun_types_turn_set_rules(server, copy_of(&settings, sizeof settings));
        if (how / 16 != 15) model.listening = address;
        HOLDS(is_same(told, how / 16 == 15 ? BAD_ARGUMENT : FINE));
    } else if (how / 16 < 4) {
        stun_types_turn_limits limits = model.settings.limits;
        limits.relays = limits.reservations = take(from); /* (not read) */
        limits.relays_per_user = how / 2 % 3;
        limits.ipv4 = how / 2 % 8 != 4;
        limits.channel_permits = how / 2 % 2;
        SUCCEEDS(stun_types_turn_set_limits(server, copy_of(&limits, sizeof limits)));
        limits.relays = model.settings.limits.relays;
        limits.reservations = model.settings.limits.reservations;
        model.settings.limits = limits;
    } else {
        if (how / 16 == 14) memset(&address, 0, sizeof address);
        const stun_types_answer told = stun_types_turn_set_alternate(server, copy_of(&address, sizeof address));
        if (how / 16 != 15) model.alternate = address;
        HOLDS(is_same(told, how / 16 == 15 ? BAD_ARGUMENT : FINE));
    }
}

/* How many there are, and when the next expires. */
static void check_left(void) {
    uint64_t due = UINT64_MAX;
    size_t i, count = 0;
    for (i = 0; i < MODEL_TURN_ALLOCATIONS; i++) {
        if (!model.all[i].takes_place) continue;
        count++;
        if (model.all[i].until < due) due = model.all[i].until;
    }
    HOLDS(stun_types_turn_count(server) == count && stun_types_turn_next_due(server) == due);
    HOLDS(stun_types_turn_over(server, place(8), 1, 0) == 0); /* (nothing is reserved) */
}

/* Addresses of any families, and any transport: if there is none such, nothing is done. */
static void check_arguments(source *from, const stun_types_five_tuple *tuple) {
    unsigned how = take(from);
    stun_types_five_tuple other = *tuple;
    stun_types_turn_ready ready = ready_of(0, 50000);
    stun_types_turn_datagram datagram;
    stun_types_turn_action *action = NEW(stun_types_turn_action);
    uint8_t *room = place(RESPONSE);
    uint16_t *const fields[] = {&other.client.family,    &other.server.family,
                                &other.stream,           &ready.any_ipv4.family,
                                &ready.even_ipv4.family, &ready.any_ipv6.family,
                                &ready.even_ipv6.family, &ready.next_ipv4.family,
                                &ready.next_ipv6.family};
    uint16_t *field = fields[how % COUNT(fields)];
    if (how % 16 != 9) *field = (uint16_t)(how / 16 == 15 ? take_two(from) | 8 : *field == 6 && how % 2 == 1 ? 5 : 3);
    datagram = *datagram_of(&other, &ready, how % 3 == 0);
    if (how % 16 == 9) datagram.reserved = (uint32_t)1 << take(from) % 32;
    HOLDS(is_same(stun_types_turn_client(server, now, copy_of(&datagram, sizeof datagram),
                                         &pairs[LOGIN_MD5].key, &pairs[LOGIN_SHA256].key, room,
                                         RESPONSE, action),
                  BAD_ARGUMENT));
    HOLDS(is_filled(room, RESPONSE) && action->kind == STUN_TYPES_TURN_NOTHING && action->ended == 0
          && action->ipv4.took == 0 && action->ipv6.took == 0);
}

static void take_moment(source *from) {
    static const uint64_t steps[] = {0, 1, 10, 60, 100, 199, 200, 201, 299, 300, 301, 599, 600};
    unsigned how = take(from);
    if (how % 16 < COUNT(steps)) now += steps[how % 16] * SECOND;
    else if (how % 16 == 13) now += take_four(from);
    else now -= now < 20 * SECOND ? 0 : 20 * SECOND - (how % 16 == 15);
}

/* ---- a server */

/* Makes the server, and says whether its settings are any. */
static bool begin(source *from) {
    unsigned how = take(from), more = take(from);
    stun_types_turn_settings settings;
    stun_types_answer answer;
    memset(&model, 0, sizeof model);
    memset(&settings, 0, sizeof settings);
    settings.window = how / 64 == 1 ? 30 : 600;
    settings.limits = stun_types_turn_limits_default();
    settings.limits.relays = 1 + how % MODEL_TURN_ALLOCATIONS;
    settings.limits.relays_per_user = 1 + how / 4 % 2;
    settings.limits.greatest_lifetime = how / 8 % 2 == 0 ? 3600 : 0;
    settings.limits.ipv4 = more % 32 != 17;
    settings.limits.ipv6 = more % 32 != 18;
    settings.features = more % 4;
    settings.limits.dont_fragment = more / 64 % 2;
    settings.limits.icmp = more % 8 != 5;
    settings.limits.channel_permits = how / 16 % 2;
    settings.limits.old_channels = how / 32 % 2;
    keys[1][0] = &pairs[how / 64 == 2 ? PASSWORD_SHA1 : how / 64 == 3 ? PASSWORD_SHA256 : PASSWORD];
    keys[1][1] = &pairs[LONG_KEY];
    if (more / 4 % 8 == 7) settings.policy = *take_policy(from);
    if (more == 255) settings.reserved = take(from);
    settings.realm = copy_of("realm", 5);
    settings.realm_length = 5;
    settings.software = copy_of("a server", 8);
    settings.software_length = more / 128 * 8u;
    settings.listening = copy_of(&own, sizeof own);
    settings.listening_count = 1;
    model.settings = settings;
    model.realm.bytes = (const uint8_t *)"realm";
    model.realm.length = 5;
    model.secret = &pairs[SECRET].model;
    model.listening = own;
    model.users[0].name.bytes = (const uint8_t *)"user";
    model.users[1].name.bytes = (const uint8_t *)"other";
    for (how = 0; how < MODEL_TURN_USERS; how++) {
        model.users[how].name.length = 4 + how;
        model.users[how].md5 = &keys[how][0]->model;
        model.users[how].sha256 = &keys[how][1]->model;
    }
    server = NEW(stun_types_turn);
    *server = stun_types_turn_none();
    answer = stun_types_turn_new(server, copy_of(&settings, sizeof settings), &pairs[SECRET].key);
    if (settings.reserved == 0 && model_is_policy(&settings.policy)) {
        HOLDS(answer.code == STUN_TYPES_OK && server->at != NULL);
        return true;
    }
    HOLDS(is_same(answer, BAD_ARGUMENT) && server->at == NULL && server->held == 0);
    return false;
}

/* The 5-tuple of a number: a client, one of two addresses of the server, and the transport. */
static stun_types_five_tuple tuple_of(unsigned number) {
    stun_types_five_tuple tuple;
    memset(&tuple, 0, sizeof tuple);
    tuple.client = clients[number % 32 == 31 ? 3 : number % 3];
    tuple.server = own;
    tuple.server.port = (uint16_t)(own.port + number / 32 % 2);
    tuple.stream = number / 64 == 3;
    return tuple;
}

/* The client of most datagrams, and the port of the next socket. */
static unsigned usual;
static uint16_t port;

static void check_event(source *from) {
    unsigned how = take(from), who = take(from), kind = how % 32;
    stun_types_five_tuple tuple = tuple_of(who % 8 < 6 ? usual : take(from));
    if (kind < 22) {
        take_message(from,
                     kind < 11   ? kind % 9
                     : kind < 16 ? 7 + kind % 2
                                 : 2 + kind % 4,
                     &tuple.client);
        if (how == 21) check_arguments(from, &tuple);
        if (how / 32 % 2 == 1) check_flow(from, &tuple);
        check_client(from, &tuple, port);
    } else if (kind == 22) {
        message.length = from->left < 60 ? from->left : 60;
        take_bytes(from, message.bytes, message.length);
        check_client(from, &tuple, port);
    } else if (kind < 25) check_peer(from);
    else if (how == 25) check_fields(from);
    else if (kind == 25) check_icmp(from);
    else if (kind < 29) check_ends(from);
    else if (kind == 29) check_changes(from);
    else take_moment(from);
    check_left();
    port = (uint16_t)(port + 2);
}

/* Gets an allocation for the usual client, a permission, and a channel. */
static void begin_usual(void) {
    static const uint8_t asks[][16] = {
        {0, 0},
        {3, 0, 0, 1, 0},
        {4, 0, 0, 0, 0},
    };
    size_t i;
    for (i = 0; i < COUNT(asks); i++) {
        source from;
        from.bytes = asks[i];
        from.left = sizeof asks[i];
        check_event(&from);
    }
}

void check_turn(source *from) {
    size_t first, i;
    unsigned how = take(from);
    now = how / 2 * SECOND;
    port = 50000;
    usual = take(from);
    if (!begin(from)) return;
    first = places_used();
    if (how % 8 != 7) begin_usual();
    for (i = 0; i < EVENTS && from->left > 0; i++) {
        release_places(first);
        check_event(from);
    }
    stun_types_turns_free(server, how % 2);
    stun_types_turn_free(server);
    HOLDS(server->at == NULL && server->held == 0);
}
