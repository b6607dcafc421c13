/* What the rows of a TURN server share: its setup, 5-tuples, sockets, and the words of data and
   polls. */
#include "turn.h"

#include <stdlib.h>
#include <string.h>

#include "../heap.h"

/* How many permissions and channels an allocation has in C, and in the rows; how many peers and
   channels of the runner's own fill the difference. */
enum { PERMISSIONS = 16, CHANNELS = 16, ROW_PERMISSIONS = 4, ROW_CHANNELS = 3 };
enum { FILL_PEERS = PERMISSIONS - ROW_PERMISSIONS, FILL_CHANNELS = CHANNELS - ROW_CHANNELS };

/* How many sockets that ended are asked for at once. */
enum { ENDED = 2 };

static const struct {
    const char *name;
    stun_types_address client;
    uint8_t server;
    uint16_t stream;
} tuples[TURN_TUPLES] = {
    {"1", {{192, 0, 2, 1}, 5001, 4}, 1, 0},
    {"2", {{192, 0, 2, 1}, 5002, 4}, 1, 0},
    {"3", {{192, 0, 2, 2}, 5001, 4}, 1, 0},
    {"4", {{192, 0, 2, 1}, 5001, 4}, 2, 0},
    {"5", {{192, 0, 2, 1}, 5001, 4}, 1, 1},
    {"6", {{0x20, 1, 0x0D, 0xB8, 0, 0, 0, 0, 0, 0, 0, 0, 0, 0, 0, 6}, 5001, 6}, 1, 0},
    {"7", {{0x20, 2, 0xC0, 0, 2, 1, 0, 0, 0, 0, 0, 0, 0, 0, 0, 7}, 5001, 6}, 1, 0},
    {"8", {{0x20, 1, 0, 0, 0xC0, 0, 2, 1, 0, 0, 0, 0, 0, 0, 0, 8}, 5001, 6}, 1, 0},
};

/* ---- words */

size_t turn_tuple_of(const char *name) {
    size_t at;
    for (at = 0; at < TURN_TUPLES; at++)
        if (name != NULL && strcmp(tuples[at].name, name) == 0) return at;
    answer_unknown();
    return 0;
}

stun_types_five_tuple turn_tuple(size_t number) {
    static const stun_types_address server = {{203, 0, 113, 0}, 3478, 4};
    stun_types_five_tuple tuple;
    memset(&tuple, 0, sizeof tuple);
    tuple.client = tuples[number].client;
    tuple.server = server;
    tuple.server.octets[3] = tuples[number].server;
    tuple.stream = tuples[number].stream;
    return tuple;
}

const char *turn_name_of(const stun_types_five_tuple *tuple) {
    size_t at;
    for (at = 0; at < TURN_TUPLES; at++) {
        stun_types_five_tuple one = turn_tuple(at);
        if (turn_is_same_address(&one.client, &tuple->client)
            && turn_is_same_address(&one.server, &tuple->server) && one.stream == tuple->stream)
            return tuples[at].name;
    }
    fail("a delivery to a 5-tuple that is none of the row's");
    return "?";
}

static const struct {
    const char *name, *password;
} known_users[TURN_USERS] = {{"alice", "wonderland"}, {"bob", "builder"}};

size_t turn_user_of(const char *name) {
    size_t at;
    for (at = 0; at < TURN_USERS; at++)
        if (name != NULL && strcmp(known_users[at].name, name) == 0) return at;
    return TURN_USERS;
}

stun_types_address turn_endpoint(char *word) {
    stun_types_address address;
    slice octets;
    char *digits = next_part(&word, ':');
    memset(&address, 0, sizeof address);
    octets = octets_of(digits == NULL ? "-" : digits);
    if (octets.length != 4 && octets.length != 16) {
        answer_unknown();
        return address;
    }
    memcpy(address.octets, octets.bytes, octets.length);
    address.family = octets.length == 4 ? 4 : 6;
    address.port = word == NULL ? 0 : (uint16_t)strtoul(word, NULL, 10);
    return address;
}

uint64_t turn_moment(char *word) {
    char digits[10] = "000000000", *part = word;
    const char *seconds = next_part(&part, '.');
    size_t length = part == NULL ? 0 : strlen(part);
    if (seconds == NULL || length > 9) {
        answer_unknown();
        return 0;
    }
    if (length != 0) memcpy(digits, part, length);
    return strtoull(seconds, NULL, 10) * 1000000000 + strtoull(digits, NULL, 10);
}

/* ---- the server */

/* The settings of a SETUP, and which sockets there are. */
static stun_types_turn_settings settings_of(turn_row *it, char *word, uint64_t window) {
    stun_types_turn_settings settings;
    uint32_t *const numbers[] = {&settings.limits.relays, &settings.limits.relays_per_user,
                                 &settings.limits.greatest_lifetime};
    size_t at;
    memset(&settings, 0, sizeof settings);
    settings.limits.ipv4 = settings.limits.ipv6 = 1;
    settings.window = window;
    settings.seed[0] = 1;
    settings.seed[1] = 2;
    settings.features =
        STUN_TYPES_FEATURE_PASSWORD_ALGORITHMS | STUN_TYPES_FEATURE_USERNAME_ANONYMITY;
    it->has_ipv4 = it->has_ipv6 = true;
    for (at = 0; at < COUNT(numbers); at++) {
        const char *part = next_part(&word, ':');
        if (part == NULL) answer_unknown();
        *numbers[at] = part == NULL ? 1 : (uint32_t)strtoul(part, NULL, 10);
    }
    while (word != NULL) {
        const char *part = next_part(&word, ':');
        if (strcmp(part, "channel-permits") == 0) settings.limits.channel_permits = 1;
        else if (strcmp(part, "old-channels") == 0) settings.limits.old_channels = 1;
        else if (strcmp(part, "dont-fragment") == 0) settings.limits.dont_fragment = 1;
        else if (strcmp(part, "icmp") == 0) settings.limits.icmp = 1;
        else if (strcmp(part, "ipv4-only") == 0) settings.limits.ipv6 = 0;
        else if (strcmp(part, "ipv6-only") == 0) settings.limits.ipv4 = 0;
        else if (strcmp(part, "no-sockets") == 0) it->has_ipv4 = it->has_ipv6 = false;
        else if (strcmp(part, "no-ipv4-sockets") == 0) it->has_ipv4 = false;
        else if (strcmp(part, "no-ipv6-sockets") == 0) it->has_ipv6 = false;
        else answer_unknown();
    }
    return settings;
}

/* (the table takes more at once than what the call is given) */
static stun_types_answer make_server(turn_row *it, stun_types_turn_settings settings) {
    const stun_types_five_tuple own = turn_tuple(0);
    const slice realm = text(turn_realm), software = text("a server");
    stun_types_answer answer;
    settings.realm = realm.bytes;
    settings.realm_length = realm.length;
    settings.software = software.bytes;
    settings.software_length = software.length;
    settings.listening = (const void *)given(&own.server, sizeof own.server).bytes;
    settings.listening_count = 1;
    heap_measure(false);
    answer = stun_types_turn_new(it->server, (const void *)given(&settings, sizeof settings).bytes,
                                 &it->nonces.secret);
    heap_measure(true);
    return answer;
}

bool turn_begin_row(turn_row *it, char *setup, uint64_t window) {
    static const stun_types_turn none = STUN_TYPES_TURN_INIT;
    stun_types_turn_settings settings;
    stun_types_answer answer;
    size_t at;
    memset(it, 0, sizeof *it);
    settings = settings_of(it, setup, window);
    keep_secret(turn_nonces_make(&it->nonces, settings.features, window));
    for (at = 0; at < TURN_USERS; at++) {
        keep_secret(text(known_users[at].password));
        turn_user_make(&it->users[at], known_users[at].name, known_users[at].password);
    }
    for (at = 0; at < TURN_TUPLES; at++) it->owners[at] = TURN_USERS;
    it->from = NEW(stun_types_five_tuple);
    it->ready = NEW(stun_types_turn_ready);
    it->action = NEW(stun_types_turn_action);
    it->room = room(TURN_ROOM);
    it->head = room(STUN_TYPES_TURN_HEAD);
    it->server = NEW(stun_types_turn);
    *it->server = none;
    answer = make_server(it, settings);
    if (answer.code == STUN_TYPES_OK) return true;
    CHECK(it->server->at == NULL && it->server->held == 0);
    is_taken(answer);
    turn_end_row(it);
    return false;
}

void turn_end_row(turn_row *it) {
    size_t at;
    stun_types_turn_free(it->server);
    CHECK(it->server->at == NULL && it->server->held == 0);
    for (at = 0; at < TURN_USERS; at++) turn_user_free(&it->users[at]);
    turn_nonces_free(&it->nonces);
}

/* ---- sockets */

/* The address of the socket of a family with a number. */
static stun_types_address socket_address(uint16_t family, size_t number) {
    static const stun_types_address ipv4 = {{203, 0, 113, 1}, 50000, 4};
    static const stun_types_address ipv6 = {
        {0x20, 1, 0x0D, 0xB8, 0, 0, 0, 0, 0, 0, 0, 0, 0, 0, 0, 1}, 50000, 6};
    stun_types_address address = family == 4 ? ipv4 : ipv6;
    address.port = (uint16_t)(address.port + 2 * number);
    return address;
}

size_t turn_socket_of(const turn_row *it, const stun_types_address *address) {
    size_t number;
    for (number = it->sockets; number > 0; number--)
        if (turn_is_same_address(&it->addresses[number - 1], address)) return number;
    fail("a relayed address that no socket has");
    return 0;
}

stun_types_turn_ready turn_ready(const turn_row *it, bool are_there) {
    stun_types_turn_ready ready;
    memset(&ready, 0, sizeof ready);
    if (!are_there) return ready;
    if (it->has_ipv4) ready.any_ipv4 = ready.even_ipv4 = socket_address(4, it->sockets + 1);
    if (it->has_ipv6) ready.any_ipv6 = ready.even_ipv6 = socket_address(6, it->sockets + 1);
    return ready;
}

/* Gives the socket that a request took its number, unless it took none. */
static void take_socket(turn_row *it, const stun_types_turn_opened *opened) {
    size_t at;
    CHECK(opened->took <= 1);
    if (opened->took == 0) return;
    if (it->sockets == TURN_SOCKETS) abort();
    CHECK(it->action->kind == STUN_TYPES_TURN_RESPONSE && it->action->code == 0);
    for (at = 0; at < it->sockets; at++) CHECK(it->relays[at] != opened->relay);
    it->addresses[it->sockets] = opened->relayed;
    it->relays[it->sockets++] = opened->relay;
    CHECK(turn_is_same_address(&opened->relayed,
                               opened->relayed.family == 4 ? &it->ready->any_ipv4 : &it->ready->any_ipv6));
}

/* The number of the socket that the server knows by this one. */
static size_t number_of(const turn_row *it, uint64_t relay) {
    size_t at;
    for (at = 0; at < it->sockets; at++)
        if (it->relays[at] == relay) return at + 1;
    fail("a socket that no allocation took");
    return 0;
}

/* Keeps which sockets the last call ended: it says how many. */
static void keep_ended(turn_row *it, size_t count) {
    size_t first = 0, wrote, at;
    do {
        uint64_t *ended = (uint64_t *)(void *)room(ENDED * sizeof *ended);
        wrote = stun_types_turn_ended(it->server, ended, ENDED, first);
        CHECK(wrote == (count - first < ENDED ? count - first : ENDED));
        for (at = 0; at < wrote && at < ENDED; at++) {
            const size_t number = number_of(it, ended[at]);
            CHECK(!it->is_ended[number]);
            it->is_ended[number] = true;
            it->ended++;
        }
        for (; at < ENDED; at++) CHECK(is_untouched(&ended[at], sizeof *ended));
        first += wrote;
    } while (wrote > 0);
    CHECK(first == count);
}

/* ---- calls */

turn_nonce turn_nonce_now(const turn_row *it, size_t tuple) {
    return turn_nonce_at(&it->nonces, it->now / 1000000000, &tuples[tuple].client);
}

bool turn_ask(turn_row *it, size_t tuple, slice datagram, size_t user, bool has_sockets) {
    turn_call call;
    *it->from = turn_tuple(tuple);
    *it->ready = turn_ready(it, has_sockets);
    call.server = it->server;
    call.from = it->from;
    call.ready = it->ready;
    call.room = it->room;
    call.size = TURN_ROOM;
    call.action = it->action;
    if (!is_taken(turn_take(&call, it->now, datagram, user < TURN_USERS ? &it->users[user] : NULL)))
        return false;
    keep_ended(it, it->action->ended);
    take_socket(it, &it->action->ipv4);
    take_socket(it, &it->action->ipv6);
    return true;
}

/* The address of a peer of the runner's own. */
static stun_types_address fill_peer(uint16_t family, size_t number) {
    static const stun_types_address ipv4 = {{192, 0, 2, 200}, 7000, 4};
    static const stun_types_address ipv6 = {
        {0x20, 1, 0x0D, 0xB8, 0xFF, 0xFF, 0, 0, 0, 0, 0, 0, 0, 0, 0, 200}, 7000, 6};
    stun_types_address peer = family == 4 ? ipv4 : ipv6;
    uint8_t *last = &peer.octets[family == 4 ? 3 : 15];
    *last = (uint8_t)(*last + number % FILL_PEERS);
    peer.port = (uint16_t)(peer.port + number);
    return peer;
}

/* Binds a channel to a peer of the runner's own, which permits the peer too. */
static void fill_one(turn_row *it, size_t tuple, size_t number) {
    static turn_message message;
    const turn_nonce nonce = turn_nonce_now(it, tuple);
    const stun_types_address peer = fill_peer(it->families[tuple], number);
    slice datagram;
    turn_begin(&message, STUN_TYPES_CLASS_REQUEST, STUN_TYPES_METHOD_CHANNEL_BIND,
               1000000000 + it->requests++);
    turn_add_channel(&message, (uint16_t)(0x4800 + number));
    turn_add_peer(&message, &peer);
    turn_sign(&message, &it->users[it->owners[tuple]], STUN_TYPES_PASSWORD_MD5, &nonce);
    datagram.bytes = message.bytes;
    datagram.length = message.length;
    heap_own(true);
    CHECK(turn_ask(it, tuple, datagram, it->owners[tuple], true));
    heap_own(false);
    CHECK(it->action->kind == STUN_TYPES_TURN_RESPONSE);
    CHECK(it->action->code == 0 || it->action->code == STUN_TYPES_CODE_ALLOCATION_MISMATCH);
    if (it->action->code != 0) it->owners[tuple] = TURN_USERS;
}

void turn_expect(turn_row *it, size_t peers, size_t channels) {
    it->is_filled = peers > ROW_PERMISSIONS || channels > ROW_CHANNELS;
}

/* (memory is refused in the row's calls alone) */
void turn_fill(turn_row *it) {
    size_t tuple, number;
    for (tuple = 0; tuple < TURN_TUPLES && it->is_filled; tuple++) {
        if (it->filled_at[tuple] == it->now + 1) continue;
        for (number = 0; number < FILL_CHANNELS && it->owners[tuple] < TURN_USERS; number++)
            fill_one(it, tuple, number);
        it->filled_at[tuple] = it->now + 1;
    }
}

/* ---- responses and data */

slice turn_response(const turn_row *it) {
    slice response;
    response.bytes = it->room;
    response.length = it->action->length;
    return response;
}

/* The attributes of a response. */
static size_t attributes_of(slice response, stun_types_attribute *all, size_t most) {
    const size_t count = stun_types_attributes(response.bytes, response.length, all, most);
    CHECK(count <= most);
    return count < most ? count : most;
}

enum { ATTRIBUTES = 32 };

size_t turn_relayed(const turn_row *it, slice response, uint16_t family) {
    stun_types_attribute all[ATTRIBUTES];
    const size_t count = attributes_of(response, all, ATTRIBUTES);
    size_t at, found = 0;
    for (at = 0; at < count; at++) {
        stun_types_address address;
        const stun_types_turn_opened *opened = family == 4 ? &it->action->ipv4 : &it->action->ipv6;
        if (all[at].type != STUN_TYPES_ATTRIBUTE_XOR_RELAYED_ADDRESS) continue;
        ANSWERS(stun_types_read_xor_address(response.bytes, response.length, &all[at], &address), OK_ANSWER);
        if (address.family != family) continue;
        CHECK(found == 0 && (opened->took == 0 || turn_is_same_address(&address, &opened->relayed)));
        found = turn_socket_of(it, &address);
    }
    return found;
}

unsigned turn_missing(slice response, uint16_t family) {
    stun_types_attribute all[ATTRIBUTES];
    const size_t count = attributes_of(response, all, ATTRIBUTES);
    unsigned code = 0;
    size_t at;
    for (at = 0; at < count; at++) {
        const uint8_t *value = response.bytes + all[at].value_at;
        if (all[at].type != STUN_TYPES_ATTRIBUTE_ADDRESS_ERROR_CODE) continue;
        CHECK(all[at].length >= 4 && (value[0] == 1 || value[0] == 2));
        if (all[at].length < 4 || value[0] != (family == 4 ? 1 : 2)) continue;
        CHECK(code == 0);
        code = value[2] * 100u + value[3];
    }
    return code;
}

uint32_t turn_code(slice response) {
    stun_types_attribute attribute;
    uint16_t code = 0;
    size_t at, length;
    if (header_of(response).message_class == STUN_TYPES_CLASS_SUCCESS) return 0;
    if (!stun_types_find(response.bytes, response.length, STUN_TYPES_ATTRIBUTE_ERROR_CODE,
                         &attribute)) {
        fail("an error response without an ERROR-CODE");
        return 0;
    }
    ANSWERS(stun_types_read_error(response.bytes, response.length, &attribute, &code, &at, &length),
            OK_ANSWER);
    return code;
}

/* The most octets of data that a UDP datagram takes to an address. */
static size_t greatest_datagram(const stun_types_address *to) {
    return to->family == 4 ? 65507 : 65527;
}

/* Appends `:ADDRESS:PORT:`. */
static void answer_peer(const stun_types_address *peer) {
    answer_text(":");
    answer_octets(peer->octets, peer->family == 4 ? 4 : 16);
    answer_text(":%u:", (unsigned)peer->port);
}

/* Appends `:ADDRESS:PORT:DATA`. */
static void answer_data_of(const stun_types_address *peer, slice data) {
    answer_peer(peer);
    answer_octets(data.bytes, data.length);
}

void answer_to_peer(const turn_row *it, slice datagram) {
    const stun_types_turn_action *action = it->action;
    slice data;
    CHECK(action->ipv4.took == 0 && action->ipv6.took == 0 && action->code == 0);
    CHECK(action->at <= datagram.length && action->length <= datagram.length - action->at);
    if (action->length > greatest_datagram(&action->peer)) {
        answer_text("dropped");
        return;
    }
    data.bytes = datagram.bytes + action->at;
    data.length = action->length;
    answer_text("to-peer:%zu", number_of(it, action->relay));
    answer_data_of(&action->peer, data);
    if (action->dont_fragment) answer_text(":dont-fragment");
}

/* The octets that go to the client: the end of the head, the data and zeros. */
static slice sent(const turn_row *it, const stun_types_turn_delivery *delivery, slice data) {
    static uint8_t octets[STUN_TYPES_TURN_HEAD + 70000];
    size_t head = delivery->head_length;
    slice all;
    CHECK((head == 4 || head == 36 || head == 48) && delivery->padding < 4);
    CHECK(is_untouched(it->head, STUN_TYPES_TURN_HEAD - head));
    memcpy(octets, it->head + STUN_TYPES_TURN_HEAD - head, head);
    if (data.length != 0) memcpy(octets + head, data.bytes, data.length);
    memset(octets + head + data.length, 0, delivery->padding);
    all.bytes = octets;
    all.length = head + data.length + delivery->padding;
    if (head != 4 || delivery->to.stream) CHECK(all.length % 4 == 0);
    else CHECK(delivery->padding == 0);
    return all;
}

turn_arrived turn_arrive(turn_row *it) {
    const stun_types_id id = turn_id(7);
    uint64_t number = call_count();
    stun_types_address peer = turn_endpoint(call_word());
    slice data = call_octets(), peer_given = given(&peer, sizeof peer),
          id_given = given(&id, sizeof id);
    stun_types_turn_delivery *delivery = NEW(stun_types_turn_delivery);
    turn_arrived arrived;
    uint64_t relay = number >= 1 && number <= it->sockets ? it->relays[number - 1] : UINT64_MAX;
    memset(it->head, FILL, STUN_TYPES_TURN_HEAD);
    ANSWERS(turn_from_peer(it->server, it->now, relay, (const void *)peer_given.bytes, data.length,
                           (const void *)id_given.bytes, it->head, STUN_TYPES_TURN_HEAD, delivery),
            OK_ANSWER);
    keep_ended(it, delivery->ended);
    arrived.delivery = *delivery;
    arrived.is_sent = delivery->sends != 0;
    arrived.octets = data;
    CHECK(delivery->sends <= 1);
    if (arrived.is_sent) arrived.octets = sent(it, delivery, data);
    else CHECK(is_untouched(it->head, STUN_TYPES_TURN_HEAD));
    return arrived;
}

void answer_data(const turn_arrived *arrived) {
    slice octets = arrived->octets, data = {NULL, 0};
    const stun_types_header header = header_of(octets);
    const stun_types_id id = turn_id(7);
    stun_types_address peer;
    ANSWERS(stun_types_parse(octets.bytes, octets.length), OK_ANSWER);
    CHECK(header.message_class == STUN_TYPES_CLASS_INDICATION
          && header.method == STUN_TYPES_METHOD_DATA
          && memcmp(header.id.bytes, id.bytes, sizeof id.bytes) == 0);
    peer = turn_address(octets.bytes, octets.length, STUN_TYPES_ATTRIBUTE_XOR_PEER_ADDRESS);
    CHECK(turn_find(octets.bytes, octets.length, STUN_TYPES_ATTRIBUTE_DATA, &data));
    answer_text("data:%s", turn_name_of(&arrived->delivery.to));
    answer_data_of(&peer, data);
}

/* ---- flows */

void answer_flow(const turn_row *it, char *word) {
    stun_types_five_tuple *client = NEW(stun_types_five_tuple);
    stun_types_flow *flow = NEW(stun_types_flow);
    char *channel = strchr(word, ':');
    if (channel == NULL) {
        answer_unknown();
        return;
    }
    *channel++ = 0;
    *client = turn_tuple(turn_tuple_of(word));
    if (!stun_types_turn_flow(it->server, client, (uint16_t)strtoul(channel, NULL, 16), flow)) {
        CHECK(is_zero(flow, sizeof *flow));
        answer_text("no-flow");
        return;
    }
    answer_text("flow:%zu", number_of(it, flow->relay));
    answer_peer(&flow->peer);
    answer_text("%lu.%09lu", (unsigned long)(flow->expires_at / 1000000000),
                (unsigned long)(flow->expires_at % 1000000000));
}

/* ---- ends */

bool answer_ends(turn_row *it, const char *name) {
    size_t user;
    if (strcmp(name, "poll") == 0) keep_ended(it, stun_types_turn_poll(it->server, it->now));
    else if (strcmp(name, "end") == 0) {
        const uint64_t number = call_count();
        const uint64_t relay = number >= 1 && number <= it->sockets ? it->relays[number - 1] : UINT64_MAX;
        keep_ended(it, stun_types_turn_end(it->server, it->now, relay));
    } else if (strcmp(name, "end-user") == 0) {
        user = turn_user_of(call_word());
        if (user == TURN_USERS) answer_unknown();
        else {
            const slice one = text(known_users[user].name), realm = text(turn_realm);
            stun_types_hash *hash = NEW(stun_types_hash);
            ANSWERS(stun_types_userhash(one.bytes, one.length, realm.bytes, realm.length, hash), OK_ANSWER);
            keep_ended(it, stun_types_turn_end_user(it->server, it->now, hash));
        }
    } else return false;
    if (it->ended == 0) {
        answer_space();
        answer_text("closed:-");
    }
    return true;
}

void answer_closed(turn_row *it) {
    size_t number;
    const char *before = "closed:";
    if (it->ended > 0) answer_space();
    for (number = 1; number <= TURN_SOCKETS && it->ended > 0; number++)
        if (it->is_ended[number]) {
            answer_text("%s%zu", before, number);
            before = ",";
            it->is_ended[number] = false;
            it->ended--;
        }
    CHECK(it->ended == 0);
}
