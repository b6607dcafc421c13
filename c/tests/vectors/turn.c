/* What a TURN server keeps, and does with requests, data and time: the datagram of each event is
   written here, and signed by its user. */
#include "turn.h"

#include <stdlib.h>
#include <string.h>

/* For how many seconds a nonce is valid: no row is about that. */
static const uint64_t EVER = UINT64_MAX;

static turn_message message;

/* The parts of the next word; and the 5-tuple and the user that it begins with. */
static char *parts;
static size_t tuple, user;

static void call_asker(void) {
    parts = call_word();
    tuple = turn_tuple_of(next_part(&parts, ':'));
    user = turn_user_of(next_part(&parts, ':'));
    if (user == TURN_USERS) answer_unknown();
    user %= TURN_USERS;
}

/* The next part, or this one if there is none. */
static const char *part_or(const char *absent) {
    const char *part = next_part(&parts, ':');
    return part == NULL ? absent : part;
}

static void begin(const turn_row *it, stun_types_method method) {
    turn_begin(&message, STUN_TYPES_CLASS_REQUEST, method, 2000000000 + it->requests);
}

/* ---- what a response says */

/* The number of a response's LIFETIME. */
static uint32_t lifetime_of(slice response) {
    slice value = {NULL, 0};
    CHECK(turn_find(response.bytes, response.length, STUN_TYPES_ATTRIBUTE_LIFETIME, &value));
    return turn_number(value);
}

/* Appends what a success response to an Allocate request says, and keeps whose the allocation is. */
static void answer_allocated(turn_row *it, slice response) {
    const size_t ipv4 = turn_relayed(it, response, 4), ipv6 = turn_relayed(it, response, 6);
    stun_types_address mapped =
        turn_address(response.bytes, response.length, STUN_TYPES_ATTRIBUTE_XOR_MAPPED_ADDRESS);
    uint16_t family;
    CHECK(turn_is_same_address(&mapped, &it->from->client));
    CHECK(ipv4 != 0 || ipv6 != 0);
    it->owners[tuple] = user;
    it->families[tuple] = ipv4 != 0 ? 4 : 6;
    it->filled_at[tuple] = 0;
    answer_text("allocated:%zu", ipv4 != 0 ? ipv4 : ipv6);
    if (ipv4 != 0 && ipv6 != 0) answer_text(",%zu", ipv6);
    answer_text(":%lu", (unsigned long)lifetime_of(response));
    for (family = 4; family <= 6; family += 2) {
        const unsigned code = turn_missing(response, family);
        if (code != 0) answer_text(":%u-%u", (unsigned)family, code);
    }
}

static void answer_success(turn_row *it, slice response) {
    const uint16_t method = header_of(response).method;
    CHECK((it->action->ipv4.took == 0 && it->action->ipv6.took == 0) || method == STUN_TYPES_METHOD_ALLOCATE);
    switch (method) {
    case STUN_TYPES_METHOD_ALLOCATE: answer_allocated(it, response); break;
    case STUN_TYPES_METHOD_REFRESH:
        answer_text("refreshed:%lu", (unsigned long)lifetime_of(response));
        break;
    case STUN_TYPES_METHOD_CREATE_PERMISSION: answer_text("permitted"); break;
    case STUN_TYPES_METHOD_CHANNEL_BIND: answer_text("bound"); break;
    default: answer_text("!!a success response");
    }
}

/* Checks the signed response to the request, alice's by MD5 and bob's by SHA-256. */
static void check_response(const turn_row *it) {
    const slice response = turn_response(it);
    const stun_types_header request = header_of(given(message.bytes, 20));
    const stun_types_header header = header_of(response);
    const turn_user *who = &it->users[user];
    stun_types_validated validated;
    CHECK(it->action->kind == STUN_TYPES_TURN_RESPONSE && is_response_to(&request, &header));
    CHECK(it->action->code == turn_code(response));
    CHECK((it->action->ipv4.took == 0 && it->action->ipv6.took == 0) || it->action->code == 0);
    ANSWERS(stun_types_validate(response.bytes, response.length,
                                user == 0 ? &who->md5 : &who->sha256, &validated),
            OK_ANSWER);
    CHECK(validated.algorithm
          == (user == 0 ? STUN_TYPES_INTEGRITY_SHA1 : STUN_TYPES_INTEGRITY_SHA256));
}

/* ---- requests */

/* Signs the request and sends it: alice's key is that by MD5, and bob's by SHA-256. */
static bool ask(turn_row *it, bool has_sockets) {
    const turn_nonce nonce = turn_nonce_now(it, tuple);
    it->requests++;
    turn_sign(&message, &it->users[user],
              user == 0 ? STUN_TYPES_PASSWORD_MD5 : STUN_TYPES_PASSWORD_SHA256, &nonce);
    if (!turn_ask(it, tuple, given(message.bytes, message.length), user, has_sockets)) return false;
    check_response(it);
    return true;
}

/* The same, and appends what the response says. */
static bool request(turn_row *it, bool has_sockets) {
    if (!ask(it, has_sockets)) return false;
    if (it->action->code != 0) answer_text("%lu", (unsigned long)it->action->code);
    else answer_success(it, turn_response(it));
    return true;
}

/* Adds a LIFETIME of so many seconds, or none for `-`. */
static void add_lifetime(const char *seconds) {
    if (strcmp(seconds, "-") != 0)
        turn_add_u32(&message, STUN_TYPES_ATTRIBUTE_LIFETIME, (uint32_t)strtoul(seconds, NULL, 10));
}

static void add_family(uint8_t number) {
    turn_add_first(&message, STUN_TYPES_ATTRIBUTE_REQUESTED_ADDRESS_FAMILY, number);
}

/* Adds what makes an Allocate request unfit by a code; that 508 is, no socket is ready. */
static void add_wish(const char *wish) {
    const unsigned long code = strtoul(wish, NULL, 10);
    uint8_t transport = code == STUN_TYPES_CODE_UNSUPPORTED_TRANSPORT_PROTOCOL ? 6 : 17;
    turn_add_first(&message, STUN_TYPES_ATTRIBUTE_REQUESTED_TRANSPORT, transport);
    if (code == 6) add_family(2);
    if (code == 46) turn_add_first(&message, STUN_TYPES_ATTRIBUTE_ADDITIONAL_ADDRESS_FAMILY, 2);
    if (code == STUN_TYPES_CODE_BAD_REQUEST) {
        add_family(1);
        turn_add_first(&message, STUN_TYPES_ATTRIBUTE_ADDITIONAL_ADDRESS_FAMILY, 2);
    }
    if (code == STUN_TYPES_CODE_ADDRESS_FAMILY_NOT_SUPPORTED) add_family(3);
}

static bool allocate(turn_row *it) {
    const char *wish;
    call_asker();
    turn_begin(&message, STUN_TYPES_CLASS_REQUEST, STUN_TYPES_METHOD_ALLOCATE,
               strtoull(part_or(""), NULL, 10));
    add_lifetime(part_or("-"));
    wish = part_or("4");
    add_wish(wish);
    return request(it, strcmp(wish, "508") != 0);
}

static bool refresh(turn_row *it) {
    const char *family;
    call_asker();
    begin(it, STUN_TYPES_METHOD_REFRESH);
    add_lifetime(part_or("-"));
    family = part_or("-");
    if (strcmp(family, "-") != 0) add_family(strcmp(family, "4") == 0 ? 1 : 2);
    return request(it, true);
}

static bool permit(turn_row *it) {
    char *peers, *peer;
    call_asker();
    begin(it, STUN_TYPES_METHOD_CREATE_PERMISSION);
    peers = call_word();
    while ((peer = next_part(&peers, ',')) != NULL) {
        const stun_types_address address = turn_endpoint(peer);
        turn_add_peer(&message, &address);
    }
    return request(it, true);
}

static bool bind_channel(turn_row *it) {
    stun_types_address peer;
    call_asker();
    begin(it, STUN_TYPES_METHOD_CHANNEL_BIND);
    turn_add_channel(&message, (uint16_t)strtoul(part_or(""), NULL, 16));
    peer = turn_endpoint(call_word());
    turn_add_peer(&message, &peer);
    return request(it, true);
}

/* (by a LIFETIME of three octets, and a request for no peer and no channel) */
static bool unfit(turn_row *it) {
    const char *method;
    call_asker();
    if (strcmp(part_or(""), "400") != 0) answer_unknown();
    method = part_or("");
    if (strcmp(method, "refresh") == 0) {
        begin(it, STUN_TYPES_METHOD_REFRESH);
        turn_add(&message, STUN_TYPES_ATTRIBUTE_LIFETIME, "\0\0\1", 3);
    } else if (strcmp(method, "permit") == 0) begin(it, STUN_TYPES_METHOD_CREATE_PERMISSION);
    else if (strcmp(method, "bind") == 0) begin(it, STUN_TYPES_METHOD_CHANNEL_BIND);
    else answer_unknown();
    return request(it, true);
}

/* ---- data */

/* Sends data to the server, and appends what becomes of it. */
static bool relay(turn_row *it) {
    const slice datagram = given(message.bytes, message.length);
    if (!turn_ask(it, tuple, datagram, TURN_USERS, true)) return false;
    if (it->action->kind == STUN_TYPES_TURN_TO_PEER) answer_to_peer(it, datagram);
    else {
        CHECK(it->action->kind == STUN_TYPES_TURN_NOTHING);
        CHECK(it->action->ipv4.took == 0 && it->action->ipv6.took == 0);
        answer_text("dropped");
    }
    return true;
}

static bool send_data(turn_row *it) {
    stun_types_address peer;
    slice data;
    bool is_whole;
    parts = call_word();
    tuple = turn_tuple_of(next_part(&parts, ':'));
    is_whole = strcmp(part_or(""), "dont-fragment") == 0;
    peer = turn_endpoint(call_word());
    data = call_octets();
    turn_begin(&message, STUN_TYPES_CLASS_INDICATION, STUN_TYPES_METHOD_SEND, 9);
    if (is_whole) turn_add(&message, STUN_TYPES_ATTRIBUTE_DONT_FRAGMENT, "", 0);
    turn_add_peer(&message, &peer);
    turn_add(&message, STUN_TYPES_ATTRIBUTE_DATA, data.bytes, data.length);
    return relay(it);
}

/* (a stream has the padding, and a datagram needs none) */
static bool channel(turn_row *it) {
    uint16_t number;
    parts = call_word();
    tuple = turn_tuple_of(next_part(&parts, ':'));
    number = (uint16_t)strtoul(part_or(""), NULL, 16);
    turn_channel_data(&message, number, call_octets());
    while (turn_tuple(tuple).stream && message.length % 4 != 0) message.bytes[message.length++] = 0;
    return relay(it);
}

static bool arrive(turn_row *it) {
    const turn_arrived arrived = turn_arrive(it);
    const uint8_t *bytes = arrived.octets.bytes;
    slice data;
    if (!arrived.is_sent) answer_text("dropped");
    else if (arrived.delivery.head_length != 4) answer_data(&arrived);
    else {
        data.length = (size_t)(bytes[2] << 8 | bytes[3]);
        data.bytes = bytes + 4;
        CHECK(data.length + 4 + arrived.delivery.padding == arrived.octets.length);
        answer_text("channel:%s:%02x%02x:", turn_name_of(&arrived.delivery.to), bytes[0], bytes[1]);
        answer_octets(data.bytes, data.length);
    }
    return true;
}

/* ---- rows */

static const struct {
    const char *name;
    bool (*does)(turn_row *it);
} known_events[] = {
    {"allocate", allocate}, {"refresh", refresh}, {"permit", permit},
    {"bind", bind_channel}, {"unfit", unfit},     {"send", send_data},
    {"channel", channel},   {"arrive", arrive},
};

/* Appends the word for an event; false if no more events are to follow. */
static bool answer_event(turn_row *it, const char *name) {
    size_t at;
    for (at = 0; at < COUNT(known_events); at++)
        if (strcmp(known_events[at].name, name) == 0) {
            turn_fill(it);
            answer_space();
            if (!known_events[at].does(it)) return false;
            answer_closed(it);
            return true;
        }
    turn_fill(it);
    if (!answer_ends(it, name)) {
        answer_unknown();
        return false;
    }
    answer_closed(it);
    return true;
}

/* How many peers the requests of the events name, and how many of them bind a channel. */
static void expect(turn_row *it) {
    const char *at;
    size_t peers = 0, channels = 0;
    for (at = call_rest(); (at = strstr(at, "permit ")) != NULL; at++) {
        const char *list = strchr(at + 7, ' ');
        for (peers++; list != NULL && list[1] != 0 && list[1] != ' '; list++)
            peers += list[1] == ',';
    }
    for (at = call_rest(); (at = strstr(at, "bind ")) != NULL; at++) channels++;
    turn_expect(it, peers + channels, channels);
}

static void events(void) {
    turn_row row_;
    char *name;
    if (!turn_begin_row(&row_, call_word(), EVER)) return;
    expect(&row_);
    while ((name = call_word()) != NULL) {
        if (strcmp(name, "at") == 0) row_.now = turn_moment(call_word());
        else if (!answer_event(&row_, name)) break;
    }
    turn_end_row(&row_);
}

/* ---- which peers are allowed */

/* Gets an allocation of each family. */
static bool allocate_both(turn_row *it) {
    user = 0;
    for (tuple = 0; tuple <= 1; tuple++) {
        turn_begin(&message, STUN_TYPES_CLASS_REQUEST, STUN_TYPES_METHOD_ALLOCATE, 1);
        add_wish(tuple == 0 ? "4" : "6");
        if (!ask(it, true)) return false;
        CHECK(it->action->code == 0);
    }
    return true;
}

/* Asks for a permission of an address, or for a channel if it has a port. */
static bool answer_peer(turn_row *it, char *word, uint16_t number) {
    const stun_types_address peer = turn_endpoint(word);
    tuple = peer.family == 4 ? 0 : 1;
    begin(it,
          peer.port == 0 ? STUN_TYPES_METHOD_CREATE_PERMISSION : STUN_TYPES_METHOD_CHANNEL_BIND);
    if (peer.port != 0) turn_add_channel(&message, number);
    turn_add_peer(&message, &peer);
    if (!ask(it, true)) return false;
    answer_space();
    if (it->action->code == 0) answer_text("allowed");
    else if (it->action->code == STUN_TYPES_CODE_FORBIDDEN) answer_text("forbidden");
    else answer_text("%lu", (unsigned long)it->action->code);
    return true;
}

static void peers(void) {
    char setup[] = "2:2:3600", *word;
    turn_row row_;
    uint16_t number = 0x4000;
    bool goes_on;
    if (!turn_begin_row(&row_, setup, EVER)) return;
    goes_on = allocate_both(&row_);
    while (goes_on && (word = call_word()) != NULL) goes_on = answer_peer(&row_, word, number++);
    turn_end_row(&row_);
}

const verb verbs_of_turn[] = {
    {"events", events, true}, {"peers", peers, true}, {NULL, NULL, false}};
