/* A TURN server that is asked by datagrams, and what its responses say. The server makes its
   nonces: those in the rows' requests are replaced, and what was signed is signed again. */
#include "turn.h"

#include <stdlib.h>
#include <string.h>

/* For how many seconds a nonce is valid. */
enum { WINDOW = 600 };

/* The nonce of the moment in the rows, and the one before. */
static const char FRESH[] = "obMatJos2wAAA1790", STALE[] = "obMatJos2wAAA1789";

static bool is_text(slice octets, const void *letters, size_t length) {
    return octets.length == length && memcmp(octets.bytes, letters, length) == 0;
}

/* ---- requests with the server's nonces */

/* The key that signed a message, of a user; NULL if neither did. */
static const stun_types_key *signer_of(const turn_row *it, slice datagram, size_t user) {
    stun_types_validated validated;
    const stun_types_key *keys[2];
    size_t at;
    if (user >= TURN_USERS) return NULL;
    keys[0] = &it->users[user].md5;
    keys[1] = &it->users[user].sha256;
    for (at = 0; at < 2; at++)
        if (stun_types_validate(datagram.bytes, datagram.length, keys[at], &validated).code
            == STUN_TYPES_OK)
            return keys[at];
    return NULL;
}

/* Appends an attribute as it is, also after those that end a message. */
static void append(turn_message *to, const uint8_t *attribute, size_t length) {
    memcpy(to->bytes + to->length, attribute, length);
    to->length += length;
    to->bytes[2] = (uint8_t)((to->length - 20) >> 8);
    to->bytes[3] = (uint8_t)(to->length - 20);
}

/* Appends an attribute: the server's nonce for NONCE, and what is computed anew for what ends the
   message. */
static void append_new(turn_message *to, const uint8_t *attribute, size_t length,
                       const turn_nonce *nonce, const stun_types_key *signer) {
    const unsigned type = (unsigned)(attribute[0] << 8 | attribute[1]);
    const bool is_hmac = type == STUN_TYPES_ATTRIBUTE_MESSAGE_INTEGRITY
                         || type == STUN_TYPES_ATTRIBUTE_MESSAGE_INTEGRITY_SHA256;
    if (type == STUN_TYPES_ATTRIBUTE_NONCE)
        turn_add(to, STUN_TYPES_ATTRIBUTE_NONCE, nonce->bytes, sizeof nonce->bytes);
    else if (is_hmac && signer != NULL)
        ANSWERS(stun_types_add_integrity(to->bytes, sizeof to->bytes, &to->length, signer,
                                         (stun_types_integrity)type),
                OK_ANSWER);
    else if (type == STUN_TYPES_ATTRIBUTE_FINGERPRINT)
        ANSWERS(stun_types_add_fingerprint(to->bytes, sizeof to->bytes, &to->length), OK_ANSWER);
    else append(to, attribute, length);
}

/* A datagram with the server's nonce instead of that of the rows; a stale one is of a moment to
   come. */
static slice renewed(const turn_row *it, size_t tuple, slice datagram, size_t user) {
    static turn_message made;
    const stun_types_five_tuple from = turn_tuple(tuple);
    const stun_types_key *signer = signer_of(it, datagram, user);
    const uint64_t seconds = it->now / 1000000000;
    turn_nonce nonce;
    slice value;
    size_t at, length;
    if (stun_types_parse(datagram.bytes, datagram.length).code != STUN_TYPES_OK
        || !find_value(datagram, STUN_TYPES_ATTRIBUTE_NONCE, &value))
        return datagram;
    if (is_text(value, FRESH, strlen(FRESH)))
        nonce = turn_nonce_at(&it->nonces, seconds, &from.client);
    else if (is_text(value, STALE, strlen(STALE)))
        nonce = turn_nonce_at(&it->nonces, seconds + 1000, &from.client);
    else return datagram;
    memcpy(made.bytes, datagram.bytes, 20);
    made.length = 20;
    made.bytes[2] = made.bytes[3] = 0;
    for (at = 20; at < datagram.length; at += length) {
        length = 4 + ((size_t)(datagram.bytes[at + 2] << 8 | datagram.bytes[at + 3]) + 3) / 4 * 4;
        append_new(&made, datagram.bytes + at, length, &nonce, signer);
    }
    return given(made.bytes, made.length);
}

/* ---- what a response says */

/* Appends a part, after a colon if it isn't the first. */
static bool has_parts;

static void part(const char *word) {
    answer_text("%s%s", has_parts ? ":" : "", word);
    has_parts = true;
}

/* Appends what a success response to an Allocate or a Refresh request says. */
static void answer_allocation(const turn_row *it, slice response) {
    slice value;
    stun_types_address address;
    uint16_t family;
    if (find_value(response, STUN_TYPES_ATTRIBUTE_LIFETIME, &value)) {
        part("lifetime-");
        answer_text("%lu", (unsigned long)turn_number(value));
    }
    for (family = 4; family <= 6; family += 2) {
        const size_t number = turn_relayed(it, response, family);
        if (number == 0) continue;
        part(family == 4 ? "relayed4-" : "relayed6-");
        answer_text("%zu", number);
    }
    if (find_value(response, STUN_TYPES_ATTRIBUTE_XOR_MAPPED_ADDRESS, &value)) {
        address =
            turn_address(response.bytes, response.length, STUN_TYPES_ATTRIBUTE_XOR_MAPPED_ADDRESS);
        part(turn_is_same_address(&address, &it->from->client) ? "mapped" : "!!disagree mapped");
    }
    for (family = 4; family <= 6; family += 2) {
        const unsigned code = turn_missing(response, family);
        if (code == 0) continue;
        part(family == 4 ? "missing4-" : "missing6-");
        answer_text("%u", code);
    }
}

/* Whether a message shows an attribute with this value. */
static bool has_value(slice message, uint16_t type, const void *bytes, size_t length) {
    slice value;
    return find_value(message, type, &value) && is_text(value, bytes, length);
}

/* Appends what an error response says beside its code. */
static void answer_error(const turn_row *it, slice response) {
    static const uint8_t offered[] = {0, 2, 0, 0, 0, 1, 0, 0};
    const turn_nonce nonce = turn_nonce_at(&it->nonces, it->now / 1000000000, &it->from->client);
    slice value;
    size_t at;
    if (find_value(response, STUN_TYPES_ATTRIBUTE_UNKNOWN_ATTRIBUTES, &value)) {
        part("types");
        CHECK(value.length % 2 == 0);
        for (at = 0; at + 1 < value.length; at += 2)
            answer_text("-%02x%02x", value.bytes[at], value.bytes[at + 1]);
    }
    if (find_value(response, STUN_TYPES_ATTRIBUTE_REALM, &value)
        || find_value(response, STUN_TYPES_ATTRIBUTE_NONCE, &value)
        || find_value(response, STUN_TYPES_ATTRIBUTE_PASSWORD_ALGORITHMS, &value)) {
        bool is_right =
            has_value(response, STUN_TYPES_ATTRIBUTE_REALM, turn_realm, strlen(turn_realm))
            && has_value(response, STUN_TYPES_ATTRIBUTE_NONCE, nonce.bytes, sizeof nonce.bytes)
            && has_value(response, STUN_TYPES_ATTRIBUTE_PASSWORD_ALGORITHMS, offered,
                         sizeof offered);
        part(is_right ? "challenge" : "!!disagree challenge");
    }
}

/* Appends the algorithm of the response's HMAC, by the key of the user whom the request names. */
static void answer_signed(const turn_row *it, slice request, slice response, size_t user) {
    stun_types_validated validated;
    slice value;
    bool is_sha256 = find_value(request, STUN_TYPES_ATTRIBUTE_PASSWORD_ALGORITHM, &value)
                     && value.length >= 2 && value.bytes[1] == STUN_TYPES_PASSWORD_SHA256;
    if (!find_value(response, STUN_TYPES_ATTRIBUTE_MESSAGE_INTEGRITY, &value)
        && !find_value(response, STUN_TYPES_ATTRIBUTE_MESSAGE_INTEGRITY_SHA256, &value)) {
        part("unsigned");
        return;
    }
    part("");
    if (user >= TURN_USERS
        || stun_types_validate(response.bytes, response.length,
                               is_sha256 ? &it->users[user].sha256 : &it->users[user].md5,
                               &validated)
                   .code
               != STUN_TYPES_OK)
        answer_text("!!disagree key");
    else answer_algorithm(validated.algorithm);
}

/* Appends the word for a response to a request. */
static void answer_response(const turn_row *it, slice datagram, size_t user) {
    const slice response = turn_response(it);
    const stun_types_header request = header_of(datagram), header = header_of(response);
    const uint32_t code = turn_code(response);
    slice value;
    ANSWERS(stun_types_parse(response.bytes, response.length), OK_ANSWER);
    CHECK(is_response_to(&request, &header) && code == it->action->code);
    has_parts = false;
    part(code == 0 ? "ok" : "");
    if (code != 0) answer_text("%lu", (unsigned long)code);
    answer_allocation(it, response);
    answer_error(it, response);
    answer_signed(it, datagram, response, user);
    if (find_value(response, STUN_TYPES_ATTRIBUTE_FINGERPRINT, &value)) part("fingerprint");
}

/* ---- events */

/* Keeps whose the allocation of a tuple is from now on, if the response says so. */
static void keep_owner(turn_row *it, size_t tuple, size_t user) {
    const slice response = turn_response(it);
    if (header_of(response).method != STUN_TYPES_METHOD_ALLOCATE || it->action->code != 0) return;
    it->owners[tuple] = user;
    it->families[tuple] =
        turn_address(response.bytes, response.length, STUN_TYPES_ATTRIBUTE_XOR_RELAYED_ADDRESS)
            .family;
    it->filled_at[tuple] = 0;
}

static bool from_client(turn_row *it) {
    const size_t tuple = turn_tuple_of(call_word());
    slice datagram = call_octets();
    const size_t user = user_of(datagram);
    datagram = renewed(it, tuple, datagram, user);
    if (!turn_ask(it, tuple, datagram, user, true)) return false;
    switch (it->action->kind) {
    case STUN_TYPES_TURN_NOTHING: answer_text("dropped"); break;
    case STUN_TYPES_TURN_TO_PEER: answer_to_peer(it, datagram); break;
    case STUN_TYPES_TURN_RESPONSE:
        answer_response(it, datagram, user);
        keep_owner(it, tuple, user);
        break;
    default: answer_text("!!kind %u", (unsigned)it->action->kind);
    }
    return true;
}

static void from_peer(turn_row *it) {
    const turn_arrived arrived = turn_arrive(it);
    if (!arrived.is_sent) answer_text("dropped");
    else if (arrived.delivery.head_length != 4) answer_data(&arrived);
    else {
        answer_text("channel-data:%s:", turn_name_of(&arrived.delivery.to));
        answer_octets(arrived.octets.bytes, arrived.octets.length);
    }
}

/* How many peers the requests of the events name, and how many of them bind a channel, by their
   octets in hexadecimal. */
static void expect(turn_row *it) {
    const char *at;
    size_t peers = 0, channels = 0;
    for (at = call_rest(); (at = strstr(at, "001200")) != NULL; at++) peers++;
    for (at = call_rest(); (at = strstr(at, " 0009")) != NULL; at++) channels++;
    turn_expect(it, peers, channels);
}

/* Appends the word for an event; false if no more events are to follow. */
static bool answer_event(turn_row *it, const char *name) {
    if (strcmp(name, "flow") == 0) { /* (no call with a time) */
        answer_space();
        answer_flow(it, call_word());
        return true;
    }
    turn_fill(it);
    if (strcmp(name, "from") == 0) {
        answer_space();
        if (!from_client(it)) return false;
    } else if (strcmp(name, "arrive") == 0) {
        answer_space();
        from_peer(it);
    } else if (!answer_ends(it, name)) answer_unknown();
    answer_closed(it);
    return true;
}

static void datagrams(void) {
    turn_row row_;
    char *name;
    if (!turn_begin_row(&row_, call_word(), WINDOW)) return;
    expect(&row_);
    while ((name = call_word()) != NULL) {
        if (strcmp(name, "at") == 0) row_.now = turn_moment(call_word());
        else if (!answer_event(&row_, name)) break;
    }
    turn_end_row(&row_);
}

const verb verbs_of_turn_datagrams[] = {
    {"datagrams", datagrams, true}, {"flows", datagrams, true}, {NULL, NULL, false}};
