/* ICE agents that are asked by events, through their calls in C: the octets of the peer's messages are written
 * here, and those of the agent's read. */
#include <stdio.h>
#include <stdlib.h>
#include <string.h>

#include "../heap.h"
#include "turn.h"
#include "wakes.h"

/* The room for a message, the most requests that a response is waited for, and the most changes of an event. */
enum { ICE_ROOM = 1500, MOST_REQUESTS = 200, MOST_CHANGES = 64, CHANGE_MOST = 100 };

static const char own_fragment[] = "evtj", own_password[] = "VOkJxbRl1RmTxUk/WvJxBt";
static const char peer_fragment[] = "h6vY", peer_password[] = "KPKLPQPlb6g8DVIXiyRPqZ";

/* An address that the agent signals. */
static const stun_types_address signalled = {{198, 51, 100, 254}, 9, 4};

static stun_types_ice *agent;
static stun_types_ice_lite *lite; /* the agent that is asked instead, if there is one */
static stun_types_key own_key, peer_key;
static uint64_t now;
static bool is_met, is_refused;
/* When it wants to be polled, if nothing has come since a poll reported it. */
static bool is_awake;
static uint64_t wakes;

/* The requests that were written and that no response has come to, the newest first: whether a response
   counts, no call reports. */
static struct {
    uint64_t id, sent;
    uint32_t base;
    stun_types_address to;
} requests[MOST_REQUESTS];
static size_t request_count, most_requests;

/* ---- words */

static void answer_endpoint(const stun_types_address *address) {
    answer_octets(address->octets, address->family == 4 ? 4 : 16);
    answer_text(":%u", (unsigned)address->port);
}

static void answer_word(const char *word) {
    answer_space();
    answer_text("%s", word);
}

/* The next part of a word, as a number. */
static uint64_t number_in(char **word) {
    const char *part = next_part(word, ':');
    if (part == NULL) answer_unknown();
    return part == NULL ? 0 : strtoull(part, NULL, 10);
}

/* The next two parts of a word, as an address and its port. */
static stun_types_address endpoint_in(char **word) {
    char joined[64];
    const char *octets = next_part(word, ':'), *port = next_part(word, ':');
    if (octets == NULL || port == NULL) {
        answer_unknown();
        return signalled;
    }
    snprintf(joined, sizeof joined, "%s:%s", octets, port);
    return turn_endpoint(joined);
}

static stun_types_address call_endpoint(void) {
    char *word = call_word();
    return endpoint_in(&word);
}

static const char *role_word(stun_types_ice_role role) {
    CHECK(role == STUN_TYPES_ICE_CONTROLLING || role == STUN_TYPES_ICE_CONTROLLED);
    return role == STUN_TYPES_ICE_CONTROLLING ? "controlling" : "controlled";
}

static const char *progress_word(stun_types_ice_progress progress) {
    static const char *const words[] = {"!!none", "checking", "connected", "failed", "lost"};
    CHECK(progress >= 1 && progress < COUNT(words));
    return words[progress];
}

/* A number, or the priority of a type and a local preference. */
static uint32_t priority_of(const char *word, uint16_t component) {
    static const struct {
        const char *name;
        uint32_t preference;
    } kinds[] = {{"host", 126}, {"prflx", 110}, {"srflx", 100}, {"relay", 0}};
    const char *mark = word == NULL ? NULL : strchr(word, '-');
    size_t at;
    if (word == NULL) answer_unknown();
    if (mark == NULL) return word == NULL ? 0 : (uint32_t)strtoul(word, NULL, 10);
    for (at = 0; at < COUNT(kinds); at++)
        if (strncmp(word, kinds[at].name, (size_t)(mark - word)) == 0)
            return kinds[at].preference << 24 | (uint32_t)strtoul(mark + 1, NULL, 10) << 8
                | (256u - component);
    answer_unknown();
    return 0;
}

/* ---- the agent */

static stun_types_ice_standing standing_of(uint16_t component) {
    stun_types_ice_standing *standing = NEW(stun_types_ice_standing);
    CHECK(stun_types_ice_status(agent, component, standing));
    CHECK(standing->progress == STUN_TYPES_ICE_CONNECTED || is_zero(&standing->path, sizeof standing->path));
    return *standing;
}

/* Lets time pass. */
static void pass(void) {
    stun_types_ice_path *path = NEW(stun_types_ice_path);
    if (!stun_types_ice_route(agent, now, 0, path)) CHECK(is_zero(path, sizeof *path));
}

static void set_option(stun_types_ice_settings *settings, char *option) {
    const char *name = next_part(&option, '-');
    const uint32_t number = option == NULL ? 0 : (uint32_t)strtoul(option, NULL, 10);
    /* (0 is what is recommended) */
    if (number == 0 && strcmp(name, "ta") != 0) answer_unknown();
    if (strcmp(name, "pairs") == 0) settings->pairs = number;
    else if (strcmp(name, "candidates") == 0) settings->candidates = number;
    else if (strcmp(name, "requests") == 0) settings->requests = number;
    else if (strcmp(name, "tries") == 0) settings->tries = number;
    else if (strcmp(name, "ta") == 0) settings->ta = number == 0 ? 1 : number;
    else if (strcmp(name, "rto") == 0) settings->rto = number;
    else if (strcmp(name, "patience") == 0) settings->patience = number;
    else answer_unknown();
}

static stun_types_ice_settings settings_of(char *word) {
    stun_types_ice_settings settings;
    const slice fragment = text(own_fragment), password = text(own_password);
    const char *role = next_part(&word, ':');
    char *option;
    memset(&settings, 0, sizeof settings);
    settings.ufrag = fragment.bytes;
    settings.ufrag_length = fragment.length;
    settings.password = password.bytes;
    settings.password_length = password.length;
    settings.role = role != NULL && strcmp(role, "controlling") == 0 ? STUN_TYPES_ICE_CONTROLLING
                                                                      : STUN_TYPES_ICE_CONTROLLED;
    settings.tiebreaker = number_in(&word);
    while ((option = next_part(&word, ':')) != NULL) set_option(&settings, option);
    keep_secret(password);
    return settings;
}

/* ---- messages of the peer */

static stun_types_id id_of_number(uint64_t number) {
    char digits[17];
    snprintf(digits, sizeof digits, "%llx", (unsigned long long)number);
    return id_of(digits);
}

static void add(turn_message *message, uint16_t type, const void *value, size_t length) {
    turn_add(message, type, value, length);
}

static void add_u64(turn_message *message, uint16_t type, uint64_t number) {
    uint8_t value[8];
    size_t at;
    for (at = 0; at < 8; at++) value[at] = (uint8_t)(number >> (56 - 8 * at));
    add(message, type, value, 8);
}

/* Signs a message, and ends it. */
static void end_message(turn_message *message, const stun_types_key *key) {
    if (key != NULL)
        ANSWERS(stun_types_add_integrity(message->bytes, sizeof message->bytes, &message->length, key,
                                         STUN_TYPES_INTEGRITY_SHA1),
                OK_ANSWER);
    ANSWERS(stun_types_add_fingerprint(message->bytes, sizeof message->bytes, &message->length), OK_ANSWER);
}

/* Passes a datagram to the agent; its response is in *out. */
static stun_types_ice_received take(uint64_t random, uint32_t base, const stun_types_address *from,
                                    slice datagram, uint8_t **out) {
    const slice from_given = given(from, sizeof *from);
    stun_types_ice_received *received = NEW(stun_types_ice_received);
    *out = room(ICE_ROOM);
    is_awake = false;
    if (lite != NULL)
        ANSWERS(stun_types_ice_lite_datagram(lite, now, base, (const void *)from_given.bytes, datagram.bytes,
                                             datagram.length, *out, ICE_ROOM, received),
                OK_ANSWER);
    else
        ANSWERS(stun_types_ice_datagram(agent, now, base, (const void *)from_given.bytes, datagram.bytes,
                                        datagram.length, random, *out, ICE_ROOM, received),
                OK_ANSWER);
    CHECK(received->reserved == 0 && received->length <= ICE_ROOM);
    CHECK((received->length != 0) == (received->kind == STUN_TYPES_ICE_RESPONSE));
    CHECK(received->kind == STUN_TYPES_ICE_DATA || received->component == 0);
    CHECK(is_untouched(*out + received->length, ICE_ROOM - received->length));
    return *received;
}

/* Appends the word for a response to a message of the peer. A success names where that came from. */
static void answer_response(const stun_types_ice_received *received, const uint8_t *out, uint64_t id,
                            const stun_types_address *source) {
    const slice response = given(out, received->length);
    const stun_types_id wanted = id_of_number(id);
    stun_types_header header;
    stun_types_validated validated;
    stun_types_address mapped;
    slice value;
    if (received->kind != STUN_TYPES_ICE_RESPONSE) {
        answer_word("dropped");
        return;
    }
    header = header_of(response);
    CHECK(memcmp(header.id.bytes, wanted.bytes, sizeof wanted.bytes) == 0);
    if (source != NULL)
        ANSWERS(stun_types_validate(response.bytes, response.length, &own_key, &validated), OK_ANSWER);
    if (header.message_class == STUN_TYPES_CLASS_SUCCESS) {
        mapped = turn_address(response.bytes, response.length, STUN_TYPES_ATTRIBUTE_XOR_MAPPED_ADDRESS);
        CHECK(source != NULL && turn_is_same_address(&mapped, source));
        answer_word("ok");
        return;
    }
    CHECK(find_value(response, STUN_TYPES_ATTRIBUTE_ERROR_CODE, &value) && value.length >= 4);
    answer_space();
    answer_text("%u", (unsigned)(value.bytes[2] * 100 + value.bytes[3]));
}

/* ---- events */

static void answer_added(stun_types_answer answer, size_t before) {
    answer_space();
    if (answer.code == STUN_TYPES_FULL) answer_text("full");
    else if (answer.code == STUN_TYPES_EXISTS) answer_text("in-use");
    else if (is_taken(answer)) answer_text("paired:%zu", standing_of(0).pairs - before);
}

static void add_base(void) {
    char *word = call_word();
    const size_t before = standing_of(0).pairs;
    stun_types_ice_base base;
    const char *more;
    slice base_given;
    memset(&base, 0, sizeof base);
    base.number = (uint32_t)number_in(&word);
    base.component = (uint16_t)number_in(&word);
    base.family = (uint16_t)number_in(&word);
    base.foundation = (uint32_t)number_in(&word);
    base.priority = priority_of(next_part(&word, ':'), base.component);
    base.reflexive_priority = 110u << 24 | (base.priority & 0xFFFFFF);
    more = next_part(&word, ':');
    base.link_local = more != NULL && strcmp(more, "link-local") == 0;
    base_given = given(&base, sizeof base);
    answer_added(stun_types_ice_add_base(agent, now, (const void *)base_given.bytes), before);
}

static void add_remote(void) {
    char *word = call_word();
    const size_t before = standing_of(0).pairs;
    stun_types_ice_remote remote;
    slice remote_given;
    memset(&remote, 0, sizeof remote);
    remote.address = endpoint_in(&word);
    remote.component = (uint16_t)number_in(&word);
    remote.foundation = (uint32_t)number_in(&word);
    remote.priority = priority_of(next_part(&word, ':'), remote.component);
    remote_given = given(&remote, sizeof remote);
    answer_added(stun_types_ice_add_remote(agent, now, (const void *)remote_given.bytes), before);
}

static void add_own(void) {
    const stun_types_address address = call_endpoint();
    const slice address_given = given(&address, sizeof address);
    const stun_types_answer answer = stun_types_ice_add_address(agent, (const void *)address_given.bytes);
    answer_space();
    if (answer.code == STUN_TYPES_FULL) answer_text("full");
    else if (answer.code == STUN_TYPES_EXISTS) answer_text("in-use");
    else if (is_taken(answer)) answer_text("added");
}

static void meet(void) {
    const slice fragment = text(peer_fragment), password = text(peer_password);
    const stun_types_answer answer =
        stun_types_ice_set_peer(agent, now, fragment.bytes, fragment.length, password.bytes, password.length);
    if (answer.code == STUN_TYPES_EXISTS) CHECK(is_met);
    else if (is_taken(answer)) is_met = true;
    else is_refused = true;
}

static void check(void) {
    const uint32_t base = (uint32_t)call_count();
    const stun_types_address from = call_endpoint();
    char *word = call_word(), name[16];
    const uint64_t id = number_in(&word);
    const char *role = next_part(&word, ':');
    const uint64_t tiebreaker = number_in(&word);
    const uint32_t priority = (uint32_t)number_in(&word);
    const bool nominates = word != NULL;
    const bool controls = role != NULL && strcmp(role, "controlling") == 0;
    turn_message message;
    stun_types_ice_received received;
    uint8_t *out;
    snprintf(name, sizeof name, "%s:%s", own_fragment, peer_fragment);
    turn_begin(&message, STUN_TYPES_CLASS_REQUEST, STUN_TYPES_METHOD_BINDING, id);
    add(&message, STUN_TYPES_ATTRIBUTE_USERNAME, name, strlen(name));
    turn_add_u32(&message, STUN_TYPES_ATTRIBUTE_PRIORITY, priority);
    add_u64(&message, controls ? STUN_TYPES_ATTRIBUTE_ICE_CONTROLLING : STUN_TYPES_ATTRIBUTE_ICE_CONTROLLED,
            tiebreaker);
    if (nominates) add(&message, STUN_TYPES_ATTRIBUTE_USE_CANDIDATE, "", 0);
    end_message(&message, &own_key);
    received = take(0, base, &from, given(message.bytes, message.length), &out);
    answer_response(&received, out, id, &from);
}

/* Whether a response counts: it comes to the base and from the address of a request, less than 30 seconds
   after it. */
static bool counts(uint64_t id, uint32_t base, const stun_types_address *from) {
    size_t at;
    bool is_same;
    for (at = 0; at < request_count && requests[at].id != id; at++) {}
    if (at == request_count) return false;
    is_same = now < requests[at].sent + 30 * (uint64_t)1000000000 && requests[at].base == base
        && turn_is_same_address(&requests[at].to, from);
    memmove(requests + at, requests + at + 1, (request_count - at - 1) * sizeof *requests);
    request_count--;
    return is_same;
}

static void respond(void) {
    const uint32_t base = (uint32_t)call_count();
    const stun_types_address from = call_endpoint();
    char *word = call_word();
    const uint64_t id = number_in(&word);
    const char *said = next_part(&word, ':');
    stun_types_address mapped = signalled;
    uint64_t random = 0;
    bool is_counted;
    turn_message message;
    stun_types_ice_received received;
    uint8_t *out;
    if (said == NULL || !is_met) {
        answer_unknown();
        return;
    }
    if (strcmp(said, "ok") == 0) {
        turn_begin(&message, STUN_TYPES_CLASS_SUCCESS, STUN_TYPES_METHOD_BINDING, id);
        /* (a signalled address isn't reported) */
        if (word != NULL) mapped = endpoint_in(&word);
        else (void)!stun_types_ice_add_address(agent, &signalled).code;
        ANSWERS(stun_types_add_xor_address(message.bytes, sizeof message.bytes, &message.length,
                                           STUN_TYPES_ATTRIBUTE_XOR_MAPPED_ADDRESS, &mapped),
                OK_ANSWER);
    } else {
        const uint16_t code = (uint16_t)strtoul(said, NULL, 10);
        const uint8_t value[4] = {0, 0, (uint8_t)(code / 100), (uint8_t)(code % 100)};
        if (word != NULL) random = number_in(&word);
        turn_begin(&message, STUN_TYPES_CLASS_ERROR, STUN_TYPES_METHOD_BINDING, id);
        add(&message, STUN_TYPES_ATTRIBUTE_ERROR_CODE, value, sizeof value);
    }
    end_message(&message, &peer_key);
    is_counted = counts(id, base, &from);
    received = take(random, base, &from, given(message.bytes, message.length), &out);
    CHECK(received.kind == STUN_TYPES_ICE_NOTHING);
    answer_word(is_counted ? "counted" : "ignored");
}

/* A message that isn't authentic: a request that a response of a code may come to, or an indication. */
static void stray(void) {
    const uint32_t base = (uint32_t)call_count();
    const stun_types_address from = call_endpoint();
    char *word = call_word();
    const size_t size = (size_t)number_in(&word);
    const unsigned code = word == NULL || strcmp(word, "-") == 0 ? 0 : (unsigned)strtoul(word, NULL, 10);
    const size_t least = code == 401 ? 68 : 28;
    static const uint8_t filling[ICE_ROOM];
    turn_message message;
    stun_types_ice_received received;
    uint8_t *out;
    if ((code != 0 && code != 400 && code != 401) || size < least || size % 4 != 0 || size > ICE_ROOM) {
        answer_unknown();
        return;
    }
    turn_begin(&message, code == 0 ? STUN_TYPES_CLASS_INDICATION : STUN_TYPES_CLASS_REQUEST,
               STUN_TYPES_METHOD_BINDING, 77);
    if (code == 401) add(&message, STUN_TYPES_ATTRIBUTE_USERNAME, "else:where", 10);
    if (size > least) add(&message, STUN_TYPES_ATTRIBUTE_SOFTWARE, filling, size - least - 4);
    end_message(&message, code == 401 ? &peer_key : NULL);
    CHECK(message.length == size);
    received = take(0, base, &from, given(message.bytes, message.length), &out);
    answer_response(&received, out, 77, NULL);
}

static void data(void) {
    const uint32_t base = (uint32_t)call_count();
    const stun_types_address from = call_endpoint();
    uint8_t *out;
    const stun_types_ice_received received = take(0, base, &from, text("data"), &out);
    CHECK(received.kind != STUN_TYPES_ICE_RESPONSE);
    answer_space();
    if (received.kind == STUN_TYPES_ICE_DATA) answer_text("data:%u", (unsigned)received.component);
    else answer_text("dropped");
}

static bool find_path(uint16_t component, stun_types_ice_path *path) {
    if (lite != NULL) return stun_types_ice_lite_route(lite, now, component, path);
    return stun_types_ice_route(agent, now, component, path);
}

static void send(void) {
    const uint16_t component = (uint16_t)call_count();
    stun_types_ice_path *path = NEW(stun_types_ice_path);
    is_awake = false;
    if (!find_path(component, path)) {
        CHECK(is_zero(path, sizeof *path));
        answer_word("dropped");
        return;
    }
    answer_space();
    answer_text("to:%u:", (unsigned)path->base);
    answer_endpoint(&path->to);
}

/* Keeps a request that was written, and appends what it is. */
static void answer_request(const stun_types_ice_request *request, const uint8_t *out, uint64_t id) {
    const slice octets = given(out, request->length);
    const stun_types_id wanted = id_of_number(id);
    const stun_types_header header = header_of(octets);
    stun_types_validated validated;
    slice value, name;
    uint64_t tiebreaker = 0;
    size_t at;
    bool controls;
    CHECK(header.message_class == STUN_TYPES_CLASS_REQUEST && header.method == STUN_TYPES_METHOD_BINDING);
    CHECK(memcmp(header.id.bytes, wanted.bytes, sizeof wanted.bytes) == 0);
    ANSWERS(stun_types_validate(octets.bytes, octets.length, &peer_key, &validated), OK_ANSWER);
    CHECK(find_value(octets, STUN_TYPES_ATTRIBUTE_USERNAME, &name) && name.length == 9
          && memcmp(name.bytes, "h6vY:evtj", 9) == 0);
    controls = find_value(octets, STUN_TYPES_ATTRIBUTE_ICE_CONTROLLING, &value);
    if (!controls) CHECK(find_value(octets, STUN_TYPES_ATTRIBUTE_ICE_CONTROLLED, &value));
    CHECK(value.length == 8);
    for (at = 0; at < 8; at++) tiebreaker = tiebreaker << 8 | value.bytes[at];
    CHECK(find_value(octets, STUN_TYPES_ATTRIBUTE_PRIORITY, &value) && value.length == 4);
    answer_space();
    answer_text("ask:%u:", (unsigned)request->base);
    answer_endpoint(&request->to);
    answer_text(":%s:%llu:%lu", controls ? "controlling" : "controlled", (unsigned long long)tiebreaker,
                (unsigned long)turn_number(value));
    if (find_value(octets, STUN_TYPES_ATTRIBUTE_USE_CANDIDATE, &value)) answer_text(":use");
    if (request_count == most_requests) request_count--;
    memmove(requests + 1, requests, request_count * sizeof *requests);
    requests[0].id = id;
    requests[0].sent = now;
    requests[0].base = request->base;
    requests[0].to = request->to;
    request_count++;
}

/* Polls with an ID, and answers what the request is; false if none is due. If memory is refused, it is still due. */
static bool poll_with(uint64_t number) {
    const stun_types_id id = id_of_number(number);
    const slice id_given = given(&id, sizeof id);
    stun_types_ice_request *request = NEW(stun_types_ice_request);
    uint64_t *wake = NEW(uint64_t);
    uint8_t *out = room(ICE_ROOM);
    stun_types_answer answer;
    heap_measure(false);
    answer = stun_types_ice_poll(agent, now, (const void *)id_given.bytes, out, ICE_ROOM, request, wake);
    heap_measure(true);
    if (!is_taken(answer)) {
        CHECK(is_zero(request, sizeof *request) && *wake == now && is_untouched(out, ICE_ROOM));
        is_refused = true;
        return true;
    }
    CHECK(request->length <= ICE_ROOM && is_untouched(out + request->length, ICE_ROOM - request->length));
    is_awake = true;
    wakes = *wake;
    if (request->length != 0) answer_request(request, out, number);
    else CHECK(is_zero(request, sizeof *request));
    return request->length != 0;
}

static void poll(void) {
    if (!poll_with(call_count())) answer_word("idle");
}

/* ---- what the agent is */

static void pair(void) {
    static const char *const states[] = {"!!none", "frozen", "waiting", "in-progress",
                                         "succeeded", "failed", "lost"};
    const uint32_t base = (uint32_t)call_count();
    const stun_types_address remote = call_endpoint();
    stun_types_ice_checked *it = NEW(stun_types_ice_checked);
    uint32_t number;
    for (number = 0; stun_types_ice_pair(agent, number, it); number++)
        if (it->base == base && turn_is_same_address(&it->remote, &remote)) {
            CHECK(it->state >= 1 && it->state < COUNT(states) && it->triggered <= 1 && it->nominated <= 1);
            answer_word(states[it->state]);
            if (it->triggered) answer_text(":triggered");
            if (it->nominated) answer_text(":nominated");
            return;
        }
    CHECK(is_zero(it, sizeof *it) && number == standing_of(0).pairs);
    answer_word("none");
}


static void answer_wake(uint64_t moment) {
    char digits[10];
    size_t length;
    answer_space();
    if (moment == UINT64_MAX) {
        answer_text("wake:never");
        return;
    }
    answer_text("wake:%llu", (unsigned long long)(moment / 1000000000));
    if (moment % 1000000000 == 0) return;
    snprintf(digits, sizeof digits, "%09u", (unsigned)(moment % 1000000000));
    for (length = 9; digits[length - 1] == '0';) length--;
    answer_text(".%.*s", (int)length, digits);
}

/* The moment is now if a poll would write a request. */
static void wake(void) {
    uint64_t moment = wakes;
    if (is_awake || wakes_next(&moment)) {
        answer_wake(moment);
        return;
    }
    moment = poll_with(0) ? now : wakes;
    if (!is_refused) wakes_keep(moment);
}

static char changes[MOST_CHANGES][CHANGE_MOST];
static size_t change_count;

static int compare(const void *one, const void *other) { return strcmp(one, other); }

/* The word for a change. */
static void keep_change(const stun_types_ice_change *it) {
    char *word = changes[change_count++], place[48] = "";
    size_t at, length = 0;
    const size_t octets = it->address.family == 4 ? 4 : 16;
    CHECK(it->reserved == 0);
    for (at = 0; at < octets; at++)
        length += (size_t)snprintf(place + length, sizeof place - length, "%02x", it->address.octets[at]);
    snprintf(place + length, sizeof place - length, ":%u", (unsigned)it->address.port);
    switch (it->kind) {
    case STUN_TYPES_ICE_ROLE:
        CHECK(it->base == 0 && it->progress == 0 && it->component == 0 && it->address.family == 0);
        snprintf(word, CHANGE_MOST, "role:%s", role_word(it->role));
        break;
    case STUN_TYPES_ICE_CONSENT_LOST:
        snprintf(word, CHANGE_MOST, "lost:%u:%u:%s", (unsigned)it->component, (unsigned)it->base, place);
        break;
    case STUN_TYPES_ICE_PROGRESS:
        if (it->progress == STUN_TYPES_ICE_CONNECTED)
            snprintf(word, CHANGE_MOST, "status:%u:connected:%u:%s", (unsigned)it->component,
                     (unsigned)it->base, place);
        else
            snprintf(word, CHANGE_MOST, "status:%u:%s", (unsigned)it->component, progress_word(it->progress));
        break;
    case STUN_TYPES_ICE_SELECTED:
        snprintf(word, CHANGE_MOST, "selected:%u:%u:%s", (unsigned)it->component, (unsigned)it->base, place);
        break;
    case STUN_TYPES_ICE_DISCOVERED:
        CHECK(it->component == 0 && it->progress == 0 && it->role == 0);
        snprintf(word, CHANGE_MOST, "discovered:%u:%s", (unsigned)it->base, place);
        break;
    default: snprintf(word, CHANGE_MOST, "!!a change");
    }
}

static void answer_changes(void) {
    stun_types_ice_change *change = NEW(stun_types_ice_change);
    size_t at;
    change_count = 0;
    while (change_count < MOST_CHANGES && stun_types_ice_changes(agent, change)) keep_change(change);
    CHECK(is_zero(change, sizeof *change));
    qsort(changes, change_count, sizeof *changes, compare);
    answer_word("changes");
    if (change_count == 0) answer_text(":-");
    for (at = 0; at < change_count; at++) answer_text("%c%s", at == 0 ? ':' : ',', changes[at]);
}

static void state(const char *name) {
    pass();
    if (strcmp(name, "pair") == 0) pair();
    else if (strcmp(name, "wake") == 0) wake();
    else if (strcmp(name, "changes") == 0) answer_changes();
    else if (strcmp(name, "pairs") == 0) {
        answer_space();
        answer_text("pairs:%zu", standing_of(0).pairs);
    } else if (strcmp(name, "role") == 0) answer_word(role_word(standing_of(0).role));
    else if (strcmp(name, "status") == 0) {
        const uint16_t component = (uint16_t)call_count();
        answer_space();
        answer_text("status:%s", progress_word(standing_of(component).progress));
    } else answer_unknown();
}

static void event(const char *name) {
    static const struct {
        const char *name;
        void (*does)(void);
    } events[] = {{"base", add_base}, {"remote", add_remote}, {"own", add_own}, {"check", check},
                  {"respond", respond}, {"stray", stray}, {"data", data}, {"send", send}, {"poll", poll}};
    size_t at;
    if (strcmp(name, "at") == 0) {
        char *moment = call_word();
        if (moment == NULL) answer_unknown();
        else now = turn_moment(moment);
        is_awake = false;
        return;
    }
    if (strcmp(name, "peer") == 0 || strcmp(name, "end") == 0) {
        is_awake = false;
        if (*name == 'p') meet();
        else ANSWERS(stun_types_ice_end_candidates(agent, now), OK_ANSWER);
        return;
    }
    for (at = 0; at < COUNT(events); at++)
        if (strcmp(name, events[at].name) == 0) {
            if (at < 3) is_awake = false;
            events[at].does();
            return;
        }
    state(name);
}

/* Keys of both passwords, which are the test's own. */
static void make_keys(void) {
    static const stun_types_key none = STUN_TYPES_KEY_INIT;
    own_key = peer_key = none;
    heap_own(true);
    ANSWERS(stun_types_key_short_term(&own_key, own_password, strlen(own_password)), OK_ANSWER);
    ANSWERS(stun_types_key_short_term(&peer_key, peer_password, strlen(peer_password)), OK_ANSWER);
    heap_own(false);
}

/* Makes an agent of the setup, and lets it have the events. */
static void run_agent(void) {
    static const stun_types_ice none = STUN_TYPES_ICE_INIT;
    const stun_types_ice_settings settings = settings_of(call_word());
    const slice settings_given = given(&settings, sizeof settings);
    stun_types_answer answer;
    char *name;
    agent = (void *)copy(&none, sizeof none);
    now = 0;
    is_met = is_refused = is_awake = false;
    request_count = 0;
    most_requests = settings.requests == 0 || settings.requests > MOST_REQUESTS ? MOST_REQUESTS
                                                                                 : settings.requests;
    make_keys();
    heap_measure(false);
    answer = stun_types_ice_new(agent, (const void *)settings_given.bytes);
    heap_measure(true);
    if (is_taken(answer))
        while (!is_refused && !wakes_has_ended() && (name = call_word()) != NULL) event(name);
    stun_types_ice_free(agent);
    CHECK(is_zero(agent, sizeof *agent));
    stun_types_key_free(&own_key);
    stun_types_key_free(&peer_key);
}

static void answer_agent(void) {
    wakes_run(run_agent);
    answer_or_nothing();
}

/* ---- a lite agent */

enum { MOST_BASES = 8 };

static size_t bases_of(char *word, stun_types_ice_lite_base *bases) {
    size_t count = 0;
    char *part;
    if (word != NULL && strcmp(word, "-") == 0) return 0;
    while (count < MOST_BASES && (part = next_part(&word, ',')) != NULL) {
        bases[count].number = (uint32_t)number_in(&part);
        bases[count++].component = (uint16_t)number_in(&part);
    }
    return count;
}

static void lite_event(const char *name) {
    static const char *const names[] = {"at", "check", "stray", "data", "send"};
    size_t at;
    for (at = 0; at < COUNT(names); at++)
        if (strcmp(name, names[at]) == 0) {
            event(name);
            return;
        }
    answer_unknown();
}

static void answer_lite(void) {
    static const stun_types_ice_lite none = STUN_TYPES_ICE_LITE_INIT;
    const slice fragment = text(own_fragment), password = text(own_password);
    stun_types_ice_lite_base bases[MOST_BASES];
    stun_types_ice_lite_settings settings;
    slice bases_given, settings_given;
    stun_types_answer answer;
    char *name;
    memset(bases, 0, sizeof bases);
    memset(&settings, 0, sizeof settings);
    settings.ufrag = fragment.bytes;
    settings.ufrag_length = fragment.length;
    settings.password = password.bytes;
    settings.password_length = password.length;
    settings.base_count = bases_of(call_word(), bases);
    bases_given = given(bases, settings.base_count * sizeof *bases);
    settings.bases = (const void *)bases_given.bytes;
    settings_given = given(&settings, sizeof settings);
    keep_secret(password);
    lite = (void *)copy(&none, sizeof none);
    now = 0;
    make_keys();
    heap_measure(false);
    answer = stun_types_ice_lite_new(lite, (const void *)settings_given.bytes);
    heap_measure(true);
    if (is_taken(answer))
        while ((name = call_word()) != NULL) lite_event(name);
    answer_or_nothing();
    stun_types_ice_lite_free(lite);
    CHECK(is_zero(lite, sizeof *lite));
    lite = NULL;
    stun_types_key_free(&own_key);
    stun_types_key_free(&peer_key);
}

const verb verbs_of_ice_agents[] = {
    {"agent", answer_agent, true}, {"lite", answer_lite, true}, {NULL, NULL, false}};
