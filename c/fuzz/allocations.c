/* TURN clients: what they are made by, and calls in any order, of which each keeps what it promises. */
#include <string.h>

#include "fuzz.h"

enum { ROOM_MOST = 2500, STEPS = 24 };

/* Whether the numbers of settings are in their ranges. */
static bool are_numbers(const stun_types_allocation_settings *it) {
    const bool is_token = it->port == STUN_TYPES_ALLOCATION_PORT_RESERVED;
    return it->port <= 3 && (is_token || it->token == 0) && (it->server.family == 4 || it->server.family == 6)
        && (it->transport == STUN_TYPES_UDP || it->transport == STUN_TYPES_TCP) && it->peers <= 4096
        && it->named <= 16 && it->sends <= 255 && it->retries <= 255 && it->algorithm <= 2
        && (it->family == 0 || it->family == 4 || it->family == 6);
}

/* What the making of a client answers. */
static stun_types_answer making(const stun_types_allocation_settings *it) {
    stun_types_answer answer = FINE;
    if (!are_numbers(it) || it->password_length == 0) return BAD_ARGUMENT;
    if (it->user_length > 508) {
        answer.code = STUN_TYPES_TOO_LARGE;
        answer.expected = 508;
        answer.actual = it->user_length;
    } else if (!model_is_utf8(it->user, it->user_length) || !model_is_utf8(it->password, it->password_length)
               || !model_is_utf8(it->software, it->software_length)) {
        answer.code = STUN_TYPES_INVALID_DATA;
    }
    return answer;
}

static stun_types_allocation_settings *take_settings(source *from) {
    stun_types_allocation_settings *it = NEW(stun_types_allocation_settings);
    const model_text user = take_text(from, "George"), password = take_text(from, "secret"),
                     software = take_text(from, "a client");
    memset(it, 0, sizeof *it);
    it->server = *take_address(from);
    it->transport = (stun_types_transport)take_below(from, 4, 16);
    it->user = user.bytes;
    it->user_length = user.length;
    it->password = password.bytes;
    it->password_length = password.length;
    it->software = software.bytes;
    it->software_length = software.length;
    it->lifetime = take_below(from, 4000, 8);
    it->peers = take_below(from, 8, 16);
    it->rto = take_below(from, 1000, 8);
    it->last_wait = take_below(from, 1000, 8);
    it->sends = take_below(from, 8, 16);
    it->retries = take_below(from, 8, 16);
    it->algorithm = take_below(from, 4, 16);
    it->family = (uint16_t)(take(from) % 8);
    it->fingerprint = (uint16_t)(take(from) % 2);
    it->named = take_below(from, 18, 16);
    it->port = (uint16_t)(take(from) % 5);
    it->dont_fragment = (uint16_t)(take(from) % 2);
    it->token = it->port == 3 || take(from) == 0 ? take(from) : 0;
    return it;
}

/* ---- the calls */

typedef struct {
    stun_types_allocation *client;
    const stun_types_allocation_settings *settings;
    source *from;
    uint64_t now;
    stun_types_id id;
    bool is_over;
} session;

static void check_want(session *it) {
    const unsigned wish = take(it->from) % 7;
    const stun_types_address *peer = take_address(it->from);
    const bool drops = wish == STUN_TYPES_ALLOCATION_DROP;
    const bool names = wish == STUN_TYPES_ALLOCATION_PERMIT || wish == STUN_TYPES_ALLOCATION_BIND;
    const bool is_family = peer->family == 4 || peer->family == 6;
    const unsigned family = it->settings->family == 6 ? 6 : 4;
    const stun_types_answer answer
        = stun_types_allocation_want(it->client, it->now, (stun_types_allocation_wish)wish, peer);
    if (wish < 1 || wish > 5 || ((names || drops) && !is_family)) HOLDS(is_same(answer, BAD_ARGUMENT));
    else if (names && peer->family != family) HOLDS(answer.code == STUN_TYPES_OTHER_FAMILY);
    else HOLDS(answer.code == STUN_TYPES_OK || (names && answer.code == STUN_TYPES_FULL));
}

static void check_datagram(session *it) {
    const size_t length = it->from->left < 100 ? it->from->left : take(it->from);
    const uint8_t *bytes = copy_of(it->from->bytes, length < it->from->left ? length : it->from->left);
    const size_t given = length < it->from->left ? length : it->from->left;
    const bool is_server = take(it->from) % 4 != 0;
    const stun_types_address *from = is_server ? &it->settings->server : take_address(it->from);
    stun_types_allocation_data *data = NEW(stun_types_allocation_data);
    const stun_types_answer answer
        = stun_types_allocation_datagram(it->client, it->now, from, bytes, given, data);
    HOLDS(is_same(answer, from->family == 4 || from->family == 6 ? FINE : BAD_ARGUMENT));
    HOLDS(data->shown <= 3 && data->at <= given && data->length <= given - data->at && data->reserved == 0);
    if (data->shown != STUN_TYPES_ALLOCATION_DATA) HOLDS(data->at == 0 && data->length == 0);
    if (data->shown != STUN_TYPES_ALLOCATION_TOKEN) HOLDS(data->token == 0);
    if (data->shown != STUN_TYPES_ALLOCATION_ICMP)
        HOLDS(data->icmp_type == 0 && data->icmp_code == 0 && data->icmp_data == 0);
    HOLDS((data->peer.family != 0) == (data->shown == 1 || data->shown == 2));
}

static void check_poll(session *it) {
    const size_t size = take(it->from) % 8 == 0 ? take(it->from) : ROOM_MOST;
    uint8_t *out = place(size);
    size_t *length = NEW(size_t);
    uint64_t *wake = NEW(uint64_t);
    stun_types_answer answer;
    it->id.bytes[11]++;
    answer = stun_types_allocation_poll(it->client, it->now, copy_of(&it->id, sizeof it->id), out, size, length,
                                        wake);
    HOLDS(answer.code == STUN_TYPES_OK
          || (answer.code == STUN_TYPES_TOO_SMALL && answer.actual == size && answer.expected > size));
    HOLDS(*length <= size && (answer.code == STUN_TYPES_OK || *length == 0));
    HOLDS(is_filled(out + *length, size - *length));
    if (*length != 0) HOLDS(model_parse(out, *length).code == STUN_TYPES_OK && out[0] == 0);
    if (it->is_over) HOLDS(*length == 0 && *wake == UINT64_MAX);
    if (take(it->from) % 2 == 0 && *wake != UINT64_MAX && *wake > it->now) it->now = *wake;
}

static void check_send(session *it) {
    const stun_types_address *peer = take_address(it->from);
    const size_t size = take(it->from) % 8 == 0 ? take(it->from) % 54 : STUN_TYPES_ALLOCATION_HEAD;
    uint8_t *head = place(size);
    stun_types_allocation_head *around = NEW(stun_types_allocation_head);
    const bool is_whole = take(it->from) % 4 == 0;
    const size_t length = take_below(it->from, 2000, 8);
    const stun_types_id *id = copy_of(&it->id, sizeof it->id);
    const stun_types_answer answer
        = is_whole ? stun_types_allocation_send_whole(it->client, it->now, length, peer, id, head, size, around)
                   : stun_types_allocation_send(it->client, it->now, length, peer, id, head, size, around);
    if (peer->family != 4 && peer->family != 6) HOLDS(is_same(answer, BAD_ARGUMENT));
    HOLDS(around->sends <= 1 && around->length <= size && around->padding <= 3);
    HOLDS(around->sends == 1 || (around->length == 0 && around->padding == 0));
    HOLDS(is_filled(head, size - around->length));
}

static void check_changes(session *it) {
    stun_types_allocation_change *change = NEW(stun_types_allocation_change);
    stun_types_allocation_attempt *attempt = NEW(stun_types_allocation_attempt);
    size_t count = 0;
    while (stun_types_allocation_changes(it->client, change)) {
        HOLDS(!it->is_over && change->kind >= 1 && change->kind <= STUN_TYPES_ALLOCATION_OVER);
        HOLDS(count++ <= 4096);
        if (change->kind != STUN_TYPES_ALLOCATION_OVER) continue;
        it->is_over = true;
        HOLDS(change->why >= 1 && change->why <= STUN_TYPES_ALLOCATION_VIOLATED);
        memset(attempt, 0, sizeof *attempt);
        attempt->server = it->settings->server;
        HOLDS(!stun_types_allocation_attempt_next(attempt, change)
              || change->why == STUN_TYPES_ALLOCATION_MOVED || change->code == 437);
    }
    HOLDS(change->kind == 0);
}

static void (*const steps[])(session *it)
    = {check_want, check_want, check_datagram, check_datagram, check_poll, check_poll, check_send};

void check_allocations(source *from) {
    static const stun_types_allocation none = STUN_TYPES_ALLOCATION_INIT;
    session it;
    stun_types_allocation held = stun_types_allocation_none();
    unsigned step;
    memset(&it, 0, sizeof it);
    it.from = from;
    it.settings = take_settings(from);
    it.client = &held;
    HOLDS(memcmp(&held, &none, sizeof none) == 0);
    HOLDS(is_same(stun_types_allocation_new(it.client, it.settings), making(it.settings)));
    HOLDS((held.held != 0) == is_same(making(it.settings), FINE));
    if (held.held != 0)
        for (step = 0; step < STEPS; step++) {
            const size_t first = places_used();
            steps[take(from) % COUNT(steps)](&it);
            check_changes(&it);
            release_places(first);
        }
    stun_types_allocations_free(it.client, 1);
}
