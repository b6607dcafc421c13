/* ICE agents: what they are made by, and calls in any order, of which each keeps what it promises; and lines of
 * candidates. */
#include <string.h>

#include "fuzz.h"

enum { ROOM_MOST = 1000, STEPS = 24, LINE_MOST = 200 };

static const char own_fragment[] = "evtj", own_password[] = "VOkJxbRl1RmTxUk/WvJxBt";
static const char peer_fragment[] = "h6vY", peer_password[] = "KPKLPQPlb6g8DVIXiyRPqZ";

static bool is_family(const stun_types_address *address) {
    return address->family == 4 || address->family == 6;
}

/* Whether bytes are so many letters, digits, + and / as credentials have. */
static bool are_letters(const void *text, size_t length, size_t least) {
    const uint8_t *bytes = text;
    size_t at;
    if (length < least || length > 256) return false;
    for (at = 0; at < length; at++) {
        const uint8_t it = bytes[at];
        if (!((it >= 'a' && it <= 'z') || (it >= 'A' && it <= 'Z') || (it >= '0' && it <= '9') || it == '+'
              || it == '/'))
            return false;
    }
    return true;
}

/* What credentials answer. */
static stun_types_answer login(const void *ufrag, size_t ufrag_length, const void *password, size_t length) {
    stun_types_answer answer = FINE;
    if (length == 0) return BAD_ARGUMENT;
    if (!are_letters(ufrag, ufrag_length, 4) || !are_letters(password, length, 22))
        answer.code = STUN_TYPES_INVALID_DATA;
    return answer;
}

/* What the making of an agent answers. */
static stun_types_answer making(const stun_types_ice_settings *it) {
    stun_types_answer answer;
    if (it->reserved != 0 || it->role < 1 || it->role > 2 || it->pairs > 4096 || it->candidates > 4096
        || it->requests > 4096 || it->tries > 32)
        return BAD_ARGUMENT;
    answer = login(it->ufrag, it->ufrag_length, it->password, it->password_length);
    if (answer.code == STUN_TYPES_OK && !model_is_utf8(it->software, it->software_length))
        answer.code = STUN_TYPES_INVALID_DATA;
    return answer;
}

static stun_types_ice_settings *take_settings(source *from) {
    stun_types_ice_settings *it = NEW(stun_types_ice_settings);
    const model_text ufrag = take_text(from, own_fragment), password = take_text(from, own_password),
                     software = take_text(from, "an agent");
    const bool is_good = take(from) % 4 != 0;
    memset(it, 0, sizeof *it);
    it->ufrag = is_good ? copy_of(own_fragment, 4) : ufrag.bytes;
    it->ufrag_length = is_good ? 4 : ufrag.length;
    it->password = is_good ? copy_of(own_password, 22) : password.bytes;
    it->password_length = is_good ? 22 : password.length;
    it->software = software.bytes;
    it->software_length = software.length;
    it->tiebreaker = take_eight(from);
    it->role = (stun_types_ice_role)(is_good ? 1 + take(from) % 2 : take(from) % 4);
    it->pairs = take_below(from, 8, 16);
    it->candidates = take_below(from, 6, 16);
    it->requests = take_below(from, 8, 16);
    it->ta = take_below(from, 100, 8);
    it->rto = take_below(from, 1000, 8);
    it->patience = take_below(from, 1000, 8);
    it->tries = take_below(from, 8, 16);
    it->reserved = take(from) == 0;
    return it;
}

/* ---- the calls */

typedef struct {
    stun_types_ice *agent;
    source *from;
    uint64_t now;
    stun_types_id id;
    bool is_met;
} session;

static bool is_added(stun_types_answer answer) {
    return answer.code == STUN_TYPES_OK || answer.code == STUN_TYPES_FULL || answer.code == STUN_TYPES_EXISTS;
}

static void check_peer(session *it) {
    const model_text ufrag = take_text(it->from, peer_fragment), password = take_text(it->from, peer_password);
    const bool is_good = take(it->from) % 2 == 0;
    const void *fragment = is_good ? copy_of(peer_fragment, 4) : ufrag.bytes;
    const void *word = is_good ? copy_of(peer_password, 22) : password.bytes;
    const size_t size = is_good ? 4 : ufrag.length, length = is_good ? 22 : password.length;
    const stun_types_answer wanted = login(fragment, size, word, length);
    const stun_types_answer answer = stun_types_ice_set_peer(it->agent, it->now, fragment, size, word, length);
    if (wanted.code != STUN_TYPES_OK) HOLDS(is_same(answer, wanted));
    else HOLDS(answer.code == (it->is_met ? STUN_TYPES_EXISTS : STUN_TYPES_OK));
    it->is_met = it->is_met || wanted.code == STUN_TYPES_OK;
}

static void check_candidate(session *it) {
    stun_types_ice_base *base = NEW(stun_types_ice_base);
    stun_types_ice_remote *remote = NEW(stun_types_ice_remote);
    const stun_types_address *address = take_address(it->from);
    stun_types_answer answer;
    memset(base, 0, sizeof *base);
    base->number = take(it->from) % 4;
    base->foundation = take(it->from) % 4;
    base->priority = take_four(it->from);
    base->reflexive_priority = take_four(it->from);
    base->component = (uint16_t)(take(it->from) % 3);
    base->family = (uint16_t)(take(it->from) % 8);
    base->link_local = (uint16_t)(take(it->from) % 2);
    base->reserved = take(it->from) == 0;
    memset(remote, 0, sizeof *remote);
    remote->address = *address;
    remote->foundation = take(it->from) % 4;
    remote->priority = take_four(it->from);
    remote->component = (uint16_t)(take(it->from) % 3);
    answer = stun_types_ice_add_base(it->agent, it->now, base);
    if (base->reserved != 0 || (base->family != 4 && base->family != 6)) HOLDS(is_same(answer, BAD_ARGUMENT));
    else HOLDS(is_added(answer));
    answer = stun_types_ice_add_remote(it->agent, it->now, remote);
    if (remote->foundation == 0 || !is_family(address)) HOLDS(is_same(answer, BAD_ARGUMENT));
    else HOLDS(is_added(answer));
    answer = stun_types_ice_add_address(it->agent, address);
    if (!is_family(address)) HOLDS(is_same(answer, BAD_ARGUMENT));
    else HOLDS(is_added(answer));
}

static void check_end(session *it) { SUCCEEDS(stun_types_ice_end_candidates(it->agent, it->now)); }

static void check_datagram(session *it) {
    const size_t wanted = take(it->from), length = wanted < it->from->left ? wanted : it->from->left;
    const uint8_t *bytes = copy_of(it->from->bytes, length);
    const stun_types_address *from = take_address(it->from);
    const size_t size = take(it->from) % 4 == 0 ? take(it->from) : ROOM_MOST;
    uint8_t *out = place(size);
    stun_types_ice_received *received = NEW(stun_types_ice_received);
    const stun_types_answer answer = stun_types_ice_datagram(it->agent, it->now, take(it->from) % 4, from, bytes,
                                                             length, take_eight(it->from), out, size, received);
    if (!is_family(from)) HOLDS(is_same(answer, BAD_ARGUMENT));
    else HOLDS(answer.code == STUN_TYPES_OK
               || (answer.code == STUN_TYPES_TOO_SMALL && answer.actual == size && answer.expected > size));
    HOLDS(received->kind <= STUN_TYPES_ICE_DATA && received->reserved == 0 && received->length <= size);
    HOLDS((received->kind == STUN_TYPES_ICE_RESPONSE) == (received->length != 0));
    HOLDS(answer.code == STUN_TYPES_OK || received->kind == STUN_TYPES_ICE_NOTHING);
    HOLDS(is_filled(out + received->length, size - received->length));
    if (received->length != 0) HOLDS(model_parse(out, received->length).code == STUN_TYPES_OK);
}

static void check_poll(session *it) {
    const size_t size = take(it->from) % 8 == 0 ? take(it->from) : ROOM_MOST;
    uint8_t *out = place(size);
    stun_types_ice_request *request = NEW(stun_types_ice_request);
    uint64_t *wake = NEW(uint64_t);
    stun_types_answer answer;
    it->id.bytes[11]++;
    answer = stun_types_ice_poll(it->agent, it->now, copy_of(&it->id, sizeof it->id), out, size, request, wake);
    HOLDS(answer.code == STUN_TYPES_OK
          || (answer.code == STUN_TYPES_TOO_SMALL && answer.actual == size && answer.expected > size));
    HOLDS(request->length <= size && (answer.code == STUN_TYPES_OK || request->length == 0));
    HOLDS(is_filled(out + request->length, size - request->length));
    if (request->length != 0)
        HOLDS(it->is_met && is_family(&request->to) && model_parse(out, request->length).code == STUN_TYPES_OK);
    else HOLDS(request->base == 0 && request->to.family == 0);
    if (take(it->from) % 2 == 0 && *wake != UINT64_MAX && *wake > it->now) it->now = *wake;
}

static void check_state(session *it) {
    stun_types_ice_path *path = NEW(stun_types_ice_path);
    stun_types_ice_standing *standing = NEW(stun_types_ice_standing);
    stun_types_ice_checked *pair = NEW(stun_types_ice_checked);
    const uint16_t component = (uint16_t)(take(it->from) % 3);
    const bool has_path = stun_types_ice_route(it->agent, it->now, component, path);
    uint32_t count = 0;
    HOLDS(has_path == is_family(&path->to));
    HOLDS(stun_types_ice_status(it->agent, component, standing));
    HOLDS(standing->progress >= 1 && standing->progress <= STUN_TYPES_ICE_LOST);
    HOLDS(standing->role == 1 || standing->role == 2);
    HOLDS((standing->progress == STUN_TYPES_ICE_CONNECTED) == is_family(&standing->path.to));
    HOLDS(!has_path || memcmp(path, &standing->path, sizeof *path) == 0);
    while (stun_types_ice_pair(it->agent, count, pair)) {
        HOLDS(pair->state >= 1 && pair->state <= STUN_TYPES_ICE_PAIR_LOST && is_family(&pair->remote));
        HOLDS(pair->triggered <= 1 && pair->nominated <= 1);
        count++;
    }
    HOLDS(pair->state == 0 && count == standing->pairs);
}

static void check_changes(session *it) {
    stun_types_ice_change *change = NEW(stun_types_ice_change);
    size_t count = 0;
    while (stun_types_ice_changes(it->agent, change)) {
        HOLDS(change->kind >= 1 && change->kind <= STUN_TYPES_ICE_DISCOVERED && change->reserved == 0);
        HOLDS((change->kind == STUN_TYPES_ICE_PROGRESS) == (change->progress != 0));
        HOLDS((change->kind == STUN_TYPES_ICE_ROLE) == (change->role != 0));
        HOLDS(count++ <= 20000);
    }
    HOLDS(change->kind == 0);
}

/* A line that is read is written, and read again as the same candidate. */
static void check_line(source *from) {
    const model_text line
        = take_text(from, "candidate:1 1 UDP 2130706431 192.0.2.1 40000 typ srflx raddr 10.0.0.1 rport 9");
    stun_types_ice_candidate *one = NEW(stun_types_ice_candidate), *other = NEW(stun_types_ice_candidate);
    char *text = place(LINE_MOST);
    size_t *written = NEW(size_t);
    stun_types_answer answer = stun_types_ice_candidate_read(line.bytes, line.length, one);
    HOLDS(answer.code == STUN_TYPES_OK || answer.code == STUN_TYPES_INVALID_DATA);
    if (answer.code != STUN_TYPES_OK) {
        HOLDS(is_filled(one, sizeof *one));
        take_bytes(from, one, sizeof *one);
    }
    answer = stun_types_ice_candidate_write(one, text, LINE_MOST, written);
    HOLDS(answer.code == STUN_TYPES_OK || answer.code == STUN_TYPES_BAD_ARGUMENT);
    if (answer.code != STUN_TYPES_OK) return;
    HOLDS(*written <= LINE_MOST);
    SUCCEEDS(stun_types_ice_candidate_read(text, *written, other));
    HOLDS(one->priority == other->priority && one->component == other->component && one->kind == other->kind
          && one->transport == other->transport && one->foundation_length == other->foundation_length
          && one->address.family == other->address.family && one->address.port == other->address.port);
}

/* ---- a lite agent */

static void check_lite_datagram(stun_types_ice_lite *agent, uint64_t now, source *from) {
    const size_t wanted = take(from), length = wanted < from->left ? wanted : from->left;
    const uint8_t *bytes = copy_of(from->bytes, length);
    const stun_types_address *address = take_address(from);
    const size_t size = take(from) % 4 == 0 ? take(from) : ROOM_MOST;
    uint8_t *out = place(size);
    stun_types_ice_received *received = NEW(stun_types_ice_received);
    const stun_types_answer answer =
        stun_types_ice_lite_datagram(agent, now, take(from) % 4, address, bytes, length, out, size, received);
    if (!is_family(address)) HOLDS(is_same(answer, BAD_ARGUMENT));
    else HOLDS(answer.code == STUN_TYPES_OK
               || (answer.code == STUN_TYPES_TOO_SMALL && answer.actual == size && answer.expected > size));
    HOLDS(received->kind <= STUN_TYPES_ICE_DATA && received->reserved == 0 && received->length <= size);
    HOLDS((received->kind == STUN_TYPES_ICE_RESPONSE) == (received->length != 0));
    HOLDS(is_filled(out + received->length, size - received->length));
    if (received->length != 0) HOLDS(model_parse(out, received->length).code == STUN_TYPES_OK);
}

/* A lite agent of the settings of a full one. */
static void check_lite(source *from, const stun_types_ice_settings *full) {
    stun_types_ice_lite_base *bases = place(2 * sizeof *bases);
    stun_types_ice_lite_settings *settings = NEW(stun_types_ice_lite_settings);
    stun_types_ice_lite agent = stun_types_ice_lite_none();
    stun_types_ice_path *path = NEW(stun_types_ice_path);
    const stun_types_answer wanted = login(full->ufrag, full->ufrag_length, full->password, full->password_length);
    stun_types_answer answer;
    unsigned step;
    memset(bases, 0, 2 * sizeof *bases);
    memset(settings, 0, sizeof *settings);
    bases[0].number = take(from) % 4;
    bases[1].number = take(from) % 4;
    bases[1].component = (uint16_t)(take(from) % 3);
    bases[1].reserved = take(from) == 0;
    settings->ufrag = full->ufrag;
    settings->ufrag_length = full->ufrag_length;
    settings->password = full->password;
    settings->password_length = full->password_length;
    settings->bases = bases;
    settings->base_count = take(from) % 3;
    settings->reserved = take(from) == 0;
    answer = stun_types_ice_lite_new(&agent, settings);
    if (settings->reserved != 0 || (settings->base_count == 2 && bases[1].reserved != 0))
        HOLDS(is_same(answer, BAD_ARGUMENT));
    else HOLDS(is_same(answer, wanted));
    for (step = 0; agent.held != 0 && step < STEPS; step++) {
        const size_t first = places_used();
        check_lite_datagram(&agent, step, from);
        HOLDS(stun_types_ice_lite_route(&agent, step, (uint16_t)(take(from) % 3), path) == is_family(&path->to));
        release_places(first);
    }
    stun_types_ice_lites_free(&agent, 1);
}

static void (*const steps[])(session *it) = {check_peer, check_candidate, check_candidate, check_datagram,
                                             check_datagram, check_poll, check_poll, check_state, check_end};

void check_ice(source *from) {
    static const stun_types_ice none = STUN_TYPES_ICE_INIT;
    const stun_types_ice_settings *settings = take_settings(from);
    stun_types_ice held = stun_types_ice_none();
    stun_types_answer answer;
    session it;
    unsigned step;
    memset(&it, 0, sizeof it);
    it.from = from;
    it.agent = &held;
    HOLDS(memcmp(&held, &none, sizeof none) == 0);
    answer = stun_types_ice_new(it.agent, settings);
    HOLDS(is_same(answer, making(settings)));
    HOLDS((held.held != 0) == (answer.code == STUN_TYPES_OK));
    if (held.held != 0)
        for (step = 0; step < STEPS; step++) {
            const size_t first = places_used();
            steps[take(from) % COUNT(steps)](&it);
            check_changes(&it);
            release_places(first);
        }
    stun_types_ices_free(it.agent, 1);
    check_lite(from, settings);
    check_line(from);
}
