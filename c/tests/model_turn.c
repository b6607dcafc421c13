#include "model_turn.h"

#include <string.h>

#define SECOND ((uint64_t)1000000000)
#define COUNT(array) (sizeof(array) / sizeof *(array))

enum { DONT_FRAGMENT = 0x001A };

static bool is_same_ip(const stun_types_address *one, const stun_types_address *other) {
    return one->family == other->family
           && memcmp(one->octets, other->octets, one->family == 4 ? 4 : 16) == 0;
}

bool model_is_same_address(const stun_types_address *one, const stun_types_address *other) {
    return is_same_ip(one, other) && one->port == other->port;
}

/* ---- which peers are allowed */

static const struct {
    uint8_t octets[8];
    uint16_t family;
    unsigned length;
} denied[] = {
    {{0}, 4, 8},           {{10}, 4, 8},          {{100, 64}, 4, 10},
    {{127}, 4, 8},         {{169, 254}, 4, 16},   {{172, 16}, 4, 12},
    {{192, 0, 0}, 4, 24},  {{192, 168}, 4, 16},   {{198, 18}, 4, 15},
    {{224}, 4, 4},         {{240}, 4, 4},         {{0, 0x64, 0xFF, 0x9B, 0, 1}, 6, 48},
    {{0x20, 0x01}, 6, 23}, {{0x20, 0x02}, 6, 16}, {{0xFC}, 6, 7},
    {{0xFE, 0x80}, 6, 10}, {{0xFF}, 6, 8},
};

/* Those of 96 bits: ::/96, ::ffff:0:0/96 and 64:ff9b::/96. */
static bool holds_ipv4(const stun_types_address *address) {
    static const uint8_t prefixes[][12] = {
        {0}, {0, 0, 0, 0, 0, 0, 0, 0, 0, 0, 0xFF, 0xFF}, {0, 0x64, 0xFF, 0x9B}};
    size_t i;
    for (i = 0; i < COUNT(prefixes); i++)
        if (address->family == 6 && memcmp(address->octets, prefixes[i], 12) == 0) return true;
    return false;
}

static bool is_allowed(const stun_types_address *address) {
    size_t i;
    unsigned bit;
    for (i = 0; i < COUNT(denied); i++) {
        if (denied[i].family != address->family) continue;
        for (bit = 0; bit < denied[i].length; bit++)
            if (((address->octets[bit / 8] ^ denied[i].octets[bit / 8]) >> (7 - bit % 8) & 1) != 0)
                break;
        if (bit == denied[i].length) return false;
    }
    return !holds_ipv4(address);
}

/* Teredo and 6to4 */
static bool is_tunnelled(const stun_types_address *address) {
    static const uint8_t teredo[4] = {0x20, 1, 0, 0}, of_6to4[2] = {0x20, 2};
    return address->family == 6
           && (memcmp(address->octets, teredo, 4) == 0 || memcmp(address->octets, of_6to4, 2) == 0);
}

/* ---- what is kept */

static void forget(model_lease *leases, size_t *count, uint64_t clock) {
    size_t i, left = 0;
    for (i = 0; i < *count; i++)
        if (clock < leases[i].until) leases[left++] = leases[i];
    *count = left;
}

static void end(model_turn *turn, model_allocation *it) {
    it->takes_place = false;
    turn->ended[turn->ended_count++] = it->relay;
}

/* Moves the clock, unless it goes back, and ends and forgets what is over. */
static void advance(model_turn *turn, uint64_t now) {
    size_t i;
    turn->ended_count = 0;
    if (now > turn->clock) turn->clock = now;
    for (i = 0; i < MODEL_TURN_ALLOCATIONS; i++) {
        model_allocation *it = &turn->all[i];
        if (it->takes_place && it->until <= turn->clock) end(turn, it);
        forget(it->permissions, &it->permission_count, turn->clock);
        forget(it->channels, &it->channel_count, turn->clock);
    }
}

static bool is_of(const model_allocation *it, const stun_types_five_tuple *from) {
    return it->takes_place && model_is_same_address(&it->from.client, &from->client)
           && model_is_same_address(&it->from.server, &from->server) && it->from.stream == from->stream;
}

/* The relayed address that a client has of a family, or any of them if it is 0. */
static model_allocation *relay_of(model_turn *turn, const stun_types_five_tuple *from, uint16_t family) {
    size_t i;
    for (i = 0; i < MODEL_TURN_ALLOCATIONS; i++) {
        model_allocation *it = &turn->all[i];
        if (is_of(it, from) && (family == 0 || it->relayed.family == family)) return it;
    }
    return NULL;
}

static model_lease *permission_of(model_allocation *it, const stun_types_address *peer) {
    size_t i;
    for (i = 0; i < it->permission_count; i++)
        if (is_same_ip(&it->permissions[i].peer, peer)) return &it->permissions[i];
    return NULL;
}

static model_lease *channel_to(model_allocation *it, const stun_types_address *peer) {
    size_t i;
    for (i = 0; i < it->channel_count; i++)
        if (model_is_same_address(&it->channels[i].peer, peer)) return &it->channels[i];
    return NULL;
}

static model_lease *channel_of(model_allocation *it, unsigned number) {
    size_t i;
    for (i = 0; i < it->channel_count; i++)
        if (it->channels[i].number == number) return &it->channels[i];
    return NULL;
}

/* Renews a permission for so many seconds, or adds one; false if there is no room. */
static bool put_permission(const model_turn *turn, model_allocation *it, const stun_types_address *peer,
                           unsigned seconds) {
    model_lease *lease = permission_of(it, peer);
    if (lease == NULL && it->permission_count == MODEL_TURN_ROOM) return false;
    if (lease == NULL) lease = &it->permissions[it->permission_count++];
    lease->peer = *peer;
    lease->number = 0;
    lease->until = turn->clock + seconds * SECOND;
    return true;
}

/* ---- what a message says */

typedef struct {
    const uint8_t *bytes;
    model_list shown;
} view;

static const uint8_t *value_of(const view *it, unsigned type, size_t *length) {
    const stun_types_attribute *found = model_find(&it->shown, type);
    *length = found == NULL ? 0 : found->length;
    return found == NULL ? NULL : it->bytes + found->value_at;
}

/* Whether there is one that has another length. */
static bool is_malformed(const view *it, unsigned type, size_t wanted) {
    size_t length;
    return value_of(it, type, &length) != NULL && length != wanted;
}

static bool is_comprehended(const model_turn *turn, const view *it) {
    static const uint16_t known[] = {0x0001, 0x0006, 0x0008, 0x0009, 0x000A, 0x000C, 0x000D,
                                     0x0012, 0x0013, 0x0014, 0x0015, 0x0016, 0x0017, 0x0018,
                                     0x0019, 0x001C, 0x001D, 0x001E, 0x0020, 0x0022};
    size_t i, j;
    for (i = 0; i < it->shown.count; i++) {
        for (j = 0; j < COUNT(known) && known[j] != it->shown.all[i].type; j++) {
        }
        if (it->shown.all[i].type == DONT_FRAGMENT && turn->settings.limits.dont_fragment != 0) continue;
        if (j == COUNT(known) && it->shown.all[i].type < 0x8000) return false;
    }
    return true;
}

/* The peers that it names; false if one is malformed. */
static bool peers_of(const view *it, stun_types_address *peers, size_t *count) {
    size_t i;
    for (i = *count = 0; i < it->shown.count; i++) {
        const stun_types_attribute *one = &it->shown.all[i];
        if (one->type != 0x0012) continue;
        if (model_address(it->bytes + one->value_at, one->length, &peers[*count]).code
            != STUN_TYPES_OK)
            return false;
        model_xor(it->bytes, &peers[(*count)++]);
    }
    return true;
}

/* The first of them; false if there is none, or it is malformed. */
static bool peer_of(const view *it, stun_types_address *peer) {
    size_t length;
    const uint8_t *value = value_of(it, 0x0012, &length);
    if (value == NULL || model_address(value, length, peer).code != STUN_TYPES_OK) return false;
    model_xor(it->bytes, peer);
    return true;
}

static uint32_t number_of(const uint8_t *value) {
    return (uint32_t)model_number(value) << 16 | model_number(value + 2);
}

/* The seconds that are granted for a LIFETIME; an Allocate request for 0 gets the least. */
static uint32_t granted(const model_turn *turn, const view *it, bool is_allocate) {
    size_t length;
    const uint8_t *value = value_of(it, 0x000D, &length);
    uint32_t wanted = value == NULL ? 600 : number_of(value);
    if (wanted == 0 && !is_allocate) return 0;
    if (wanted > turn->settings.limits.greatest_lifetime) wanted = turn->settings.limits.greatest_lifetime;
    return wanted < 600 ? 600 : wanted;
}

/* ---- requests */

/* The relayed addresses that an Allocate request wants, of IPv4 and of IPv6: each with the socket that is
   ready, or none. */
typedef struct {
    bool is_wanted[2];
    stun_types_address ready[2];
} wish;

static bool has_family(const model_turn *turn, size_t which) {
    return (which == 0 ? turn->settings.limits.ipv4 : turn->settings.limits.ipv6) != 0;
}

/* Why the octets of an Allocate request are unfit, or 0 and what it wants. */
static uint32_t wish_of(const model_turn *turn, const model_allocation *there, const view *it,
                        const stun_types_turn_ready *ready, wish *wanted) {
    static const struct {
        unsigned type;
        size_t length;
    } fixed[] = {{0x000D, 4}, {0x0017, 4}, {0x0018, 1}, {0x0022, 8}, {0x8000, 4}};
    size_t length, i;
    const uint8_t *transport = value_of(it, 0x0019, &length), *family, *even, *token, *other;
    memset(wanted, 0, sizeof *wanted);
    if (transport == NULL || length != 4) return 400;
    if (transport[0] != 17) return 442;
    for (i = 0; i < COUNT(fixed); i++)
        if (is_malformed(it, fixed[i].type, fixed[i].length)) return 400;
    family = value_of(it, 0x0017, &length);
    even = value_of(it, 0x0018, &length);
    token = value_of(it, 0x0022, &length);
    other = value_of(it, 0x8000, &length);
    if (token != NULL && (family != NULL || even != NULL || other != NULL)) return 400;
    if (other != NULL && (family != NULL || other[0] != 2 || (even != NULL && even[0] >= 0x80)))
        return 400;
    /* (no port is reserved: the token of one is refused as if no socket were ready) */
    if (token != NULL) {
        wanted->is_wanted[has_family(turn, 0) ? 0 : 1] = there == NULL;
        return 0;
    }
    if (family != NULL && family[0] != 1 && family[0] != 2) return 440;
    wanted->is_wanted[0] = family == NULL || family[0] == 1;
    wanted->is_wanted[1] = other != NULL || (family != NULL && family[0] == 2);
    if (even != NULL && even[0] >= 0x80) return 0;
    wanted->ready[0] = even == NULL ? ready->any_ipv4 : ready->even_ipv4;
    wanted->ready[1] = even == NULL ? ready->any_ipv6 : ready->even_ipv6;
    return 0;
}

/* A place for a relayed address of a user; NULL, and the code. */
static model_allocation *place_for(model_turn *turn, unsigned user, uint32_t *code) {
    size_t i, taken = 0, relays_per_user = 0;
    model_allocation *place = NULL;
    for (i = 0; i < MODEL_TURN_ALLOCATIONS; i++) {
        taken += turn->all[i].takes_place;
        relays_per_user += turn->all[i].takes_place && turn->all[i].user == user;
        if (!turn->all[i].takes_place) place = &turn->all[i];
    }
    *code = relays_per_user >= turn->settings.limits.relays_per_user ? 486 : taken >= turn->settings.limits.relays ? 508 : 0;
    return *code == 0 ? place : NULL;
}

/* What the client has, and the code for each family that it wants and hasn't. */
static void show(model_turn *turn, const stun_types_five_tuple *from, const wish *wanted,
                 model_turn_done *done) {
    uint64_t left = UINT64_MAX;
    size_t i;
    for (i = 0; i < 2; i++) {
        const model_allocation *it = relay_of(turn, from, i == 0 ? 4 : 6);
        if (it != NULL) done->relayed[i] = it->relayed;
        else if (wanted->is_wanted[i]) done->missing[i] = has_family(turn, i) ? 508 : 440;
        if (it != NULL && it->until - turn->clock < left) left = it->until - turn->clock;
    }
    done->has_lifetime = true;
    done->lifetime = (uint32_t)(left / SECOND);
}

static void open_relay(model_turn *turn, const stun_types_five_tuple *from, const view *it, unsigned user,
                       const stun_types_address *address, model_allocation *place) {
    memset(place, 0, sizeof *place);
    place->takes_place = true;
    place->from = *from;
    place->user = user;
    memcpy(place->id, it->bytes + 8, 12);
    place->relayed = *address;
    place->relay = UINT64_MAX;
    place->until = turn->clock + granted(turn, it, true) * SECOND;
}

static uint32_t allocate(model_turn *turn, const stun_types_five_tuple *from,
                         const stun_types_turn_ready *ready, const view *it, unsigned user,
                         model_turn_done *done) {
    const model_allocation *there = relay_of(turn, from, 0);
    wish wanted;
    uint32_t code = wish_of(turn, there, it, ready, &wanted), full;
    bool is_offered = false, is_ready = false;
    size_t i;
    if (there != NULL) {
        if (code != 0 || there->user != user || memcmp(there->id, it->bytes + 8, 12) != 0) return 437;
        show(turn, from, &wanted, done);
        return 0;
    }
    if (is_tunnelled(&from->client)) return 403;
    if (code != 0) return code;
    for (i = 0; i < 2; i++) {
        is_offered |= wanted.is_wanted[i] && has_family(turn, i);
        is_ready |= wanted.is_wanted[i] && has_family(turn, i) && wanted.ready[i].family != 0;
    }
    if (!is_offered) return 440;
    if (place_for(turn, user, &full) == NULL) return full;
    if (!is_ready) return 508;
    for (i = 0; i < 2; i++) {
        model_allocation *place = place_for(turn, user, &full);
        if (!wanted.is_wanted[i] || !has_family(turn, i) || wanted.ready[i].family == 0 || place == NULL)
            continue;
        open_relay(turn, from, it, user, &wanted.ready[i], place);
        done->opened[i] = place;
    }
    show(turn, from, &wanted, done);
    return 0;
}

static uint32_t refresh(model_turn *turn, const stun_types_five_tuple *from, const view *it,
                        model_turn_done *done) {
    size_t length, i;
    const uint8_t *value = value_of(it, 0x0017, &length);
    const uint32_t lifetime = granted(turn, it, false);
    uint16_t family;
    if (is_malformed(it, 0x0017, 4) || is_malformed(it, 0x000D, 4)) return 400;
    family = value == NULL ? 0 : value[0] == 1 ? 4 : value[0] == 2 ? 6 : 1;
    if (relay_of(turn, from, family) == NULL) return 443;
    done->has_lifetime = true;
    done->lifetime = lifetime;
    for (i = 0; i < MODEL_TURN_ALLOCATIONS; i++) {
        model_allocation *there = &turn->all[i];
        if (!is_of(there, from) || (family != 0 && there->relayed.family != family)) continue;
        there->until = turn->clock + lifetime * SECOND;
        if (lifetime == 0) end(turn, there);
    }
    return 0;
}

/* Permits the peers of each family by the relayed address of that family, or none of them. */
static uint32_t permit_all(model_turn *turn, const stun_types_five_tuple *from,
                           const stun_types_address *peers, size_t count, unsigned seconds) {
    size_t i, which;
    model_allocation next[2], *there[2];
    for (which = 0; which < 2; which++) {
        there[which] = relay_of(turn, from, which == 0 ? 4 : 6);
        if (there[which] == NULL) continue;
        next[which] = *there[which];
        for (i = 0; i < count; i++)
            if (peers[i].family == (which == 0 ? 4 : 6)
                && !put_permission(turn, &next[which], &peers[i], seconds))
                return 508;
    }
    for (which = 0; which < 2; which++)
        if (there[which] != NULL) *there[which] = next[which];
    return 0;
}

static uint32_t permit(model_turn *turn, const stun_types_five_tuple *from, const view *it) {
    static stun_types_address peers[MODEL_ATTRIBUTES];
    size_t count, i;
    if (!peers_of(it, peers, &count) || count == 0) return 400;
    if (count > MODEL_TURN_PEERS) return 508;
    for (i = 0; i < count; i++)
        if (relay_of(turn, from, peers[i].family) == NULL) return 443;
    for (i = 0; i < count; i++)
        if (!is_allowed(&peers[i])) return 403;
    return permit_all(turn, from, peers, count, 300);
}

static uint32_t bind_channel(model_turn *turn, const stun_types_five_tuple *from, const view *it) {
    stun_types_address peer;
    size_t length, i, j;
    const uint8_t *value = value_of(it, 0x000C, &length);
    model_allocation *there;
    model_lease *bound;
    unsigned number;
    uint32_t code;
    if (value == NULL || length != 4 || !peer_of(it, &peer)) return 400;
    number = model_number(value);
    if (number < 0x4000 || number > (turn->settings.limits.old_channels != 0 ? 0x7FFFu : 0x4FFFu))
        return 400;
    for (i = 0; i < MODEL_TURN_ALLOCATIONS; i++)
        for (j = 0; is_of(&turn->all[i], from) && j < turn->all[i].channel_count; j++) {
            const model_lease *one = &turn->all[i].channels[j];
            if ((one->number == number) != model_is_same_address(&one->peer, &peer)) return 400;
        }
    there = relay_of(turn, from, peer.family);
    if (there == NULL) return 443;
    if (!is_allowed(&peer) || model_is_same_address(&peer, &turn->listening)) return 403;
    bound = channel_of(there, number);
    if (bound == NULL && there->channel_count == MODEL_TURN_ROOM) return 508;
    code = permit_all(turn, from, &peer, 1, turn->settings.limits.channel_permits != 0 ? 600 : 300);
    if (code != 0) return code;
    if (bound == NULL) bound = &there->channels[there->channel_count++];
    bound->number = number;
    bound->peer = peer;
    bound->until = turn->clock + 600 * SECOND;
    return 0;
}

/* The code of an Allocate request, which is sent to another server if there is one, and no room here. */
static uint32_t allocate_here_or_there(model_turn *turn, const stun_types_five_tuple *from,
                                       const stun_types_turn_ready *ready, const view *it, unsigned user,
                                       model_turn_done *done) {
    size_t length;
    const uint32_t code = allocate(turn, from, ready, it, user, done);
    if (code != 508 || turn->alternate.family != from->client.family || value_of(it, 0x0022, &length) != NULL)
        return code;
    done->alternate = turn->alternate;
    return 300;
}

/* The code of the answer to a user's request. */
static uint32_t answer(model_turn *turn, const stun_types_five_tuple *from,
                       const stun_types_turn_ready *ready, const view *it, unsigned method,
                       unsigned user, model_turn_done *done) {
    const model_allocation *there = relay_of(turn, from, 0);
    if (method == STUN_TYPES_METHOD_ALLOCATE)
        return allocate_here_or_there(turn, from, ready, it, user, done);
    if (there == NULL) return 437;
    if (there->user != user) return 441;
    if (method == STUN_TYPES_METHOD_REFRESH) return refresh(turn, from, it, done);
    if (method == STUN_TYPES_METHOD_CREATE_PERMISSION) return permit(turn, from, it);
    return bind_channel(turn, from, it);
}

unsigned model_turn_user(const model_turn *turn, const uint8_t *bytes, size_t length) {
    static view it;
    size_t name_length, hash_length;
    const uint8_t *name, *hash;
    uint8_t digest[32];
    unsigned i;
    it.bytes = bytes;
    model_shown(bytes, length, &it.shown);
    name = value_of(&it, 0x0006, &name_length);
    hash = value_of(&it, 0x001E, &hash_length);
    for (i = 0; i < MODEL_TURN_USERS; i++) {
        const model_text texts[] = {turn->users[i].name, turn->realm};
        if (name != NULL) {
            if (name_length == texts[0].length && memcmp(name, texts[0].bytes, name_length) == 0)
                return i;
            continue;
        }
        model_digest(STUN_TYPES_PASSWORD_SHA256, texts, 2, digest);
        if (hash != NULL && hash_length == 32 && memcmp(hash, digest, 32) == 0) return i;
    }
    return MODEL_TURN_USERS;
}

/* What the credentials of a request decide. */
static stun_types_authentication decide(const model_turn *turn, uint64_t now,
                                        const stun_types_five_tuple *from, const view *it,
                                        size_t length, unsigned user) {
    static const uint16_t offered[] = {STUN_TYPES_PASSWORD_SHA256, STUN_TYPES_PASSWORD_MD5};
    static const model_key none;
    stun_types_authentication told;
    model_server server;
    model_login login;
    model_text nonce;
    nonce.bytes = value_of(it, 0x0015, &nonce.length);
    server.secret = turn->secret;
    server.features = turn->settings.features;
    server.window = turn->settings.window;
    server.client = &from->client;
    login.nonce_state = nonce.bytes == NULL ? (uint32_t)STUN_TYPES_NONCE_UNKNOWN
                                            : model_nonce_state(&server, now / SECOND, nonce);
    login.algorithms = offered;
    login.count = login.nonce_state == STUN_TYPES_NONCE_VALID && server.features % 2 == 1 ? 2 : 0;
    login.md5 = user < MODEL_TURN_USERS ? turn->users[user].md5 : &none;
    login.sha256 = user < MODEL_TURN_USERS ? turn->users[user].sha256 : &none;
    model_long_term(it->bytes, length, &turn->settings.policy, &login, &told);
    return told;
}

static void request(model_turn *turn, uint64_t now, const stun_types_five_tuple *from,
                    const stun_types_turn_ready *ready, const view *it, size_t length,
                    unsigned method, model_turn_done *done) {
    const unsigned user = model_turn_user(turn, it->bytes, length);
    const stun_types_authentication told = decide(turn, now, from, it, length, user);
    if (told.kind == STUN_TYPES_DISCARDED) return;
    done->is_request = true;
    done->action.kind = STUN_TYPES_TURN_RESPONSE;
    done->action.code = told.error_code;
    if (told.kind != STUN_TYPES_ACCEPTED) return;
    done->key = told.password_algorithm == STUN_TYPES_PASSWORD_SHA256 ? turn->users[user].sha256
                                                                      : turn->users[user].md5;
    done->algorithm = told.reply_algorithm;
    if (!is_comprehended(turn, it)) {
        done->action.code = 420;
        return;
    }
    done->action.code = answer(turn, from, ready, it, method, user, done);
    if (done->action.code != 0) done->has_lifetime = false;
}

/* ---- datagrams */

/* Data to a peer, if it is relayed. */
static void relay(const model_turn *turn, const model_allocation *there, const stun_types_address *peer,
                  size_t at, size_t length, model_turn_done *done) {
    if (model_is_same_address(peer, &turn->listening)) return;
    done->action.kind = STUN_TYPES_TURN_TO_PEER;
    done->action.relay = there->relay;
    done->action.peer = *peer;
    done->action.at = at;
    done->action.length = length;
}

/* (it needs its channel, and no permission) */
static void channel_data(model_turn *turn, const stun_types_five_tuple *from, const uint8_t *bytes,
                         size_t length, model_turn_done *done) {
    size_t data, i;
    if (length < 4) return;
    data = model_number(bytes + 2);
    if (length < 4 + data) return;
    for (i = 0; i < MODEL_TURN_ALLOCATIONS; i++) {
        model_allocation *there = &turn->all[i];
        const model_lease *channel = channel_of(there, model_number(bytes));
        if (is_of(there, from) && channel != NULL) relay(turn, there, &channel->peer, 4, data, done);
    }
}

static void indication(model_turn *turn, const stun_types_five_tuple *from, const view *it,
                       model_turn_done *done) {
    const stun_types_attribute *data = model_find(&it->shown, 0x0013);
    stun_types_address peer;
    model_allocation *there;
    if (!is_comprehended(turn, it) || data == NULL || !peer_of(it, &peer)) return;
    there = relay_of(turn, from, peer.family);
    if (there != NULL && permission_of(there, &peer) != NULL)
        relay(turn, there, &peer, data->value_at, data->length, done);
    if (done->action.kind == STUN_TYPES_TURN_TO_PEER)
        done->action.dont_fragment = model_find(&it->shown, DONT_FRAGMENT) != NULL;
}

void model_turn_client(model_turn *turn, uint64_t now, const stun_types_five_tuple *from,
                       const stun_types_turn_ready *ready, const uint8_t *bytes, size_t length,
                       model_turn_done *done) {
    static view it;
    unsigned type, method;
    memset(done, 0, sizeof *done);
    advance(turn, now);
    if (length == 0) return;
    if (bytes[0] >= 0x40 && bytes[0] <= (turn->settings.limits.old_channels != 0 ? 0x7F : 0x4F)) {
        channel_data(turn, from, bytes, length, done);
        return;
    }
    if (model_parse(bytes, length).code != STUN_TYPES_OK) return;
    it.bytes = bytes;
    model_shown(bytes, length, &it.shown);
    type = model_number(bytes);
    method = (type & 0x000F) | (type & 0x00E0) >> 1 | (type & 0x3E00) >> 2;
    if ((type & 0x0110) == 0x0010 && method == STUN_TYPES_METHOD_SEND)
        indication(turn, from, &it, done);
    if ((type & 0x0110) != 0) return;
    if (method == STUN_TYPES_METHOD_BINDING) {
        done->action.kind = STUN_TYPES_TURN_RESPONSE;
        done->action.code = is_comprehended(turn, &it) ? 0 : 420;
    }
    if (method == STUN_TYPES_METHOD_ALLOCATE || method == STUN_TYPES_METHOD_REFRESH
        || method == STUN_TYPES_METHOD_CREATE_PERMISSION
        || method == STUN_TYPES_METHOD_CHANNEL_BIND)
        request(turn, now, from, ready, &it, length, method, done);
}

unsigned model_turn_peer(model_turn *turn, uint64_t now, uint64_t relayed,
                         const stun_types_address *peer, size_t length,
                         stun_types_turn_delivery *delivery) {
    size_t i, head, zeros = (4 - length % 4) % 4;
    memset(delivery, 0, sizeof *delivery);
    advance(turn, now);
    for (i = 0; i < MODEL_TURN_ALLOCATIONS; i++) {
        model_allocation *it = &turn->all[i];
        const model_lease *channel = channel_to(it, peer);
        const bool is_ipv4 = it->from.client.family == 4;
        const size_t most = it->from.stream ? STUN_TYPES_GREATEST_MESSAGE : is_ipv4 ? 65507 : 65527;
        if (!it->takes_place || it->relay != relayed || permission_of(it, peer) == NULL) continue;
        head = channel != NULL ? 4 : peer->family == 4 ? 36 : 48;
        if (length > 65535 || head + length + (channel == NULL ? zeros : 0) > most) return 0;
        delivery->to = it->from;
        delivery->sends = 1;
        delivery->head_length = (uint16_t)head;
        delivery->padding = (uint16_t)(channel != NULL && !it->from.stream ? 0 : zeros);
        return channel == NULL ? 0 : channel->number;
    }
    return 0;
}

void model_turn_flow(model_turn *turn, const stun_types_five_tuple *from, unsigned number, stun_types_flow *flow) {
    size_t i;
    memset(flow, 0, sizeof *flow);
    for (i = 0; i < MODEL_TURN_ALLOCATIONS; i++) {
        model_allocation *it = &turn->all[i];
        const model_lease *channel = channel_of(it, number);
        const model_lease *permission = channel == NULL ? NULL : permission_of(it, &channel->peer);
        if (!is_of(it, from) || permission == NULL) continue;
        flow->relay = it->relay;
        flow->peer = channel->peer;
        flow->expires_at = it->until < channel->until ? it->until : channel->until;
        if (permission->until < flow->expires_at) flow->expires_at = permission->until;
        return;
    }
}

void model_turn_poll(model_turn *turn, uint64_t now) { advance(turn, now); }

void model_turn_end(model_turn *turn, uint64_t now, uint64_t relayed) {
    size_t i;
    advance(turn, now);
    for (i = 0; i < MODEL_TURN_ALLOCATIONS; i++)
        if (turn->all[i].takes_place && turn->all[i].relay == relayed) end(turn, &turn->all[i]);
}

void model_turn_end_user(model_turn *turn, uint64_t now, unsigned user) {
    size_t i;
    advance(turn, now);
    for (i = 0; i < MODEL_TURN_ALLOCATIONS; i++)
        if (turn->all[i].takes_place && turn->all[i].user == user) end(turn, &turn->all[i]);
}
