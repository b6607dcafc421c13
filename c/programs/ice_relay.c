/* The relayed candidate: an allocation at a TURN server (RFC 8656), with a permission for each candidate of the
 * peer. */
#include "ice.h"

enum { MOST_PEERS = 32, CHECK_ROOM = 700, CLOSING_TIME = 1000 };

/* A peer, and the check that waits for its permission. */
typedef struct {
    stun_types_address address;
    bool is_permitted, binds;
    size_t length;
    uint8_t check[CHECK_ROOM];
} relay_peer;

static relay_peer peers[MOST_PEERS];
static size_t peer_count;

static stun_types_allocation client = STUN_TYPES_ALLOCATION_INIT;
static stun_types_allocation_attempt attempt;
static enum { NONE, ASKING, READY, OVER } state;
static uint64_t wake = UINT64_MAX; /* in nanoseconds */
static bool is_heard;   /* the server has sent something */
static bool is_closing; /* no other client follows */

static void begin_client(void);

/* There is no relayed address, or no longer. */
static void give_up(const char *why) {
    if (state == OVER) return;
    report("relay-failed", "reason", why, NULL);
    state = OVER;
    wake = NEVER;
    close_server();
}

static bool want(stun_types_allocation_wish wish, const stun_types_address *peer) {
    return is_fine(stun_types_allocation_want(&client, now * MILLISECOND, wish, peer));
}

/* ---- Peers ------------------------------------------------------------------------------------ */

static relay_peer *find_peer(const stun_types_address *address) {
    for (size_t i = 0; i < peer_count; i++) {
        if (is_same(&peers[i].address, address)) return &peers[i];
    }
    return NULL;
}

/* A new peer; if there is no room, the oldest one without a channel is dropped. */
static relay_peer *new_peer(const stun_types_address *address) {
    size_t at = 0;
    if (peer_count == MOST_PEERS) {
        while (at < MOST_PEERS - 1 && peers[at].binds) at++;
        (void)want(STUN_TYPES_ALLOCATION_DROP, &peers[at].address);
        memmove(&peers[at], &peers[at + 1], (MOST_PEERS - 1 - at) * sizeof *peers);
        peer_count--;
    }
    relay_peer *added = &peers[peer_count++];
    memset(added, 0, sizeof *added);
    added->address = *address;
    return added;
}

void permit(const stun_types_address *address, bool binds) {
    if (state == NONE || state == OVER) return;
    relay_peer *peer = find_peer(address);
    if (peer != NULL && (peer->binds || !binds)) return;
    if (peer == NULL) peer = new_peer(address);
    peer->binds = binds;
    (void)want(binds ? STUN_TYPES_ALLOCATION_BIND : STUN_TYPES_ALLOCATION_PERMIT, address);
}

/* Sends to a peer, if the server permits it. */
static bool send_to_peer(const stun_types_address *to, const uint8_t *bytes, size_t length) {
    enum { HEAD = STUN_TYPES_ALLOCATION_HEAD };
    uint8_t head[HEAD];
    stun_types_allocation_head around;
    stun_types_id id;
    if (!new_id(&id) ||
        !is_fine(stun_types_allocation_send(&client, now * MILLISECOND, length, to, &id, head, HEAD, &around)) ||
        !around.sends || around.length + length + around.padding > sizeof request.bytes) {
        return false;
    }
    memcpy(request.bytes, head + HEAD - around.length, around.length);
    memcpy(request.bytes + around.length, bytes, length);
    memset(request.bytes + around.length + length, 0, around.padding);
    request.length = around.length + length + around.padding;
    return send_request();
}

bool send_from_relay(const stun_types_address *to, const uint8_t *bytes, size_t length) {
    if (state != READY) return false;
    if (send_to_peer(to, bytes, length)) return true;
    permit(to, false);
    relay_peer *peer = find_peer(to);
    if (peer == NULL || peer->is_permitted || length > sizeof peer->check) return false;
    memcpy(peer->check, bytes, length);
    peer->length = length;
    return true;
}

/* A peer is permitted, or no longer. */
static void take_permission(const stun_types_allocation_change *change) {
    relay_peer *peer = find_peer(&change->peer);
    if (peer == NULL) return;
    peer->is_permitted =
        change->kind == STUN_TYPES_ALLOCATION_PERMITTED || change->kind == STUN_TYPES_ALLOCATION_BOUND;
    if (!peer->is_permitted || peer->length == 0) return;
    (void)send_to_peer(&peer->address, peer->check, peer->length);
    peer->length = 0;
}

/* ---- The allocation --------------------------------------------------------------------------- */

static void take_allocation(const stun_types_allocation_change *change) {
    state = READY;
    describe(RELAYED, RELAY, &change->relayed, &change->mapped);
    add_base(RELAY, &change->relayed, false);
}

/* The client has ended: the next one is at another server, or from another port, if the server wants that. */
static void take_end(const stun_types_allocation_change *end) {
    char why[40];
    if (state == ASKING && !is_closing && stun_types_allocation_attempt_next(&attempt, end) &&
        move_to(&attempt.server) == STATUS_DONE) {
        begin_client();
        return;
    }
    switch (end->why) {
    case STUN_TYPES_ALLOCATION_CLOSED: state = OVER; return;
    case STUN_TYPES_ALLOCATION_REJECTED:
        snprintf(why, sizeof why, "error %u", (unsigned)end->code);
        give_up(why);
        return;
    case STUN_TYPES_ALLOCATION_VIOLATED: give_up("no response is authentic"); return;
    case STUN_TYPES_ALLOCATION_SILENT: give_up("no response in time"); return;
    default: give_up("the allocation can't be used");
    }
}

static void take_changes(void) {
    stun_types_allocation_change change;
    while (state != OVER && stun_types_allocation_changes(&client, &change)) {
        switch (change.kind) {
        case STUN_TYPES_ALLOCATION_ALLOCATED: take_allocation(&change); break;
        case STUN_TYPES_ALLOCATION_ASKED:
        case STUN_TYPES_ALLOCATION_PERMITTED:
        case STUN_TYPES_ALLOCATION_BOUND:
        case STUN_TYPES_ALLOCATION_PEER_OVER: take_permission(&change); break;
        case STUN_TYPES_ALLOCATION_OVER: take_end(&change); return;
        default: break;
        }
    }
}

/* Makes a client at the server that is connected. */
static void begin_client(void) {
    stun_types_allocation_settings settings;
    memset(&settings, 0, sizeof settings);
    if (!find_server(&settings.server)) {
        give_up(strerror(errno));
        return;
    }
    settings.transport = asked.reliable ? STUN_TYPES_TCP : STUN_TYPES_UDP;
    settings.user = asked.user;
    settings.user_length = strlen(asked.user);
    settings.password = asked.password;
    settings.password_length = strlen(asked.password);
    settings.peers = MOST_PEERS;
    settings.family = asked.family == AF_INET6 ? 6 : 0;
    settings.fingerprint = 1;
    settings.sends = 4;
    attempt.server = settings.server;
    is_heard = false;
    state = ASKING;
    if (!is_fine(stun_types_allocation_new(&client, &settings)) ||
        !want(STUN_TYPES_ALLOCATION_ALLOCATE, &settings.server)) {
        give_up("the client can't be made");
    }
}

int open_relay(void) {
    if (!ice.has_turn) return STATUS_DONE;
    int status = open_server();
    if (status == STATUS_DONE) begin_client();
    else state = OVER;
    return ice.relay_only ? status : STATUS_DONE;
}

bool is_relay_settled(void) {
    return state != ASKING;
}

int relay_socket(void) {
    return state == ASKING || state == READY ? server_socket() : -1;
}

/* After the connection has failed. A datagram counts as lost. */
static void reconnect(void) {
    if (!is_heard && connect_next()) begin_client();
    else if (!is_heard || asked.reliable) give_up(strerror(errno));
}

void receive_from_relay(void) {
    enum { MOST = 64 }; /* at a turn */
    int got = RECEIVED;
    for (int i = 0; i < MOST && relay_socket() >= 0 && got == RECEIVED; i++) {
        stun_types_allocation_data shown;
        got = receive_until(0);
        if (got == FAILED) reconnect();
        if (got != RECEIVED ||
            !is_fine(stun_types_allocation_datagram(&client, now * MILLISECOND, &attempt.server, response.bytes,
                                                    response.length, &shown))) {
            continue;
        }
        is_heard = true;
        take_changes();
        if (shown.shown == STUN_TYPES_ALLOCATION_DATA) {
            take_datagram(RELAY, &shown.peer, response.bytes + shown.at, shown.length);
        }
    }
}

void turn_relay(void) {
    stun_types_id id;
    while (relay_socket() >= 0 && new_id(&id) &&
           is_fine(stun_types_allocation_poll(&client, now * MILLISECOND, &id, request.bytes, sizeof request.bytes,
                                              &request.length, &wake))) {
        size_t length = request.length;
        if (length > 0 && !send_request()) reconnect();
        take_changes();
        if (length == 0) return;
    }
}

uint64_t relay_wake(void) {
    return relay_socket() < 0 || wake == NEVER ? NEVER : wake / MILLISECOND + 1;
}

void close_relay(void) {
    uint64_t end = milliseconds() + CLOSING_TIME;
    if (state == READY && want(STUN_TYPES_ALLOCATION_CLOSE, &attempt.server)) {
        state = ASKING;
        is_closing = true;
        while (state == ASKING && now < end) {
            turn_relay();
            if (state == ASKING && receive_until(sooner(end, relay_wake())) == RECEIVED) {
                stun_types_allocation_data shown;
                ignore(stun_types_allocation_datagram(&client, now * MILLISECOND, &attempt.server, response.bytes,
                                                      response.length, &shown));
            }
            now = milliseconds();
        }
    }
    close_server();
    stun_types_allocation_free(&client);
}
