/* Whom clients reach as peers. The library judges that by prefixes with ports, and by addresses at which its clients
 * reach the server itself: these are read here, and found. */
#include "server.h"

#include <sys/mman.h>

enum { CHANNEL_BIND_REQUEST = 0x0009 };

/* Prefixes that are reached nowhere (the registries of IANA for special-purpose addresses, RFC 6890) and that
 * the library doesn't deny by default. */
static const char *const nowhere[] = {
    "192.0.2.0/24",      /* this and the next four are for documentation (RFC 5737, */
    "198.51.100.0/24",
    "203.0.113.0/24",
    "2001:db8::/32",     /* RFC 3849, */
    "3fff::/20",         /* RFC 9637) */
    "100::/64",          /* is discarded (RFC 6666) */
    "100:0:0:1::/64",    /* is nobody's (RFC 9780) */
};
enum {
    NOWHERE = sizeof nowhere / sizeof *nowhere,
    MOST_DENIED = 2 * MOST_PREFIXES + NOWHERE, /* (between two allowed ranges of ports there is one at most) */
    MOST_OWN = 64
};

/* The rules that the supervisor has read last, in memory that all processes share: sets[turn % 2]. */
typedef struct {
    stun_types_prefix denied[MOST_DENIED], allowed[MOST_PREFIXES];
    size_t denied_count, allowed_count;
} rule_set;

static struct {
    _Atomic uint32_t turn;
    rule_set sets[2];
} *shared;

/* A set of ports: a bit for each. */
typedef uint8_t port_set[65536 / 8];

static struct {
    port_set own; /* at which the server listens, over UDP or TCP */
    stun_types_address outside[2]; /* what a NAT makes of its addresses */
    size_t outside_count;
    rule_set rules;
    uint32_t turn; /* of these rules */
    stun_types_address listening[MOST_OWN]; /* the last that were found, in a ring */
    size_t found;
} peers;

static void add_ports(port_set to, uint32_t least, uint32_t most) {
    for (uint32_t port = least; port <= most; port++) to[port / 8] |= (uint8_t)(1u << port % 8);
}

static bool has_this(const port_set in, uint16_t port) { return in[port / 8] >> port % 8 & 1; }

/* ---- The start ------------------------------------------------------------------------------- */

/* Reads the prefixes of DENY or ALLOW. Returns how many there are. */
static size_t read_prefixes(int which, stun_types_prefix *read) {
    size_t count = 0;
    while (text_setting(which, count) != NULL && read_rule(text_setting(which, count), &read[count])) count++;
    return count;
}

static bool is_same(const stun_types_prefix *a, const stun_types_prefix *b) {
    return a->length == b->length && a->address.family == b->address.family &&
           memcmp(a->address.octets, b->address.octets, sizeof a->address.octets) == 0;
}

/* Denies the ports of a prefix that aren't in a set, which has one: each range of them. */
static void deny_others(const port_set allowed, stun_types_prefix prefix, stun_types_turn_settings *settings) {
    for (uint32_t port = 0; port <= UINT16_MAX; port++) {
        if (has_this(allowed, (uint16_t)port)) continue;
        prefix.first_port = (uint16_t)port;
        while (port < UINT16_MAX && !has_this(allowed, (uint16_t)(port + 1))) port++;
        prefix.last_port = (uint16_t)port;
        /* (a last port of 0 would be all of them; nobody is at port 0) */
        if (port > 0) peers.rules.denied[settings->denied_count++] = prefix;
    }
}

/* Denies what is reached nowhere, but for the ports of the same prefix that are allowed. */
static void deny_nowhere(stun_types_turn_settings *settings) {
    for (size_t i = 0; i < NOWHERE; i++) {
        port_set opened = {0};
        stun_types_prefix read;
        bool any = false;
        if (!read_rule(nowhere[i], &read)) continue;
        for (const stun_types_prefix *at = peers.rules.allowed; at < peers.rules.allowed + settings->allowed_count; at++) {
            if (!is_same(at, &read)) continue;
            add_ports(opened, at->first_port, at->last_port == 0 ? UINT16_MAX : at->last_port);
            any = true;
        }
        if (any) deny_others(opened, read, settings);
        else peers.rules.denied[settings->denied_count++] = read;
    }
}

static void read_own(const endpoints *of) {
    uint32_t port;
    for (const endpoint *at = of->all; at < of->all + of->count; at++) {
        add_ports(peers.own, at->address.port, at->address.port);
    }
    if (options.reports != NULL && read_number(options.reports, 1, 65535, &port)) {
        add_ports(peers.own, port, port);
    }
    for (size_t turn = 0; turn < 2 && text_setting(EXTERNAL_ADDRESS, turn) != NULL; turn++) {
        peers.outside_count += read_ip(text_setting(EXTERNAL_ADDRESS, turn), &peers.outside[turn]);
    }
}

/* Whether the server listens at no port of relays: nobody would reach that one. */
static bool are_apart(void) {
    char what[100];
    uint32_t least, most, port;
    bool is_set = text_setting(PORTS, 0) != NULL;
    relay_ports(&least, &most);
    for (port = least; port <= most && !has_this(peers.own, (uint16_t)port); port++) {}
    if (port > most) return true;
    snprintf(what, sizeof what, "%s%u, at which the server listens, is one of them; others are right",
             is_set ? "" : "ports 49152-65535: ", (unsigned)port);
    return is_set ? complain_of(PORTS, 0, what) : complain(what);
}

bool prepare_peers(const endpoints *of, stun_types_turn_settings *settings) {
    read_own(of);
    settings->allowed = peers.rules.allowed;
    settings->denied = peers.rules.denied;
    settings->listening = peers.listening;
    if ((shared = shared_memory(sizeof *shared)) == NULL) return false;
    renew_peers(settings);
    return are_apart();
}

/* ---- Rules that change ----------------------------------------------------------------------- */

/* (a worker that starts from now on begins with what is in this process) */
void renew_peers(stun_types_turn_settings *settings) {
    settings->allowed_count = read_prefixes(ALLOW, peers.rules.allowed);
    settings->denied_count = read_prefixes(DENY, peers.rules.denied);
    deny_nowhere(settings);
    peers.rules.allowed_count = settings->allowed_count;
    peers.rules.denied_count = settings->denied_count;
    shared->sets[(peers.turn + 1) % 2] = peers.rules;
    atomic_store_explicit(&shared->turn, ++peers.turn, memory_order_release);
}

void protect_peers(void) {
    if (shared != NULL) (void)mprotect(shared, sizeof *shared, PROT_READ);
}

/* Copies the rules that were read last. */
static void copy_rules(void) {
    uint32_t turn;
    while ((turn = atomic_load_explicit(&shared->turn, memory_order_acquire)) != peers.turn) {
        peers.rules = shared->sets[turn % 2];
        atomic_thread_fence(memory_order_acquire);
        if (atomic_load_explicit(&shared->turn, memory_order_relaxed) == turn) peers.turn = turn;
    }
}

bool follow_peers(stun_types_turn *server, stun_types_turn_settings *settings) {
    static bool is_late; /* there was no memory */
    if (!is_late && atomic_load_explicit(&shared->turn, memory_order_relaxed) == peers.turn) return true;
    copy_rules();
    end_all_flows();
    settings->allowed_count = peers.rules.allowed_count;
    settings->denied_count = peers.rules.denied_count;
    is_late = stun_types_turn_set_rules(server, settings).code != STUN_TYPES_OK;
    return !is_late;
}

/* ---- The server itself ----------------------------------------------------------------------- */

/* Whether an address is one of this machine's now, or what a NAT makes of one. */
static bool is_own(const stun_types_address *peer) {
    for (size_t i = 0; i < peers.outside_count; i++) {
        if (peers.outside[i].family != peer->family) continue;
        if (memcmp(peers.outside[i].octets, peer->octets, sizeof peer->octets) == 0) return true;
    }
    return is_local(peer);
}

static bool is_known(const stun_types_address *peer, size_t count) {
    for (size_t i = 0; i < count; i++) {
        if (memcmp(&peers.listening[i], peer, sizeof *peer) == 0) return true;
    }
    return false;
}

bool is_server(const stun_types_address *peer) { return has_this(peers.own, peer->port) && is_own(peer); }

/* A new one takes the place of that which was found first, if there is no other: addresses of a machine can be
 * many, as those of 127.0.0.0/8 are. */
bool deny_server(stun_types_turn *server, stun_types_turn_settings *settings, const stun_types_address *peer) {
    if (is_known(peer, settings->listening_count)) return true;
    peers.listening[peers.found++ % MOST_OWN] = *peer;
    settings->listening_count = peers.found < MOST_OWN ? peers.found : MOST_OWN;
    return stun_types_turn_set_rules(server, settings).code == STUN_TYPES_OK;
}

bool binds_server(const uint8_t *request, size_t length, stun_types_address *peer) {
    stun_types_attribute found;
    if (length < 20 || (request[0] << 8 | request[1]) != CHANNEL_BIND_REQUEST) return false;
    if (!stun_types_find(request, length, STUN_TYPES_ATTRIBUTE_XOR_PEER_ADDRESS, &found)) return false;
    return stun_types_read_xor_address(request, length, &found, peer).code == STUN_TYPES_OK && is_server(peer);
}
