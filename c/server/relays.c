/* The relay sockets of a process: those of allocations, and for each family and each wish a spare one,
 * which the next allocation gets. Their ports are random (RFC 6056, section 3.3.1). */
#include "server.h"

#include <sys/random.h>

enum {
    FAMILIES = 2, /* IPv4 and IPv6 */
    MOST_TRIES = 256 /* ports that are tried for one socket */
};

/* What is asked of a port: any, an even one, or one that was reserved. */
enum { ANY, EVEN, WISHES, CLAIMED = WISHES, SPARES };

typedef struct {
    int socket, next; /* next: that of an even port, which has the next one, to be reserved. -1: none */
    uint16_t port;
} spare;

static struct {
    struct {
        bool is_there;
        stun_types_address own, outside; /* what its sockets are bound to, and what clients learn */
        spare spares[SPARES];
    } families[FAMILIES];
    uint32_t least, most; /* ports */
    relay *all;
    size_t count;
    stun_types_turn_ready ready;
} relays;

/* ---- What the settings say ------------------------------------------------------------------- */

/* The address of a family among those of a setting. */
static bool find_address(int which, uint16_t family, stun_types_address *found) {
    for (size_t turn = 0; text_setting(which, turn) != NULL; turn++) {
        if (read_ip(text_setting(which, turn), found) && found->family == family) return true;
    }
    return false;
}

/* The first address of a family at which it listens, unless it stands for all. */
static bool find_endpoint(const endpoints *of, uint16_t family, stun_types_address *found) {
    for (const endpoint *at = of->all; at < of->all + of->count; at++) {
        *found = at->address;
        found->port = 0;
        if (at->address.family == family && !at->wildcard) return true;
    }
    return false;
}

static bool is_unspecified(const stun_types_address *address) {
    static const uint8_t zeros[16];
    return memcmp(address->octets, zeros, sizeof zeros) == 0;
}

/* Finds the addresses of a family. False: what clients would learn is no address. */
static bool find_family(const endpoints *of, int which) {
    uint16_t family = which == 0 ? 4 : 6;
    stun_types_address *own = &relays.families[which].own, *outside = &relays.families[which].outside;
    bool is_given = find_address(RELAY_ADDRESS, family, own);
    bool any_given = text_setting(RELAY_ADDRESS, 0) != NULL;
    relays.families[which].is_there = is_given || (!any_given && find_endpoint(of, family, own));
    *outside = *own;
    bool is_outside = find_address(EXTERNAL_ADDRESS, family, outside);
    if (!relays.families[which].is_there) {
        return !is_outside || complain("external-address has no relay-address of its family; one is needed");
    }
    if (!is_outside) *outside = *own;
    return !is_unspecified(outside) ||
           complain("relay-address stands for several; external-address is needed, the one that clients learn");
}

/* ---- Opening --------------------------------------------------------------------------------- */

static int make_socket(uint16_t family) {
    const int on = 1;
    int type = SOCK_DGRAM | SOCK_NONBLOCK | SOCK_CLOEXEC;
    int made = socket(family == 4 ? AF_INET : AF_INET6, type, 0);
    if (made >= 0 && family == 6) (void)setsockopt(made, IPPROTO_IPV6, IPV6_V6ONLY, &on, sizeof on);
    if (made >= 0) set_relay_options(made, family);
    return made;
}

static bool bind_to(int number, stun_types_address address, uint16_t port) {
    socket_address at;
    memset(&at, 0, sizeof at);
    address.port = port;
    socket_address_of(&address, &at);
    return bind(number, (const struct sockaddr *)&at.bytes, at.length) == 0;
}

/* Binds a socket to a port from a random one on. Returns the port; 0: it can't. */
static uint16_t bind_to_any(int number, const stun_types_address *address, int wish) {
    uint32_t step = wish == EVEN ? 2 : 1, first = relays.least, drawn = 0;
    if (wish == EVEN) first += first % 2;
    if (first > relays.most) return 0;
    uint32_t count = (relays.most - first) / step + 1;
    if (getrandom(&drawn, sizeof drawn, 0) != sizeof drawn) return 0;
    for (uint32_t i = 0; i < count && i < MOST_TRIES; i++) {
        uint16_t port = (uint16_t)(first + (drawn % count + i) % count * step);
        if (bind_to(number, *address, port)) return port;
        if (errno != EADDRINUSE) return 0;
    }
    return 0;
}

bool is_local(const stun_types_address *address) {
    int made = make_socket(address->family);
    bool is_other = made >= 0 && !bind_to(made, *address, (uint16_t)relays.least) &&
                    errno == EADDRNOTAVAIL;
    if (made >= 0) close(made);
    return !is_other;
}

static bool lacks_next(const spare *of, int wish) {
    return wish == EVEN && setting(RESERVATIONS) > 0 && of->socket >= 0 && of->next < 0;
}

/* Opens the socket with the next port after a spare one. False: it is taken. */
static bool open_next(const stun_types_address *own, spare *of) {
    if (of->port >= relays.most || (of->next = make_socket(own->family)) < 0) return false;
    if (bind_to(of->next, *own, (uint16_t)(of->port + 1))) return true;
    close(of->next);
    of->next = -1;
    return false;
}

/* Opens a spare socket. */
static bool open_one(int which, int wish) {
    spare *opened = &relays.families[which].spares[wish];
    const stun_types_address *own = &relays.families[which].own;
    opened->socket = make_socket(own->family);
    opened->port = opened->socket < 0 ? 0 : bind_to_any(opened->socket, own, wish);
    if (opened->port != 0) return true;
    if (opened->socket >= 0) close(opened->socket);
    opened->socket = -1;
    return false;
}

/* Opens a spare socket; and for an even port, if ports are reserved, the next one: of a few that are tried the last
 * may have none. */
static bool open_spare(int which, int wish) {
    enum { TRIES = 4 };
    spare *opened = &relays.families[which].spares[wish];
    for (int tries = 0; opened->socket >= 0 || open_one(which, wish); tries++) {
        bool is_whole = !lacks_next(opened, wish) || open_next(&relays.families[which].own, opened);
        if (is_whole || tries == TRIES) return true;
        close(opened->socket);
        opened->socket = -1;
    }
    return false;
}

/* The address of the socket with the next port after a spare one. */
static stun_types_address next_address(int which) {
    const spare *even = &relays.families[which].spares[EVEN];
    stun_types_address address;
    memset(&address, 0, sizeof address);
    if (even->socket < 0 || even->next < 0) return address;
    address = relays.families[which].outside;
    address.port = (uint16_t)(even->port + 1);
    return address;
}

/* The address of a spare socket for the TURN server; if there is none, of another one. */
static stun_types_address ready_address(int which, const spare *of, const spare *other) {
    stun_types_address address;
    memset(&address, 0, sizeof address);
    if (of->socket < 0) of = other;
    if (of->socket < 0) return address;
    address = relays.families[which].outside;
    address.port = of->port;
    return address;
}

static void set_ready(void) {
    const spare *four = relays.families[0].spares, *six = relays.families[1].spares;
    relays.ready.any_ipv4 = ready_address(0, &four[ANY], &four[EVEN]);
    relays.ready.even_ipv4 = ready_address(0, &four[EVEN], &four[EVEN]);
    relays.ready.any_ipv6 = ready_address(1, &six[ANY], &six[EVEN]);
    relays.ready.even_ipv6 = ready_address(1, &six[EVEN], &six[EVEN]);
    relays.ready.next_ipv4 = next_address(0);
    relays.ready.next_ipv6 = next_address(1);
}

void open_spares(tally *mine) {
    uint64_t ready = 0;
    for (int which = 0; which < FAMILIES; which++) {
        for (int wish = 0; wish < WISHES && relays.families[which].is_there; wish++) {
            const spare *at = &relays.families[which].spares[wish];
            bool is_there = (at->socket >= 0 && !lacks_next(at, wish)) || open_spare(which, wish);
            if (is_there) ready++;
            else count(mine, TURN_NO_PORT, 1);
        }
    }
    set_gauge(mine, SOCKETS_READY, ready);
    set_ready();
}

const stun_types_turn_ready *ready_sockets(void) { return &relays.ready; }

void relay_ports(uint32_t *least, uint32_t *most) {
    *least = relays.least;
    *most = relays.most;
}

bool relays_family(uint16_t family) { return relays.families[family == 4 ? 0 : 1].is_there; }

/* ---- The start ------------------------------------------------------------------------------- */

/* Prints why no relay socket can be opened. */
static void print_unbound(const stun_types_address *own, int error) {
    char text[INET6_ADDRSTRLEN] = "?";
    inet_ntop(own->family == 4 ? AF_INET : AF_INET6, own->octets, text, sizeof text);
    fprintf(stderr, "stun-server: relay-address %s, ports %u-%u: %s%s\n", text, (unsigned)relays.least,
            (unsigned)relays.most, strerror(error),
            error == EPERM ? "; a unit allows them by SocketBindAllow=udp:LOW-HIGH" : "");
}

/* Tests that a socket can be bound to the address of a family, and to one of its ports: a unit may allow no
 * others. If those that are tried are taken, some will be free later. */
static bool test_family(int which) {
    const stun_types_address *own = &relays.families[which].own;
    int made = make_socket(own->family);
    bool is_bound = made >= 0 && (bind_to_any(made, own, ANY) != 0 || errno == EADDRINUSE);
    int error = errno;
    if (made >= 0) close(made);
    if (!is_bound) print_unbound(own, error);
    return is_bound;
}

bool prepare_relays(const endpoints *of) {
    const char *ports = text_setting(PORTS, 0);
    if (!read_range(ports != NULL ? ports : "49152-65535", &relays.least, &relays.most)) return false;
    bool is_any = false;
    for (int which = 0; which < FAMILIES; which++) {
        for (int wish = 0; wish < SPARES; wish++) relays.families[which].spares[wish] = (spare){-1, -1, 0};
        if (!find_family(of, which)) return false;
        if (relays.families[which].is_there && !options.checks && !test_family(which)) return false;
        is_any |= relays.families[which].is_there;
    }
    return is_any || complain("it listens on all addresses; relay-address is needed, one of them");
}

bool begin_relays(void) {
    relays.count = setting(ALLOCATIONS);
    /* (of this a page is taken when it is used) */
    uint8_t *room = calloc(relays.count * sizeof *relays.all + CACHE_LINE - 1, 1);
    if (room == NULL) return false;
    relays.all = (relay *)(room + -(uintptr_t)room % CACHE_LINE);
    return begin_reserved();
}

/* ---- The table ------------------------------------------------------------------------------- */

relay *relay_at(size_t slot) {
    return slot < relays.count && relays.all[slot].is_taken ? &relays.all[slot] : NULL;
}

size_t relay_slot(const relay *of) { return (size_t)(of - relays.all); }

/* The slot that a number says. */
static size_t slot_of(uint64_t number) { return (size_t)(number & 0xFFFFFF); }

relay *find_relay(uint64_t number) {
    relay *found = relay_at(slot_of(number));
    return found != NULL && found->number == number ? found : NULL;
}

/* The spare socket with an address. */
static spare *find_spare(const stun_types_address *address) {
    spare *spares = relays.families[address->family == 4 ? 0 : 1].spares;
    for (int wish = 0; wish < SPARES; wish++) {
        if (spares[wish].socket >= 0 && spares[wish].port == address->port) return &spares[wish];
    }
    return NULL;
}

relay *take_spare(const stun_types_address *address, uint64_t number) {
    size_t slot = slot_of(number);
    spare *from = find_spare(address);
    if (from == NULL || slot >= relays.count || relays.all[slot].is_taken) return NULL;
    relay *taken = &relays.all[slot];
    memset(taken, 0, sizeof *taken);
    *taken = (relay){.number = number, .is_taken = true, .socket = from->socket};
    from->socket = -1;
    if (from->next >= 0) close(from->next);
    from->next = -1;
    return taken;
}

/* ---- Reserved ones --------------------------------------------------------------------------- */

void reserve_next(const stun_types_address *address, uint64_t token, uint64_t now) {
    spare *from = find_spare(address);
    if (from == NULL || from->next < 0) return;
    reserved_socket made = {.token = token, .socket = from->next, .port = (uint16_t)(from->port + 1),
                            .family = address->family};
    if (insert_reserved(&made, now)) from->next = -1;
}

void claim_reserved(uint64_t token) {
    reserved_socket claimed;
    if (!remove_reserved(token, &claimed)) return;
    spare *to = &relays.families[claimed.family == 4 ? 0 : 1].spares[CLAIMED];
    if (to->socket >= 0) close(to->socket);
    *to = (spare){claimed.socket, -1, claimed.port};
}

void close_reserved(uint64_t token) {
    reserved_socket closed;
    if (remove_reserved(token, &closed)) close(closed.socket);
}

void close_relay_socket(relay *closed) {
    if (closed->socket >= 0) close(closed->socket);
    closed->socket = -1;
}

stun_types_address bound_address(const relay *of) {
    stun_types_address bound = relays.families[of->relayed.family == 4 ? 0 : 1].own;
    bound.port = of->relayed.port;
    return bound;
}

void free_relay(relay *freed) {
    close_relay_socket(freed);
    freed->is_taken = false;
}
