/* The host candidates: a socket at each address of this machine, and what a STUN server sees of each. */
#include "ice.h"

#include <ifaddrs.h>
#include <net/if.h>

enum { RECEIVE_ROOM = 1 << 20, PACE = 50, KEPT_FOR = 15000, MOST_SIX = 64 };

host hosts[MOST_HOSTS];
size_t host_count;

static socket_address stun_servers[2]; /* over IPv4 and over IPv6 */
static bool has_server[2];

/* ---- Addresses of interfaces ------------------------------------------------------------------ */

/* An IPv6 address of an interface, and whether it is a temporary one (RFC 8981). */
typedef struct {
    struct in6_addr address;
    unsigned interface;
    bool is_temporary;
} six_address;

static six_address sixes[MOST_SIX];
static size_t six_count;

/* Reads which IPv6 addresses are temporary. Those that aren't in use yet, or any more, count as none. */
static void read_sixes(void) {
    enum { TEMPORARY = 0x01, DEPRECATED = 0x20, TENTATIVE = 0x40 };
    FILE *from = fopen("/proc/net/if_inet6", "re");
    char digits[33];
    unsigned interface, flags;
    if (from == NULL) return;
    while (six_count < MOST_SIX &&
           fscanf(from, "%32[0-9a-f] %x %*x %*x %x %*s", digits, &interface, &flags) == 3) {
        six_address *read = &sixes[six_count];
        for (size_t i = 0; i < 16; i++) {
            unsigned byte = 0;
            if (sscanf(digits + 2 * i, "%2x", &byte) == 1) read->address.s6_addr[i] = (uint8_t)byte;
        }
        if ((flags & (DEPRECATED | TENTATIVE)) != 0) continue;
        read->interface = interface;
        read->is_temporary = (flags & TEMPORARY) != 0;
        six_count++;
    }
    fclose(from);
}

/* Whether the interface has a temporary address of the same prefix, so that this one, which doesn't change, isn't
 * shown to others (RFC 8445, section 5.1.1.1). */
static bool is_hidden(const struct in6_addr *address, const char *name) {
    enum { PREFIX = 8 };
    unsigned interface = if_nametoindex(name);
    bool is_temporary = false, has_temporary = false;
    for (size_t i = 0; i < six_count; i++) {
        const six_address *it = &sixes[i];
        if (it->interface != interface || !it->is_temporary) continue;
        if (memcmp(&it->address, address, sizeof *address) == 0) is_temporary = true;
        if (memcmp(&it->address, address, PREFIX) == 0) has_temporary = true;
    }
    return has_temporary && !is_temporary;
}

/* Whether candidates may be at an address (RFC 8445, section 5.1.1.1). */
static bool is_useful(const struct ifaddrs *of) {
    struct sockaddr_in6 six;
    if (of->ifa_addr == NULL || (of->ifa_flags & IFF_UP) == 0 || (of->ifa_flags & IFF_LOOPBACK) != 0) return false;
    int family = of->ifa_addr->sa_family;
    if (asked.family != AF_UNSPEC && family != asked.family) return false;
    if (family != AF_INET6) return family == AF_INET;
    memcpy(&six, of->ifa_addr, sizeof six);
    const struct in6_addr *at = &six.sin6_addr;
    return !IN6_IS_ADDR_LINKLOCAL(at) && !IN6_IS_ADDR_SITELOCAL(at) && !IN6_IS_ADDR_V4COMPAT(at) &&
           !IN6_IS_ADDR_V4MAPPED(at) && !is_hidden(at, of->ifa_name);
}

/* ---- Sockets ---------------------------------------------------------------------------------- */

/* Opens a socket there. False: errno says why not. */
static bool open_host(const socket_address *at) {
    struct sockaddr_storage bound;
    struct sockaddr_in6 six;
    socklen_t length = sizeof bound;
    int room = RECEIVE_ROOM;
    host *opened = &hosts[host_count];
    memset(opened, 0, sizeof *opened);
    int family = at->bytes.ss_family;
    opened->socket = socket(family, SOCK_DGRAM | SOCK_NONBLOCK | SOCK_CLOEXEC, 0);
    if (opened->socket < 0) return false;
    setsockopt(opened->socket, SOL_SOCKET, SO_RCVBUF, &room, sizeof room);
    if (bind(opened->socket, (const struct sockaddr *)&at->bytes, at->length) != 0 ||
        getsockname(opened->socket, (struct sockaddr *)&bound, &length) != 0 ||
        !address_of(&bound, &opened->address)) {
        int error = errno;
        close(opened->socket);
        errno = error;
        return false;
    }
    memcpy(&six, &at->bytes, sizeof six);
    opened->link_local = family == AF_INET6 && IN6_IS_ADDR_LINKLOCAL(&six.sin6_addr);
    opened->ask_at = now + PACE * host_count;
    opened->wake = NEVER;
    host_count++;
    return true;
}

static int open_named(void) {
    for (size_t i = 0; i < ice.address_count; i++) {
        socket_address at;
        if (!read_address(ice.addresses[i], "0", SOCK_DGRAM, &at)) {
            return say(STATUS_MISUSED, "%s: no address", ice.addresses[i]);
        }
        if (!open_host(&at)) return say(STATUS_BROKEN, "%s: %s", ice.addresses[i], strerror(errno));
    }
    return STATUS_DONE;
}

int open_hosts(void) {
    struct ifaddrs *all;
    if (ice.address_count > 0) return open_named();
    if (getifaddrs(&all) != 0) return say(STATUS_BROKEN, "the interfaces: %s", strerror(errno));
    read_sixes();
    for (const struct ifaddrs *it = all; it != NULL && host_count < MOST_HOSTS; it = it->ifa_next) {
        socket_address at;
        if (!is_useful(it)) continue;
        memset(&at, 0, sizeof at);
        at.length = it->ifa_addr->sa_family == AF_INET ? sizeof(struct sockaddr_in) : sizeof(struct sockaddr_in6);
        memcpy(&at.bytes, it->ifa_addr, at.length);
        (void)open_host(&at); /* (one that is on its way out has no candidate) */
    }
    freeifaddrs(all);
    if (host_count > 0) return STATUS_DONE;
    return say(STATUS_BROKEN, "no interface has an address; --address 127.0.0.1 is for a peer on this machine");
}

void close_hosts(void) {
    for (size_t i = 0; i < host_count; i++) close(hosts[i].socket);
    host_count = 0;
}

/* Sends a datagram. One that the system has no room for, or can't send there, counts as lost. */
bool send_from_host(size_t of, const stun_types_address *to, const uint8_t *bytes, size_t length) {
    socket_address at;
    memset(&at, 0, sizeof at);
    socket_address_of(to, &at);
    ssize_t sent = sendto(hosts[of].socket, bytes, length, MSG_NOSIGNAL, (const struct sockaddr *)&at.bytes, at.length);
    return sent == (ssize_t)length;
}

/* ---- The STUN server -------------------------------------------------------------------------- */

int find_stun(void) {
    const target *server = ice.has_stun ? &ice.stun : &asked.server;
    struct addrinfo *found;
    if (!ice.has_stun && !ice.has_turn) return STATUS_DONE;
    int status = find_host(server, asked.family, SOCK_DGRAM, &found);
    if (status != STATUS_DONE) return status;
    for (const struct addrinfo *it = found; it != NULL; it = it->ai_next) {
        size_t six = it->ai_family == AF_INET6;
        if (has_server[six] || (it->ai_family != AF_INET && !six)) continue;
        memcpy(&stun_servers[six].bytes, it->ai_addr, it->ai_addrlen);
        stun_servers[six].length = it->ai_addrlen;
        has_server[six] = true;
    }
    freeaddrinfo(found);
    return STATUS_DONE;
}

static bool is_asked(const host *of) {
    return !ice.relay_only && !of->link_local && has_server[of->address.family == 6];
}

static const stun_types_schedule schedule = {500, 39500, 4, 4, 0, 0, 0};

/* Begins a request; the next one follows only if this one succeeds. */
static void begin_request(host *of) {
    stun_types_id id;
    stun_types_key key = stun_types_key_none();
    of->ask_at = NEVER;
    of->is_asking =
        new_id(&id) &&
        is_fine(stun_types_begin(of->request, sizeof of->request,
                                 stun_types_message_type(STUN_TYPES_CLASS_REQUEST, STUN_TYPES_METHOD_BINDING), &id,
                                 &of->request_length)) &&
        is_fine(stun_types_add_fingerprint(of->request, sizeof of->request, &of->request_length)) &&
        is_fine(stun_types_transaction_begin(&of->transaction, of->request, of->request_length, &schedule,
                                             STUN_TYPES_UDP, STUN_TYPES_UNPROTECTED, &key, now));
    if (!of->is_asking) of->has_asked = true;
}

/* Sends a request again when that is due, and ends it. */
static void carry_request(host *of) {
    const socket_address *server = &stun_servers[of->address.family == 6];
    stun_types_action action;
    of->wake = NEVER;
    while (of->is_asking) {
        if (!is_fine(stun_types_transaction_poll(&of->transaction, now, &action)) || action.kind == STUN_TYPES_ENDED) {
            of->is_asking = false;
            of->has_asked = true;
        } else if (action.kind == STUN_TYPES_WAIT) {
            of->wake = action.until;
            return;
        } else {
            (void)sendto(of->socket, of->request, of->request_length, MSG_NOSIGNAL,
                         (const struct sockaddr *)&server->bytes, server->length);
        }
    }
}

void ask_stun(bool keeps) {
    for (size_t i = 0; i < host_count; i++) {
        host *of = &hosts[i];
        if (!is_asked(of)) continue;
        if (!of->is_asking && now >= of->ask_at && (keeps || !of->has_asked)) begin_request(of);
        carry_request(of);
    }
}

bool take_stun(size_t index, const stun_types_address *from, const uint8_t *bytes, size_t length) {
    host *of = &hosts[index];
    stun_types_address server, mapped;
    stun_types_attribute found;
    stun_types_received taken;
    stun_types_key key = stun_types_key_none();
    if (!of->is_asking || !address_of(&stun_servers[of->address.family == 6].bytes, &server) ||
        !is_same(&server, from) ||
        !is_fine(stun_types_transaction_receive(&of->transaction, &key, bytes, length, NULL, 0, &taken)) ||
        taken.kind == STUN_TYPES_NOT_FOR_THIS) {
        return false;
    }
    if (taken.kind == STUN_TYPES_TAKEN_SUCCESS &&
        stun_types_find(bytes, length, STUN_TYPES_ATTRIBUTE_XOR_MAPPED_ADDRESS, &found) &&
        is_fine(stun_types_read_xor_address(bytes, length, &found, &mapped)) &&
        mapped.family == of->address.family) {
        if (!of->has_asked) describe(SERVER_REFLEXIVE, index, &mapped, &of->address);
        of->ask_at = now + KEPT_FOR;
    }
    return true;
}

bool has_asked_stun(void) {
    for (size_t i = 0; i < host_count; i++) {
        if (is_asked(&hosts[i]) && !hosts[i].has_asked) return false;
    }
    return true;
}

uint64_t stun_wake(bool keeps) {
    uint64_t wake = NEVER;
    for (size_t i = 0; i < host_count; i++) {
        const host *of = &hosts[i];
        if (!is_asked(of)) continue;
        if (of->is_asking) wake = sooner(wake, of->wake);
        else if (keeps || !of->has_asked) wake = sooner(wake, of->ask_at);
    }
    return wake;
}
