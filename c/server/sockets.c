/* The sockets that the server receives from. */
#include "server.h"

#include <fcntl.h>
#include <netinet/tcp.h>
#include <sys/resource.h>

#ifndef IPV6_MULTICAST_ALL
#define IPV6_MULTICAST_ALL 29
#endif

enum {
    QUEUE = 4 << 20, /* bytes that may wait in a socket for UDP, if the system allows them */
    /* of a connection; the system takes twice as much */
    TO_SEND = 64 << 10,
    TO_READ = 16 << 10,
    /* of a packet that a client sends: a few fill TO_READ, as over the loopback one could not */
    SEGMENT = 4 << 10
};

/* Sets an option of a socket that it can serve without. */
static void set_option(int number, int level, int name, int value) {
    (void)setsockopt(number, level, name, &value, sizeof value);
}

static bool is_wildcard(const struct sockaddr_storage *at) {
    struct sockaddr_in four;
    struct sockaddr_in6 six;
    if (at->ss_family == AF_INET) {
        memcpy(&four, at, sizeof four);
        return four.sin_addr.s_addr == htonl(INADDR_ANY);
    }
    memcpy(&six, at, sizeof six);
    return IN6_IS_ADDR_UNSPECIFIED(&six.sin6_addr);
}

/* Lets a socket for UDP wait for a second at most. If it stands for several addresses, it shows to
 * which a datagram was sent, and receives nothing of groups that others have joined. (One for IPv6
 * may receive over IPv4 too.) */
static bool prepare_udp(int number, int family, bool wildcard) {
    const struct timeval second = {1, 0};
    set_option(number, SOL_SOCKET, SO_RCVBUF, QUEUE);
    if (wildcard) {
        set_option(number, IPPROTO_IP, IP_PKTINFO, 1);
        set_option(number, IPPROTO_IP, IP_MULTICAST_ALL, 0);
    }
    if (wildcard && family == AF_INET6) {
        set_option(number, IPPROTO_IPV6, IPV6_RECVPKTINFO, 1);
        set_option(number, IPPROTO_IPV6, IPV6_MULTICAST_ALL, 0);
    }
    set_listener_options(number, family);
    return setsockopt(number, SOL_SOCKET, SO_RCVTIMEO, &second, sizeof second) == 0 &&
           setsockopt(number, SOL_SOCKET, SO_SNDTIMEO, &second, sizeof second) == 0;
}

/* What a socket for TCP does, so do the connections that it accepts: the system keeps little for
 * each, gives up on a client that takes nothing, whether or not the server knows it still, and
 * keeps a connection back for a while until something comes by it. */
static void prepare_tcp(int number) {
    set_option(number, IPPROTO_TCP, TCP_NODELAY, 1);
    set_option(number, SOL_SOCKET, SO_SNDBUF, TO_SEND);
    set_option(number, SOL_SOCKET, SO_RCVBUF, TO_READ);
    set_option(number, IPPROTO_TCP, TCP_MAXSEG, SEGMENT);
    set_option(number, IPPROTO_TCP, TCP_USER_TIMEOUT, (int)setting(IDLE_TIMEOUT) * 1000);
    set_option(number, IPPROTO_TCP, TCP_DEFER_ACCEPT, (int)setting(REQUEST_TIMEOUT));
}

void prepare_listeners(const endpoints *of) {
    for (size_t i = 0; i < of->count; i++) {
        if (of->all[i].stream) prepare_tcp(of->all[i].socket);
    }
}

/* Appends an endpoint. */
static bool append(endpoints *to, const struct sockaddr_storage *at, endpoint made) {
    if (to->count == MOST_ENDPOINTS || !address_of(at, &made.address)) {
        errno = EINVAL;
        return false;
    }
    made.wildcard = is_wildcard(at);
    if (made.stream) prepare_tcp(made.socket);
    if (!made.stream && !prepare_udp(made.socket, at->ss_family, made.wildcard)) return false;
    to->all[to->count++] = made;
    return true;
}

/* ---- Sockets of its own ---------------------------------------------------------------------- */

/* Opens a socket at an address. shared: others for UDP share its port. */
static bool open_one(endpoints *to, const socket_address *at, bool stream, bool shared) {
    int type = stream ? SOCK_STREAM | SOCK_NONBLOCK : SOCK_DGRAM;
    int opened = socket(at->bytes.ss_family, type | SOCK_CLOEXEC, 0);
    if (opened < 0) return false;
    bool six = at->bytes.ss_family == AF_INET6;
    if (six) set_option(opened, IPPROTO_IPV6, IPV6_V6ONLY, !is_wildcard(&at->bytes));
    if (shared) set_option(opened, SOL_SOCKET, SO_REUSEPORT, 1);
    if (stream) set_option(opened, SOL_SOCKET, SO_REUSEADDR, 1);
    return bind(opened, (const struct sockaddr *)&at->bytes, at->length) == 0 &&
           (!stream || listen(opened, SOMAXCONN) == 0) &&
           append(to, &at->bytes, (endpoint){.socket = opened, .stream = stream, .workers = 1});
}

bool open_address(endpoints *to, const socket_address *at) {
    bool opened = true;
    for (uint32_t i = 0; opened && i < options.processes; i++) {
        opened = open_one(to, at, false, options.processes > 1);
    }
    if (opened && options.tcp) opened = open_one(to, at, true, false);
    if (opened) return true;
    stun_types_address address;
    int error = errno;
    fprintf(stderr, "stun-server: ");
    if (address_of(&at->bytes, &address)) print_address(stderr, &address);
    fprintf(stderr, ": %s\n", strerror(error));
    return false;
}

bool note_address(endpoints *to, const socket_address *at) {
    endpoint noted = {.socket = -1, .workers = 1, .wildcard = is_wildcard(&at->bytes)};
    if (to->count == MOST_ENDPOINTS || !address_of(&at->bytes, &noted.address)) return false;
    to->all[to->count++] = noted;
    return true;
}

/* ---- Sockets that it was started with -------------------------------------------------------- */

/* Makes a socket wait or not, whatever it did before. */
static bool set_waiting(int number, bool waits) {
    int flags = fcntl(number, F_GETFL);
    if (flags < 0) return false;
    flags = waits ? flags & ~O_NONBLOCK : flags | O_NONBLOCK;
    return fcntl(number, F_SETFL, flags) == 0 && fcntl(number, F_SETFD, FD_CLOEXEC) == 0;
}

/* Reads an integer of a socket; -1: it isn't one. */
static int number_of(int number, int name) {
    int value = -1;
    socklen_t length = sizeof value;
    return getsockopt(number, SOL_SOCKET, name, &value, &length) == 0 ? value : -1;
}

static bool take_open(endpoints *to, int number) {
    struct sockaddr_storage at;
    socklen_t length = sizeof at;
    int type = number_of(number, SO_TYPE);
    bool stream = type == SOCK_STREAM;
    memset(&at, 0, sizeof at);
    if (getsockname(number, (struct sockaddr *)&at, &length) != 0) return false;
    if ((!stream && type != SOCK_DGRAM) || (stream && number_of(number, SO_ACCEPTCONN) != 1)) {
        errno = EINVAL;
        return false;
    }
    return set_waiting(number, !stream) &&
           append(to, &at, (endpoint){.socket = number, .stream = stream,
                                      .workers = options.processes});
}

bool take_socket(endpoints *to, int number) {
    if (take_open(to, number)) return true;
    fprintf(stderr, "stun-server: the socket with number %d can't be served: %s\n", number,
            strerror(errno));
    return false;
}

/* ---- Listening ------------------------------------------------------------------------------ */

static bool is_same(const endpoint *a, const endpoint *b) {
    return a->stream == b->stream && memcmp(&a->address, &b->address, sizeof a->address) == 0;
}

/* Prints each address once, however many sockets share it. */
void print_endpoints(const endpoints *of) {
    for (size_t i = 0; i < of->count; i++) {
        if (i > 0 && is_same(&of->all[i], &of->all[i - 1])) continue;
        printf("listening on ");
        print_address(stdout, &of->all[i].address);
        printf(of->all[i].stream ? " over TCP\n" : " over UDP\n");
    }
    fflush(stdout);
}

/* ---- Files ----------------------------------------------------------------------------------- */

size_t allow_files(size_t wanted) {
    struct rlimit limit, more;
    if (getrlimit(RLIMIT_NOFILE, &limit) != 0) return 0;
    if (limit.rlim_cur < wanted) {
        more = limit;
        more.rlim_cur = wanted < limit.rlim_max ? wanted : limit.rlim_max;
        if (setrlimit(RLIMIT_NOFILE, &more) == 0) limit = more;
    }
    return limit.rlim_cur < wanted ? (size_t)limit.rlim_cur : wanted;
}
