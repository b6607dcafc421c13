/* A bounded load of relayed datagrams, for a TURN server (RFC 8656) on this machine.
 *
 *     cc -O2 bench/relay_load.c -o relay_load
 *     printf 'allocate\nrelay\n' | ./relay_load [OPTION].. -u USER -k KEY ADDRESS PORT
 *
 *     -n ALLOCATIONS  clients, each with a socket, an allocation and a peer (10)
 *     -m DATAGRAMS    that each client sends (1000)
 *     -s SIZE         octets of data in each (100)
 *     -w WINDOW       of one client's datagrams under way at most (8)
 *     -a ALL          of all clients' (256)
 *     -i INTERVAL     a client sends one in so many microseconds, whatever is under way
 *     -l LIFETIME     asked for, in seconds (600)
 *     -c              channels; otherwise Send and Data indications
 *     -t              over TCP
 *     -N NAMESPACE    of the network in which the peers are, a path
 *     -d              directly, with no server: ADDRESS and PORT are ignored, and clients send to peers
 *     -f, -p          the addresses of clients and of peers (127.0.0.3, 127.0.0.2)
 *     -u, -k          the user, and MD5("USER:REALM:PASSWORD") in hexadecimal digits
 *
 * Standard input has commands, a line each. After each it prints a line that begins so:
 *
 *     allocate  allocations, permissions and channels; the first request has no credentials
 *     relay     datagrams from the clients by way of the server to the peers, which send each back
 *     refresh   each allocation, permission and channel
 *     open      allocations alone, each by a request without credentials and one with them
 *     renew, permit, bind   each allocation, permission or channel alone
 *     release   each allocation, by a lifetime of 0
 *     direct    instead of allocate, with -d
 *     flood     Allocate requests without credentials, DATAGRAMS of each client, without waiting for
 *               responses; it pauses while the server's socket has more than it reads in a moment
 *
 * A datagram has the numbers of its client and its own, the time, and octets that follow from them. It
 * counts if it is whole, comes from where it has to, and comes for the first time, at the peer and back
 * at the client; what else comes is wrong or repeated. A client that hears nothing for half a second
 * sends on. Requests are repeated over UDP.
 *
 * The addresses are within 127.0.0.0/8, or 198.18.0.0/15 for tests (RFC 2544). The status is 0 if nothing was lost, wrong,
 * repeated or refused, 1 if something was, and 2 if it couldn't begin. It reads messages by code of its
 * own, so that it checks the server's library and not itself. */
#define _GNU_SOURCE
#include <arpa/inet.h>
#include <errno.h>
#include <netinet/in.h>
#include <fcntl.h>
#include <netinet/tcp.h>
#include <sched.h>
#include <signal.h>
#include <stdbool.h>
#include <stdio.h>
#include <sys/epoll.h>
#include <sys/mman.h>
#include <sys/prctl.h>
#include <sys/random.h>
#include <sys/socket.h>
#include <time.h>
#include <unistd.h>

#include "reference.h"

enum {
    HEADER = 20,
    MOST_ALLOCATIONS = 18000,
    MOST_DATAGRAMS = 10000000, /* of all clients */
    MOST_WINDOW = 64,          /* and datagrams of a batch */
    MOST_DATA = 1400,
    ROOM = 2048,
    LEAST_DATA = 24,
    REQUESTS = 64,        /* under way at most */
    TRIES = 8,            /* of a request */
    PATIENCE = 500,       /* milliseconds, of a client that waits for datagrams or a response */
    LAST_PATIENCE = 10000, /* after the last datagram */
    MOST_QUEUED = 1 << 20, /* octets of the server's socket that a flood adds to */
    DELAYS = 1 << 20,     /* that are kept */
    FIRST_CHANNEL = 0x4000,
    CHANNELS = 0x1000
};

/* What the arguments ask for. */
static struct {
    int allocations, datagrams, size, window, all, interval, lifetime;
    bool channels, stream, direct;
    const char *network;
    struct in_addr clients, peers;
    const char *user;
    uint8_t key[16];
    bool has_key;
    struct sockaddr_in server;
} asked = {.allocations = 10, .datagrams = 1000, .size = 100, .window = 8, .all = 256, .lifetime = 600};

/* What the process with the clients and the one with the peers share. */
typedef struct {
    uint8_t relayed[6], peer[6]; /* an address and a port as messages have them */
} place;

static struct {
    uint8_t salt[4]; /* the first bytes of all transaction IDs and of all data */
    _Atomic uint64_t arrived, wrong, repeated; /* at the peers */
    place places[MOST_ALLOCATIONS];
} *shared;
static uint8_t *peers_seen; /* a bit for each datagram: it came to its peer */

/* The requests of a client, in the order in which one leads to the next. */
typedef enum { ALLOCATE, REFRESH, PERMIT, BIND, RELEASE, NO_REQUEST } request;

typedef struct {
    int socket;
    request asks;        /* what it waits for a response to */
    bool failed;
    uint32_t number;     /* of its requests */
    int tries;
    uint64_t asked_at;
    size_t nonce_length; /* 0: it has none yet */
    uint8_t nonce[128];
    uint32_t sent, back, under_way;
    bool queued;
    uint64_t heard;      /* when it last sent with nothing under way, or received */
    uint8_t *seen;       /* a bit for each datagram: it came back */
    uint8_t *bytes;      /* over TCP, what was received of a message that isn't whole */
    size_t bytes_length;
} client;

static client clients[MOST_ALLOCATIONS];
static uint8_t realm[256];
static size_t realm_length;
static uint8_t pattern[256 + MOST_DATA];
static int poller;
static uint64_t back, wrong, repeated, failures, repeats;
static bool goes_on; /* whether requests follow those that the command begins with */
static unsigned refusal; /* the first error code that ended a client's requests */
static uint64_t under_way, last_heard;
static uint32_t delays[DELAYS];
static size_t delays_count;
static client *queue[MOST_ALLOCATIONS]; /* clients that may send, from queue_at on */
static size_t queue_at, queue_length;

static uint64_t nanoseconds(void) {
    struct timespec now = {0, 0};
    clock_gettime(CLOCK_MONOTONIC, &now);
    return (uint64_t)now.tv_sec * 1000000000 + (uint64_t)now.tv_nsec;
}

static uint64_t milliseconds(void) { return nanoseconds() / 1000000; }

static size_t short_at(const uint8_t *at) { return (size_t)at[0] << 8 | at[1]; }

static size_t seen_size(void) { return (size_t)asked.datagrams / 8 + 1; }

static uint32_t index_of(const client *of) { return (uint32_t)(of - clients); }

static size_t padded(size_t length) { return (length + 3) / 4 * 4; }

/* ---- Data ------------------------------------------------------------------------------------ */

static size_t pattern_at(uint32_t index, uint32_t sequence) { return (index * 31 + sequence) & 255; }

/* Writes the data of a client's datagram. side: 'c', on its way to the peer, or 'p', back. */
static void write_data(uint8_t *at, uint32_t index, uint32_t sequence, uint64_t now) {
    memcpy(at, shared->salt, 4);
    put32(at + 4, index);
    put32(at + 8, sequence);
    memcpy(at + 12, &now, sizeof now);
    at[20] = 'c';
    memcpy(at + 21, pattern + pattern_at(index, sequence), (size_t)asked.size - 21);
}

/* Whether data is that of a datagram of a client. */
static bool is_data(const uint8_t *data, size_t length, uint32_t index, uint8_t side) {
    if (length != (size_t)asked.size || memcmp(data, shared->salt, 4) != 0) return false;
    if (get32(data + 4) != index || data[20] != side) return false;
    uint32_t sequence = get32(data + 8);
    return sequence < (uint32_t)asked.datagrams &&
           memcmp(data + 21, pattern + pattern_at(index, sequence), length - 21) == 0;
}

/* Whether a bit is set; it is from now on. */
static bool set_bit(uint8_t *bits, uint32_t number) {
    uint8_t bit = (uint8_t)(1 << (number & 7));
    bool was = bits[number >> 3] & bit;
    bits[number >> 3] |= bit;
    return was;
}

/* ---- Batches --------------------------------------------------------------------------------- */

static struct {
    uint8_t bytes[MOST_WINDOW][ROOM];
    struct iovec places[MOST_WINDOW];
    struct sockaddr_in names[MOST_WINDOW];
    struct mmsghdr headers[MOST_WINDOW];
} batch;

static void make_batch(bool named) {
    for (int i = 0; i < MOST_WINDOW; i++) {
        batch.places[i] = (struct iovec){batch.bytes[i], ROOM};
        memset(&batch.headers[i], 0, sizeof batch.headers[i]);
        batch.headers[i].msg_hdr.msg_iov = &batch.places[i];
        batch.headers[i].msg_hdr.msg_iovlen = 1;
        if (!named) continue;
        batch.headers[i].msg_hdr.msg_name = &batch.names[i];
        batch.headers[i].msg_hdr.msg_namelen = sizeof batch.names[i];
    }
}

static bool watch(int number, uint64_t index) {
    struct epoll_event event = {.events = EPOLLIN, .data.u64 = index};
    return epoll_ctl(poller, EPOLL_CTL_ADD, number, &event) == 0;
}

/* Opens a socket at an address and any port. */
static int open_at(struct in_addr address, int type, struct sockaddr_in *at) {
    socklen_t length = sizeof *at;
    memset(at, 0, sizeof *at);
    at->sin_family = AF_INET;
    at->sin_addr = address;
    int opened = socket(AF_INET, type | SOCK_CLOEXEC, 0);
    if (opened < 0 || bind(opened, (const struct sockaddr *)at, sizeof *at) != 0) return -1;
    return getsockname(opened, (struct sockaddr *)at, &length) == 0 ? opened : -1;
}

static void keep_place(uint8_t *where, const struct sockaddr_in *at) {
    memcpy(where, &at->sin_addr, 4);
    memcpy(where + 4, &at->sin_port, 2);
}

/* ---- Peers: a process of its own ------------------------------------------------------------- */

static int peers[MOST_ALLOCATIONS];

/* Whether datagram i of the batch goes back from a peer; then it is marked. */
static bool is_echoed(int i, uint32_t index) {
    uint8_t from[6], *data = batch.bytes[i];
    keep_place(from, &batch.names[i]);
    bool right = memcmp(from, shared->places[index].relayed, sizeof from) == 0 &&
                 is_data(data, batch.headers[i].msg_len, index, 'c');
    if (!right) shared->wrong++;
    else if (set_bit(peers_seen + index * seen_size(), get32(data + 8))) shared->repeated++;
    else shared->arrived++;
    data[20] = 'p';
    return right;
}

static void echo_some(uint32_t index) {
    make_batch(true);
    int got = recvmmsg(peers[index], batch.headers, MOST_WINDOW, MSG_DONTWAIT, NULL), first = 0;
    for (int i = 0; i < got; i++) batch.places[i].iov_len = batch.headers[i].msg_len;
    for (int i = 0; i < got; i++) {
        if (is_echoed(i, index)) continue;
        if (i > first) sendmmsg(peers[index], batch.headers + first, (unsigned)(i - first), 0);
        first = i + 1;
    }
    if (got > first) sendmmsg(peers[index], batch.headers + first, (unsigned)(got - first), 0);
}

static bool open_peers(void) {
    poller = epoll_create1(EPOLL_CLOEXEC);
    for (int i = 0; i < asked.allocations; i++) {
        struct sockaddr_in at;
        peers[i] = open_at(asked.peers, SOCK_DGRAM, &at);
        if (peers[i] < 0 || !watch(peers[i], (uint64_t)i)) return false;
        keep_place(shared->places[i].peer, &at);
    }
    return true;
}

/* Says by a pipe how the peers were opened, and sends back what comes, until the process is ended. */
static void be_peers(int ready) {
    struct epoll_event events[256];
    prctl(PR_SET_PDEATHSIG, SIGKILL);
    errno = 0;
    int network = asked.network != NULL ? open(asked.network, O_RDONLY | O_CLOEXEC) : -1;
    bool opened = (asked.network == NULL || setns(network, CLONE_NEWNET) == 0) && open_peers();
    int error = opened ? 0 : errno;
    if (write(ready, &error, sizeof error) != sizeof error || !opened) _exit(2);
    for (;;) {
        int count = epoll_wait(poller, events, 256, -1);
        for (int i = 0; i < count; i++) echo_some((uint32_t)events[i].data.u64);
    }
}

static bool start_peers(void) {
    int ready[2], error = EPIPE;
    if (pipe(ready) != 0) return false;
    pid_t child = fork();
    if (child == 0) be_peers(ready[1]);
    close(ready[1]);
    bool heard = child > 0 && read(ready[0], &error, sizeof error) == sizeof error;
    errno = error;
    return heard && error == 0;
}

/* ---- Requests -------------------------------------------------------------------------------- */

typedef struct {
    uint8_t bytes[1024];
    size_t length;
} message;

static const uint8_t cookie[4] = {0x21, 0x12, 0xA4, 0x42};

static void begin(message *made, unsigned type, const client *from) {
    put16(made->bytes, type);
    memcpy(made->bytes + 4, cookie, sizeof cookie);
    memcpy(made->bytes + 8, shared->salt, 4);
    put32(made->bytes + 12, index_of(from));
    put32(made->bytes + 16, from->number);
    made->length = HEADER;
}

static void set_length(uint8_t *bytes, size_t length) { put16(bytes + 2, (uint32_t)(length - HEADER)); }

static void add(message *made, unsigned type, const void *value, size_t length) {
    uint8_t *at = made->bytes + made->length;
    put16(at, type);
    put16(at + 2, (uint32_t)length);
    memset(at + 4, 0, padded(length));
    memcpy(at + 4, value, length);
    made->length += 4 + padded(length);
    set_length(made->bytes, made->length);
}

static void add_number(message *made, unsigned type, uint32_t number) {
    uint8_t value[4];
    put32(value, number);
    add(made, type, value, sizeof value);
}

/* XORs an address and a port, as messages have them, with the cookie. */
static void cross(const uint8_t at[6], uint8_t value[8]) {
    value[0] = 0;
    value[1] = 1;
    for (int i = 0; i < 2; i++) value[2 + i] = at[4 + i] ^ cookie[i];
    for (int i = 0; i < 4; i++) value[4 + i] = at[i] ^ cookie[i];
}

static void add_peer(message *made, const client *of) {
    uint8_t value[8];
    cross(shared->places[index_of(of)].peer, value);
    add(made, 0x0012, value, sizeof value);
}

/* The HMAC-SHA1 of a message up to an attribute, as its MESSAGE-INTEGRITY has it there. */
static void integrity(const uint8_t *bytes, size_t at, uint8_t value[32]) {
    uint8_t text[ROOM];
    memcpy(text, bytes, at);
    set_length(text, at + 24);
    hmac(1, asked.key, sizeof asked.key, text, at, value);
}

static void sign(message *made, const client *from) {
    uint8_t value[32];
    add(made, 0x0006, asked.user, strlen(asked.user));
    add(made, 0x0014, realm, realm_length);
    add(made, 0x0015, from->nonce, from->nonce_length);
    integrity(made->bytes, made->length, value);
    add(made, 0x0008, value, 20);
}

static unsigned channel_of(const client *of) { return FIRST_CHANNEL + index_of(of) % CHANNELS; }

static const unsigned methods[] = {[ALLOCATE] = 0x003, [REFRESH] = 0x004, [PERMIT] = 0x008,
                                   [BIND] = 0x009, [RELEASE] = 0x004};

static void write_request(message *made, const client *from) {
    begin(made, methods[from->asks], from);
    if (from->asks == ALLOCATE) add_number(made, 0x0019, 17u << 24);
    if (from->asks == ALLOCATE || from->asks == REFRESH) add_number(made, 0x000D, (uint32_t)asked.lifetime);
    if (from->asks == RELEASE) add_number(made, 0x000D, 0);
    if (from->asks == BIND) add_number(made, 0x000C, (uint32_t)channel_of(from) << 16);
    if (from->asks == PERMIT || from->asks == BIND) add_peer(made, from);
    if (from->nonce_length > 0) sign(made, from);
}

/* Sends a client's request, for the first time or again. */
static void send_request(client *from) {
    message made;
    write_request(&made, from);
    from->asked_at = milliseconds();
    from->tries++;
    (void)!send(from->socket, made.bytes, made.length, MSG_NOSIGNAL);
}

static void ask(client *from, request next) {
    from->asks = next;
    from->number++;
    from->tries = 0;
    if (next != NO_REQUEST) send_request(from);
}

/* ---- Responses ------------------------------------------------------------------------------- */

/* The value of an attribute, and its length; NULL: there is none. */
static const uint8_t *find(const uint8_t *bytes, size_t length, unsigned type, size_t *value_length) {
    for (size_t at = HEADER; at + 4 <= length; at += 4 + padded(short_at(bytes + at + 2))) {
        *value_length = short_at(bytes + at + 2);
        if (at + 4 + *value_length > length) return NULL;
        if (short_at(bytes + at) == type) return bytes + at + 4;
    }
    return NULL;
}

static bool keep(const uint8_t *value, size_t length, uint8_t *to, size_t room, size_t *kept) {
    if (value == NULL || length > room) return false;
    memcpy(to, value, length);
    *kept = length;
    return true;
}

/* Keeps the realm and the nonce that a response asks for. */
static bool keep_nonce(client *of, const uint8_t *bytes, size_t length) {
    size_t value_length = 0;
    const uint8_t *value = find(bytes, length, 0x0014, &value_length);
    if (!keep(value, value_length, realm, sizeof realm, &realm_length)) return false;
    value = find(bytes, length, 0x0015, &value_length);
    return keep(value, value_length, of->nonce, sizeof of->nonce, &of->nonce_length);
}

static void fail(client *of, unsigned code) {
    of->failed = true;
    of->asks = NO_REQUEST;
    failures++;
    if (refusal == 0) refusal = code;
}

/* Goes on after an error response: 401 without credentials and 438 have a nonce. */
static void take_error(client *of, const uint8_t *bytes, size_t length) {
    size_t value_length = 0;
    const uint8_t *value = find(bytes, length, 0x0009, &value_length);
    unsigned code = value != NULL && value_length >= 4 ? value[2] * 100u + value[3] : 0;
    bool again = code == 438 || (code == 401 && of->nonce_length == 0);
    if (again && keep_nonce(of, bytes, length)) ask(of, of->asks);
    else fail(of, code);
}

static bool is_signed(const uint8_t *bytes, size_t length) {
    uint8_t right[32];
    size_t value_length = 0;
    const uint8_t *value = find(bytes, length, 0x0008, &value_length);
    if (value == NULL || value_length != 20) return false;
    integrity(bytes, (size_t)(value - bytes) - 4, right);
    return memcmp(value, right, 20) == 0;
}

static bool keep_relayed(const client *of, const uint8_t *bytes, size_t length) {
    size_t value_length = 0;
    const uint8_t *value = find(bytes, length, 0x0016, &value_length);
    uint8_t at[6], plain[8];
    if (value == NULL || value_length != 8 || value[1] != 1) return false;
    memcpy(at, value + 4, 4);
    memcpy(at + 4, value + 2, 2);
    cross(at, plain);
    memcpy(shared->places[index_of(of)].relayed, plain + 4, 4);
    memcpy(shared->places[index_of(of)].relayed + 4, plain + 2, 2);
    return true;
}

static void take_success(client *of, const uint8_t *bytes, size_t length) {
    request next = NO_REQUEST;
    bool right = is_signed(bytes, length);
    if (of->asks == ALLOCATE) right = right && keep_relayed(of, bytes, length);
    if (goes_on && (of->asks == ALLOCATE || of->asks == REFRESH)) next = PERMIT;
    if (goes_on && of->asks == PERMIT && asked.channels) next = BIND;
    if (right) ask(of, next);
    else fail(of, 0);
}

/* Takes a response, if it is one to what a client has asked or asked before. */
static bool take_response(client *of, const uint8_t *bytes, size_t length) {
    if (length < HEADER || short_at(bytes + 2) != length - HEADER) return false;
    if (memcmp(bytes + 4, cookie, 4) != 0 || memcmp(bytes + 8, shared->salt, 4) != 0) return false;
    if (get32(bytes + 12) != index_of(of)) return false;
    if (of->asks == NO_REQUEST || get32(bytes + 16) != of->number) return true; /* (it came twice) */
    unsigned type = (unsigned)short_at(bytes), method = methods[of->asks];
    if (type == (0x0100 | method)) take_success(of, bytes, length);
    else if (type == (0x0110 | method)) take_error(of, bytes, length);
    else return false;
    return true;
}

/* ---- What a client receives ------------------------------------------------------------------ */

/* The data in a message of the server, and its length; NULL: it has none for this client. */
static const uint8_t *data_in(const client *of, const uint8_t *bytes, size_t length, size_t *found) {
    if (asked.direct) {
        *found = length;
        return bytes;
    }
    if (asked.channels) {
        if (length < 4 || short_at(bytes) != channel_of(of)) return NULL;
        *found = short_at(bytes + 2);
        return *found + 4 <= length && length <= 4 + padded(*found) ? bytes + 4 : NULL;
    }
    uint8_t peer[8];
    size_t peer_length = 0;
    if (length < HEADER || short_at(bytes) != 0x0017) return NULL;
    if (short_at(bytes + 2) != length - HEADER || memcmp(bytes + 4, cookie, 4) != 0) return NULL;
    const uint8_t *from = find(bytes, length, 0x0012, &peer_length);
    cross(shared->places[index_of(of)].peer, peer);
    if (from == NULL || peer_length != 8 || memcmp(from + 1, peer + 1, 7) != 0) return NULL;
    return find(bytes, length, 0x0013, found);
}

static void enqueue(client *of) {
    bool may = of->sent < (uint32_t)asked.datagrams && of->under_way < (uint32_t)asked.window;
    if (of->queued || of->failed || asked.interval > 0 || !may) return;
    of->queued = true;
    queue[(queue_at + queue_length++) % (size_t)asked.allocations] = of;
}

static void take_data(client *of, const uint8_t *data) {
    uint64_t sent_at;
    if (set_bit(of->seen, get32(data + 8))) {
        repeated++;
        return;
    }
    memcpy(&sent_at, data + 12, sizeof sent_at);
    if (delays_count < DELAYS) delays[delays_count++] = (uint32_t)((last_heard - sent_at) / 1000);
    back++;
    of->back++;
    of->heard = last_heard / 1000000;
    if (of->under_way == 0) return;
    of->under_way--;
    under_way--;
    enqueue(of);
}

static void take(client *of, const uint8_t *bytes, size_t length) {
    size_t data_length = 0;
    const uint8_t *data = data_in(of, bytes, length, &data_length);
    if (data != NULL && is_data(data, data_length, index_of(of), 'p')) take_data(of, data);
    else if (data != NULL || !take_response(of, bytes, length)) wrong++;
}

static void receive_datagrams(client *of) {
    for (int i = 0; i < MOST_WINDOW; i++) batch.places[i].iov_len = ROOM;
    int got = recvmmsg(of->socket, batch.headers, MOST_WINDOW, MSG_DONTWAIT, NULL);
    last_heard = nanoseconds();
    for (int i = 0; i < got; i++) take(of, batch.bytes[i], batch.headers[i].msg_len);
}

enum { STREAM_ROOM = 1 << 16 };

/* The length of the message at the beginning of some bytes of a stream; 0: it isn't known yet. */
static size_t message_length(const uint8_t *bytes, size_t length) {
    if (length < 4) return 0;
    return bytes[0] >> 6 == 1 ? 4 + padded(short_at(bytes + 2)) : HEADER + short_at(bytes + 2);
}

static void receive_stream(client *of) {
    ssize_t got = recv(of->socket, of->bytes + of->bytes_length, STREAM_ROOM - of->bytes_length, MSG_DONTWAIT);
    size_t at = 0, next;
    last_heard = nanoseconds();
    if (got == 0 || (got < 0 && errno != EAGAIN && errno != EINTR)) {
        epoll_ctl(poller, EPOLL_CTL_DEL, of->socket, NULL);
        fail(of, 0);
    }
    if (got <= 0) return;
    of->bytes_length += (size_t)got;
    while ((next = message_length(of->bytes + at, of->bytes_length - at)) > 0 &&
           next <= of->bytes_length - at) {
        take(of, of->bytes + at, next);
        at += next;
    }
    memmove(of->bytes, of->bytes + at, of->bytes_length - at);
    of->bytes_length -= at;
}

static void receive_some(int timeout) {
    struct epoll_event events[256];
    int ready = epoll_wait(poller, events, 256, timeout);
    for (int i = 0; i < ready; i++) {
        client *of = &clients[events[i].data.u64];
        if (asked.stream) receive_stream(of);
        else receive_datagrams(of);
    }
}

/* ---- Sending --------------------------------------------------------------------------------- */

/* Writes a message with data for the peer. Returns its length. */
static size_t write_message(uint8_t *at, const client *from, uint32_t sequence, uint64_t now) {
    size_t length = (size_t)asked.size, front = 4;
    uint8_t peer[8];
    if (asked.direct) {
        write_data(at, index_of(from), sequence, now);
        return length;
    }
    if (asked.channels) {
        put16(at, channel_of(from));
    } else {
        message made;
        begin(&made, 0x0016, from);
        put32(made.bytes + 16, ~sequence);
        cross(shared->places[index_of(from)].peer, peer);
        add(&made, 0x0012, peer, sizeof peer);
        put16(made.bytes + made.length, 0x0013);
        front = made.length + 4;
        set_length(made.bytes, front + padded(length));
        memcpy(at, made.bytes, made.length + 2);
    }
    put16(at + front - 2, (uint32_t)length);
    write_data(at + front, index_of(from), sequence, now);
    memset(at + front + length, 0, padded(length) - length);
    return front + (asked.channels && !asked.stream ? length : padded(length));
}

/* Sends so many datagrams of a client. Returns how many were. */
static uint32_t send_some(client *from, uint32_t count) {
    uint64_t now = nanoseconds();
    int sent;
    for (uint32_t i = 0; i < count; i++) {
        batch.places[i].iov_len = write_message(batch.bytes[i], from, from->sent + i, now);
    }
    if (asked.stream) {
        struct msghdr whole = {.msg_iov = batch.places, .msg_iovlen = count};
        sent = sendmsg(from->socket, &whole, MSG_NOSIGNAL) > 0 ? (int)count : 0;
    } else {
        sent = sendmmsg(from->socket, batch.headers, count, MSG_DONTWAIT);
    }
    if (sent <= 0) return 0;
    if (from->under_way == 0) from->heard = now / 1000000;
    from->sent += (uint32_t)sent;
    from->under_way += (uint32_t)sent;
    under_way += (uint64_t)sent;
    return (uint32_t)sent;
}

/* Sends what the queue, the windows and the bound of all have room for. */
static void send_queued(void) {
    while (queue_length > 0 && under_way < (uint64_t)asked.all) {
        client *from = queue[queue_at];
        uint32_t count = (uint32_t)asked.window - from->under_way;
        uint32_t left = (uint32_t)asked.datagrams - from->sent;
        if (count > left) count = left;
        if (count > (uint64_t)asked.all - under_way) count = (uint32_t)((uint64_t)asked.all - under_way);
        queue_at = (queue_at + 1) % (size_t)asked.allocations;
        queue_length--;
        from->queued = false;
        if (count > 0 && send_some(from, count) == 0) return;
        enqueue(from);
    }
}

/* Sends what is due by the interval: the clients begin one after the other. */
static void send_due(uint64_t since) {
    uint64_t interval = (uint64_t)asked.interval * 1000, past = nanoseconds() - since;
    for (client *from = clients; from < clients + asked.allocations; from++) {
        uint64_t late = interval / (uint64_t)asked.allocations * index_of(from);
        uint64_t due = past < late ? 0 : (past - late) / interval + 1;
        if (due > (uint64_t)asked.datagrams) due = (uint64_t)asked.datagrams;
        while (!from->failed && from->sent < due && send_some(from, 1) > 0) continue;
    }
}

/* ---- Commands -------------------------------------------------------------------------------- */

/* Repeats the requests that wait for long; one that has been tried often enough has failed. */
static void repeat_requests(uint64_t now) {
    for (client *of = clients; of < clients + asked.allocations; of++) {
        if (of->asks == NO_REQUEST || now < of->asked_at + PATIENCE) continue;
        if (of->tries >= TRIES) {
            fail(of, 1);
        } else if (!asked.stream) {
            repeats++;
            send_request(of);
        } else {
            of->asked_at = now;
            of->tries++;
        }
    }
}

/* Has all clients make requests, from one on. */
static void transact(const char *name, request first) {
    int next = 0, done = 0;
    uint64_t began = nanoseconds(), looked = began / 1000000;
    failures = repeats = refusal = 0;
    while (done < asked.allocations) {
        for (; next < asked.allocations && next < done + REQUESTS; next++) {
            if (!clients[next].failed) ask(&clients[next], first);
        }
        receive_some(10);
        while (done < next && clients[done].asks == NO_REQUEST) done++;
        uint64_t now = milliseconds();
        if (now < looked + 100) continue;
        looked = now;
        repeat_requests(now);
    }
    printf("%s: %d, failed %llu, by code %u, repeated requests %llu, %.3f s\n", name, asked.allocations,
           (unsigned long long)failures, refusal, (unsigned long long)repeats,
           (double)(nanoseconds() - began) / 1e9);
}

/* Has all clients allocate, as though they had never asked. */
static void open_allocations(const char *name) {
    for (client *of = clients; of < clients + asked.allocations; of++) of->nonce_length = 0;
    transact(name, ALLOCATE);
}

/* Lets clients that hear nothing send on. Returns whether one may still hear something. */
static bool push_on(uint64_t now) {
    bool busy = false;
    for (client *of = clients; of < clients + asked.allocations; of++) {
        if (of->failed) continue;
        if (of->sent == (uint32_t)asked.datagrams) {
            busy |= of->back < of->sent && now < of->heard + LAST_PATIENCE;
            continue;
        }
        busy = true;
        if (of->under_way > 0 && now >= of->heard + PATIENCE) {
            under_way -= of->under_way;
            of->under_way = 0;
        }
        enqueue(of);
    }
    return busy;
}

static int compare(const void *a, const void *b) {
    uint32_t x = *(const uint32_t *)a, y = *(const uint32_t *)b;
    return (x > y) - (x < y);
}

static uint32_t delay_at(double part) {
    return delays_count > 0 ? delays[(size_t)((double)(delays_count - 1) * part)] : 0;
}

static uint64_t sum_sent(void) {
    uint64_t sent = 0;
    for (int i = 0; i < asked.allocations; i++) sent += clients[i].sent;
    return sent;
}

/* The datagrams are counted anew. */
static void begin_relaying(void) {
    for (client *of = clients; of < clients + asked.allocations; of++) {
        of->sent = of->back = of->under_way = 0;
        of->queued = false;
        memset(of->seen, 0, seen_size());
    }
    back = wrong = repeated = under_way = delays_count = queue_at = queue_length = 0;
    shared->arrived = shared->wrong = shared->repeated = 0;
    memset(peers_seen, 0, (size_t)asked.allocations * seen_size());
    put32(shared->salt, get32(shared->salt) + 1);
}

static void relay(void) {
    static unsigned turns;
    if (turns++ > 0) begin_relaying();
    uint64_t began = last_heard = nanoseconds(), looked = 0;
    for (;;) {
        uint64_t now = milliseconds();
        if (now >= looked + 10) {
            looked = now;
            if (!push_on(now)) break;
        }
        if (asked.interval > 0) send_due(began);
        else send_queued();
        receive_some(asked.interval > 0 ? 1 : 10);
    }
    qsort(delays, delays_count, sizeof *delays, compare);
    printf("relay: sent %llu, at peers %llu, back %llu, wrong %llu, repeated %llu, %.3f s, "
           "delay %u %u %u us\n",
           (unsigned long long)sum_sent(), (unsigned long long)shared->arrived, (unsigned long long)back,
           (unsigned long long)(wrong + shared->wrong), (unsigned long long)(repeated + shared->repeated),
           (double)(last_heard - began) / 1e9, delay_at(0.5), delay_at(0.99), delay_at(1));
}

/* Counts the responses 401 among what a client has received. */
static uint64_t count_challenges(client *of) {
    uint64_t found = 0;
    size_t length = 0;
    for (int i = 0; i < MOST_WINDOW; i++) batch.places[i].iov_len = ROOM;
    int got = recvmmsg(of->socket, batch.headers, MOST_WINDOW, MSG_DONTWAIT, NULL);
    for (int i = 0; i < got; i++) {
        const uint8_t *code = find(batch.bytes[i], batch.headers[i].msg_len, 0x0009, &length);
        found += code != NULL && length >= 4 && code[2] == 4 && code[3] == 1;
    }
    return found;
}

/* The octets that wait in the server's socket, if it has one for IPv4 alone. */
static unsigned long queued(void) {
    char line[256];
    unsigned long found = 0, queue;
    unsigned port;
    FILE *from = fopen("/proc/net/udp", "r");
    while (from != NULL && fgets(line, sizeof line, from) != NULL) {
        bool is_read = sscanf(line, " %*u: %*x:%x %*x:%*x %*x %*x:%lx", &port, &queue) == 2;
        if (is_read && port == ntohs(asked.server.sin_port)) found += queue;
    }
    if (from != NULL) fclose(from);
    return found;
}

static void flood(void) {
    uint64_t began = nanoseconds(), sent = 0, answered = 0;
    uint64_t interval = (uint64_t)asked.interval * 1000;
    for (int round = 0; round < asked.datagrams; round += asked.window) {
        while (nanoseconds() - began < (uint64_t)round * interval || queued() > MOST_QUEUED) usleep(100);
        for (client *from = clients; from < clients + asked.allocations; from++) {
            answered += count_challenges(from);
            for (int i = 0; i < asked.window; i++) {
                message made;
                from->asks = ALLOCATE;
                from->number++;
                write_request(&made, from);
                memcpy(batch.bytes[i], made.bytes, made.length);
                batch.places[i].iov_len = made.length;
            }
            int done = sendmmsg(from->socket, batch.headers, (unsigned)asked.window, MSG_DONTWAIT);
            sent += done > 0 ? (uint64_t)done : 0;
            from->asks = NO_REQUEST;
        }
    }
    double took = (double)(nanoseconds() - began) / 1e9;
    usleep(200000);
    for (client *from = clients; from < clients + asked.allocations; from++) answered += count_challenges(from);
    printf("flood: sent %llu, answered %llu, %.3f s\n", (unsigned long long)sent, (unsigned long long)answered,
           took);
}

/* Connects each client to its peer. */
static void connect_directly(void) {
    for (int i = 0; i < asked.allocations; i++) {
        struct sockaddr_in at = {.sin_family = AF_INET};
        socklen_t length = sizeof at;
        memcpy(&at.sin_addr, shared->places[i].peer, 4);
        memcpy(&at.sin_port, shared->places[i].peer + 4, 2);
        if (connect(clients[i].socket, (struct sockaddr *)&at, sizeof at) != 0) fail(&clients[i], 0);
        getsockname(clients[i].socket, (struct sockaddr *)&at, &length);
        keep_place(shared->places[i].relayed, &at);
    }
    printf("direct: %d, failed %llu,\n", asked.allocations, (unsigned long long)failures);
}

/* Obeys the commands. Returns whether all was as it should be. */
static bool obey(void) {
    char line[64];
    bool right = true;
    while (fgets(line, sizeof line, stdin) != NULL) {
        failures = 0;
        line[strcspn(line, "\n")] = 0;
        goes_on = strcmp(line, "allocate") == 0 || strcmp(line, "refresh") == 0;
        if (strcmp(line, "allocate") == 0) transact(line, ALLOCATE);
        else if (strcmp(line, "refresh") == 0) transact(line, REFRESH);
        else if (strcmp(line, "open") == 0) open_allocations(line);
        else if (strcmp(line, "renew") == 0) transact(line, REFRESH);
        else if (strcmp(line, "permit") == 0) transact(line, PERMIT);
        else if (strcmp(line, "bind") == 0) transact(line, BIND);
        else if (strcmp(line, "release") == 0) transact(line, RELEASE);
        else if (strcmp(line, "relay") == 0) relay();
        else if (strcmp(line, "flood") == 0) flood();
        else if (strcmp(line, "direct") == 0) connect_directly();
        else return false;
        fflush(stdout);
        right = right && failures == 0 && wrong == 0 && repeated == 0 && back == sum_sent();
    }
    return right && shared->wrong == 0 && shared->repeated == 0;
}

/* ---- The beginning --------------------------------------------------------------------------- */

static bool open_client(client *opened) {
    struct sockaddr_in at;
    opened->asks = NO_REQUEST;
    opened->socket = open_at(asked.clients, asked.stream ? SOCK_STREAM : SOCK_DGRAM, &at);
    opened->seen = calloc(seen_size(), 1);
    if (asked.stream) opened->bytes = malloc(STREAM_ROOM);
    if (opened->socket < 0 || opened->seen == NULL) return false;
    if (asked.stream && opened->bytes == NULL) return false;
    const struct sockaddr *server = (const struct sockaddr *)&asked.server;
    if (!asked.direct && connect(opened->socket, server, sizeof asked.server) != 0) return false;
    int on = 1;
    if (asked.stream) setsockopt(opened->socket, IPPROTO_TCP, TCP_NODELAY, &on, sizeof on);
    return watch(opened->socket, index_of(opened));
}

/* Memory that both processes share, all zeros. */
static void *shared_memory(size_t size) {
    void *at = mmap(NULL, size, PROT_READ | PROT_WRITE, MAP_SHARED | MAP_ANONYMOUS, -1, 0);
    return at == MAP_FAILED ? NULL : at;
}

static bool begin_all(void) {
    shared = shared_memory(sizeof *shared);
    peers_seen = shared_memory((size_t)asked.allocations * seen_size());
    if (shared == NULL || peers_seen == NULL) return false;
    if (getrandom(shared->salt, sizeof shared->salt, 0) != sizeof shared->salt) return false;
    for (size_t i = 0; i < sizeof pattern; i++) pattern[i] = (uint8_t)(i * i * 7 + i / 3);
    if (!start_peers()) return false;
    make_batch(false);
    poller = epoll_create1(EPOLL_CLOEXEC);
    for (int i = 0; i < asked.allocations; i++) {
        if (!open_client(&clients[i])) return false;
    }
    return true;
}

/* ---- Arguments ------------------------------------------------------------------------------- */

static int usage(void) {
    fprintf(stderr, "usage: relay_load [-ct] [-n ALLOCATIONS] [-m DATAGRAMS] [-s SIZE] [-w WINDOW] [-a ALL]\n"
                    "       [-i INTERVAL] [-l LIFETIME] [-f ADDRESS] [-p ADDRESS] -u USER -k KEY ADDRESS PORT\n");
    return 2;
}

/* Reads a number of decimal digits, from least to most. */
static bool read_number(const char *text, int least, int most, int *number) {
    char *end;
    long read = strtol(text, &end, 10);
    *number = (int)read;
    return *text >= '0' && *text <= '9' && *end == 0 && read >= least && read <= most;
}

/* Whether a text is an address of the loopback, or one for tests (RFC 2544). */
static bool read_own(const char *text, struct in_addr *address) {
    return inet_pton(AF_INET, text, address) == 1 &&
           (ntohl(address->s_addr) >> 24 == 127 || ntohl(address->s_addr) >> 17 == (198 << 8 | 18) >> 1);
}

static bool read_key(const char *text) {
    asked.has_key = strlen(text) == 2 * sizeof asked.key;
    for (size_t i = 0; asked.has_key && i < sizeof asked.key; i++) {
        unsigned byte;
        asked.has_key = sscanf(text + 2 * i, "%2x", &byte) == 1;
        asked.key[i] = (uint8_t)byte;
    }
    return asked.has_key;
}

static bool read_option(int option, const char *value) {
    switch (option) {
    case 'n': return read_number(value, 1, MOST_ALLOCATIONS, &asked.allocations);
    case 'm': return read_number(value, 1, MOST_DATAGRAMS, &asked.datagrams);
    case 's': return read_number(value, LEAST_DATA, MOST_DATA, &asked.size);
    case 'w': return read_number(value, 1, MOST_WINDOW, &asked.window);
    case 'a': return read_number(value, 1, 1 << 20, &asked.all);
    case 'i': return read_number(value, 1, 10000000, &asked.interval);
    case 'l': return read_number(value, 1, 86400, &asked.lifetime);
    case 'f': return read_own(value, &asked.clients);
    case 'p': return read_own(value, &asked.peers);
    case 'u': return (asked.user = value)[0] != 0 && strlen(value) <= 128;
    case 'k': return read_key(value);
    case 'c': return asked.channels = true;
    case 'd': return asked.direct = true;
    case 'N': return (asked.network = value)[0] != 0;
    case 't': return asked.stream = true;
    default: return false;
    }
}

static bool read_server(const char *address, const char *port) {
    int number;
    asked.server.sin_family = AF_INET;
    if (!read_own(address, &asked.server.sin_addr) || !read_number(port, 1, 65535, &number)) return false;
    asked.server.sin_port = htons((uint16_t)number);
    return true;
}

int main(int count, char **arguments) {
    int option;
    asked.clients.s_addr = htonl(0x7F000003);
    asked.peers.s_addr = htonl(0x7F000002);
    while ((option = getopt(count, arguments, "n:m:s:w:a:i:l:f:p:u:k:ctdN:")) != -1) {
        if (!read_option(option, optarg)) return usage();
    }
    if (count - optind != 2 || !read_server(arguments[optind], arguments[optind + 1])) return usage();
    if (asked.user == NULL || !asked.has_key) return usage();
    if (asked.datagrams > MOST_DATAGRAMS / asked.allocations) return usage();
    if (!begin_all()) {
        fprintf(stderr, "relay_load: %s\n", strerror(errno));
        return 2;
    }
    return obey() ? 0 : 1;
}
