/* The connection to the server, over UDP or TCP, and its messages. */
#include "program.h"

#include <fcntl.h>
#include <poll.h>
#include <sys/random.h>
#include <time.h>

enum {
    CONNECTING_TIME = 10000, /* milliseconds, also for sending to one that takes nothing */
    TEXT_ROOM = 1 << 18
};

message request, response;

static struct addrinfo *found, *next; /* the addresses of the host, and the one to ask next */
static int server = -1;               /* the socket; -1: none is connected */
static stun_types_stream stream;
static uint8_t gathered[MESSAGE_ROOM]; /* the message of the stream that is coming */
static uint8_t piece[4096];            /* what was read of the stream, and not yet taken */
static size_t piece_at, piece_end;

static bool is_fine(stun_types_answer answer) { return answer.code == STUN_TYPES_OK; }

uint64_t milliseconds(void) {
    struct timespec now = {0, 0};
    clock_gettime(CLOCK_MONOTONIC, &now);
    return (uint64_t)now.tv_sec * 1000 + (uint64_t)now.tv_nsec / 1000000;
}

int find_host(const target *host, int family, int type, struct addrinfo **addresses) {
    struct addrinfo hints;
    memset(&hints, 0, sizeof hints);
    hints.ai_family = family;
    hints.ai_socktype = type;
    hints.ai_flags = AI_NUMERICSERV;
    int error = getaddrinfo(host->host, host->port, &hints, addresses);
    if (error == 0) return STATUS_DONE;
    if (error == EAI_SYSTEM) return say(STATUS_BROKEN, "%s: %s", host->host, strerror(errno));
    int status = error == EAI_MEMORY ? STATUS_BROKEN : STATUS_SILENT;
    return say(status, "%s: %s", host->host, gai_strerror(error));
}

/* Waits until the socket is ready, or the moment has come; whether it is ready. */
static bool wait_for(int socket, short events, uint64_t until) {
    struct pollfd waited = {socket, events, 0};
    uint64_t now = milliseconds();
    uint64_t left = until > now ? until - now : 0;
    return poll(&waited, 1, left > 60000 ? 60000 : (int)left) > 0;
}

static uint64_t end_of_connecting(void) {
    uint64_t most = asked.wait != 0 && asked.wait < CONNECTING_TIME ? asked.wait : CONNECTING_TIME;
    return milliseconds() + most;
}

/* Waits until the connection is made. Returns the error. */
static int finish_connecting(int socket) {
    int error = 0;
    socklen_t length = sizeof error;
    uint64_t end = end_of_connecting();
    while (!wait_for(socket, POLLOUT, end)) {
        if (milliseconds() >= end) return ETIMEDOUT;
    }
    return getsockopt(socket, SOL_SOCKET, SO_ERROR, &error, &length) == 0 ? error : errno;
}

/* Connects to an address. Returns the error. */
static int connect_to(const struct addrinfo *at) {
    server = socket(at->ai_family, at->ai_socktype | SOCK_NONBLOCK | SOCK_CLOEXEC, 0);
    if (server < 0) return errno;
    if (connect(server, at->ai_addr, at->ai_addrlen) == 0) return 0;
    return errno == EINPROGRESS || errno == EINTR ? finish_connecting(server) : errno;
}

static void disconnect(void) {
    if (server >= 0) close(server);
    server = -1;
    memset(&stream, 0, sizeof stream);
    stream.carries = asked.carries;
    piece_at = piece_end = 0;
}

bool connect_next(void) {
    int error = errno;
    while (next != NULL) {
        const struct addrinfo *at = next;
        disconnect();
        next = at->ai_next;
        error = connect_to(at);
        if (error == 0) return true;
    }
    errno = error;
    return false;
}

int open_server(void) {
    int status = find_host(&asked.server, asked.family, asked.reliable ? SOCK_STREAM : SOCK_DGRAM, &found);
    if (status != STATUS_DONE) return status;
    next = found;
    if (connect_next()) return STATUS_DONE;
    return say(STATUS_SILENT, "%s: %s", asked.server.host, strerror(errno));
}

int server_socket(void) {
    return server;
}

void close_server(void) {
    disconnect();
    if (found != NULL) freeaddrinfo(found);
    found = next = NULL;
}

int move_to(const stun_types_address *to) {
    close_server();
    inet_ntop(to->family == 4 ? AF_INET : AF_INET6, to->octets, asked.server.host, sizeof asked.server.host);
    snprintf(asked.server.port, sizeof asked.server.port, "%u", (unsigned)to->port);
    return open_server();
}

bool find_server(stun_types_address *address) {
    struct sockaddr_storage at;
    socklen_t length = sizeof at;
    return getpeername(server, (struct sockaddr *)&at, &length) == 0 && address_of(&at, address);
}

/* ---- Messages -------------------------------------------------------------------------------- */

bool new_id(stun_types_id *id) {
    return getrandom(id->bytes, sizeof id->bytes, 0) == (ssize_t)sizeof id->bytes;
}

/* Prints a message to standard error, if that is asked for. */
static void show(const char *direction, const message *shown) {
    static char text[TEXT_ROOM];
    size_t length = 0;
    if (!asked.verbose) return;
    stun_types_answer answer =
        stun_types_print(shown->bytes, shown->length, text, sizeof text, &length);
    if (is_fine(answer)) {
        fprintf(stderr, "%s %.*s\n", direction, (int)length, text);
    } else {
        const char *why = stun_types_status_text(answer.code);
        fprintf(stderr, "%s %zu bytes: %s\n", direction, shown->length, why);
    }
}

static bool only_waits(void) { return errno == EAGAIN || errno == EWOULDBLOCK || errno == EINTR; }

bool send_request(void) {
    size_t at = 0;
    uint64_t end = end_of_connecting();
    show(">", &request);
    while (at < request.length) {
        ssize_t done = send(server, request.bytes + at, request.length - at, MSG_NOSIGNAL);
        if (done >= 0) {
            at += (size_t)done;
            continue;
        }
        if (!asked.reliable && (only_waits() || errno == ENOBUFS)) return true;
        if (!only_waits()) return false;
        if (!wait_for(server, POLLOUT, end) && milliseconds() >= end) {
            errno = ETIMEDOUT;
            return false;
        }
    }
    return true;
}

static int receive_datagram(void) {
    ssize_t length = recv(server, response.bytes, sizeof response.bytes, 0);
    if (length < 0) return only_waits() ? NOTHING_YET : FAILED;
    response.length = (size_t)length;
    return RECEIVED;
}

/* Reads a piece of the stream if all before is taken. */
static int read_piece(void) {
    if (piece_at < piece_end) return RECEIVED;
    ssize_t length = recv(server, piece, sizeof piece, 0);
    if (length < 0) return only_waits() ? NOTHING_YET : FAILED;
    piece_at = 0;
    piece_end = (size_t)length;
    if (length == 0) errno = ECONNRESET;
    return length > 0 ? RECEIVED : FAILED;
}

/* Receives the next message of the stream, if it is whole by now. */
static int receive_of_stream(void) {
    int read = read_piece();
    while (read == RECEIVED && piece_at < piece_end) {
        size_t taken = 0;
        if (!is_fine(stun_types_stream_push(&stream, gathered, sizeof gathered, piece + piece_at,
                                            piece_end - piece_at, &taken))) {
            errno = EPROTO;
            return FAILED;
        }
        piece_at += taken;
        if (stream.message == 0) continue;
        response.length = stream.message;
        memcpy(response.bytes, gathered, response.length);
        return RECEIVED;
    }
    return read == RECEIVED ? NOTHING_YET : read;
}

int receive_until(uint64_t until) {
    bool pending = piece_at < piece_end;
    if (!pending && !wait_for(server, POLLIN, until)) return NOTHING_YET;
    int received = asked.reliable ? receive_of_stream() : receive_datagram();
    if (received == RECEIVED) show("<", &response);
    return received;
}

/* The reason is a stranger's text: what isn't printable ASCII is left out. */
int tell_error(const char *host, uint32_t number) {
    stun_types_attribute attribute;
    uint16_t code;
    size_t at = 0, length = 0, kept = 0;
    char reason[256];
    if (stun_types_find(response.bytes, response.length, STUN_TYPES_ATTRIBUTE_ERROR_CODE, &attribute) &&
        !is_fine(stun_types_read_error(response.bytes, response.length, &attribute, &code, &at,
                                       &length))) {
        length = 0;
    }
    for (size_t i = at; i < at + length && kept < sizeof reason - 1; i++) {
        uint8_t byte = response.bytes[i];
        if (byte >= 0x20 && byte < 0x7F) reason[kept++] = (char)byte;
    }
    reason[kept] = 0;
    const char *colon = *host != 0 ? ": " : "", *space = kept > 0 ? " " : "";
    return say(STATUS_REFUSED, "%s%serror %u%s%s", host, colon, (unsigned)number, space, reason);
}
