/* Serving TCP: one process has all connections. */
#include "server.h"

#include <sys/epoll.h>
#include <sys/mman.h>

enum {
    PIECE = 4096,    /* bytes read at once, and of a page, */
    LARGE_PIECE = 65536, /* and read at once of a client with an allocation */
    RESPONSE = 2048, /* bytes of a response of the TURN server at most, */
    RESPONSES = 4 * RESPONSE, /* what a peer's data leaves to them, */
    REPLIES = 65536 + 128 + RESPONSES, /* and what waits to be sent at most */
    SECOND = 1000,
    CLOSING_TIME = 2000, /* both in milliseconds */
    MOST_RELAYS = 2, /* of a connection: one of each family */
    /* the number of the first endpoint among the connections, and of the first relay socket */
    LISTENERS = MOST_CONNECTIONS,
    RELAYS = LISTENERS + MOST_ENDPOINTS
};

/* The neighbourhoods of an address, the widest first: /48, /56 and /64 of IPv6, and of IPv4 /24,
 * once more /24, and the address itself. The places of neighbours differ in so many last bits. */
enum { NEIGHBOURHOODS = 3 };
static const int narrowed_by[NEIGHBOURHOODS] = {16, 8, 0};

typedef struct {
    bool open;
    bool closing; /* no more is answered: what waits is sent, and then the connection is closed */
    bool half_closed;
    bool is_proxys; /* it is a proxy's, and its header isn't whole yet, */
    size_t header;  /* of which its piece has so many bytes */
    int socket;
    bool large; /* it has written more than a piece of its bytes */
    uint32_t awaited; /* EPOLLIN or EPOLLOUT */
    uint64_t place;   /* of its address among all */
    uint32_t crowds[NEIGHBOURHOODS]; /* how many connections each has, with this one */
    uint64_t accepted, heard; /* when it was accepted, and when its last message was whole */
    uint64_t begun;           /* when the first byte of a message came that isn't whole yet */
    uint64_t closed_at;       /* if it is closing */
    uint64_t serial;          /* which of all connections it is */
    bool is_fresh;            /* data of peers has come for it, and isn't sent yet */
    uint32_t relays_count;    /* at most one of each family */
    uint64_t relays[MOST_RELAYS];
    stun_types_five_tuple tuple;
    stun_types_stream stream;
    size_t piece_at, piece_end;
    size_t replies_at, replies_end;
} connection;

/* The bytes of a connection, kept apart so that looking through the table is fast. */
typedef struct {
    _Alignas(PIECE) uint8_t message[STUN_TYPES_GREATEST_MESSAGE];
    uint8_t piece[LARGE_PIECE];
    uint8_t replies[REPLIES];
} connection_bytes;

static struct {
    connection *connections, *end;
    connection *open_end; /* no connection from here on is open */
    connection_bytes *bytes;
    int poller;
    bool paused[MOST_ENDPOINTS]; /* listeners from which nothing is accepted for a while */
    uint64_t now; /* when the events that are served were got */
    uint64_t accepted; /* how many connections there were */
    connection *fresh[MOST_CONNECTIONS];
    size_t fresh_count;
    const endpoints *endpoints;
    stun_types_prefix proxies[MOST_PROXIES];
    size_t proxies_count;
    tally *mine;
} tcp;

/* ---- The table ------------------------------------------------------------------------------- */

/* As many connections as the process may have: it asks the system for as many files as it may. */
static size_t most_connections(size_t other_files) {
    size_t allowed = allow_files(setting(MAX_CONNECTIONS) + other_files + turn_files());
    if (allowed >= setting(MAX_CONNECTIONS) + other_files) return setting(MAX_CONNECTIONS);
    return allowed > other_files ? allowed - other_files : 1;
}

/* Memory of the process, all zeros, that takes room where it is written. */
static void *zeros(size_t size) {
    void *at = mmap(NULL, size, PROT_READ | PROT_WRITE, MAP_PRIVATE | MAP_ANONYMOUS | MAP_NORESERVE,
                    -1, 0);
    return at == MAP_FAILED ? NULL : at;
}

static void read_proxies(void) {
    const char *text;
    while ((text = text_setting(PROXY, tcp.proxies_count)) != NULL &&
           read_rule(text, &tcp.proxies[tcp.proxies_count])) {
        tcp.proxies_count++;
    }
}

bool make_connections(size_t listeners) {
    read_proxies();
    size_t most = most_connections(OTHER_FILES + listeners);
    tcp.connections = zeros(most * sizeof *tcp.connections);
    tcp.bytes = zeros(most * sizeof *tcp.bytes);
    if (tcp.connections == NULL || tcp.bytes == NULL) return cannot("no memory");
    tcp.open_end = tcp.connections;
    tcp.end = tcp.connections + most;
    if (most < setting(MAX_CONNECTIONS)) say(WARNING, "event=few-files connections=%zu\n", most);
    return true;
}

/* The place of an address: the first half of one of IPv6. No such address begins with the octet
 * with which places of IPv4 do, since that is for multicast. */
static uint64_t place_of(const stun_types_address *source) {
    uint64_t place = 0;
    if (source->family == 4) {
        for (int i = 0; i < 3; i++) place = place << 8 | source->octets[i];
        return UINT64_C(0xFF) << 56 | place << 16 | source->octets[3];
    }
    for (int i = 0; i < 8; i++) place = place << 8 | source->octets[i];
    return place;
}

/* Counts a connection in for its neighbours, or out. */
static void count_crowds(connection *changed, bool in) {
    for (int i = 0; i < NEIGHBOURHOODS; i++) changed->crowds[i] = 1;
    for (connection *at = tcp.connections; at < tcp.open_end; at++) {
        if (at == changed || !at->open) continue;
        uint64_t differ = at->place ^ changed->place;
        for (int i = 0; i < NEIGHBOURHOODS && differ >> narrowed_by[i] == 0; i++) {
            if (in) at->crowds[i]++;
            else at->crowds[i]--;
            changed->crowds[i]++;
        }
    }
}

/* Ends the relays of a connection, since it ends. */
static void end_relays(connection *of) {
    while (of->relays_count > 0) {
        uint64_t last = of->relays[--of->relays_count];
        end_relay(last);
    }
}

static void close_connection(connection *closed) {
    connection_bytes *bytes = &tcp.bytes[closed - tcp.connections];
    end_relays(closed);
    if (closed->large) (void)madvise(bytes, sizeof *bytes, MADV_DONTNEED);
    close(closed->socket);
    closed->open = false;
    raise_by(&tcp.mine->gauges[CONNECTIONS_NOW], UINT64_MAX); /* (one less) */
    count_crowds(closed, false);
    while (tcp.open_end > tcp.connections && !tcp.open_end[-1].open) tcp.open_end--;
}

/* Closes a connection, and has the system drop what its client hasn't taken. */
static void reset_connection(connection *closed) {
    const struct linger none = {1, 0};
    (void)setsockopt(closed->socket, SOL_SOCKET, SO_LINGER, &none, sizeof none);
    close_connection(closed);
}

/* Whether a connection is needed less than another: the other has an allocation; or it is of a fuller
 * neighbourhood, compared from the widest on, or of ones as full, and has been idle longer. */
static bool is_needed_less(const connection *a, const connection *b) {
    if ((a->relays_count > 0) != (b->relays_count > 0)) return b->relays_count > 0;
    for (int i = 0; i < NEIGHBOURHOODS; i++) {
        if (a->crowds[i] != b->crowds[i]) return a->crowds[i] > b->crowds[i];
    }
    return a->heard < b->heard;
}

/* The connection that is closed for a new one. */
static connection *find_least_needed(void) {
    connection *least = tcp.connections;
    for (connection *at = tcp.connections; at < tcp.open_end; at++) {
        if (is_needed_less(at, least)) least = at;
    }
    return least;
}

/* A place for a new connection: a free one if there is. NULL: each connection has an allocation. */
static connection *free_place(void) {
    for (connection *at = tcp.connections; at < tcp.open_end; at++) {
        if (!at->open) return at;
    }
    if (tcp.open_end < tcp.end) return tcp.open_end;
    connection *least = find_least_needed();
    if (least->relays_count > 0) return NULL;
    reset_connection(least);
    count(tcp.mine, TCP_DISPLACED, 1);
    return least;
}

/* ---- Events ---------------------------------------------------------------------------------- */

static bool control(int how, int socket, uint32_t events, size_t number) {
    struct epoll_event event;
    memset(&event, 0, sizeof event);
    event.events = events;
    event.data.u64 = number;
    return epoll_ctl(tcp.poller, how, socket, &event) == 0;
}

static bool await(connection *of, uint32_t events) {
    if (of->awaited == events) return true;
    of->awaited = events;
    return control(EPOLL_CTL_MOD, of->socket, events, (size_t)(of - tcp.connections));
}

/* ---- A connection ---------------------------------------------------------------------------- */

/* Makes the reply to the message of a connection, or has the TURN server take it. */
static turn_outcome take_message(const connection *of, const uint8_t *message, connection_bytes *bytes,
                                 size_t *written) {
    uint8_t *room = bytes->replies + of->replies_end;
    if (!setting(TURN)) {
        *written = reply_to(message, of->stream.message, &of->tuple.client, room);
        return *written > 0 ? TURN_ANSWERED : TURN_NOTHING_DUE;
    }
    turn_client client = {.tuple = of->tuple,
                          .connection = (size_t)(of - tcp.connections),
                          .serial = of->serial,
                          .received = no_fields()};
    return take_from_client(&client, message, of->stream.message, room, REPLIES - of->replies_end, written);
}

static void answer_message(connection *of, const uint8_t *message, connection_bytes *bytes) {
    size_t length = 0;
    turn_outcome outcome = take_message(of, message, bytes, &length);
    of->replies_end += length;
    of->large |= of->replies_end > PIECE;
    of->heard = tcp.now;
    count(tcp.mine, TCP_RECEIVED, 1);
    if (length > 0) count(tcp.mine, TCP_SENT, 1);
    if (outcome == TURN_NOTHING_DUE) count(tcp.mine, TCP_UNANSWERED, 1);
}

/* Takes bytes at the start of a piece, and makes the reply to the message that they end. Returns how
 * many. A message that comes in one piece is gathered in memory that all connections share, which stays in
 * the processor's cache. */
static size_t answer_piece(connection *of, connection_bytes *bytes, const uint8_t *piece, size_t length) {
    static uint8_t shared[sizeof bytes->message];
    size_t taken = 0, pending = of->stream.pending;
    uint8_t *message = pending > 0 ? bytes->message : shared;
    stun_types_answer answer =
        stun_types_stream_push(&of->stream, message, sizeof shared, piece, length, &taken);
    if (message == shared) memcpy(bytes->message, shared, of->stream.pending);
    of->large |= of->stream.pending > PIECE;
    if (answer.code != STUN_TYPES_OK) of->closing = true;
    if (pending == 0) of->begun = tcp.now;
    if (answer.code == STUN_TYPES_OK && of->stream.message > 0) answer_message(of, message, bytes);
    return taken;
}

/* Answers what was read, as long as there is room for any reply. */
static void answer_pieces(connection *of, connection_bytes *bytes) {
    while (!of->closing && of->piece_at < of->piece_end &&
           of->replies_end + STUN_TYPES_GREATEST_REPLY <= REPLIES) {
        of->piece_at += answer_piece(of, bytes, bytes->piece + of->piece_at, of->piece_end - of->piece_at);
    }
}

/* What a call on a socket did that waits for nothing. */
enum { DONE, WOULD_WAIT, BROKEN };

static int failure(void) {
    return errno == EINTR || errno == EAGAIN ? WOULD_WAIT : BROKEN;
}

/* Sends the replies that wait. */
static int send_waiting(connection *of, connection_bytes *bytes) {
    while (of->replies_at < of->replies_end) {
        ssize_t sent = send(of->socket, bytes->replies + of->replies_at,
                            of->replies_end - of->replies_at, MSG_NOSIGNAL);
        if (sent < 0) return failure();
        of->replies_at += (size_t)sent;
    }
    of->replies_at = of->replies_end = 0;
    return DONE;
}

/* Has a connection be that of a proxy's client from now on, whatever it knew of the proxy. An older one of the
 * same client, and with the same port, is over. */
static void become_client(connection *of, const proxy_header *header) {
    count_crowds(of, false);
    of->tuple.client = header->client;
    of->tuple.server = header->server;
    of->place = place_of(&of->tuple.client);
    count_crowds(of, true);
    for (connection *at = tcp.connections; at < tcp.open_end; at++) {
        bool is_other = at->open && at != of && !at->half_closed;
        if (is_other && memcmp(&at->tuple, &of->tuple, sizeof of->tuple) == 0) reset_connection(at);
    }
}

/* Takes the header at the beginning of a proxy's connection, as far as it has come. */
static void take_header(connection *of, const uint8_t *piece) {
    proxy_header read = read_proxy_header(piece, of->piece_end);
    if (of->header == 0) of->begun = tcp.now;
    of->header = read.kind == PROXY_UNFINISHED ? of->piece_end : 0;
    of->is_proxys = read.kind == PROXY_UNFINISHED;
    of->piece_at = of->is_proxys ? of->piece_end : read.length;
    if (read.kind == PROXY_CLIENT) become_client(of, &read);
    if (read.kind != PROXY_WRONG) return;
    of->closing = true;
    count(tcp.mine, TCP_BAD_HEADER, 1);
}

/* Reads a piece. The end of the stream counts as broken: nothing waits to be sent then. */
static int read_piece(connection *of, connection_bytes *bytes) {
    ssize_t got = recv(of->socket, bytes->piece + of->header, PIECE - of->header, 0);
    if (got < 0) return failure();
    of->piece_at = 0;
    of->piece_end = of->header + (size_t)got;
    if (got > 0 && of->is_proxys) take_header(of, bytes->piece);
    return got > 0 ? DONE : BROKEN;
}

/* Lets the client know that no more is sent. What it still sends is read, and dropped: a socket
 * that is closed with bytes unread would drop the replies on their way. */
static void half_close(connection *of) {
    if (of->half_closed) return;
    end_relays(of);
    of->closing = of->half_closed = true;
    of->closed_at = tcp.now + CLOSING_TIME;
    shutdown(of->socket, SHUT_WR);
}

/* Serves a connection as far as it goes without waiting, but reads one piece at most: then it is
 * the others' turn. Returns what it waits for, EPOLLIN or EPOLLOUT; 0: it is to be closed. */
static uint32_t serve_in_turn(connection *of, connection_bytes *bytes) {
    for (bool has_read = false;; has_read = true) {
        int ended = of->half_closed ? DONE : send_waiting(of, bytes);
        while (ended == DONE && !of->closing && of->piece_at < of->piece_end) {
            answer_pieces(of, bytes);
            ended = send_waiting(of, bytes);
        }
        if (ended == WOULD_WAIT) return EPOLLOUT;
        if (ended == DONE && of->closing) half_close(of);
        if (ended == DONE && has_read) return EPOLLIN;
        if (ended == DONE) ended = read_piece(of, bytes);
        if (ended == WOULD_WAIT) return EPOLLIN;
        if (ended == BROKEN) return 0;
    }
}

/* Makes room at the end of what waits. */
static void move_to_front(connection *of, connection_bytes *bytes) {
    if (of->replies_at == 0) return;
    memmove(bytes->replies, bytes->replies + of->replies_at, of->replies_end - of->replies_at);
    of->replies_end -= of->replies_at;
    of->replies_at = 0;
}

/* Whether the next message waits until the client reads, since the response to it may have no room. (Data
 * on a channel has none.) */
static bool must_wait(const connection *of, const connection_bytes *bytes, const uint8_t *next) {
    enum { CHANNELS = 0x40 };
    if (of->replies_end + RESPONSE <= REPLIES) return false;
    return (of->stream.pending > 0 ? bytes->message[0] : next[0]) < CHANNELS;
}

/* Answers a piece up to a message that has to wait. Returns how many bytes were taken. */
static size_t answer_all(connection *of, connection_bytes *bytes, const uint8_t *piece, size_t length) {
    size_t at = 0;
    while (at < length && !of->closing && !must_wait(of, bytes, piece + at)) {
        at += answer_piece(of, bytes, piece + at, length - at);
    }
    return at;
}

/* Keeps what isn't answered yet. */
static void keep_rest(connection *of, connection_bytes *bytes, const uint8_t *rest, size_t length) {
    if (length > 0) memcpy(bytes->piece, rest, length);
    of->large |= length > 0;
    of->piece_at = 0;
    of->piece_end = length;
}

/* Reads what a client sends, and answers it. */
static int read_relayed(connection *of, connection_bytes *bytes) {
    static uint8_t piece[LARGE_PIECE];
    ssize_t got = recv(of->socket, piece, sizeof piece, 0);
    if (got < 0) return failure();
    if (got == 0) return BROKEN;
    size_t taken = answer_all(of, bytes, piece, (size_t)got);
    keep_rest(of, bytes, piece + taken, (size_t)got - taken);
    return DONE;
}

/* The same for a connection with an allocation: the data that its client doesn't read doesn't hinder what
 * it sends. */
static uint32_t serve_relayed(connection *of, connection_bytes *bytes) {
    if (send_waiting(of, bytes) == BROKEN) return 0;
    move_to_front(of, bytes);
    of->piece_at += answer_all(of, bytes, bytes->piece + of->piece_at, of->piece_end - of->piece_at);
    if (of->piece_at == of->piece_end && read_relayed(of, bytes) == BROKEN) return 0;
    if (of->closing) {
        end_relays(of);
        return serve_in_turn(of, bytes);
    }
    int sent = send_waiting(of, bytes);
    if (sent == BROKEN) return 0;
    if (of->piece_at < of->piece_end) return EPOLLOUT;
    return sent == WOULD_WAIT ? EPOLLIN | EPOLLOUT : EPOLLIN;
}

static void serve_connection(connection *of) {
    connection_bytes *bytes = &tcp.bytes[of - tcp.connections];
    bool is_relayed = of->relays_count > 0 && !of->closing;
    uint32_t events = is_relayed ? serve_relayed(of, bytes) : serve_in_turn(of, bytes);
    if (events == 0 || !await(of, events)) close_connection(of);
}

/* ---- Data of peers --------------------------------------------------------------------------- */

/* Whether a peer's data has room beside what waits, and responses still have. */
static bool has_room(const connection *of, size_t length) {
    return of->replies_end + length + RESPONSES <= REPLIES;
}

/* Sends a message of which nothing waits yet. Returns how many bytes were sent: the others wait. */
static size_t send_first(const connection *of, const uint8_t *message, size_t length) {
    ssize_t sent = send(of->socket, message, length, MSG_NOSIGNAL);
    return sent > 0 ? (size_t)sent : 0;
}

/* Sends a message with a peer's data that came alone, or has it wait for send_fresh, or drops it whole: a
 * client that doesn't read loses what is more than the buffer takes. */
static void deliver(turn_client *to, uint8_t *message, size_t length, bool alone, const stun_types_ip_fields *fields) {
    (void)fields; /* (they are the connection's) */
    connection *of = &tcp.connections[to->connection];
    connection_bytes *bytes = &tcp.bytes[to->connection];
    if (!of->open || of->closing || of->serial != to->serial) return;
    size_t sent = alone && of->replies_end == 0 ? send_first(of, message, length) : 0;
    if (sent == length) {
        count(tcp.mine, TCP_SENT, 1);
        return;
    }
    message += sent;
    length -= sent;
    if (!has_room(of, length)) {
        (void)send_waiting(of, bytes);
        move_to_front(of, bytes);
    }
    count(tcp.mine, has_room(of, length) ? TCP_SENT : TURN_UNREAD, 1);
    if (!has_room(of, length)) return;
    memcpy(bytes->replies + of->replies_end, message, length);
    of->replies_end += length;
    of->large |= of->replies_end > PIECE;
    if (of->is_fresh || tcp.fresh_count == MOST_CONNECTIONS) return;
    of->is_fresh = true;
    tcp.fresh[tcp.fresh_count++] = of;
}

/* Sends the data of peers that has come in this turn. (What is broken has an event of its own.) */
static void send_fresh(void) {
    for (size_t i = 0; i < tcp.fresh_count; i++) {
        connection *of = tcp.fresh[i];
        of->is_fresh = false;
        if (!of->open || of->closing) continue;
        int sent = send_waiting(of, &tcp.bytes[of - tcp.connections]);
        if (sent == WOULD_WAIT) (void)await(of, of->awaited | EPOLLOUT);
    }
    tcp.fresh_count = 0;
}

/* Keeps the relays of a connection. Its time-outs begin anew after the last. */
static void change_relays(const relay *changed, bool begins) {
    connection *of = &tcp.connections[changed->client.connection];
    if (!of->open || of->serial != changed->client.serial) return;
    uint32_t at = 0;
    while (at < of->relays_count && of->relays[at] != changed->number) at++;
    if (begins && at < MOST_RELAYS) of->relays[of->relays_count++] = changed->number;
    if (!begins && at < of->relays_count) of->relays[at] = of->relays[--of->relays_count];
    of->accepted = of->heard = tcp.now;
}

/* ---- Accepting ------------------------------------------------------------------------------- */

/* The 5-tuple of an accepted connection. False: it can't be served. */
static bool read_tuple(int socket, const struct sockaddr_storage *from, stun_types_five_tuple *tuple) {
    struct sockaddr_storage own;
    socklen_t length = sizeof own;
    memset(tuple, 0, sizeof *tuple);
    tuple->stream = 1;
    if (!address_of(from, &tuple->client)) return false;
    if (!setting(TURN)) return true;
    return getsockname(socket, (struct sockaddr *)&own, &length) == 0 &&
           address_of(&own, &tuple->server);
}

/* What the stream of a connection carries. */
static stun_types_stream_kind carried(void) {
    if (!setting(TURN)) return STUN_TYPES_STREAM_MESSAGES;
    return setting(OLD_CHANNELS) ? STUN_TYPES_STREAM_OLD_CHANNEL_DATA : STUN_TYPES_STREAM_CHANNEL_DATA;
}

static bool is_proxy(const stun_types_address *address) {
    size_t i = 0;
    while (i < tcp.proxies_count && !prefix_contains(&tcp.proxies[i], address)) i++;
    return i < tcp.proxies_count;
}

/* Enters an accepted connection into the table. False: it can't be served. */
static bool enter(int socket, const struct sockaddr_storage *from) {
    stun_types_five_tuple tuple;
    if (!read_tuple(socket, from, &tuple)) return false;
    connection *place = free_place();
    if (place == NULL) return false;
    memset(place, 0, sizeof *place);
    place->socket = socket;
    place->serial = ++tcp.accepted;
    place->tuple = tuple;
    place->stream.carries = carried();
    place->place = place_of(&tuple.client);
    place->is_proxys = is_proxy(&tuple.client);
    place->awaited = EPOLLIN;
    place->accepted = place->heard = tcp.now;
    if (!control(EPOLL_CTL_ADD, socket, EPOLLIN, (size_t)(place - tcp.connections))) return false;
    place->open = true;
    raise_by(&tcp.mine->gauges[CONNECTIONS_NOW], 1);
    if (place >= tcp.open_end) tcp.open_end = place + 1;
    count_crowds(place, true);
    return true;
}

static void pause_listener(size_t number) {
    tcp.paused[number] = true;
    control(EPOLL_CTL_DEL, tcp.endpoints->all[number].socket, 0, LISTENERS + number);
}

static void resume_listeners(void) {
    for (size_t i = 0; i < tcp.endpoints->count; i++) {
        if (!tcp.paused[i]) continue;
        tcp.paused[i] = false;
        control(EPOLL_CTL_ADD, tcp.endpoints->all[i].socket, EPOLLIN, LISTENERS + i);
    }
}

/* Accepts a connection, and closes it at once if it can't be served. If the listener gives none,
 * since files are scarce or it listens no more, the worker tries again a second later. */
static void accept_one(size_t number) {
    struct sockaddr_storage from;
    socklen_t length = sizeof from;
    int socket = accept4(tcp.endpoints->all[number].socket, (struct sockaddr *)&from, &length,
                         SOCK_NONBLOCK | SOCK_CLOEXEC);
    if (socket < 0) {
        bool passes = errno == EAGAIN || errno == EINTR || errno == ECONNABORTED;
        if (!passes) pause_listener(number);
    } else if (enter(socket, &from)) {
        count(tcp.mine, TCP_ACCEPTED, 1);
    } else {
        close(socket);
        count(tcp.mine, TCP_REFUSED, 1);
    }
}

/* ---- Time-outs ------------------------------------------------------------------------------- */

static bool is_over(uint64_t since, uint32_t seconds) {
    return tcp.now - since >= (uint64_t)seconds * SECOND;
}

/* Why a connection is to be closed, as the count that goes up for it; COUNTS: it isn't. One with an
 * allocation lasts as long as that. */
static int overdue(const connection *of) {
    bool is_halfway = of->stream.pending > 0 || of->header > 0;
    if (is_halfway && is_over(of->begun, setting(REQUEST_TIMEOUT))) return TCP_SLOW;
    if (of->relays_count > 0) return COUNTS;
    if (is_over(of->heard, setting(IDLE_TIMEOUT))) return TCP_IDLE;
    if (is_over(of->accepted, setting(MAX_AGE))) return TCP_AGED;
    return COUNTS;
}

/* Closes the connections whose time is over: first in one direction. */
static void close_overdue(void) {
    for (connection *at = tcp.connections; at < tcp.open_end; at++) {
        if (!at->open) continue;
        if (at->half_closed) {
            if (tcp.now >= at->closed_at) reset_connection(at);
            continue;
        }
        int why = overdue(at);
        if (why == COUNTS) continue;
        count(tcp.mine, why, 1);
        half_close(at);
        if (!await(at, EPOLLIN)) reset_connection(at);
    }
    resume_listeners();
}

/* ---- The run --------------------------------------------------------------------------------- */

static void serve_event(const struct epoll_event *event) {
    size_t number = (size_t)event->data.u64;
    if (number >= RELAYS && event->events & EPOLLERR) take_icmp(number);
    if (number >= RELAYS) take_from_peers(number);
    else if (number >= LISTENERS) accept_one(number - LISTENERS);
    else if (tcp.connections[number].open) serve_connection(&tcp.connections[number]);
}

bool begin_tcp(const endpoints *of, tally *mine) {
    tcp.endpoints = of;
    tcp.mine = mine;
    tcp.poller = epoll_create1(EPOLL_CLOEXEC);
    if (tcp.poller < 0) return cannot("no epoll");
    for (size_t i = 0; i < of->count; i++) {
        if (!of->all[i].stream) continue;
        if (!control(EPOLL_CTL_ADD, of->all[i].socket, EPOLLIN, LISTENERS + i)) {
            return cannot("no epoll");
        }
    }
    return !setting(TURN) || begin_turn(&(turn_process){.deliver = deliver, .copies = true,
                                                        .changed = change_relays, .poller = tcp.poller,
                                                        .first = RELAYS, .mine = mine});
}

void serve_tcp(void) {
    struct epoll_event events[64];
    uint64_t looked = milliseconds();
    while (!ending) {
        raise_by(&tcp.mine->beats, 1);
        int ready = epoll_wait(tcp.poller, events, 64, SECOND);
        tcp.now = milliseconds();
        if (setting(TURN)) begin_turn_at(nanoseconds());
        for (int i = 0; i < ready; i++) serve_event(&events[i]);
        if (setting(TURN)) send_to_peers();
        send_fresh();
        if (tcp.now - looked < SECOND) continue;
        looked = tcp.now;
        close_overdue();
        if (setting(TURN)) look_after_relays();
    }
}
