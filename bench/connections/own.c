/* Agents of this library for bench/connections/measure, in one loop: measured.h says how it is called. With $PAIRS
 * they have room for so many pairs, half as many candidates, and twice as many requests. */
#include "measured.h"

#include <sys/epoll.h>
#include <sys/random.h>

#include "../../c/examples/addresses.h"

enum { ROOM = 1500, MOST_EVENTS = 64, MILLISECOND = 1000000, HOST = 126, PEER_REFLEXIVE = 110, SERVER_REFLEXIVE = 100 };

typedef struct {
    stun_types_ice ice;
    int socket;
    stun_types_address at, mapped; /* family 0: no STUN server sees another one */
    uint64_t wake;
    bool is_connected;
    char fragment[8], password[24];
} agent;

static int polled; /* the epoll */

static void require(bool holds, const char *what) {
    if (!holds) fail(what);
}

static bool is_fine(stun_types_answer answer) {
    return answer.code == STUN_TYPES_OK;
}

/* Draws random bytes, some of many that the system gives at once. */
static void draw(void *bytes, size_t length) {
    static uint8_t drawn[4096];
    static size_t left;
    if (left < length) {
        require(getrandom(drawn, sizeof drawn, 0) == (ssize_t)sizeof drawn, "random bytes");
        left = sizeof drawn;
    }
    left -= length;
    memcpy(bytes, drawn + left, length);
}

static void draw_text(char *text, size_t length) {
    static const char letters[] = "ABCDEFGHIJKLMNOPQRSTUVWXYZabcdefghijklmnopqrstuvwxyz0123456789+/";
    draw(text, length);
    for (size_t i = 0; i < length; i++) text[i] = letters[(uint8_t)text[i] & 63];
}

static uint32_t priority_of(uint32_t kind) {
    return kind << 24 | (uint32_t)UINT16_MAX << 8 | 255;
}

static void send_to(const agent *of, const stun_types_address *to, const uint8_t *bytes, size_t length) {
    socket_address at;
    memset(&at, 0, sizeof at);
    socket_address_of(to, &at);
    (void)sendto(of->socket, bytes, length, 0, (const struct sockaddr *)&at.bytes, at.length);
}

static void open_socket(agent *of, const char *address) {
    socket_address at;
    struct epoll_event event = {.events = EPOLLIN, .data.ptr = of};
    require(read_address(address, "0", SOCK_DGRAM, &at), address);
    of->socket = socket(at.bytes.ss_family, SOCK_DGRAM | SOCK_CLOEXEC | SOCK_NONBLOCK, 0);
    require(of->socket >= 0 && bind(of->socket, (const struct sockaddr *)&at.bytes, at.length) == 0 &&
                getsockname(of->socket, (struct sockaddr *)&at.bytes, &at.length) == 0 &&
                address_of(&at.bytes, &of->at) && epoll_ctl(polled, EPOLL_CTL_ADD, of->socket, &event) == 0,
            "a socket");
}

static void open_agent(agent *of, const char *address, bool controls) {
    stun_types_ice_settings settings;
    stun_types_ice_base base;
    memset(of, 0, sizeof *of);
    open_socket(of, address);
    draw_text(of->fragment, sizeof of->fragment);
    draw_text(of->password, sizeof of->password);
    memset(&settings, 0, sizeof settings);
    settings.ufrag = of->fragment;
    settings.ufrag_length = sizeof of->fragment;
    settings.password = of->password;
    settings.password_length = sizeof of->password;
    draw(&settings.tiebreaker, sizeof settings.tiebreaker);
    settings.role = controls ? STUN_TYPES_ICE_CONTROLLING : STUN_TYPES_ICE_CONTROLLED;
    if (getenv("PAIRS") != NULL) {
        settings.pairs = (uint32_t)atoi(getenv("PAIRS"));
        settings.candidates = settings.pairs / 2;
        settings.requests = settings.pairs * 2;
    }
    require(is_fine(stun_types_ice_new(&of->ice, &settings)), "an agent");
    memset(&base, 0, sizeof base);
    base.foundation = 1;
    base.priority = priority_of(HOST);
    base.reflexive_priority = priority_of(PEER_REFLEXIVE);
    base.component = 1;
    base.family = of->at.family;
    require(is_fine(stun_types_ice_add_base(&of->ice, nanoseconds(), &base)), "a base");
}

static void close_agent(agent *of) {
    close(of->socket);
    stun_types_ice_free(&of->ice);
}

/* Asks the STUN server which address it sees. */
static void ask(agent *of, const place *in) {
    uint8_t bytes[ROOM];
    size_t length;
    stun_types_id id;
    stun_types_attribute found;
    socket_address server;
    draw(&id, sizeof id);
    uint16_t type = stun_types_message_type(STUN_TYPES_CLASS_REQUEST, STUN_TYPES_METHOD_BINDING);
    require(is_fine(stun_types_begin(bytes, sizeof bytes, type, &id, &length)) &&
                read_address(in->stun_address, in->stun_port, SOCK_DGRAM, &server) &&
                sendto(of->socket, bytes, length, 0, (const struct sockaddr *)&server.bytes, server.length) > 0,
            "a request");
    ssize_t got = -1;
    for (int i = 0; i < 1000 && got < 0; i++) {
        got = recv(of->socket, bytes, sizeof bytes, 0);
        if (got < 0) usleep(1000);
    }
    require(got > 0 && stun_types_find(bytes, (size_t)got, STUN_TYPES_ATTRIBUTE_XOR_MAPPED_ADDRESS, &found) &&
                is_fine(stun_types_read_xor_address(bytes, (size_t)got, &found, &of->mapped)),
            "the STUN server");
}

static void add_candidate(agent *to, const stun_types_address *address, uint32_t kind) {
    stun_types_ice_remote remote;
    memset(&remote, 0, sizeof remote);
    remote.address = *address;
    remote.foundation = kind;
    remote.priority = priority_of(kind);
    remote.component = 1;
    require(is_fine(stun_types_ice_add_remote(&to->ice, nanoseconds(), &remote)), "a candidate");
}

/* Gives an agent the other one's description. */
static void describe(agent *to, const agent *other) {
    require(is_fine(stun_types_ice_set_peer(&to->ice, nanoseconds(), other->fragment, sizeof other->fragment,
                                            other->password, sizeof other->password)),
            "the peer's credentials");
    add_candidate(to, &other->at, HOST);
    if (other->mapped.family != 0) add_candidate(to, &other->mapped, SERVER_REFLEXIVE);
    if (to->mapped.family != 0) {
        require(is_fine(stun_types_ice_add_address(&to->ice, &to->mapped)), "an address");
    }
    require(is_fine(stun_types_ice_end_candidates(&to->ice, nanoseconds())), "the end of the candidates");
    to->wake = 0;
}

/* Sends what is due, and reads what has changed. */
static void turn(agent *of, uint64_t now) {
    uint8_t bytes[ROOM];
    stun_types_ice_request request;
    stun_types_ice_change change;
    stun_types_id id;
    do {
        draw(&id, sizeof id);
        require(is_fine(stun_types_ice_poll(&of->ice, now, &id, bytes, sizeof bytes, &request, &of->wake)), "a poll");
        if (request.length > 0) send_to(of, &request.to, bytes, request.length);
    } while (request.length > 0);
    while (stun_types_ice_changes(&of->ice, &change)) {
        if (change.kind == STUN_TYPES_ICE_PROGRESS) of->is_connected = change.progress == STUN_TYPES_ICE_CONNECTED;
    }
}

/* Receives a datagram; the loop calls it again if there are more. */
static void receive(agent *of, uint64_t now) {
    uint8_t bytes[ROOM], response[ROOM];
    struct sockaddr_storage source;
    stun_types_address from;
    stun_types_ice_received received;
    uint64_t random;
    socklen_t size = sizeof source;
    ssize_t got = recvfrom(of->socket, bytes, sizeof bytes, 0, (struct sockaddr *)&source, &size);
    draw(&random, sizeof random);
    if (got < 0 || !address_of(&source, &from) ||
        !is_fine(stun_types_ice_datagram(&of->ice, now, 0, &from, bytes, (size_t)got, random, response,
                                         sizeof response, &received))) {
        return;
    }
    if (received.kind == STUN_TYPES_ICE_RESPONSE) send_to(of, &from, response, received.length);
}

/* One turn of the loop of all agents. It waits until a moment at most. */
static void turn_all(agent *all, size_t count, uint64_t until) {
    struct epoll_event events[MOST_EVENTS];
    uint64_t wake = until, now = nanoseconds();
    for (size_t i = 0; i < count; i++) {
        if (all[i].wake < wake) wake = all[i].wake;
    }
    uint64_t left = wake > now ? wake - now : 0;
    struct timespec wait = {(time_t)(left / 1000000000), (long)(left % 1000000000)};
    int ready = epoll_pwait2(polled, events, MOST_EVENTS, &wait, NULL);
    now = nanoseconds();
    for (int i = 0; i < ready; i++) {
        receive(events[i].data.ptr, now);
        turn(events[i].data.ptr, now);
    }
    for (size_t i = 0; i < count; i++) {
        if (all[i].wake <= now) turn(&all[i], now);
    }
}

/* Turns until all are connected. */
static void connect_all(agent *all, size_t count) {
    for (size_t connected = 0; connected < count;) {
        turn_all(all, count, nanoseconds() + 1000 * (uint64_t)MILLISECOND);
        while (connected < count && all[connected].is_connected) connected++;
    }
}

static void connect_pair(const place *in) {
    agent both[2];
    for (int side = 0; side < 2; side++) {
        enter(in->network[side]);
        open_agent(&both[side], in->address[side], side == 0);
        if (in->stun_address != NULL) ask(&both[side], in);
    }
    unsigned long before = sent_in(in);
    uint64_t began = nanoseconds();
    for (int side = 0; side < 2; side++) describe(&both[side], &both[!side]);
    connect_all(both, 2);
    uint64_t took = nanoseconds() - began;
    printf("%.0f %lu\n", (double)took / 1000, sent_in(in) - before);
    fflush(stdout);
    for (int side = 0; side < 2; side++) close_agent(&both[side]);
}

static void hold(size_t count, unsigned seconds) {
    agent *all = calloc(count, sizeof *all);
    uint64_t before = resident();
    require(all != NULL, "memory");
    for (size_t i = 0; i < count; i++) open_agent(&all[i], "127.0.0.1", i % 2 == 0);
    for (size_t i = 0; i < count; i++) describe(&all[i], &all[i ^ 1]);
    connect_all(all, count);
    printf("%.0f\n", (double)(resident() - before) / (double)count);
    for (int i = 0; i < 2; i++) {
        uint64_t taken = processor(), end = nanoseconds() + (uint64_t)seconds * 1000 * MILLISECOND;
        while (nanoseconds() < end) turn_all(all, count, end);
        printf("%.0f\n", (double)(processor() - taken) / seconds);
        fflush(stdout);
    }
    for (size_t i = 0; i < count; i++) {
        require(all[i].is_connected, "a connection");
        close_agent(&all[i]);
    }
    free(all);
}

int main(int count, char **words) {
    place in;
    make_room();
    polled = epoll_create1(EPOLL_CLOEXEC);
    if (count == 4 && strcmp(words[1], "hold") == 0) {
        hold((size_t)atoi(words[2]), (unsigned)atoi(words[3]));
    } else {
        for (int left = read_place(count, words, &in); left > 0; left--) connect_pair(&in);
    }
    return 0;
}
