/* Connects two ICE agents in this process, over sockets of the loopback, and passes data each way. The programs
 * ice_connect.cc, .py, .go and .rs do the same, and print the same.
 *
 *     cc -O2 ice_connect.c $(pkg-config --cflags --libs stun_types) -o ice_connect
 *     ./ice_connect [SECONDS [PASSWORD]]
 *
 * The agents exchange descriptions, lines of RFC 8839, as two programs would do over a channel of their own.
 * After SECONDS, by default 7, the program reports how long each agent may still send, and ends. With PASSWORD
 * each agent is given this one instead of the other's, and no check succeeds: status 1. */
#define _DEFAULT_SOURCE
#include "datagrams.h"

enum { BASE = 0, COMPONENT = 1, ROOM = 1500, LINE_ROOM = 200, SECRET_ROOM = 257, TEXT_ROOM = 32 };

/* The priority of a candidate whose type has this preference (RFC 8445, section 5.1.2.1). */
#define PRIORITY(preference) ((uint32_t)(preference) << 24 | 65535u << 8 | (256 - COMPONENT))
enum { HOST = 126, PEER_REFLEXIVE = 110 };

/* An agent with one socket: its only base, and its only candidate. */
typedef struct {
    const char *name;
    stun_types_ice agent;
    struct pollfd socket;
    stun_types_address own;
    char ufrag[SECRET_ROOM], password[SECRET_ROOM], received[TEXT_ROOM];
    uint64_t wake;
    bool has_failed;
} agent;

static void draw_all(void *bytes, size_t length) { need(draw(bytes, length), "random bytes"); }

/* Writes twice as many hexadecimal digits as there are bytes, which are drawn. */
static void draw_text(char *text, size_t bytes) {
    for (size_t i = 0; i < bytes; i++) {
        uint8_t drawn;
        draw_all(&drawn, 1);
        sprintf(text + 2 * i, "%02x", drawn);
    }
}

static void make_agent(agent *made, const char *name, stun_types_ice_role role) {
    static const agent none = {.agent = STUN_TYPES_ICE_INIT, .own = {{127, 0, 0, 1}, 0, 4}};
    *made = none;
    made->name = name;
    draw_text(made->ufrag, 4);
    draw_text(made->password, 16);
    stun_types_ice_settings settings = {.ufrag = made->ufrag, .ufrag_length = strlen(made->ufrag),
                                        .password = made->password, .password_length = strlen(made->password),
                                        .role = role, .tries = 3 /* to fail sooner */};
    draw_all(&settings.tiebreaker, sizeof settings.tiebreaker);
    made->socket = open_socket(&made->own);
    need(made->own.family != 0, "a socket");
    stun_types_ice_base base = {.number = BASE, .foundation = 1, .priority = PRIORITY(HOST),
                                .reflexive_priority = PRIORITY(PEER_REFLEXIVE), .component = COMPONENT,
                                .family = made->own.family};
    need_ok(stun_types_ice_new(&made->agent, &settings));
    need_ok(stun_types_ice_add_base(&made->agent, nanoseconds(), &base));
    need_ok(stun_types_ice_add_address(&made->agent, &made->own));
}

/* ---- Descriptions */

/* Prints the lines that the other agent needs. */
static void describe(const agent *of, FILE *to) {
    stun_types_ice_candidate candidate = {.foundation = "1", .foundation_length = 1, .component = COMPONENT,
                                          .priority = PRIORITY(HOST), .address = of->own,
                                          .transport = STUN_TYPES_UDP, .kind = STUN_TYPES_ICE_HOST};
    char line[LINE_ROOM];
    size_t length;
    need_ok(stun_types_ice_candidate_write(&candidate, line, sizeof line, &length));
    fprintf(to, "a=ice-ufrag:%s\na=ice-pwd:%s\na=%.*s\na=end-of-candidates\n", of->ufrag, of->password,
            (int)length, line);
}

static void take_candidate(agent *of, const char *line) {
    stun_types_ice_candidate read;
    need_ok(stun_types_ice_candidate_read(line, strlen(line), &read));
    if (read.transport != STUN_TYPES_UDP || read.address.family != of->own.family) return;
    /* (number the foundations of several candidates: equal ones have the same number) */
    stun_types_ice_remote remote = {.address = read.address, .foundation = 1, .priority = read.priority,
                                    .component = read.component};
    need_ok(stun_types_ice_add_remote(&of->agent, nanoseconds(), &remote));
}

/* Takes the other agent's lines, with another password if there is one. */
static void take(agent *of, FILE *from, const char *other_password) {
    char line[SECRET_ROOM + LINE_ROOM], ufrag[SECRET_ROOM] = "", password[SECRET_ROOM] = "";
    while (fgets(line, sizeof line, from) != NULL) {
        line[strcspn(line, "\n")] = 0;
        if (strncmp(line, "a=candidate:", 12) == 0) take_candidate(of, line);
        else if (sscanf(line, "a=ice-ufrag:%256s", ufrag) == 0) (void)sscanf(line, "a=ice-pwd:%256s", password);
    }
    const char *used = other_password != NULL ? other_password : password;
    need_ok(stun_types_ice_set_peer(&of->agent, nanoseconds(), ufrag, strlen(ufrag), used, strlen(used)));
    need_ok(stun_types_ice_end_candidates(&of->agent, nanoseconds()));
}

static void signal_to(agent *to, const agent *from, const char *other_password) {
    FILE *channel = tmpfile();
    need(channel != NULL, "a file");
    describe(from, channel);
    rewind(channel);
    take(to, channel, other_password);
    fclose(channel);
}

/* ---- The loop */

static void send_text(agent *of, const char *text) {
    stun_types_ice_path path;
    if (stun_types_ice_route(&of->agent, nanoseconds(), COMPONENT, &path))
        send_datagram(of->socket.fd, &path.to, (const uint8_t *)text, strlen(text));
}

/* Takes the datagrams that have come: checks, responses and data. */
static void receive(agent *of) {
    uint8_t datagram[ROOM], out[ROOM];
    stun_types_address from;
    stun_types_ice_received received;
    uint64_t random;
    size_t length;
    while (receive_datagram(of->socket.fd, &from, datagram, sizeof datagram, &length)) {
        draw_all(&random, sizeof random);
        need_ok(stun_types_ice_datagram(&of->agent, nanoseconds(), BASE, &from, datagram, length, random, out,
                                      sizeof out, &received));
        if (received.kind == STUN_TYPES_ICE_RESPONSE) send_datagram(of->socket.fd, &from, out, received.length);
        if (received.kind != STUN_TYPES_ICE_DATA) continue;
        snprintf(of->received, sizeof of->received, "%.*s", (int)length, (const char *)datagram);
        printf("%s received %s\n", of->name, of->received);
    }
}

static void take_progress(agent *of, const stun_types_ice_change *change) {
    char text[TEXT_ROOM];
    if (change->progress == STUN_TYPES_ICE_FAILED) {
        of->has_failed = true;
        printf("%s failed\n", of->name);
    } else if (change->progress == STUN_TYPES_ICE_CONNECTED) {
        printf("%s connected ", of->name);
        print_address(stdout, &of->own);
        printf(" to ");
        print_address(stdout, &change->address);
        printf("\n");
        snprintf(text, sizeof text, "data of %s", of->name);
        send_text(of, text);
    }
}

/* Sends the checks that are due, and acts on what has changed. */
static void turn(agent *of) {
    uint8_t out[ROOM];
    stun_types_ice_request request;
    stun_types_ice_change change;
    stun_types_id id;
    do {
        draw_all(&id, sizeof id);
        need_ok(stun_types_ice_poll(&of->agent, nanoseconds(), &id, out, sizeof out, &request, &of->wake));
        if (request.length > 0) send_datagram(of->socket.fd, &request.to, out, request.length);
    } while (request.length > 0);
    while (stun_types_ice_changes(&of->agent, &change))
        if (change.kind == STUN_TYPES_ICE_PROGRESS) take_progress(of, &change);
}

/* Prints the role, and how long the peer's consent lasts, and frees the agent. */
static void close_agent(agent *of) {
    stun_types_ice_standing standing;
    stun_types_ice_checked pair;
    if (stun_types_ice_status(&of->agent, COMPONENT, &standing) && stun_types_ice_pair(&of->agent, 0, &pair) &&
        pair.nominated)
        printf("%s is %s, and may send for %u s\n", of->name,
               standing.role == STUN_TYPES_ICE_CONTROLLING ? "controlling" : "controlled",
               (unsigned)((pair.until - nanoseconds()) / 1000000000));
    stun_types_ice_free(&of->agent);
    close(of->socket.fd);
}

int main(int words, char **word) {
    static agent left, right;
    uint32_t seconds = 7;
    if (words > 3 || (words > 1 && !read_number(word[1], 0, 3600, &seconds)))
        return fprintf(stderr, "usage: ice_connect [SECONDS [PASSWORD]]\n"), 2;
    make_agent(&left, "left", STUN_TYPES_ICE_CONTROLLING);
    make_agent(&right, "right", STUN_TYPES_ICE_CONTROLLED);
    signal_to(&left, &right, words == 3 ? word[2] : NULL);
    signal_to(&right, &left, words == 3 ? word[2] : NULL);
    for (uint64_t end = nanoseconds() + seconds * (uint64_t)1000000000;;) {
        turn(&left);
        turn(&right);
        if (nanoseconds() >= end || (left.has_failed && right.has_failed)) break;
        uint64_t wake = left.wake < right.wake ? left.wake : right.wake;
        struct pollfd sockets[] = {left.socket, right.socket};
        need(poll(sockets, 2, milliseconds_until(wake < end ? wake : end)) >= 0, "poll");
        receive(&left);
        receive(&right);
    }
    close_agent(&left);
    close_agent(&right);
    return strcmp(left.received, "data of right") != 0 || strcmp(right.received, "data of left") != 0;
}
