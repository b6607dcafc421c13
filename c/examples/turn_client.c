/* Gets a relayed address of a TURN server over UDP, and passes data to a peer and back by a channel. The programs
 * turn_client.cc, .py, .go and .rs do the same, and print the same.
 *
 *     cc -O2 turn_client.c $(pkg-config --cflags --libs stun_types) -o turn_client
 *     ./turn_client ADDRESS PORT USER PASSWORD
 *
 * The peer is a socket of this process at ADDRESS: the server has to permit peers there. */
#define _DEFAULT_SOURCE
#include "datagrams.h"

enum { HEAD = STUN_TYPES_ALLOCATION_HEAD, ROOM = 3400 };

static stun_types_allocation client = STUN_TYPES_ALLOCATION_INIT;
static stun_types_address server, peer;
static struct pollfd client_socket, peer_socket;
static uint64_t wake;
static stun_types_allocation_end ended; /* 0: it hasn't */

static stun_types_id new_id(void) {
    stun_types_id id;
    need(draw(&id, sizeof id), "random bytes");
    return id;
}

static void want(stun_types_allocation_wish wish) {
    need_ok(stun_types_allocation_want(&client, nanoseconds(), wish, &peer));
}

static void make_client(const char *user, const char *password) {
    stun_types_allocation_settings settings = {.server = server, .transport = STUN_TYPES_UDP,
                                               .user = user, .user_length = strlen(user),
                                               .password = password, .password_length = strlen(password)};
    need_ok(stun_types_allocation_new(&client, &settings));
    want(STUN_TYPES_ALLOCATION_ALLOCATE);
    want(STUN_TYPES_ALLOCATION_BIND);
}

static void print_data(const char *who, const uint8_t *bytes, size_t length, const stun_types_address *from) {
    printf("%s received %.*s from ", who, (int)length, (const char *)bytes);
    print_address(stdout, from);
    printf("\n");
}

/* Takes what has come of the server: responses, or data of the peer, after which the client closes. */
static void receive(void) {
    uint8_t datagram[ROOM];
    stun_types_address from;
    stun_types_allocation_data data;
    size_t length;
    while (receive_datagram(client_socket.fd, &from, datagram, sizeof datagram, &length)) {
        need_ok(stun_types_allocation_datagram(&client, nanoseconds(), &from, datagram, length, &data));
        if (!data.shown) continue;
        print_data("client", datagram + data.at, data.length, &data.peer);
        want(STUN_TYPES_ALLOCATION_CLOSE);
    }
}

/* Replies to what has come to the peer's socket: to the relayed address. */
static void reply(void) {
    static const char text[] = "data of the peer";
    uint8_t datagram[ROOM];
    stun_types_address from;
    size_t length;
    while (receive_datagram(peer_socket.fd, &from, datagram, sizeof datagram, &length)) {
        print_data("peer", datagram, length, &from);
        send_datagram(peer_socket.fd, &from, (const uint8_t *)text, sizeof text - 1);
    }
}

/* Sends a text to the peer, if it may be sent. */
static void send_text(const char *text) {
    uint8_t room[HEAD + ROOM + 3] = {0}; /* the head, the text and padding */
    stun_types_allocation_head around;
    const stun_types_id id = new_id();
    const size_t length = strlen(text);
    memcpy(room + HEAD, text, length);
    need_ok(stun_types_allocation_send(&client, nanoseconds(), length, &peer, &id, room, HEAD, &around));
    if (!around.sends) return;
    send_datagram(client_socket.fd, &server, room + HEAD - around.length, around.length + length + around.padding);
}

static void take_change(const stun_types_allocation_change *change) {
    if (change->kind == STUN_TYPES_ALLOCATION_ALLOCATED) {
        printf("allocated ");
        print_address(stdout, &change->relayed);
        printf("\n");
    } else if (change->kind == STUN_TYPES_ALLOCATION_BOUND) {
        printf("bound ");
        print_address(stdout, &change->peer);
        printf(" to channel %#x\n", (unsigned)change->channel);
        send_text("data of the client");
    } else if (change->kind == STUN_TYPES_ALLOCATION_OVER) {
        ended = change->why;
        if (ended == STUN_TYPES_ALLOCATION_CLOSED) printf("closed\n");
        else printf("failed, code %u\n", (unsigned)change->code);
    }
}

/* Sends the requests that are due, and acts on what has changed. */
static void turn(void) {
    uint8_t out[ROOM];
    stun_types_allocation_change change;
    size_t length;
    do {
        const stun_types_id id = new_id();
        need_ok(stun_types_allocation_poll(&client, nanoseconds(), &id, out, sizeof out, &length, &wake));
        if (length > 0) send_datagram(client_socket.fd, &server, out, length);
    } while (length > 0);
    while (stun_types_allocation_changes(&client, &change)) take_change(&change);
}

int main(int words, char **word) {
    socket_address at;
    if (words != 5 || !read_address(word[1], word[2], SOCK_DGRAM, &at) || !address_of(&at.bytes, &server))
        return fprintf(stderr, "usage: turn_client ADDRESS PORT USER PASSWORD\n"), 2;
    stun_types_address own = server;
    own.port = 0;
    peer = own;
    client_socket = open_socket(&own);
    peer_socket = open_socket(&peer);
    need(own.family != 0 && peer.family != 0, "a socket");
    make_client(word[3], word[4]);
    for (turn(); ended == 0; turn()) {
        struct pollfd sockets[] = {client_socket, peer_socket};
        need(poll(sockets, 2, milliseconds_until(wake)) >= 0, "poll");
        receive();
        reply();
    }
    stun_types_allocation_free(&client);
    return ended != STUN_TYPES_ALLOCATION_CLOSED;
}
