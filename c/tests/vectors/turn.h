/* A TURN server that answers the rows of vectors/turn and vectors/turn-server, through its calls in
   C. */
#ifndef TURN_H
#define TURN_H

#include "../turn_client.h"
#include "call.h"

/* The users alice and bob, the 5-tuples `1` to `8`, and the most sockets of a row. */
enum { TURN_USERS = 2, TURN_TUPLES = 8, TURN_SOCKETS = 64 };

/* The room for a response: more than any has here. */
enum { TURN_ROOM = 1500 };

typedef struct {
    stun_types_turn *server;
    turn_nonces nonces;
    turn_user users[TURN_USERS];
    bool has_ipv4, has_ipv6; /* whether it has sockets of the family */
    uint64_t now;
    uint64_t relays[TURN_SOCKETS]; /* of the socket with the number 1, 2 and so on */
    stun_types_address addresses[TURN_SOCKETS];
    size_t sockets;
    /* The sockets that the event ended, and how many. */
    bool is_ended[TURN_SOCKETS + 1];
    size_t ended;
    /* What every call is given. */
    stun_types_five_tuple *from;
    stun_types_turn_ready *ready;
    stun_types_turn_action *action;
    uint8_t *room, *head;
    /* Whose the allocation of a 5-tuple is that the row has got, and of which family; TURN_USERS,
       nobody's. */
    size_t owners[TURN_TUPLES];
    uint16_t families[TURN_TUPLES];
    /* Whether turn_fill has to occupy a part of each allocation, and when it did. */
    bool is_filled;
    uint64_t filled_at[TURN_TUPLES];
    uint64_t requests;
} turn_row;

/* Makes the server of a SETUP, with nonces that are valid for so many seconds; false if there is no
   memory, and the answer is that. Ends it. */
bool turn_begin_row(turn_row *it, char *setup, uint64_t window);
void turn_end_row(turn_row *it);

/* The tuple of a name, and the name of a tuple, NULL if it is none of these. */
size_t turn_tuple_of(const char *name);
stun_types_five_tuple turn_tuple(size_t number);
const char *turn_name_of(const stun_types_five_tuple *tuple);

/* The user of a name, by its number; TURN_USERS if it is none of these. */
size_t turn_user_of(const char *name);

/* The address and port of a word, as in `c6336407:4000`; the port is 0 if the word has none. */
stun_types_address turn_endpoint(char *word);

/* The moment of a word in seconds, in nanoseconds. */
uint64_t turn_moment(char *word);

/* The sockets that are ready: the next one of each family, if `are_there`. */
stun_types_turn_ready turn_ready(const turn_row *it, bool are_there);

/* The nonce of the moment for the client of a tuple. */
turn_nonce turn_nonce_now(const turn_row *it, size_t tuple);

/* What the server does for a datagram of the client of a tuple. A socket that it took has a number from
   then on. False if there is no memory, and the answer is that. */
bool turn_ask(turn_row *it, size_t tuple, slice datagram, size_t user, bool has_sockets);

/* Leaves as much room in the allocation of each client as the rows say, 4 permissions and 3
   channels, if the row names so many peers and binds so many channels that it matters. It is called
   before each event. */
void turn_expect(turn_row *it, size_t peers, size_t channels);
void turn_fill(turn_row *it);

/* The response of the last action, and the code in its ERROR-CODE, 0 if it is a success response. */
slice turn_response(const turn_row *it);
uint32_t turn_code(slice response);

/* The number of the socket with a relayed address in a response; and the one of a family that a response
   shows, 0 if it shows none. */
size_t turn_socket_of(const turn_row *it, const stun_types_address *address);
size_t turn_relayed(const turn_row *it, slice response, uint16_t family);

/* The code of a response's ADDRESS-ERROR-CODE for a family, 4 or 6; 0 if it shows none. */
unsigned turn_missing(slice response, uint16_t family);

/* Appends the word for data to a peer: of the last action, for this datagram. */
void answer_to_peer(const turn_row *it, slice datagram);

/* Appends the word for the flow on a channel, of a row's word TUPLE:NUMBER. */
void answer_flow(const turn_row *it, char *word);

/* What a peer's datagram becomes, of a row's words SOCKET PEER DATA: the octets that go to a
   client, and to which, or none. */
typedef struct {
    bool is_sent;
    stun_types_turn_delivery delivery;
    slice octets;
} turn_arrived;
turn_arrived turn_arrive(turn_row *it);

/* Appends the word for a Data indication that arrived. */
void answer_data(const turn_arrived *arrived);

/* Does an event that only ends relayed addresses, and appends that it ended none; false if the event is
   another one. */
bool answer_ends(turn_row *it, const char *name);

/* Appends the word for the sockets that the event ended, if there are any. */
void answer_closed(turn_row *it);

#endif
