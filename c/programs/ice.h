/* What the files of stun-ice share. Each includes it first. */
#ifndef ICE_H
#define ICE_H

#include "program.h"

enum {
    MOST_HOSTS = 15,       /* sockets, each with a host candidate */
    RELAY = MOST_HOSTS,    /* the number of the base that is the relayed address; those before it are hosts */
    MOST_CANDIDATES = 32,  /* of this program, and of the peer */
    MOST_PAIRS = 100,
    LINE_ROOM = 512,       /* of a line of a description */
    DESCRIPTION_ROOM = 65536,
    ADDRESS_ROOM = 64,     /* of an address as text */
    FRAGMENT_ROOM = 257,   /* of a username fragment, and of a password (RFC 8839, section 5.4) */
    DATA_ROOM = 1200,      /* bytes of a datagram with data of standard input */
    DATAGRAM_ROOM = 65536
};

static const uint64_t NEVER = UINT64_MAX, MILLISECOND = 1000000;

typedef struct {
    bool controlling, lite, lite_peer, relay_only, json;
    bool has_stun, has_turn;
    target stun;
    const char *own_file, *peer_file; /* NULL: none */
    const char *addresses[MOST_HOSTS];
    size_t address_count; /* 0: those of the interfaces */
} ice_options;

extern ice_options ice;

extern uint64_t now; /* in milliseconds, the moment of this turn of the loop */

/* The earlier of two moments. */
static inline uint64_t sooner(uint64_t moment, uint64_t other) {
    return other < moment ? other : moment;
}

static inline bool is_fine(stun_types_answer answer) {
    return answer.code == STUN_TYPES_OK;
}

/* What the call refuses has no effect. */
static inline void ignore(stun_types_answer answer) {
    (void)answer;
}

static inline bool is_same(const stun_types_address *address, const stun_types_address *other) {
    return memcmp(address, other, sizeof *address) == 0;
}

/* ---- Reports (ice_report.c) ------------------------------------------------------------------ */

/* Prints a line about an event to standard error: the event and values, or with --json an object. After the
   event follow names and values, and NULL. */
void report(const char *event, ...) __attribute__((sentinel));

/* Prints a line of a description. */
void report_line(const char *event, const char *line);

/* Reports why there is no connection. Returns the status. */
int fail(int status, const char *format, ...) __attribute__((format(printf, 2, 3)));

/* Writes an address as text: 192.0.2.1:32853, or [2001:db8::1]:32853. */
const char *text_of(const stun_types_address *address, char text[ADDRESS_ROOM]);

/* ---- Sockets, and the addresses that a STUN server sees (ice_hosts.c) ------------------------- */

typedef struct {
    int socket;
    stun_types_address address;
    bool link_local;
    bool is_asking;     /* a request to the STUN server isn't answered yet */
    bool has_asked;     /* the first one has ended */
    uint64_t ask_at;    /* when the next one begins */
    uint64_t wake;      /* when this one has something to do */
    stun_types_transaction transaction;
    uint8_t request[64];
    size_t request_length;
} host;

extern host hosts[MOST_HOSTS];
extern size_t host_count;

/* Opens a socket at each address. Returns the status. */
int open_hosts(void);

/* Finds the STUN server, if there is one. Returns the status. */
int find_stun(void);

/* Sends what is due to the STUN server: the first requests, and if it keeps the addresses the next ones. */
void ask_stun(bool keeps);

/* Whether a datagram is a response of the STUN server that this socket waits for, which it takes. */
bool take_stun(size_t of, const stun_types_address *from, const uint8_t *bytes, size_t length);

bool has_asked_stun(void);
uint64_t stun_wake(bool keeps);
bool send_from_host(size_t of, const stun_types_address *to, const uint8_t *bytes, size_t length);
void close_hosts(void);

/* ---- The relayed address (ice_relay.c) -------------------------------------------------------- */

/* Asks the TURN server for one. Returns the status. */
int open_relay(void);

/* Whether it is there, or won't be. */
bool is_relay_settled(void);

/* The socket to the TURN server; -1: there is none. */
int relay_socket(void);

/* Permits a peer, on a channel if it binds. */
void permit(const stun_types_address *peer, bool binds);

/* Sends from the relayed address. What the server doesn't permit yet follows as soon as it does. */
bool send_from_relay(const stun_types_address *to, const uint8_t *bytes, size_t length);

/* Takes what has come of the server. */
void receive_from_relay(void);

/* Does what is due. */
void turn_relay(void);

uint64_t relay_wake(void);

/* Deletes the allocation. */
void close_relay(void);

/* ---- Descriptions (ice_description.c) --------------------------------------------------------- */

typedef enum { HOST, SERVER_REFLEXIVE, PEER_REFLEXIVE, RELAYED } candidate_kind;

/* The priority of a candidate of the base of this number (RFC 8445, section 5.1.2.1). */
uint32_t priority_of(candidate_kind kind, size_t base);

/* Adds a candidate to this program's description, and prints it. base: where it sends from, or NULL. */
void describe(candidate_kind kind, size_t number, const stun_types_address *address,
              const stun_types_address *base);

/* No more candidates follow. */
void end_description(void);
bool is_description_ended(void);

/* Prints the credentials, and the candidates that are known, and writes the file. */
void print_description(void);
void remove_description(void);

/* Takes a line of the peer's description, or several with semicolons between them, up to the end of the
   candidates. */
void take_line(const char *line, size_t length);

/* Reads the file of the peer's description, if it has changed. */
void read_peer_file(void);

/* ---- Sessions (ice_session.c) ----------------------------------------------------------------- */

/* Makes an agent, with new credentials. Returns the status. */
int begin_session(void);

/* The same beside the agent that there is, which keeps its connection until the new one has its own. */
int restart_session(const char *why);

const char *own_fragment(void);
const char *own_password(void);

/* Adds a base of this number to the agent. */
void add_base(size_t number, const stun_types_address *address, bool link_local);

/* Names an address of a candidate of this program. */
void add_address(const stun_types_address *address);

/* What the peer's description has. */
void take_fragment(const char *fragment, size_t length);
void take_password(const char *password, size_t length);
void take_lite(void);
void take_candidate(const stun_types_address *address, const char *foundation, size_t length,
                    uint32_t priority);
void skip_candidate(bool is_named); /* one of another transport or component, or with a host name */
void end_candidates(void);

/* Whether the peer's credentials are known, and whether its candidates have ended. */
bool has_peer(void);
bool has_all_candidates(void);

/* Takes a datagram that has come to a base. */
void take_datagram(size_t base, const stun_types_address *from, const uint8_t *bytes, size_t length);

/* Sends what is due, and reports what has changed. Returns the status of the connection: STATUS_DONE while it
   may be used, or may come. */
int turn_session(void);

uint64_t session_wake(void);

/* Whether data may be sent now. */
bool can_send(void);
bool send_data(const uint8_t *bytes, size_t length);

void print_pairs(void);
void close_session(void);

/* ---- Data (stun_ice.c) ------------------------------------------------------------------------ */

/* Takes data of the peer. */
void take_data(const uint8_t *bytes, size_t length);

#endif
