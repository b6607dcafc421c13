/* What the files of the server share. Each file includes it first. */
#ifndef SERVER_H
#define SERVER_H

#ifndef _GNU_SOURCE
#define _GNU_SOURCE
#endif
#include <errno.h>
#include <signal.h>
#include <stdarg.h>
#include <stdatomic.h>
#include <stdlib.h>
#include <time.h>
#include <unistd.h>

#include "../examples/addresses.h"
#include "../programs/statuses.h"

/* ---- Options (main.c, settings.c) ------------------------------------------------------------ */

enum {
    MOST_WORKERS = 64, /* processes that serve UDP */
    MOST_ENDPOINTS = 128,
    MOST_CONNECTIONS = 4096,
    MOST_ALLOCATIONS = 100000, /* of one process */
    OTHER_FILES = 16 + MOST_WORKERS /* that a process may have open */
};

/* What the arguments ask for. It is written before the first worker starts, and then only read. */
typedef struct {
    bool tcp;
    uint32_t processes; /* over UDP, for each address */
    const char *user;    /* NULL: the rights stay as they are */
    const char *file;    /* of settings; NULL: none */
    const char *reports; /* the path or port by which it says its counts; NULL: none */
    bool checks;         /* it reads the settings, and ends */
} server_options;

extern server_options options;

/* The settings, which may change while the server runs. */
enum {
    MAX_CONNECTIONS,
    IDLE_TIMEOUT, /* this and the next three in seconds */
    REQUEST_TIMEOUT,
    MAX_AGE,
    HANG_TIMEOUT,
    RATE, /* answers a second to one prefix over UDP; 0: no limit */
    SLIP,
    SOFTWARE,
    SANDBOX,
    LOG_LEVEL,
    TURN,
    ALLOCATIONS,
    USER_ALLOCATIONS,
    LIFETIME, /* this and the next in seconds */
    NONCE_LIFETIME,
    DRAIN_SECONDS,
    CHANNEL_PERMITS,
    OLD_CHANNELS,
    SHA256,
    BANDWIDTH, /* this and the next in octets a second */
    USER_BANDWIDTH,
    PACKET_RATE, /* this and the next in datagrams a second */
    USER_PACKET_RATE,
    LOG_JSON,
    LOG_RATE, /* lines a second */
    RESERVATIONS, /* ports that are reserved at a time */
    DONT_FRAGMENT,
    ICMP,
    HEADER_FIELDS,
    SETTINGS
};

/* The settings that are texts. Some may be given several times. */
enum {
    REALM,
    USERS,
    SECRET,
    NONCE_SECRET,
    RELAY_ADDRESS,
    EXTERNAL_ADDRESS,
    PORTS,
    DENY,
    ALLOW,
    ALTERNATE,
    ALLOCATION_LOG,
    PROXY,
    KERNEL,
    TEXTS
};

/* The numbers, in memory that all processes share, and that a worker can only read. */
extern _Atomic uint32_t *settings;

static inline uint32_t setting(int which) {
    return atomic_load_explicit(&settings[which], memory_order_relaxed);
}

/* The text of a setting that was given for the `turn`th time, from 0 on; NULL: it wasn't. */
const char *text_setting(int which, size_t turn);

/* The path of a file that a setting names; NULL: it wasn't given. A name without a slash is that of a
 * credential, if the service manager has passed any. */
const char *file_setting(int which);

/* Makes the settings, as they usually are. */
bool make_settings(void);
void protect_settings(void);
void print_settings(void);

/* Reads NAME=VALUE of the arguments, which the file doesn't change. False: what is wrong is printed. */
bool read_setting(const char *text);

/* Whether an address is one of a prefix. */
bool prefix_contains(const stun_types_prefix *prefix, const stun_types_address *address);

/* Prints a text that was set, and where: FILE:LINE: NAME VALUE, or -o NAME=VALUE. */
void print_place(FILE *to, int which, size_t turn);

/* Reads texts of settings: an IP address, whose port is 0; LOW-HIGH; PREFIX, PREFIX:PORT or PREFIX:LOW-HIGH,
 * a prefix being ADDRESS or ADDRESS/LENGTH, of IPv6 in brackets before ports. */
bool read_ip(const char *text, stun_types_address *read);
bool read_range(const char *text, uint32_t *least, uint32_t *most);
bool read_rule(const char *text, stun_types_prefix *read);
bool read_end(const char *text, stun_types_address *read); /* ADDRESS:PORT, of IPv6 in brackets */

/* The status of a server that can't begin: STATUS_BROKEN, unless what was set is wrong (sysexits.h). */
enum { STATUS_WRONG_ARGUMENTS = 64, STATUS_WRONG_SETTINGS = 78 };
extern int start_status;

/* Keeps what is wrong with what is read, and what would be right (faults.c). Returns false. */
bool fault_is(const char *format, ...) __attribute__((format(printf, 1, 2)));
const char *fault_text(void);
const char *fault_word(void); /* without blanks, for an event */

/* Prints what is wrong in a line of a file; 0: with the file. And what is wrong with the settings of TURN, or
 * with one of the texts. They return false, and set start_status. */
bool refuse_file(const char *path, int line);
bool complain(const char *what);
bool complain_of(int which, size_t turn, const char *what);

/* Reads the file of settings: at the start, when what is wrong is printed, and again, when that is
 * an event. */
bool read_settings(const char *path);
bool read_settings_again(void);

/* Prints an event if events of its level are printed. Returns whether it was. */
enum { FAILURE, WARNING, NEWS };
bool say(int level, const char *format, ...) __attribute__((format(printf, 2, 3)));

/* A text that grows in a room; what has no room is left out. */
typedef struct {
    char *room;
    size_t size, length;
} growing_text;

void print_to(growing_text *to, const char *format, ...) __attribute__((format(printf, 2, 3)));

/* Prints what failed and why, as errno has it. Returns false. */
bool cannot(const char *what);

/* The lines of events on standard error: from open_lines on nobody waits for who reads them. A line that
 * there is no room for is lost; how many were; and the file that they are written to. */
void open_lines(void);
void close_lines(void);
void print_line(const char *line, size_t length);
uint64_t lost_lines(void);
int lines_file(void);

/* ---- Endpoints (sockets.c) ------------------------------------------------------------------- */

/* A socket that the server receives from. */
typedef struct {
    int socket;
    bool stream;      /* it accepts TCP connections */
    bool wildcard;    /* it stands for several addresses of this machine */
    uint32_t workers; /* how many processes receive from it, over UDP */
    stun_types_address address;
} endpoint;

typedef struct {
    endpoint all[MOST_ENDPOINTS];
    size_t count;
} endpoints;

/* Opens the sockets of an address: over UDP one for each process, and one over TCP if asked to. */
bool open_address(endpoints *to, const socket_address *at);

/* Appends an address as open_address does, without a socket. */
bool note_address(endpoints *to, const socket_address *at);

/* Takes an open socket, of either kind, that the server was started with. */
bool take_socket(endpoints *to, int number);

void print_endpoints(const endpoints *of);

/* Sets what a listener and its connections have of the settings. */
void prepare_listeners(const endpoints *of);

/* Lets the process have so many files open, if the system allows them. Returns how many it may. */
size_t allow_files(size_t wanted);

/* ---- The service manager (service.c) --------------------------------------------------------- */

/* Counts the open sockets that the server was started with, from number FIRST_PASSED on. False:
 * there are too many of them, or what says how many is no number; why is printed. */
enum { FIRST_PASSED = 3 };
bool count_passed(uint32_t *count);

void connect_notify(void);
void close_notify(void);
void notify(const char *state);
void notify_alive(void);

/* ---- Rights (rights.c, sandbox.c) ------------------------------------------------------------ */

/* Gives up all rights but those of a user, for good: capabilities, and groups but the user's own.
 * If this user has started the server, it keeps its other groups, unless it may drop them. */
bool become_user(const char *name);

/* Gives up all capabilities but the one to read any file, if there is that one. */
bool keep_reading_rights(void);

/* Closes off files, TCP sockets of its own and other processes by Landlock; the files in some folders
 * can be read still, and in another one, unless it is NULL, files be made and written to. Returns the version
 * of Landlock that does so, or 0. */
int close_off_system(const char *const *folders, size_t count, const char *written);

/* Whether the system filters system calls (seccomp), and whether it does so from now on: then a
 * call that serving doesn't make ends the process. own: the socket by which a worker for UDP sends;
 * -1: it has connections. relays: it opens sockets for UDP, and sends by each, and these options are set. flows: it
 * changes maps of the kernel's, and asks by which of its addresses it sends to another one. */
typedef struct {
    int level, name, value;
} socket_option;
bool can_filter(void);
bool filter_calls(int own, bool relays, const socket_option *set, size_t count, bool flows);

/* The same for a process that only writes to one file. */
bool filter_log_calls(int log);

/* ---- Counts (counts.c) ----------------------------------------------------------------------- */

/* What a worker counts. counts.c has their names. */
enum {
    UDP_RECEIVED,
    UDP_SENT,
    UDP_UNANSWERED,
    UDP_LIMITED, /* no reply, since the prefix has had as many as it may have */
    UDP_SLIPPED, /* a reply nevertheless */
    UDP_FAILED,  /* replies that the system refused to send */
    TCP_ACCEPTED,
    TCP_REFUSED,
    TCP_DISPLACED, /* closed for a newer connection */
    TCP_IDLE,      /* closed by idle_timeout, and then by request_timeout and max_age */
    TCP_SLOW,
    TCP_AGED,
    TCP_BAD_HEADER, /* closed since the PROXY header of a proxy was missing or wrong */
    TCP_RECEIVED,
    TCP_SENT, /* given to a connection to be sent */
    TCP_UNANSWERED,
    TURN_ALLOCATED,
    TURN_ENDED,
    TURN_UNAUTHORIZED, /* responses 401, 438, and others that are errors */
    TURN_STALE,
    TURN_REFUSED,
    TURN_TO_PEER, /* datagrams, and then octets of their data */
    TURN_TO_CLIENT,
    TURN_TO_PEER_OCTETS,
    TURN_TO_CLIENT_OCTETS,
    TURN_DROPPED, /* datagrams of peers that nobody has permitted */
    TURN_UNREAD,  /* a client doesn't read its connection */
    TURN_OVER,    /* over a bandwidth */
    TURN_FAILED,  /* the system refused to send to a peer */
    TURN_NO_PORT, /* no relay socket could be opened */
    TURN_ICMP,    /* ICMP packets passed to clients */
    TURN_HOPS,    /* dropped, since the hop limit was used up */
    TURN_IN_KERNEL, /* datagrams that the kernel relayed, and octets of their data: they count above too */
    TURN_IN_KERNEL_OCTETS,
    LOG_LINES, /* of the log of allocations, written and not */
    LOG_DROPPED,
    UDP_DROPPED, /* this and the next three are the supervisor's */
    WORKERS_DIED,
    WORKERS_HUNG,
    LINES_LOST, /* that nobody read from standard error */
    COUNTS
};

/* What there is at the moment; the last three are the supervisor's. */
enum { ALLOCATIONS_NOW, FLOWS_NOW, CONNECTIONS_NOW, SOCKETS_READY, RESERVED_NOW, USERS_KNOWN, MEMORY, DRAINING, GAUGES };

/* Why requests of clients of TURN are refused. counts.c has the codes. */
enum {
    REFUSED_UNSIGNED, /* as the first request of each client is */
    REFUSED_CREDENTIALS,
    REFUSED_NONCE,
    REFUSED_MALFORMED,
    REFUSED_PEER,
    REFUSED_ATTRIBUTE,
    REFUSED_MISMATCH,
    REFUSED_FAMILY,
    REFUSED_USER,
    REFUSED_TRANSPORT,
    REFUSED_PEER_FAMILY,
    REFUSED_QUOTA,
    REFUSED_CAPACITY, /* for another cause than the next three */
    REFUSED_FULL,
    REFUSED_NO_PORT,
    REFUSED_DRAINING,
    REFUSED_MOVED,
    REFUSED_OTHERWISE,
    REFUSALS
};

/* The usual cause of a code. */
int refusal_of(uint32_t code);

/* In memory that all processes share. One process alone writes it; when it has died, the supervisor. */
typedef struct {
    _Alignas(64) _Atomic uint64_t beats; /* turns of the worker's loop, one a second at least */
    _Atomic uint64_t numbers[COUNTS];
    _Atomic uint64_t gauges[GAUGES];
    _Atomic uint64_t refusals[REFUSALS];
} tally;

static inline void raise_by(_Atomic uint64_t *number, uint64_t more) {
    uint64_t now = atomic_load_explicit(number, memory_order_relaxed);
    atomic_store_explicit(number, now + more, memory_order_relaxed);
}

static inline void count(tally *mine, int which, uint64_t more) {
    raise_by(&mine->numbers[which], more);
}

static inline void set_count(tally *mine, int which, uint64_t number) {
    atomic_store_explicit(&mine->numbers[which], number, memory_order_relaxed);
}

static inline void set_gauge(tally *mine, int which, uint64_t number) {
    atomic_store_explicit(&mine->gauges[which], number, memory_order_relaxed);
}

/* How many there are of something at the moment, in all processes. */
uint64_t sum_of_gauges(const tally *tallies, size_t tallies_count, int which);

/* What a process had is no more, since it has died. */
void clear_gauges(tally *of);

/* How many octets of memory a process has for itself; 0: that can't be read. */
uint64_t memory_of(pid_t process);

/* How many datagrams came to sockets whose queues were full. */
uint64_t dropped_by_all(const endpoints *of);

/* Prints the sums of several tallies on standard error, as one line of name=value. */
void print_counts(const tally *tallies, size_t tallies_count, uint64_t uptime);

/* Writes them as an answer of HTTP/1.0, in the text format of Prometheus. Returns its length. */
enum { COUNTS_ROOM = 16384 };
size_t write_counts(const tally *tallies, size_t tallies_count, uint64_t uptime,
                    char room[COUNTS_ROOM]);

/* Opens what reports are asked for by: a path, or a port of the loopback. -1: it can't. */
int open_reports(const char *where);
void serve_reports(int listener, const tally *tallies, size_t tallies_count, uint64_t began,
                   tally *mine);

/* ---- Datagrams (bundles.c) ------------------------------------------------------------------- */

/* Control messages that say to which of this machine's addresses a datagram was sent, and from which one
 * is sent. */
typedef union {
    size_t aligned; /* as the head of a struct cmsghdr is */
    char bytes[CMSG_SPACE(sizeof(struct in6_pktinfo)) + CMSG_SPACE(sizeof(struct in_pktinfo))];
} target_control;

/* The same, and fields of the IP header: as they are received, in several forms, and as a datagram is sent. */
typedef union {
    size_t aligned;
    char bytes[sizeof(target_control) + 4 * CMSG_SPACE(sizeof(int))];
} received_control;
typedef union {
    size_t aligned;
    char bytes[sizeof(target_control) + 3 * CMSG_SPACE(sizeof(int))];
} sent_control;

/* Sends datagrams by a socket, and counts those that the system refuses as `refused`. Returns how many
 * were sent. */
int send_all(int socket, struct mmsghdr *messages, int messages_count, int flags, tally *mine,
             int refused);

/* The same without waiting, and the system gets those together that have one address and one length. */
int send_bundled(int socket, struct mmsghdr *messages, int messages_count, tally *mine, int refused);

/* ---- Replies (reply.c, rate.c) --------------------------------------------------------------- */

/* Writes the reply to a message that came from an address into a room of STUN_TYPES_GREATEST_REPLY
 * bytes. Returns how many bytes it has; 0: none is owed. */
size_t reply_to(const uint8_t *message, size_t length, const stun_types_address *source,
                uint8_t *room);

/* The reply to a binding request without its SOFTWARE. Returns its length. */
size_t without_software(uint8_t *reply, size_t length);

/* When each prefix, or each user, may have its next answers, in memory that all processes share. */
typedef struct rate_table rate_table;
rate_table *make_rate_table(void);

/* Whether a client may have an answer now (in nanoseconds) by a rate; then it counts as given. */
bool may_answer(rate_table *table, const stun_types_address *source, uint32_t rate, uint64_t now);

/* Whether so many octets, or datagrams, may pass now, by a rate of as many a second, for a user who has a
 * number other than 0; and by a bucket of the caller's, zero at first. Then they count as passed. */
bool may_pass(rate_table *table, uint64_t user, uint32_t rate, size_t amount, uint64_t now);
bool may_pass_by(uint64_t *paid_until, uint32_t rate, size_t amount, uint64_t now);

/* ---- Fields of the IP header, and ICMP (fields.c, icmp.c) ------------------------------------------------------- */

/* The options of relay sockets, of either family, by the settings. Returns how many there are. */
enum { MOST_OPTIONS = 8 };
size_t relay_options(socket_option options[MOST_OPTIONS]);

/* Has a relay socket of a family, 4 or 6, or a listener of AF_INET or AF_INET6, show what the settings want. */
void set_relay_options(int socket, uint16_t family);
void set_listener_options(int socket, int family);

/* Takes the fields that a datagram came with out of its control messages, if they are shown; and none. */
stun_types_ip_fields take_fields(struct msghdr *received);
stun_types_ip_fields no_fields(void);

/* Chooses the fields of a datagram that relays data. False: nothing is sent. */
bool choose_fields(const stun_types_turn_relayed *relayed, stun_types_ip_fields *fields);

/* Appends control messages with these fields to those of a datagram to a family, all in a room. */
void add_fields(struct msghdr *to, sent_control *room, const stun_types_ip_fields *fields, uint16_t family);

/* Whether what a relay socket of IPv4 sends from now on has the DF bit. */
void set_whole(int socket, bool is_whole);

/* Reads a few ICMP packets about datagrams of a socket, if it shows them. Returns how many. */
enum { MOST_ICMP = 16 };
typedef struct {
    stun_types_address peer; /* to which the datagram went */
    stun_types_icmp error;
} icmp_packet;
size_t read_icmp(int socket, icmp_packet packets[MOST_ICMP]);

/* Whether sending fails by this error once after an ICMP packet. */
bool is_icmp_error(int error);

/* ---- TURN (turn.c, relays.c, reserved.c, drain.c, users.c, nonces.c, hmac.c) ------------------------------------ */

/* A client as a process sees it: how it is reached, and its 5-tuple. What the data of a peer needs comes first, in
 * one line of the cache. */
typedef struct {
    socklen_t to_length;
    size_t control_length;
    size_t connection; /* over TCP: its place in the table, and which of all it is */
    uint64_t serial;
    struct sockaddr_storage to; /* over UDP, with the control message that names this machine's address */
    target_control control;
    stun_types_five_tuple tuple;
    stun_types_ip_fields received; /* what is known of the packet that it sent */
} turn_client;

/* The name of a user, as a request has it: the first bytes of a USERNAME, or a USERHASH. */
enum { NAME_ROOM = 128 };
typedef struct {
    uint8_t bytes[NAME_ROOM];
    uint16_t length;
    bool is_hash, is_cut;
} user_name;

/* What was relayed in one direction. */
typedef struct {
    uint64_t datagrams, octets;
} relayed_data;

/* The relay sockets of a process: each of a relayed address, in the slot that the low 24 bits of its number
 * say. What a datagram to a peer needs is in the first line of the cache, and what one to the client needs also in the
 * second. */
enum { CACHE_LINE = 64 };
typedef struct {
    _Alignas(CACHE_LINE) uint64_t number;
    int socket;     /* -1: none */
    unsigned asked; /* how many datagrams are received from it at once */
    bool is_taken;
    bool is_listed; /* whether the file of users had its user */
    relayed_data to_peer, to_client;
    uint64_t user; /* other than 0 */
    turn_client client;
    uint64_t octets_until, packets_until; /* when what has passed is paid for, by the two rates */
    stun_types_hash hash; /* of the user */
    stun_types_address relayed; /* what clients learn */
    uint64_t opened;            /* in nanoseconds */
    uint64_t offered_at;        /* when the kernel is next asked to relay one of its channels */
    user_name name;
} relay;

/* How many datagrams of peers, and for peers, wait to be sent at once. */
enum { HELD = 128 };

/* What a process does with a datagram of `length` bytes for a client; alone: its relay socket had no other;
 * fields: of its IP header, or NULL. The bytes stay until `flush`, which sends what waits; NULL: they are sent at once, or copied. copies: a
 * client's datagram doesn't stay until send_to_peers. */
typedef struct {
    void (*deliver)(turn_client *to, uint8_t *bytes, size_t length, bool alone, const stun_types_ip_fields *fields);
    void (*flush)(void);
    bool copies;
    void (*changed)(const relay *of, bool begins); /* a relay begins, or ends; NULL: so what */
    int poller;
    uint64_t first; /* the number of its first relay socket among the events of `poller` */
    tally *mine;
} turn_process;

/* Reads what else of them may have changed. */
void renew_turn(void);

/* Reads what the settings say of TURN, and tests it, before the workers start. False: why is printed. */
bool prepare_turn(const endpoints *of);

/* How many files a process has open for TURN. */
size_t turn_files(void);

/* Makes a worker's server and its first sockets. */
bool begin_turn(const turn_process *of);

/* A turn of the worker's loop begins. */
void begin_turn_at(uint64_t now);

/* What a client's datagram leads to. */
typedef enum { TURN_NOTHING_DUE, TURN_RELAYED, TURN_ANSWERED, TURN_ACCEPTED } turn_outcome;

/* Takes a client's datagram. TURN_ANSWERED, TURN_ACCEPTED: *written bytes of the room are the response,
 * in the latter case to a request of a user. Data for a peer waits for send_to_peers. */
turn_outcome take_from_client(const turn_client *from, const uint8_t *datagram, size_t length,
                              uint8_t *room, size_t size, size_t *written);
void send_to_peers(void);

/* Receives a few datagrams from the relay socket of an event, and ICMP packets about those that it sent. */
void take_from_peers(uint64_t number);
void take_icmp(uint64_t number);

/* Once a second: ends what has expired, and the relays of users who are no longer listed, and opens sockets
 * that are missing. */
void look_after_relays(void);

/* Has the log know of the relays that end with the process. */
void log_last_relays(void);

/* Ends a relay whose connection is closed. */
void end_relay(uint64_t number);

bool prepare_relays(const endpoints *of);
bool begin_relays(void);

/* The ports of relays. */
void relay_ports(uint32_t *least, uint32_t *most);

/* Whether there are relays of a family, 4 or 6. */
bool relays_family(uint16_t family);

/* Opens the spare sockets that are missing. */
void open_spares(tally *mine);
const stun_types_turn_ready *ready_sockets(void);

/* Keeps the socket with the next port after a spare one as reserved; makes a reserved one a spare one; and closes
 * one. */
void reserve_next(const stun_types_address *address, uint64_t token, uint64_t now);
void claim_reserved(uint64_t token);
void close_reserved(uint64_t token);

/* The reserved sockets: memory for them; one more, for 30 seconds from now on, unless there are too many; one less,
 * unless none has the token; how many there are; and whether the time of one is over. */
typedef struct {
    uint64_t token, until;
    int socket;
    uint16_t port, family;
} reserved_socket;
bool begin_reserved(void);
bool insert_reserved(const reserved_socket *of, uint64_t now);
bool remove_reserved(uint64_t token, reserved_socket *removed);
size_t count_reserved(void);
bool is_reserved_over(uint64_t now);

/* Makes the spare socket with an address a relay's. NULL: there is none, or the number isn't free. */
relay *take_spare(const stun_types_address *address, uint64_t number);
relay *find_relay(uint64_t number);
relay *relay_at(size_t slot); /* NULL: it is nobody's */
size_t relay_slot(const relay *of);
void close_relay_socket(relay *closed);

void free_relay(relay *freed);

/* What the socket of a relay is bound to. */
stun_types_address bound_address(const relay *of);

/* Whether an address is one of this machine's now. If the system doesn't say, it is. */
bool is_local(const stun_types_address *address);

/* Reads whom clients may not reach. False: the server listens at one of `ports`. */
enum { MOST_PREFIXES = 512 };
bool prepare_peers(const endpoints *of, stun_types_turn_settings *settings);

/* Reads the rules again, for the workers that there are and for those that start from now on. */
void renew_peers(stun_types_turn_settings *settings);
void protect_peers(void);

/* In a worker: has its server take the rules that were read last. False: there is no memory, and it has the
 * others. */
bool follow_peers(stun_types_turn *server, stun_types_turn_settings *settings);

/* Whether the server itself listens at a peer's port, and the address is one of this machine's now. */
bool is_server(const stun_types_address *peer);

/* Denies such a peer from now on. False: there is no memory. */
bool deny_server(stun_types_turn *server, stun_types_turn_settings *settings, const stun_types_address *peer);

/* Whether a message is a ChannelBind request for such a peer, and which. */
bool binds_server(const uint8_t *request, size_t length, stun_types_address *peer);

/* What was found in the files of users and of secrets. */
typedef struct {
    int wrong, error; /* the line that is wrong; -1: a file can't be read, and why as errno has it */
    int which;        /* the file that is wrong: USERS or SECRET */
    size_t users, secrets;
    char reason[256];
} users_report;

/* Reads these files: at the start; into the lists that aren't in use; and takes those. */
bool make_users(void);
void read_users(users_report *report);
void use_users(const users_report *report);
size_t count_users(void); /* of the file that is in use */
void protect_users(bool is_needed);

/* A process of its own that reads them again (reader.c): started, before rights are given up, to be kept;
 * asked to read, again if it is reading; and heard, without waiting: whether it reads still. */
bool keep_reader(void);
bool is_reader_kept(void);
void ask_reader(void);
bool hear_reader(void);
void close_reader(void);

/* The keys of a user whom a request names, and their number. attempt: a user by a time-limited name
 * has as many as there are secrets. False: there are no more. */
typedef struct {
    stun_types_key md5, sha256;
    uint64_t user;
    stun_types_hash hash;
    bool is_listed; /* in the file of users */
    user_name name;
} user_keys;
bool find_user(const uint8_t *request, size_t length, unsigned attempt, user_keys *found);

/* Whether the files have been read again since the last call; and whether the file of users has one. */
bool have_users_changed(void);
bool is_listed_user(const stun_types_hash *hash);

/* What the supervisor says of all Allocate requests (drain.c): that there are to be no more allocations, and by the
 * settings where else clients of a family find a server; family 0: nowhere. */
bool prepare_drain(void);
void protect_orders(void);
void renew_alternates(void);
void drain(void);
bool is_draining(void);
stun_types_address alternate_of(uint16_t family);

/* Reads, or draws, the secret of the nonces, before the workers start. False: why is printed. */
bool prepare_nonces(void);
bool make_nonce_key(stun_types_key *made);
void forget_nonce_secret(void);

/* The time that the nonces count, by the clock of nanoseconds(). */
uint64_t nonce_time(uint64_t now);

/* HMAC-SHA1 (RFC 2104). */
enum { SHA1_LENGTH = 20 };
void hmac_sha1(const void *key, size_t key_length, const void *text, size_t length,
               uint8_t result[SHA1_LENGTH]);

/* ---- Relaying in the kernel (kernel.c) ------------------------------------------------------- */

/* Opens the maps that the kernel relays by, if the settings name an interface. If it can't, that is an event, and all
 * is relayed as without. */
void open_kernel(const endpoints *of);

/* Ends the flows of a worker that has died, before another one starts in its place, or of all; and counts what they
 * have relayed. */
void end_life(size_t worker, tally *of);
void end_kernel(tally *of);

/* In a process that has no flows. */
void leave_kernel(void);

/* In a worker for UDP, which vouches for its flows for three seconds from now, by the clock of nanoseconds(). */
bool begin_flows(size_t worker, tally *mine);
bool has_flows(void);
void vouch(uint64_t now);

/* Makes what the kernel relays what the library says that it relays: after a signed request of a client, before the
 * response to it leaves; and after data of a client's channel, which is tried once a second. */
void follow_request(stun_types_turn *server, const stun_types_five_tuple *client, const uint8_t *request,
                    size_t length);
void follow_data(stun_types_turn *server, relay *by, uint16_t channel, uint64_t now);

/* Ends the flows of a relay, before its socket is closed; and all, since the rules for peers have changed. */
void end_flows(const relay *of);
void end_all_flows(void);

/* Once a second, by the time of the library: ends those that are over, and counts. */
void look_after_flows(uint64_t now);

/* The rates of an allocation, by which both pay: those of a new one are zero. packets: not that of octets. */
void begin_bucket(const relay *of);
bool may_pass_beside_kernel(relay *of, bool packets, uint32_t rate, size_t amount, uint64_t now);

/* ---- The log of allocations (log.c) ---------------------------------------------------------- */

enum { LOG_OPENED, LOG_REFUSED, LOG_ENDED };

/* Why an allocation ends: in time, by its client's request, with its connection or its user, or with the
 * server. */
enum { END_EXPIRED, END_DELETED, END_CLOSED, END_REVOKED, END_STOPPED };

typedef struct {
    unsigned kind, why;
    uint32_t code; /* of LOG_REFUSED */
    pid_t process;
    struct timespec at;
    stun_types_five_tuple tuple;
    stun_types_address relayed; /* family 0: none */
    uint64_t lasted;            /* this and the next two of LOG_ENDED; in nanoseconds */
    relayed_data to_peer, to_client;
    user_name user;
} log_event;

/* Opens what the settings say, or with --check tests it. False: why is printed. */
bool open_log(void);
bool has_log(void);
int log_file(void);

/* Opens what the settings say now, or the file anew if it isn't there any more by its path. Returns whether the
 * process of the log has to begin anew. The folder of the file that is open; NULL: there is none. */
bool renew_log(void);
const char *log_folder(void);

/* Makes the memory by which workers reach the log. */
bool make_log(size_t workers);

/* In a worker: begins to log; whether it does so; and logs what happens, with the time. */
void begin_logging(size_t worker, tally *mine);
bool is_logging(void);
void log_allocation(log_event *event);

/* What the process of the log does before its system calls are filtered, and from then on. */
void begin_log(tally *mine);
void serve_log(void);

/* ---- Processes (supervisor.c, udp.c, tcp.c) -------------------------------------------------- */

/* In a worker: set by SIGTERM. A signal that comes just before a call that waits is seen a second
 * later, since no call waits longer than that. */
extern volatile sig_atomic_t ending;

uint64_t nanoseconds(void);
uint64_t milliseconds(void);

/* Memory that all processes share, all zeros; NULL: there is none. */
void *shared_memory(size_t size);

/* The signals that the supervisor waits for, and that are blocked in it. */
sigset_t awaited_signals(void);

/* Serves all endpoints until SIGTERM or SIGINT, by workers that it starts and replaces. False: one
 * has died too often in a row. */
bool supervise(const endpoints *of, rate_table *rates, int reports);

/* What begins a connection of a proxy: a header of the PROXY protocol that isn't whole yet, or isn't right; or
 * one of a connection of the proxy's own, or of a client's (proxy.c). */
typedef enum { PROXY_UNFINISHED, PROXY_WRONG, PROXY_OWN, PROXY_CLIENT } proxy_kind;
typedef struct {
    proxy_kind kind;
    size_t length;                     /* of a right header, in bytes; PROXY_MOST are the most */
    stun_types_address client, server; /* of a client's connection to the proxy */
} proxy_header;
enum { PROXY_MOST = 4096, MOST_PROXIES = 64 };
proxy_header read_proxy_header(const uint8_t *bytes, size_t length);

/* What a worker for UDP does before its system calls are filtered, and from then on. */
bool begin_udp(const endpoint *from, rate_table *rates, tally *mine);
void serve_udp(void);

/* Makes the table of connections, which the worker for TCP inherits. */
bool make_connections(size_t listeners);

/* What the worker for TCP does before its system calls are filtered, and from then on. */
bool begin_tcp(const endpoints *of, tally *mine);
void serve_tcp(void);

#endif
