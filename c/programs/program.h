/* What stun-client, stun-turn-client and stun-ice share. Each file includes it first. */
#ifndef PROGRAM_H
#define PROGRAM_H

#ifndef _GNU_SOURCE
#define _GNU_SOURCE
#endif
#include <errno.h>
#include <getopt.h>
#include <stdlib.h>
#include <unistd.h>

#include "../examples/addresses.h"
#include "statuses.h"

enum { MESSAGE_ROOM = STUN_TYPES_GREATEST_MESSAGE, NAME_ROOM = 256, PASSWORD_ROOM = 1024 };

/* ---- Arguments (options.c) ------------------------------------------------------------------- */

/* A host, by its name or its address, and a port. */
typedef struct {
    char host[NAME_ROOM];
    char port[6];
} target;

/* What the programs take. */
typedef struct {
    const char *program; /* its name, for messages */
    target server;
    int family; /* AF_UNSPEC: either */
    bool reliable; /* it asks over TCP */
    bool verbose;
    const char *user; /* NULL: without credentials */
    bool short_term;  /* otherwise the credentials are long-term */
    const char *password_file;
    char password[PASSWORD_ROOM];
    uint64_t wait; /* milliseconds for a response; 0: as long as the transaction says */
    stun_types_stream_kind carries; /* what comes over TCP */
} options;

extern options asked;

/* The letters and the words of these options. */
#define COMMON_LETTERS "46tu:f:w:vhV"
#define COMMON_WORDS                                                                               \
    {"tcp", no_argument, NULL, 't'}, {"user", required_argument, NULL, 'u'},                       \
        {"password-file", required_argument, NULL, 'f'}, {"wait", required_argument, NULL, 'w'},   \
        {"verbose", no_argument, NULL, 'v'}, {"help", no_argument, NULL, 'h'},                     \
        {"version", no_argument, NULL, 'V'}

/* Takes one of them. Returns whether it is one that is right. */
bool take_option(int letter, const char *value);

/* Reads seconds, 1 to most, as milliseconds. */
bool read_seconds(const char *text, uint32_t most, uint64_t *milliseconds);

/* Reads HOST, HOST:PORT, [ADDRESS] or [ADDRESS]:PORT; without a port, the target's stays. An IPv6
 * address without brackets has no port. */
bool read_target(const char *text, target *to);

/* Reads the password, from the file or the environment. Returns the status. */
int read_password(void);

/* Prints a line to standard error, and returns the status. */
int say(int status, const char *format, ...) __attribute__((format(printf, 2, 3)));

/* Flushes standard output. Returns the status. */
int end_output(void);
int print_text(const char *text); /* and flushes it */

/* ---- The connection to the server, and messages (connection.c) -------------------------------- */

typedef struct {
    uint8_t bytes[MESSAGE_ROOM];
    size_t length;
} message;

/* What is sent, and what was received last. */
extern message request, response;

uint64_t milliseconds(void);

/* Finds the addresses of a host. Returns the status. */
int find_host(const target *host, int family, int type, struct addrinfo **addresses);

/* Finds the server, and connects to the first of its addresses that takes it. Returns the status. */
int open_server(void);

/* Connects to the next address. False: there is none, and errno says why not. */
bool connect_next(void);

/* Connects to another server, or to the same one from another port. Returns the status. */
int move_to(const stun_types_address *to);

/* The address of the server that is connected; false: there is none any more. */
bool find_server(stun_types_address *address);

/* The socket that is connected; -1: none is. */
int server_socket(void);

void close_server(void);

/* Draws a transaction ID that nobody can guess. */
bool new_id(stun_types_id *id);

/* Sends the request, all of it. A datagram that the system has no room for counts as lost. False: it can't be
 * sent, and errno says why not. */
bool send_request(void);

enum { RECEIVED, NOTHING_YET, FAILED };

/* Waits for a message until a moment. */
int receive_until(uint64_t until);

/* Prints the peer that an error response is about, if it has a name, its code and its reason to standard error.
 * Returns the status. */
int tell_error(const char *host, uint32_t number);

/* ---- Binding requests (requests.c) ----------------------------------------------------------- */

/* Sends one, with credentials if the server asks for them, and to other servers if one sends the client to them,
 * until a success response is taken. Returns the status; if it isn't STATUS_DONE, the reason was printed. */
int ask(void);

/* Reads the address in an XORed attribute of the response. */
bool find_address(uint16_t type, stun_types_address *address);

#endif
