/* A bounded load of binding requests over UDP, for a STUN server on this machine.
 *
 *     cc -O2 bench/load.c -o load
 *     ./load [-c CLIENTS] [-m REQUESTS] [-w WINDOW] [-t SECONDS] [-p PID].. ADDRESS PORT
 *
 * Each client has a socket of its own, sends REQUESTS requests in all, and has at most WINDOW of
 * them under way. An answer counts if it is a success response to one of its requests, by the
 * whole transaction ID, with the address and the port of its socket in XOR-MAPPED-ADDRESS; what
 * else comes is wrong, and a second answer to one request is repeated. A client that hears nothing
 * for half a second sends on; an answer that comes later still counts, up to two seconds after its
 * last request. It ends after SECONDS seconds at the latest.
 *
 * With -p, for each process of the server, it prints the processor time that these took meanwhile.
 * It reads messages by code of its own, so that it checks the server's library and not itself.
 *
 * ADDRESS is within 127.0.0.0/8 or ::1; no other is taken. The status is 0 if each request was
 * answered once and nothing else came, 1 if not, and 2 if it couldn't begin. */
#define _GNU_SOURCE
#include <arpa/inet.h>
#include <errno.h>
#include <netinet/in.h>
#include <stdbool.h>
#include <stdint.h>
#include <stdio.h>
#include <stdlib.h>
#include <string.h>
#include <sys/epoll.h>
#include <sys/random.h>
#include <sys/resource.h>
#include <sys/socket.h>
#include <time.h>
#include <unistd.h>

enum {
    HEADER = 20,
    MOST_CLIENTS = 1000,
    MOST_REQUESTS = 10000000, /* of all clients */
    MOST_WINDOW = 64,
    MOST_SECONDS = 120,
    MOST_PROCESSES = 64,
    PATIENCE = 500,       /* milliseconds, of a client that waits for answers */
    LAST_PATIENCE = 2000, /* after its last request */
    EXTRA_TIME = 50,      /* after its last answer, for one that is too many */
    ANSWER_ROOM = 512
};

/* What the arguments ask for. */
static struct {
    int clients, requests, window, seconds, processes;
    long process[MOST_PROCESSES];
    struct sockaddr_storage server;
    socklen_t server_length;
} asked = {20, 200, 8, 60, 0, {0}, {0}, 0};

typedef struct {
    int socket;
    uint32_t sent, answered, under_way;
    uint64_t heard; /* when it last sent with nothing under way, or received, in milliseconds */
    size_t address_length;
    uint8_t address[16]; /* of its socket, as the answers have to report it */
    uint8_t port[2];
    uint8_t *seen; /* a bit for each request: it was answered */
} client;

static client clients[MOST_CLIENTS];
static uint8_t salt[4]; /* the first bytes of all transaction IDs of a run */
static uint64_t answered, wrong, repeated, refused;
static double last_answer; /* when it came, in seconds */

static uint64_t milliseconds(void) {
    struct timespec now = {0, 0};
    clock_gettime(CLOCK_MONOTONIC, &now);
    return (uint64_t)now.tv_sec * 1000 + (uint64_t)now.tv_nsec / 1000000;
}

static double seconds(void) {
    struct timespec now = {0, 0};
    clock_gettime(CLOCK_MONOTONIC, &now);
    return (double)now.tv_sec + (double)now.tv_nsec / 1e9;
}

static void put_number(uint8_t *at, uint32_t number) {
    for (int i = 0; i < 4; i++) at[i] = (uint8_t)(number >> (24 - 8 * i));
}

static uint32_t number_at(const uint8_t *at) {
    return (uint32_t)at[0] << 24 | (uint32_t)at[1] << 16 | (uint32_t)at[2] << 8 | at[3];
}

static size_t short_at(const uint8_t *at) { return (size_t)at[0] << 8 | at[1]; }

/* ---- Messages -------------------------------------------------------------------------------- */

/* A request of a client: its ID is the salt, the client's number and the request's. */
static void write_request(uint8_t *at, const client *from, uint32_t request) {
    static const uint8_t front[8] = {0, 1, 0, 0, 0x21, 0x12, 0xA4, 0x42};
    memcpy(at, front, sizeof front);
    memcpy(at + 8, salt, sizeof salt);
    put_number(at + 12, (uint32_t)(from - clients));
    put_number(at + 16, request);
}

/* Whether the value of an XOR-MAPPED-ADDRESS in a message is a client's address. */
static bool tells_address(const uint8_t *message, const uint8_t *value, size_t length,
                          const client *of) {
    if (length != 4 + of->address_length) return false;
    if (value[1] != (of->address_length == 4 ? 1 : 2)) return false;
    for (size_t i = 0; i < 2; i++) {
        if ((value[2 + i] ^ message[4 + i]) != of->port[i]) return false;
    }
    /* (what the address is XORed with, cookie and transaction ID, follow one another) */
    for (size_t i = 0; i < of->address_length; i++) {
        if ((value[4 + i] ^ message[4 + i]) != of->address[i]) return false;
    }
    return true;
}

/* Whether the first XOR-MAPPED-ADDRESS among the attributes is a client's address. */
static bool shows_address(const uint8_t *message, size_t length, const client *of) {
    size_t at = HEADER;
    while (at + 4 <= length) {
        size_t value = short_at(message + at + 2);
        if (at + 4 + value > length) return false;
        if (short_at(message + at) == 0x0020) {
            return tells_address(message, message + at + 4, value, of);
        }
        at += 4 + (value + 3) / 4 * 4;
    }
    return false;
}

/* Whether a message is a success response to a request that a client has sent. */
static bool is_answer(const uint8_t *message, size_t length, const client *of) {
    static const uint8_t cookie[4] = {0x21, 0x12, 0xA4, 0x42};
    return length >= HEADER && short_at(message) == 0x0101 &&
           short_at(message + 2) == length - HEADER && memcmp(message + 4, cookie, 4) == 0 &&
           memcmp(message + 8, salt, sizeof salt) == 0 &&
           number_at(message + 12) == (uint32_t)(of - clients) &&
           number_at(message + 16) < of->sent && shows_address(message, length, of);
}

/* Counts what a client received. */
static void take(client *of, const uint8_t *message, size_t length) {
    if (!is_answer(message, length, of)) {
        wrong++;
        return;
    }
    uint32_t request = number_at(message + 16);
    uint8_t bit = (uint8_t)(1 << (request & 7));
    if (of->seen[request >> 3] & bit) {
        repeated++;
        return;
    }
    of->seen[request >> 3] |= bit;
    of->answered++;
    answered++;
    if (of->under_way > 0) of->under_way--;
}

/* ---- Sockets --------------------------------------------------------------------------------- */

/* Sends as many requests as the window has room for. */
static void send_more(client *of) {
    static uint8_t requests[MOST_WINDOW][HEADER];
    static struct iovec places[MOST_WINDOW];
    static struct mmsghdr headers[MOST_WINDOW];
    unsigned most = (unsigned)asked.window - of->under_way;
    if (most > (unsigned)asked.requests - of->sent) most = (unsigned)asked.requests - of->sent;
    for (unsigned i = 0; i < most; i++) {
        write_request(requests[i], of, of->sent + i);
        places[i].iov_base = requests[i];
        places[i].iov_len = HEADER;
        headers[i].msg_hdr.msg_iov = &places[i];
        headers[i].msg_hdr.msg_iovlen = 1;
    }
    if (most == 0) return;
    if (of->under_way == 0) of->heard = milliseconds();
    int sent = sendmmsg(of->socket, headers, most, MSG_DONTWAIT);
    if (sent < 0 && errno == ECONNREFUSED) refused++;
    if (sent <= 0) return;
    of->sent += (uint32_t)sent;
    of->under_way += (uint32_t)sent;
}

/* Receives what there is for a client, up to twice its window. */
static void receive_some(client *of) {
    static uint8_t answers[2 * MOST_WINDOW][ANSWER_ROOM];
    static struct iovec places[2 * MOST_WINDOW];
    static struct mmsghdr headers[2 * MOST_WINDOW];
    unsigned most = 2 * (unsigned)asked.window;
    for (unsigned i = 0; i < most; i++) {
        places[i].iov_base = answers[i];
        places[i].iov_len = ANSWER_ROOM;
        headers[i].msg_hdr.msg_iov = &places[i];
        headers[i].msg_hdr.msg_iovlen = 1;
    }
    int got = recvmmsg(of->socket, headers, most, MSG_DONTWAIT, NULL);
    if (got < 0 && errno == ECONNREFUSED) refused++;
    for (int i = 0; i < got; i++) take(of, answers[i], headers[i].msg_len);
    if (got <= 0) return;
    of->heard = milliseconds();
    last_answer = seconds();
}

/* Keeps the address of a client's socket. */
static bool keep_address(client *of) {
    struct sockaddr_storage own;
    struct sockaddr_in four;
    struct sockaddr_in6 six;
    socklen_t length = sizeof own;
    if (getsockname(of->socket, (struct sockaddr *)&own, &length) != 0) return false;
    memcpy(&four, &own, sizeof four);
    memcpy(&six, &own, sizeof six);
    bool is_four = own.ss_family == AF_INET;
    of->address_length = is_four ? 4 : 16;
    memcpy(of->port, is_four ? &four.sin_port : &six.sin6_port, 2);
    if (is_four) memcpy(of->address, &four.sin_addr, 4);
    else memcpy(of->address, &six.sin6_addr, 16);
    return true;
}

/* Connects a client's socket, and waits for what it receives. */
static bool open_client(client *opened, int poller) {
    const struct sockaddr *server = (const struct sockaddr *)&asked.server;
    struct epoll_event event;
    opened->socket = socket(asked.server.ss_family, SOCK_DGRAM | SOCK_NONBLOCK, 0);
    opened->seen = calloc((size_t)asked.requests / 8 + 1, 1);
    if (opened->socket < 0 || opened->seen == NULL) return false;
    if (connect(opened->socket, server, asked.server_length) != 0) return false;
    memset(&event, 0, sizeof event);
    event.events = EPOLLIN;
    event.data.u64 = (uint64_t)(opened - clients);
    return keep_address(opened) && epoll_ctl(poller, EPOLL_CTL_ADD, opened->socket, &event) == 0;
}

/* ---- The run --------------------------------------------------------------------------------- */

/* Whether a client has still something to send or to wait for. */
static bool is_busy(const client *of, uint64_t now) {
    if (of->sent < (uint32_t)asked.requests) return true;
    return now < of->heard + (of->answered < of->sent ? LAST_PATIENCE : EXTRA_TIME);
}

/* Resumes the clients that hear nothing; how many are still busy. */
static int push_on(uint64_t now) {
    int busy = 0;
    for (client *of = clients; of < clients + asked.clients; of++) {
        if (of->under_way > 0 && now >= of->heard + PATIENCE) of->under_way = 0;
        send_more(of);
        busy += is_busy(of, now);
    }
    return busy;
}

static void run(int poller) {
    struct epoll_event events[64];
    uint64_t end = milliseconds() + (uint64_t)asked.seconds * 1000, looked = 0;
    for (;;) {
        uint64_t now = milliseconds();
        if (now >= end || (answered == 0 && refused >= 100)) return;
        if (now >= looked + 10) {
            looked = now;
            if (push_on(now) == 0) return;
        }
        int ready = epoll_wait(poller, events, 64, 10);
        for (int i = 0; i < ready; i++) {
            client *of = &clients[events[i].data.u64];
            receive_some(of);
            send_more(of);
        }
    }
}

/* The processor time that a process has taken, in seconds; below 0: there is none. */
static double processor_time(long process) {
    char path[64], line[1024] = {0};
    unsigned long user, system;
    snprintf(path, sizeof path, "/proc/%ld/stat", process);
    FILE *file = fopen(path, "r");
    if (file == NULL) return -1;
    size_t length = fread(line, 1, sizeof line - 1, file);
    fclose(file);
    /* (the name of the program, in parentheses, may hold anything) */
    const char *behind = length > 0 ? strrchr(line, ')') : NULL;
    if (behind == NULL || sscanf(behind + 1, " %*c %*d %*d %*d %*d %*d %*u %*u %*u %*u %*u %lu %lu",
                                 &user, &system) != 2) {
        return -1;
    }
    return (double)(user + system) / (double)sysconf(_SC_CLK_TCK);
}

/* The processor time of all processes of the server; below 0: one isn't there. */
static double server_time(void) {
    double all = 0;
    for (int i = 0; i < asked.processes; i++) {
        double one = processor_time(asked.process[i]);
        if (one < 0) return -1;
        all += one;
    }
    return all;
}

static double own_time(void) {
    struct rusage used;
    getrusage(RUSAGE_SELF, &used);
    return (double)(used.ru_utime.tv_sec + used.ru_stime.tv_sec) +
           (double)(used.ru_utime.tv_usec + used.ru_stime.tv_usec) / 1e6;
}

/* Runs, and prints the counts and the times. True: all is as it should be. */
static bool measure(int poller) {
    double began = last_answer = seconds(), server = server_time(), own = own_time();
    run(poller);
    double took = last_answer - began;
    uint64_t sent = 0;
    for (int i = 0; i < asked.clients; i++) sent += clients[i].sent;
    printf("sent %llu, answered %llu, lost %llu, wrong %llu, repeated %llu\n",
           (unsigned long long)sent, (unsigned long long)answered,
           (unsigned long long)(sent - answered), (unsigned long long)wrong,
           (unsigned long long)repeated);
    if (refused > 0) printf("nobody listens: reported %llu times\n", (unsigned long long)refused);
    printf("%.3f s, %.0f answers a second\n", took, took > 0 ? (double)answered / took : 0);
    printf("this program: %.2f processor seconds\n", own_time() - own);
    if (asked.processes > 0 && server >= 0 && server_time() > server) {
        double used = server_time() - server;
        printf("the server: %.2f processor seconds, %.0f answers a processor second\n", used,
               (double)answered / used);
    }
    return sent == (uint64_t)asked.clients * (uint64_t)asked.requests && answered == sent &&
           wrong == 0 && repeated == 0;
}

/* ---- Arguments ------------------------------------------------------------------------------- */

static int usage(void) {
    fprintf(stderr, "usage: load [-c CLIENTS] [-m REQUESTS] [-w WINDOW] [-t SECONDS] [-p PID].. "
                    "ADDRESS PORT\n");
    return 2;
}

/* A number from 1 to most, in decimal digits; 0 for anything else. */
static int number_in(const char *text, long most) {
    long number = 0;
    for (; *text >= '0' && *text <= '9' && number <= most; text++) {
        number = number * 10 + (*text - '0');
    }
    return *text == 0 && number <= most ? (int)number : 0;
}

/* Reads a loopback address and a port; false for any other address. */
static bool read_server(const char *address, const char *port) {
    struct sockaddr_in four;
    struct sockaddr_in6 six;
    int number = number_in(port, 65535);
    memset(&four, 0, sizeof four);
    memset(&six, 0, sizeof six);
    if (inet_pton(AF_INET, address, &four.sin_addr) == 1) {
        four.sin_family = AF_INET;
        four.sin_port = htons((uint16_t)number);
        memcpy(&asked.server, &four, sizeof four);
        asked.server_length = sizeof four;
        return number > 0 && ntohl(four.sin_addr.s_addr) >> 24 == 127;
    }
    if (inet_pton(AF_INET6, address, &six.sin6_addr) != 1) return false;
    six.sin6_family = AF_INET6;
    six.sin6_port = htons((uint16_t)number);
    memcpy(&asked.server, &six, sizeof six);
    asked.server_length = sizeof six;
    return number > 0 && IN6_IS_ADDR_LOOPBACK(&six.sin6_addr);
}

static bool read_option(int option, const char *value) {
    if (option == 'c') return (asked.clients = number_in(value, MOST_CLIENTS)) > 0;
    if (option == 'm') return (asked.requests = number_in(value, MOST_REQUESTS)) > 0;
    if (option == 'w') return (asked.window = number_in(value, MOST_WINDOW)) > 0;
    if (option == 't') return (asked.seconds = number_in(value, MOST_SECONDS)) > 0;
    if (option != 'p' || asked.processes == MOST_PROCESSES) return false;
    asked.process[asked.processes++] = number_in(value, 1L << 30);
    return asked.process[asked.processes - 1] > 0;
}

int main(int count, char **arguments) {
    int option;
    while ((option = getopt(count, arguments, "c:m:w:t:p:")) != -1) {
        if (!read_option(option, optarg)) return usage();
    }
    if (count - optind != 2 || asked.requests > MOST_REQUESTS / asked.clients) return usage();
    if (!read_server(arguments[optind], arguments[optind + 1])) {
        fprintf(stderr, "load: the address must be in 127.0.0.0/8 or ::1\n");
        return 2;
    }
    int poller = epoll_create1(EPOLL_CLOEXEC);
    bool ready = poller >= 0 && getrandom(salt, sizeof salt, 0) == sizeof salt;
    for (int i = 0; ready && i < asked.clients; i++) ready = open_client(&clients[i], poller);
    if (!ready) {
        fprintf(stderr, "load: %s\n", strerror(errno));
        return 2;
    }
    return measure(poller) ? 0 : 1;
}
