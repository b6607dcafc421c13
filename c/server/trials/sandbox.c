/* Tries what the sandbox of the server forbids, and what it allows. c/server/run runs it.
 *
 *     cc -std=c11 -I c c/server/trials/sandbox.c c/server/sandbox.c -o sandbox
 *     ./sandbox
 *
 * The first line has the version of Landlock, 0 for none, and whether system calls can be filtered.
 * Then each attempt has a line for a process without a sandbox, for one with Landlock, and for one
 * with both as a worker over UDP has them, over TCP, and over either if it relays: the error that it met,
 * 0 for none, or -31 if SIGSYS ended the process. */
#include "../server.h"

#include <fcntl.h>
#include <sys/mman.h>
#include <sys/wait.h>

enum { OWN = 77 }; /* the number of a socket, which isn't open */

static int open_file(void) { return open("/etc/passwd", O_RDONLY | O_CLOEXEC); }

static int make_file(void) { return open("/tmp", O_TMPFILE | O_RDWR | O_CLOEXEC, 0600); }

static int make_socket(void) { return socket(AF_INET, SOCK_DGRAM | SOCK_CLOEXEC, 0); }

static int make_relay(void) {
    return socket(AF_INET, SOCK_DGRAM | SOCK_CLOEXEC | SOCK_NONBLOCK, 0);
}

static int make_stream(void) {
    return socket(AF_INET, SOCK_STREAM | SOCK_CLOEXEC | SOCK_NONBLOCK, 0);
}

static int make_code(void) {
    int all = PROT_READ | PROT_WRITE | PROT_EXEC;
    return mmap(NULL, 4096, all, MAP_PRIVATE | MAP_ANONYMOUS, -1, 0) == MAP_FAILED ? -1 : 0;
}

static int take_memory(void) {
    int all = PROT_READ | PROT_WRITE;
    return mmap(NULL, 4096, all, MAP_PRIVATE | MAP_ANONYMOUS, -1, 0) == MAP_FAILED ? -1 : 0;
}

static int start_process(void) {
    pid_t started = fork();
    if (started == 0) _exit(0);
    return started;
}

static int start_program(void) { return execl("/bin/sh", "sh", "-c", ":", (char *)NULL); }

static int signal_parent(void) { return kill(getppid(), 0); }

/* Sends nothing on a socket that isn't there, which is an error, unless it may not be tried. */
static int send_by(int number) {
    struct mmsghdr none = {.msg_len = 0};
    return sendmmsg(number, &none, 1, 0) == -1 && errno == EBADF ? 0 : -1;
}

static int send_by_own(void) { return send_by(OWN); }

static int send_by_other(void) { return send_by(OWN + 1); }

static int send_back(void) {
    return send(OWN, "", 1, MSG_NOSIGNAL) == -1 && errno == EBADF ? 0 : -1;
}

static int send_to(void) {
    struct sockaddr_in to = {.sin_family = AF_INET};
    return sendto(OWN, "", 1, MSG_FASTOPEN, (const struct sockaddr *)&to, sizeof to) == -1 &&
                   errno == EBADF
               ? 0
               : -1;
}

static int end_listener(void) {
    return shutdown(OWN, SHUT_RD) == -1 && errno == EBADF ? 0 : -1;
}

static int reuse_address(void) {
    int on = 1;
    return setsockopt(OWN, SOL_SOCKET, SO_REUSEADDR, &on, sizeof on) == -1 && errno == EBADF ? 0
                                                                                            : -1;
}

/* (in TCP's level this is another option) */
static int set_congestion(void) {
    return setsockopt(OWN, IPPROTO_TCP, SO_LINGER, "reno", 4) == -1 && errno == EBADF ? 0 : -1;
}

static int set_linger(void) {
    const struct linger none = {1, 0};
    return setsockopt(OWN, SOL_SOCKET, SO_LINGER, &none, sizeof none) == -1 && errno == EBADF ? 0
                                                                                              : -1;
}

/* Sets an option of relay sockets. */
static int set_of_ip(int name) {
    int on = 1;
    return setsockopt(OWN, IPPROTO_IP, name, &on, sizeof on) == -1 && errno == EBADF ? 0 : -1;
}

static int set_fragments(void) { return set_of_ip(IP_MTU_DISCOVER); }

static int set_errors(void) { return set_of_ip(IP_RECVERR); }

static int close_none(void) { return close(-1) == -1 && errno == EBADF ? 0 : -1; }

/* The last are what a worker does: over UDP, over TCP, and either. */
static const struct {
    const char *name;
    int (*try)(void);
} attempts[] = {
    {"open-file", open_file},         {"make-file", make_file},
    {"make-socket", make_socket},     {"make-relay", make_relay},
    {"make-stream", make_stream},     {"make-code", make_code},
    {"take-memory", take_memory},     {"start-process", start_process},
    {"start-program", start_program}, {"signal-parent", signal_parent},
    {"send-by-other", send_by_other}, {"send-to", send_to},
    {"end-listener", end_listener},   {"reuse-address", reuse_address},
    {"set-congestion", set_congestion}, {"set-errors", set_errors},
    {"set-fragments", set_fragments}, {"send-by-own", send_by_own},
    {"send-back", send_back},         {"set-linger", set_linger},
    {"close", close_none},
};

enum { NO_SANDBOX, LANDLOCK, UDP, TCP, UDP_RELAY, TCP_RELAY };

/* The option that a relay may set. */
static const socket_option dont_fragment = {IPPROTO_IP, IP_MTU_DISCOVER, IP_PMTUDISC_DO};

/* Makes an attempt in a process of its own. Returns its error, or below 0 the signal that ended
 * that. */
static int outcome(int sandbox, int (*try)(void)) {
    int status = 0;
    pid_t child = fork();
    if (child == 0) {
        bool udp = sandbox == UDP || sandbox == UDP_RELAY;
        if (sandbox >= LANDLOCK) close_off_system(NULL, 0, NULL);
        if (sandbox >= UDP) filter_calls(udp ? OWN : -1, sandbox >= UDP_RELAY, &dont_fragment, 1, false);
        _exit(try() >= 0 ? 0 : errno);
    }
    waitpid(child, &status, 0);
    return WIFSIGNALED(status) ? -WTERMSIG(status) : WEXITSTATUS(status);
}

int main(void) {
    static const char *const sandboxes[] = {"none",    "landlock",  "udp",
                                             "tcp",     "udp-relay", "tcp-relay"};
    int version = 0;
    pid_t child = fork();
    if (child == 0) _exit(close_off_system(NULL, 0, NULL));
    waitpid(child, &version, 0);
    printf("landlock %d filter %d\n", WEXITSTATUS(version), can_filter());
    fflush(stdout);
    for (int sandbox = NO_SANDBOX; sandbox <= TCP_RELAY; sandbox++) {
        for (size_t i = 0; i < sizeof attempts / sizeof *attempts; i++) {
            printf("%s %s %d\n", sandboxes[sandbox], attempts[i].name,
                   outcome(sandbox, attempts[i].try));
            fflush(stdout);
        }
    }
    return 0;
}
