/* A STUN server: it returns to each client the address that its request came from, over UDP and
 * TCP; and a TURN server: it relays data between its users and their peers.
 * docs/guide/STUN-SERVER.md says how to run it.
 *
 *     cc -std=c11 -O2 -I c FILES libstun_types.a -o stun-server
 *     ./stun-server [--check] [-t] [--turn] [-j PROCESSES] [-U USER] [-m PATH|PORT] [-c FILE]
 *         [-o NAME=VALUE]..
 *         ADDRESS PORT [ADDRESS PORT]..
 *
 * ADDRESS is an IPv4 or IPv6 address of this machine. 0.0.0.0 stands for all its IPv4 addresses,
 * and :: for all of both families. -h explains the options. A server that is started with open
 * sockets (LISTEN_FDS) serves these, and takes no addresses.
 *
 * Each address has as many processes over UDP as -j says, and all TCP connections have one. A
 * process over them replaces one that dies or hangs. Whatever a client sends or doesn't read, the
 * others are served. Without TURN the workers allocate nothing.
 *
 * Standard output says where it listens. Standard error has a line for each event, and one with
 * the counts at SIGHUP, at SIGUSR1 and at the end, which SIGTERM and SIGINT bring. At SIGHUP the
 * file of settings is read again.
 *
 * The status is 0 if it ran, 3 if it couldn't begin or gave up, 64 if the arguments are wrong, 78 if a file
 * is. */
#include "server.h"

#include <fcntl.h>
#include <getopt.h>

server_options options = {.processes = 1};

bool cannot(const char *what) {
    fprintf(stderr, "stun-server: %s: %s\n", what, strerror(errno));
    return false;
}

static int print_usage(FILE *to) {
    fprintf(to, "usage: stun-server [--check] [-t] [--turn] [-j PROCESSES] [-U USER] [-m PATH|PORT] [-c FILE] "
                "[-o NAME=VALUE].. ADDRESS PORT [ADDRESS PORT]..\n"
                "       stun-server -h | -V\n");
    return to == stdout ? STATUS_DONE : STATUS_WRONG_ARGUMENTS;
}

static int print_help(void) {
    print_usage(stdout);
    printf("\n"
           "ADDRESS            an IP address of this machine; 0.0.0.0 or :: stands for all\n"
           "PORT               1 to 65535\n"
           "--check            read all settings, say what is wrong, and end\n"
           "-t                 serve TCP too\n"
           "--turn             the same as -o turn=1\n"
           "-j PROCESSES       1 to %d for each address over UDP; 1 unless it is given\n"
           "-U USER            run with this user's rights once the sockets are open\n"
           "-m PATH or PORT    say the counts by this UNIX socket or port of 127.0.0.1, over HTTP\n"
           "-c FILE            read settings from lines NAME VALUE, and again at SIGHUP\n"
           "-o NAME=VALUE      set one of these (least to most, default):\n",
           MOST_WORKERS);
    print_settings();
    return fflush(stdout) == 0 ? STATUS_DONE : STATUS_BROKEN;
}

static int print_version(void) {
#ifdef STUN_TYPES_VERSION_TEXT
    printf("stun-server of stun_types %s\n", STUN_TYPES_VERSION_TEXT);
#else
    printf("stun-server of stun_types\n");
#endif
    return fflush(stdout) == 0 ? STATUS_DONE : STATUS_BROKEN;
}

/* ---- Arguments ------------------------------------------------------------------------------- */

/* Whether a text is what reports are asked for by: a path, with a slash in it, or a port. */
static bool is_place(const char *text) {
    uint32_t port;
    return strchr(text, '/') != NULL || read_number(text, 1, 65535, &port);
}

static bool read_option(int option, const char *value) {
    switch (option) {
    case 't': return options.tcp = true;
    case 'j': return read_number(value, 1, MOST_WORKERS, &options.processes);
    case 'U': return *(options.user = value) != 0;
    case 'o': return read_setting(value);
    case 'c': return *(options.file = value) != 0;
    case 'm': return is_place(options.reports = value);
    case 'T': return read_setting("turn=1");
    case 'C': return options.checks = true;
    default: return false;
    }
}

/* Reads the addresses. Returns how many there are; 0: they are none, or wrong. */
static size_t read_addresses(char **arguments, int count, socket_address *addresses) {
    size_t read = 0;
    if (count % 2 != 0 || count / 2 > MOST_WORKERS) return 0;
    for (; read < (size_t)count / 2; read++) {
        const char *address = arguments[2 * read], *port = arguments[2 * read + 1];
        if (!read_address(address, port, 0, &addresses[read])) return 0;
        if (!has_port(&addresses[read])) return 0;
    }
    return read * options.processes <= MOST_WORKERS ? read : 0;
}

/* ---- Start ----------------------------------------------------------------------------------- */

/* Opens all sockets, and prepares what is to be there before rights are given up. */
static bool open_all(endpoints *opened, const socket_address *addresses, size_t count,
                     uint32_t passed) {
    size_t listeners = 0;
    for (size_t i = 0; i < count; i++) {
        if (!open_address(opened, &addresses[i])) return false;
    }
    for (uint32_t i = 0; i < passed; i++) {
        if (!take_socket(opened, FIRST_PASSED + (int)i)) return false;
    }
    for (size_t i = 0; i < opened->count; i++) listeners += opened->all[i].stream;
    connect_notify();
    if (setting(TURN) && allow_files(OTHER_FILES + turn_files()) < OTHER_FILES + turn_files()) {
        say(WARNING, "event=few-files allocations=%u\n", (unsigned)setting(ALLOCATIONS));
    }
    return listeners == 0 || make_connections(listeners);
}

/* Reads what the settings say of TURN, and the files that they name. */
static int check(const socket_address *addresses, size_t count, uint32_t passed) {
    static endpoints noted;
    for (size_t i = 0; i < count; i++) {
        if (!note_address(&noted, &addresses[i])) return STATUS_BROKEN;
    }
    for (uint32_t i = 0; i < passed; i++) {
        if (!take_socket(&noted, FIRST_PASSED + (int)i)) return STATUS_BROKEN;
    }
    return !setting(TURN) || (prepare_turn(&noted) && open_log()) ? STATUS_DONE : start_status;
}

static int run(const socket_address *addresses, size_t count, uint32_t passed) {
    static endpoints opened;
    sigset_t signals = awaited_signals();
    rate_table *rates;
    int reports = -1;
    sigprocmask(SIG_BLOCK, &signals, NULL);
    signal(SIGPIPE, SIG_IGN);
    signal(SIGCHLD, SIG_DFL); /* (ignored, as it may be inherited, it hides dead workers) */
    if (options.file != NULL && !read_settings(options.file)) return start_status;
    if (options.checks) return check(addresses, count, passed);
    if (!open_all(&opened, addresses, count, passed)) return STATUS_BROKEN;
    if (options.reports != NULL && (reports = open_reports(options.reports)) < 0) return STATUS_BROKEN;
    if ((rates = make_rate_table()) == NULL) return STATUS_BROKEN;
    if (setting(TURN) && !(prepare_turn(&opened) && open_log())) return start_status;
    if (setting(TURN)) open_kernel(&opened);
    if (options.user != NULL && setting(TURN) && !keep_reader()) return STATUS_BROKEN;
    if (options.user != NULL && !become_user(options.user)) return STATUS_BROKEN;
    return supervise(&opened, rates, reports) ? STATUS_DONE : STATUS_BROKEN;
}

/* Opens what isn't open of standard input, output and error: no socket is to have their numbers. */
static void open_standard(void) {
    int opened;
    do opened = open("/dev/null", O_RDWR);
    while (opened >= 0 && opened <= STDERR_FILENO);
    if (opened >= 0) close(opened);
}

int main(int count, char **arguments) {
    static socket_address addresses[MOST_WORKERS];
    static char line[1024];
    int option;
    open_standard();
    setvbuf(stderr, line, _IOLBF, sizeof line); /* each line is written at once */
    open_lines();
    if (!make_settings()) return STATUS_BROKEN;
    static const struct option long_options[] = {
        {"turn", no_argument, NULL, 'T'}, {"check", no_argument, NULL, 'C'}, {NULL, 0, NULL, 0}};
    while ((option = getopt_long(count, arguments, "+:tj:U:o:c:m:hV", long_options, NULL)) != -1) {
        if (option == 'h') return print_help();
        if (option == 'V') return print_version();
        if (read_option(option, optarg)) continue;
        return option == 'o' ? STATUS_WRONG_ARGUMENTS : print_usage(stderr);
    }
    uint32_t passed;
    if (!count_passed(&passed)) return STATUS_BROKEN;
    int words = count - optind;
    size_t read = read_addresses(arguments + optind, words, addresses);
    if (passed > 0 ? words > 0 : read == 0) return print_usage(stderr);
    return run(addresses, read, passed);
}
