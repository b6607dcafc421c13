/* The log of allocations: a line for each that is opened, refused or ended, by which a relayed address and a
 * time lead to a user. A process that serves clients waits for nobody: it puts what happens into a ring in
 * memory that all processes share, and the process of the log writes the lines. What finds its ring full, or
 * is over the rate, is dropped, and counted. */
#include "server.h"

#include <fcntl.h>
#include <inttypes.h>
#include <libgen.h>
#include <poll.h>
#include <sys/stat.h>
#include <sys/un.h>

enum {
    RING = 1024,     /* events that wait of one process, a power of 2 */
    LINE_ROOM = 2048, /* no longer than what a pipe takes at once */
    PAUSE = 100      /* milliseconds from one look at the rings to the next */
};

typedef struct {
    _Alignas(64) _Atomic uint64_t written; /* by the process that serves, */
    _Alignas(64) _Atomic uint64_t read;    /* and by that of the log */
    log_event events[RING];
} event_ring;

/* In memory that all processes share. */
typedef struct {
    _Atomic uint32_t is_on;
    event_ring of_workers[];
} shared_rings;

static struct {
    shared_rings *rings; /* NULL: there are none */
    size_t count;
    event_ring *own;
    tally *mine;
    int to;         /* -1: there is no log */
    bool is_syslog; /* a line is a datagram */
    char where[4096]; /* what was opened */
    uint64_t paid_until;
    pid_t process;
} allocation_log = {.to = -1};

/* ---- The start ------------------------------------------------------------------------------- */

static bool connect_syslog(void) {
    const struct sockaddr_un at = {.sun_family = AF_UNIX, .sun_path = "/dev/log"};
    return connect(allocation_log.to, (const struct sockaddr *)&at, sizeof at) == 0;
}

/* Says why the log can't be opened, as errno has it, and what would be right. Returns false. */
static bool cannot_open(const char *right) {
    char what[256];
    snprintf(what, sizeof what, "%s; %s", strerror(errno), right);
    return complain_of(ALLOCATION_LOG, 0, what);
}

/* Whether a file can be made beside a path, in its folder. */
static bool has_folder(const char *path) {
    char folder[4096];
    snprintf(folder, sizeof folder, "%s", path);
    return access(dirname(folder), W_OK | X_OK) == 0;
}

/* Opens a file; with --check none is made. Returns -1 if it can't; with --check it needn't be there. */
static int open_file(const char *path) {
    int made = options.checks ? 0 : O_CREAT;
    return open(path, O_WRONLY | O_APPEND | O_NONBLOCK | O_NOCTTY | O_CLOEXEC | made, 0640);
}

/* Opens what a text says: off, on, syslog or a path. False: it can't, and errno says why. */
static bool open_place(const char *where) {
    bool is_off = strcmp(where, "off") == 0, is_syslog = strcmp(where, "syslog") == 0;
    int to = -1, before = allocation_log.to;
    if (is_syslog) to = socket(AF_UNIX, SOCK_DGRAM | SOCK_NONBLOCK | SOCK_CLOEXEC, 0);
    else if (strcmp(where, "on") == 0) to = fcntl(lines_file(), F_DUPFD_CLOEXEC, STDERR_FILENO + 1);
    else if (!is_off) to = open_file(where);
    if (to < 0 && !is_off) return options.checks && *where == '/' && errno == ENOENT && has_folder(where);
    allocation_log.to = to;
    if (is_syslog && !connect_syslog()) {
        int error = errno;
        close(to);
        allocation_log.to = before;
        errno = error;
        return false;
    }
    if (before >= 0) close(before);
    allocation_log.is_syslog = is_syslog;
    snprintf(allocation_log.where, sizeof allocation_log.where, "%s", where);
    return true;
}

static const char *place(void) {
    const char *where = text_setting(ALLOCATION_LOG, 0);
    return where != NULL ? where : "off";
}

bool open_log(void) {
    if (open_place(place())) return true;
    return cannot_open(*place() == '/'                   ? "a file that can be written is right"
                       : strcmp(place(), "syslog") == 0 ? "a service that has /dev/log is needed"
                                                        : "off, syslog or the path of a file is right");
}

/* Whether what is open is what the settings say: a file, unless another one, or none, is there by its path. */
static bool is_current(void) {
    struct stat found, opened;
    if (strcmp(allocation_log.where, place()) != 0) return false;
    if (*place() != '/') return true;
    if (stat(place(), &found) != 0) return errno != ENOENT;
    return fstat(allocation_log.to, &opened) == 0 && found.st_dev == opened.st_dev && found.st_ino == opened.st_ino;
}

bool renew_log(void) {
    if (is_current()) return false;
    if (!open_place(place())) {
        int error = errno;
        (void)fault_is("%s; the log stays as it is", strerror(error));
        say(FAILURE, "event=log-refused file=%s error=%d reason=%s\n", place(), error, fault_word());
        return false;
    }
    atomic_store_explicit(&allocation_log.rings->is_on, has_log(), memory_order_relaxed);
    return true;
}

const char *log_folder(void) {
    static char folder[sizeof allocation_log.where];
    memcpy(folder, allocation_log.where, sizeof folder);
    return *folder == '/' ? dirname(folder) : NULL;
}

bool has_log(void) { return allocation_log.to >= 0; }

int log_file(void) { return allocation_log.to; }

bool make_log(size_t workers) {
    size_t size = sizeof *allocation_log.rings + workers * sizeof allocation_log.rings->of_workers[0];
    allocation_log.rings = shared_memory(size);
    allocation_log.count = workers;
    if (allocation_log.rings != NULL) allocation_log.rings->is_on = has_log();
    return allocation_log.rings != NULL;
}

void begin_logging(size_t worker, tally *mine) {
    if (allocation_log.rings == NULL) return;
    allocation_log.process = getpid();
    allocation_log.own = &allocation_log.rings->of_workers[worker];
    allocation_log.mine = mine;
}

/* ---- What happens ---------------------------------------------------------------------------- */

bool is_logging(void) {
    return allocation_log.own != NULL &&
           atomic_load_explicit(&allocation_log.rings->is_on, memory_order_relaxed) != 0;
}

void log_allocation(log_event *event) {
    event_ring *ring = allocation_log.own;
    struct timespec now = {0, 0};
    uint64_t written = atomic_load_explicit(&ring->written, memory_order_relaxed);
    if (written - atomic_load_explicit(&ring->read, memory_order_acquire) >= RING) {
        count(allocation_log.mine, LOG_DROPPED, 1);
        return;
    }
    clock_gettime(CLOCK_REALTIME, &now);
    event->at = now;
    event->process = allocation_log.process;
    ring->events[written % RING] = *event;
    atomic_store_explicit(&ring->written, written + 1, memory_order_release);
}

/* ---- A line ---------------------------------------------------------------------------------- */

/* NAME=VALUE, or of JSON "NAME":VALUE. */
typedef struct {
    char room[LINE_ROOM];
    growing_text text;
    bool is_json;
} log_line;

static void append_name(log_line *to, const char *name) {
    bool is_first = to->text.length == (to->is_json ? 1 : 0);
    if (to->is_json) print_to(&to->text, "%s\"%s\":", is_first ? "" : ",", name);
    else print_to(&to->text, "%s%s=", is_first ? "" : " ", name);
}

static void append_number(log_line *to, const char *name, uint64_t number) {
    append_name(to, name);
    print_to(&to->text, "%" PRIu64, number);
}

/* Appends a text, in which no byte ends a value or a line. */
static void append_text(log_line *to, const char *name, const char *text) {
    append_name(to, name);
    print_to(&to->text, to->is_json ? "\"%s\"" : "%s", text);
}

static void append_time(log_line *to, const struct timespec *at) {
    struct tm date;
    char text[64] = "";
    time_t seconds = at->tv_sec;
    if (gmtime_r(&seconds, &date) == NULL) return;
    size_t length = strftime(text, sizeof text, "%Y-%m-%dT%H:%M:%S", &date);
    snprintf(text + length, sizeof text - length, ".%03dZ", (int)(at->tv_nsec / 1000000 % 1000));
    append_text(to, "time", text);
}

static void append_address(log_line *to, const char *name, const stun_types_address *address) {
    socket_address at;
    char octets[INET6_ADDRSTRLEN] = "", text[INET6_ADDRSTRLEN + 16];
    bool is_four = address->family == 4;
    if (!is_four && address->family != 6) return;
    socket_address_of(address, &at);
    (void)inet_ntop(is_four ? AF_INET : AF_INET6, address->octets, octets, sizeof octets);
    snprintf(text, sizeof text, is_four ? "%s:%u" : "[%s]:%u", octets, (unsigned)address->port);
    append_text(to, name, text);
}

/* Appends the name of a user, or its hash in hexadecimal. Of a name, bytes that aren't printable and those
 * that mean something in a line are written as %NN. */
static void append_user(log_line *to, const user_name *name) {
    char text[3 * NAME_ROOM + 4] = "";
    size_t length = 0, most = name->length < NAME_ROOM ? name->length : NAME_ROOM;
    for (size_t i = 0; i < most; i++) {
        int byte = name->bytes[i];
        bool is_plain = !name->is_hash && byte > ' ' && byte < 0x7F && strchr("%\"\\=", byte) == NULL;
        const char *format = is_plain ? "%c" : name->is_hash ? "%02x" : "%%%02X";
        length += (size_t)snprintf(text + length, sizeof text - length, format, byte);
    }
    if (name->is_cut) snprintf(text + length, sizeof text - length, "...");
    if (most > 0) append_text(to, name->is_hash ? "userhash" : "user", text);
}

static void append_end(log_line *to, const log_event *of) {
    static const char *const causes[] = {
        [END_EXPIRED] = "expired", [END_DELETED] = "deleted", [END_CLOSED] = "closed",
        [END_REVOKED] = "revoked", [END_STOPPED] = "stopped"
    };
    append_text(to, "why", of->why <= END_STOPPED ? causes[of->why] : "unknown");
    append_name(to, "seconds");
    print_to(&to->text, "%" PRIu64 ".%03u", of->lasted / 1000000000, (unsigned)(of->lasted / 1000000 % 1000));
    append_number(to, "to_peer", of->to_peer.datagrams);
    append_number(to, "to_peer_octets", of->to_peer.octets);
    append_number(to, "to_client", of->to_client.datagrams);
    append_number(to, "to_client_octets", of->to_client.octets);
}

static void write_line(log_line *line, const log_event *of) {
    static const char *const kinds[] = {
        [LOG_OPENED] = "allocation-opened", [LOG_REFUSED] = "allocation-refused",
        [LOG_ENDED] = "allocation-ended"
    };
    line->text = (growing_text){line->room, sizeof line->room, 0};
    line->is_json = setting(LOG_JSON) != 0;
    if (line->is_json) print_to(&line->text, "{");
    append_text(line, "event", of->kind <= LOG_ENDED ? kinds[of->kind] : "unknown");
    append_time(line, &of->at);
    append_number(line, "process", (uint64_t)of->process);
    append_user(line, &of->user);
    append_address(line, "client", &of->tuple.client);
    append_text(line, "transport", of->tuple.stream ? "tcp" : "udp");
    append_address(line, "relayed", &of->relayed);
    if (of->kind == LOG_REFUSED) append_number(line, "code", of->code);
    if (of->kind == LOG_ENDED) append_end(line, of);
    print_to(&line->text, line->is_json ? "}\n" : "\n");
}

/* ---- The process of the log ------------------------------------------------------------------ */

/* Sends a line, over a new connection if the service for it has begun anew. */
static bool send_to_syslog(const log_line *line) {
    char text[LINE_ROOM + 64];
    enum { DAEMON_INFORMATION = 3 << 3 | 6 };
    int length = snprintf(text, sizeof text, "<%d>stun-server[%ld]: %.*s", DAEMON_INFORMATION,
                          (long)allocation_log.process, (int)line->text.length - 1, line->room);
    if (write(allocation_log.to, text, (size_t)length) == length) return true;
    return errno == ECONNREFUSED && connect_syslog() &&
           write(allocation_log.to, text, (size_t)length) == length;
}

static void put(const log_event *event) {
    static log_line line;
    uint32_t rate = setting(LOG_RATE);
    bool is_put = rate == 0 || may_pass_by(&allocation_log.paid_until, rate, 1, nanoseconds());
    if (is_put) {
        write_line(&line, event);
        is_put = allocation_log.is_syslog
                     ? send_to_syslog(&line)
                     : write(allocation_log.to, line.room, line.text.length) == (ssize_t)line.text.length;
    }
    count(allocation_log.mine, is_put ? LOG_LINES : LOG_DROPPED, 1);
}

/* Whether a line can be written without waiting. */
static bool can_write(void) {
    struct pollfd waits = {.fd = allocation_log.to, .events = POLLOUT};
    return poll(&waits, 1, 0) > 0;
}

/* Writes what waits in a ring, as far as it goes without waiting. (A process in which somebody else's code
 * runs may write anything there.) */
static void write_ring(event_ring *ring) {
    uint64_t read = atomic_load_explicit(&ring->read, memory_order_relaxed);
    uint64_t written = atomic_load_explicit(&ring->written, memory_order_acquire);
    if (written - read > RING) read = written;
    for (; read != written && can_write(); read++) {
        log_event event = ring->events[read % RING];
        atomic_store_explicit(&ring->read, read + 1, memory_order_release);
        put(&event);
    }
}

void begin_log(tally *mine) {
    struct tm date;
    allocation_log.mine = mine;
    allocation_log.process = getpid();
    (void)gmtime_r(&(time_t){0}, &date); /* (the first time it reads files) */
}

void serve_log(void) {
    for (bool is_last = false; !is_last; raise_by(&allocation_log.mine->beats, 1)) {
        is_last = ending;
        for (size_t i = 0; i < allocation_log.count; i++) write_ring(&allocation_log.rings->of_workers[i]);
        if (!is_last) poll(NULL, 0, PAUSE);
    }
}
