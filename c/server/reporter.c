/* The process that says the counts to whoever connects: by a port of the loopback, or by a UNIX
 * socket. It answers as a server of HTTP/1.0 does, whatever it is asked. */
#include "server.h"

#include <poll.h>
#include <sys/stat.h>
#include <sys/un.h>

enum {
    SECOND = 1000,
    MOST_ASKING = 64 /* at once: if there are more, the first of them is closed */
};

/* Who asks, each for a second at most until the request comes, and until the answer has been read. */
static struct {
    struct pollfd waits[1 + MOST_ASKING]; /* the listener, and then those who ask, the first first */
    uint64_t until[1 + MOST_ASKING];      /* in milliseconds, */
    bool answered[1 + MOST_ASKING];       /* and whether each has had the answer */
    size_t count;                         /* with the listener */
} asking;

/* Removes a socket that an earlier server has left, by which nobody is there any more. */
static void remove_left(const struct sockaddr_un *at) {
    struct stat found;
    if (lstat(at->sun_path, &found) != 0 || !S_ISSOCK(found.st_mode)) return;
    int probe = socket(AF_UNIX, SOCK_STREAM | SOCK_CLOEXEC, 0);
    if (probe < 0) return;
    bool is_left = connect(probe, (const struct sockaddr *)at, sizeof *at) != 0 &&
                   errno == ECONNREFUSED;
    close(probe);
    if (is_left) unlink(at->sun_path);
}

/* Listens at a path. Returns the socket; -1: it can't. */
static int listen_at_path(const char *path) {
    struct sockaddr_un at;
    memset(&at, 0, sizeof at);
    at.sun_family = AF_UNIX;
    if (strlen(path) >= sizeof at.sun_path) {
        errno = ENAMETOOLONG;
        return -1;
    }
    memcpy(at.sun_path, path, strlen(path));
    remove_left(&at);
    int opened = socket(AF_UNIX, SOCK_STREAM | SOCK_CLOEXEC | SOCK_NONBLOCK, 0);
    if (opened >= 0 && bind(opened, (const struct sockaddr *)&at, sizeof at) != 0) return -1;
    return opened;
}

static int listen_at_port(uint32_t port) {
    struct sockaddr_in at;
    int on = 1;
    memset(&at, 0, sizeof at);
    at.sin_family = AF_INET;
    at.sin_addr.s_addr = htonl(INADDR_LOOPBACK);
    at.sin_port = htons((uint16_t)port);
    int opened = socket(AF_INET, SOCK_STREAM | SOCK_CLOEXEC | SOCK_NONBLOCK, 0);
    if (opened < 0) return -1;
    (void)setsockopt(opened, SOL_SOCKET, SO_REUSEADDR, &on, sizeof on);
    return bind(opened, (const struct sockaddr *)&at, sizeof at) == 0 ? opened : -1;
}

int open_reports(const char *where) {
    uint32_t port;
    bool is_port = read_number(where, 1, 65535, &port);
    int opened = is_port ? listen_at_port(port) : listen_at_path(where);
    if (opened >= 0 && listen(opened, SOMAXCONN) == 0) return opened;
    cannot(where);
    return -1;
}

/* Ends the connection of one who asks. */
static void dismiss(size_t at) {
    size_t left = --asking.count - at;
    close(asking.waits[at].fd);
    memmove(&asking.waits[at], &asking.waits[at + 1], left * sizeof *asking.waits);
    memmove(&asking.until[at], &asking.until[at + 1], left * sizeof *asking.until);
    memmove(&asking.answered[at], &asking.answered[at + 1], left * sizeof *asking.answered);
}

/* Accepts one who asks. If the system has none, since files are scarce, it is tried again a second later. */
static void admit(uint64_t now) {
    int client = accept4(asking.waits[0].fd, NULL, NULL, SOCK_CLOEXEC | SOCK_NONBLOCK);
    if (client < 0) {
        if (errno != EAGAIN) poll(NULL, 0, SECOND);
        return;
    }
    if (asking.count > MOST_ASKING) dismiss(1);
    size_t at = asking.count++;
    asking.waits[at] = (struct pollfd){.fd = client, .events = POLLIN};
    asking.until[at] = now + SECOND;
    asking.answered[at] = false;
}

/* Answers a request. False: there is none, or it has been answered, and the connection ends. */
static bool answer(size_t at, const char *text, size_t length, uint64_t now) {
    char dropped[4096];
    int client = asking.waits[at].fd;
    bool has_asked = recv(client, dropped, sizeof dropped, 0) > 0;
    if (!has_asked || asking.answered[at] || send(client, text, length, MSG_NOSIGNAL) < 0) return false;
    shutdown(client, SHUT_WR);
    asking.until[at] = now + SECOND;
    return asking.answered[at] = true;
}

/* Answers those who have asked, and ends what has ended. */
static void answer_all(const char *text, size_t length, uint64_t now) {
    for (size_t at = asking.count - 1; at > 0; at--) {
        bool has_come = asking.waits[at].revents != 0;
        if (has_come ? !answer(at, text, length, now) : now >= asking.until[at]) dismiss(at);
    }
}

void serve_reports(int listener, const tally *tallies, size_t tallies_count, uint64_t began,
                   tally *mine) {
    static char room[COUNTS_ROOM];
    asking.waits[0] = (struct pollfd){.fd = listener, .events = POLLIN};
    asking.count = 1;
    while (!ending) {
        raise_by(&mine->beats, 1);
        if (poll(asking.waits, asking.count, SECOND) < 0) continue;
        uint64_t now = milliseconds();
        answer_all(room, write_counts(tallies, tallies_count, (now - began) / SECOND, room), now);
        if (asking.waits[0].revents != 0) admit(now);
    }
}
