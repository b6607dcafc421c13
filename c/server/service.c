/* What a service manager says to the server by its environment, and hears from it, as systemd has
 * it: sd_listen_fds(3) and sd_notify(3). */
#include "server.h"

#include <stddef.h>
#include <sys/un.h>

static int notify_socket = -1;

/* They are this process's if LISTEN_PID says so. */
bool count_passed(uint32_t *count) {
    const char *text = getenv("LISTEN_FDS"), *of = getenv("LISTEN_PID");
    unsigned most = MOST_WORKERS / options.processes;
    uint32_t process = 0;
    *count = 0;
    if (text == NULL || of == NULL || !read_number(of, 1, UINT32_MAX, &process)) return true;
    if (process != (uint32_t)getpid() || read_number(text, 1, most, count)) return true;
    fprintf(stderr, "stun-server: LISTEN_FDS=%s: it takes 1 to %u sockets with -j %u\n", text, most,
            (unsigned)options.processes);
    return false;
}

/* Connects to NOTIFY_SOCKET: a path, or after an @ a name that is no file. It stays open, since it
 * can't be opened once rights are given up. */
void connect_notify(void) {
    const char *name = getenv("NOTIFY_SOCKET");
    struct sockaddr_un to;
    size_t length = name != NULL ? strlen(name) : 0;
    if (length < 2 || length >= sizeof to.sun_path || (*name != '/' && *name != '@')) return;
    memset(&to, 0, sizeof to);
    to.sun_family = AF_UNIX;
    memcpy(to.sun_path, name, length);
    if (*name == '@') to.sun_path[0] = 0;
    notify_socket = socket(AF_UNIX, SOCK_DGRAM | SOCK_CLOEXEC | SOCK_NONBLOCK, 0);
    socklen_t size = (socklen_t)(offsetof(struct sockaddr_un, sun_path) + length);
    if (notify_socket >= 0 && connect(notify_socket, (const struct sockaddr *)&to, size) != 0) {
        cannot("NOTIFY_SOCKET");
        close_notify();
    }
}

void close_notify(void) {
    if (notify_socket >= 0) close(notify_socket);
    notify_socket = -1;
}

/* (a manager that takes no news doesn't keep the server from serving) */
void notify(const char *state) {
    if (notify_socket >= 0) (void)send(notify_socket, state, strlen(state), MSG_NOSIGNAL);
}

/* Says so if the manager watches the server. */
void notify_alive(void) {
    if (getenv("WATCHDOG_USEC") != NULL) notify("WATCHDOG=1");
}
