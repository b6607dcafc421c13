/* Lines on standard error. Once it serves, nobody waits for who reads them: those that there is no room for are
 * lost, and counted. */
#include "server.h"

#include <fcntl.h>
#include <inttypes.h>
#include <poll.h>
#include <sys/stat.h>

/* What a pipe takes at once, if it has room (PIPE_BUF of Linux). */
enum { LINE_MOST = 4096 };

static int to = STDERR_FILENO;
static bool is_socket, is_cut;
static uint64_t lost, unprinted;

/* A pipe or a terminal is opened once more, since others who have it open are to wait still. */
void open_lines(void) {
    struct stat found;
    if (fstat(STDERR_FILENO, &found) != 0) return;
    is_socket = S_ISSOCK(found.st_mode);
    if (!S_ISFIFO(found.st_mode) && !isatty(STDERR_FILENO)) return;
    int opened = open("/proc/self/fd/2", O_WRONLY | O_NONBLOCK | O_NOCTTY | O_CLOEXEC);
    if (opened >= 0) to = opened;
}

void close_lines(void) {
    if (to != STDERR_FILENO) close(to);
    close(STDERR_FILENO);
}

/* Writes what needn't wait. Returns how many bytes that were, or -1. */
static ssize_t put_some(const char *text, size_t length) {
    struct pollfd room = {.fd = to, .events = POLLOUT};
    bool may_wait = to == STDERR_FILENO;
    if (is_socket) return send(to, text, length, MSG_DONTWAIT | MSG_NOSIGNAL);
    return !may_wait || poll(&room, 1, 0) == 1 ? write(to, text, length) : -1;
}

/* Writes a line. A terminal may take a part of it: the next one then begins a new line. */
static bool put(const char *line, size_t length) {
    if (is_cut && put_some("\n", 1) != 1) return false;
    ssize_t written = put_some(line, length);
    is_cut = written > 0 && written < (ssize_t)length;
    return written == (ssize_t)length;
}

void print_line(const char *line, size_t length) {
    char first[64];
    if (unprinted > 0) {
        int written = snprintf(first, sizeof first, "event=lines-lost lines=%" PRIu64 "\n", unprinted);
        if (put(first, (size_t)written)) unprinted = 0;
    }
    if (unprinted == 0 && put(line, length)) return;
    lost++;
    unprinted++;
}

uint64_t lost_lines(void) { return lost; }

int lines_file(void) { return to; }

bool say(int level, const char *format, ...) {
    char line[LINE_MOST];
    va_list values;
    if ((uint32_t)level > setting(LOG_LEVEL)) return false;
    va_start(values, format);
    int written = vsnprintf(line, sizeof line, format, values);
    va_end(values);
    if (written < 0) return false;
    size_t length = (size_t)written < sizeof line ? (size_t)written : sizeof line - 1;
    line[length - 1] = '\n';
    print_line(line, length);
    return true;
}
