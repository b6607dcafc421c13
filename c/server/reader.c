/* The process that reads the files of users and secrets again, so that the supervisor never waits for them.
 * If the supervisor gives up its rights, it is started before that, and keeps those that reading takes. */
#include "server.h"

#include <fcntl.h>
#include <libgen.h>
#include <sys/prctl.h>
#include <sys/syscall.h>

static struct {
    int asks, hears; /* the supervisor's ends; -1: there is no such process */
    bool is_kept, is_reading;
    bool again; /* the files are to be read once more after that */
} reader = {.asks = -1, .hears = -1};

bool is_reader_kept(void) { return reader.is_kept; }

/* ---- The process ----------------------------------------------------------------------------- */

/* Closes off the system, but for the folders of the files. */
static void close_off(void) {
    static const int files[] = {USERS, SECRET};
    static char paths[2][4096];
    const char *folders[2];
    size_t count = 0;
    for (size_t i = 0; i < 2; i++) {
        const char *path = file_setting(files[i]);
        if (path == NULL || strlen(path) >= sizeof paths[i]) continue;
        memcpy(paths[i], path, strlen(path));
        folders[count++] = dirname(paths[i]);
    }
    if (setting(SANDBOX)) (void)close_off_system(folders, count, NULL);
}

/* Closes all files from 3 on but two, if the system can do so. */
static void close_all_but(int first, int second) {
#ifdef SYS_close_range
    unsigned lower = (unsigned)(first < second ? first : second), upper = (unsigned)(first + second) - lower;
    if (lower > 3) (void)syscall(SYS_close_range, 3u, lower - 1, 0);
    if (upper > lower + 1) (void)syscall(SYS_close_range, lower + 1, upper - 1, 0);
    (void)syscall(SYS_close_range, upper + 1, ~0u, 0);
#else
    (void)first;
    (void)second;
#endif
}

/* Reads the files each time that it is asked to, until the supervisor has ended. */
static void serve(int asked, int answers, bool is_kept) {
    static users_report report;
    char byte;
    prctl(PR_SET_PDEATHSIG, SIGKILL);
    prctl(PR_SET_NAME, "stun-reader");
    close_all_but(asked, answers);
    if (is_kept && !keep_reading_rights()) _exit(1);
    if (is_kept) close_off();
    while (read(asked, &byte, 1) == 1) {
        read_users(&report);
        if (write(answers, &report, sizeof report) != (ssize_t)sizeof report) break;
    }
    _exit(0);
}

/* ---- The supervisor -------------------------------------------------------------------------- */

void close_reader(void) {
    if (reader.asks >= 0) close(reader.asks);
    if (reader.hears >= 0) close(reader.hears);
    reader.asks = reader.hears = -1;
    reader.is_kept = false;
}

static bool start(bool is_kept) {
    int asks[2], answers[2];
    if (pipe2(asks, O_CLOEXEC) != 0) return false;
    if (pipe2(answers, O_CLOEXEC | O_NONBLOCK) != 0) {
        close(asks[0]);
        close(asks[1]);
        return false;
    }
    pid_t process = fork();
    if (process == 0) serve(asks[0], answers[1], is_kept);
    close(asks[0]);
    close(answers[1]);
    reader.asks = asks[1];
    reader.hears = answers[0];
    reader.is_kept = is_kept && process > 0;
    if (process < 0) close_reader();
    return process > 0;
}

bool keep_reader(void) { return start(true) || cannot("a process that reads files"); }

void ask_reader(void) {
    reader.again = reader.is_reading;
    for (int tries = 0; tries < 2 && !reader.is_reading; tries++) {
        if (reader.asks < 0 && !start(false)) break;
        reader.is_reading = write(reader.asks, "", 1) == 1;
        if (!reader.is_reading) close_reader();
    }
    if (!reader.is_reading) say(FAILURE, "event=users-refused error=%d reason=nobody_reads_them\n", errno);
}

bool hear_reader(void) {
    users_report report;
    if (!reader.is_reading) return false;
    ssize_t got = read(reader.hears, &report, sizeof report);
    if (got < 0 && errno == EAGAIN) return true;
    reader.is_reading = false;
    bool is_whole = got == (ssize_t)sizeof report;
    if (is_whole) use_users(&report);
    else say(FAILURE, "event=users-refused error=0 reason=the_process_that_reads_them_has_ended\n");
    if (!is_whole || !reader.is_kept) close_reader();
    if (reader.again) ask_reader();
    return reader.is_reading;
}
