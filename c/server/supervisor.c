/* The process over the workers: it starts them, and replaces one that dies or hangs. It receives
 * nothing from clients. */
#include "server.h"

#include <libgen.h>
#include <sys/mman.h>
#include <sys/prctl.h>
#include <sys/wait.h>

enum {
    SECOND = 1000,
    MOMENT = 20,        /* how often those are looked at that are to begin */
    RESTART_TIME = 100, /* from the end of a worker to its next start; it doubles with each death */
    ENDING_TIME = 3000, /* for a worker that is to end, all in milliseconds */
    LEAST_DRAIN = 2000, /* milliseconds; by then no request from before is under way */
    MOST_DEATHS = 8,    /* of a worker in a row, each within a second or before it served */
    MOST_MISSED = 2     /* looks, one a second, at which a worker that lives may not have turned */
};

enum { FOR_UDP, FOR_TCP, FOR_REPORTS, FOR_LOG };

typedef struct {
    int kind;
    const endpoint *from; /* over UDP; otherwise NULL */
    pid_t process;        /* 0: none; -1: it could not be started */
    uint64_t started, ended;
    uint64_t born;   /* the beats when it started */
    uint64_t beats;  /* as they were seen last */
    uint32_t missed; /* how often in turn they were the same, looked at once a second */
    uint32_t deaths; /* in a row */
    bool hung;
    bool ends; /* it was asked to, and another one is started */
} worker;

/* Deaths of one kind, of which one line a second is printed at most. */
typedef struct {
    const char *event;
    uint64_t all, printed_at;
    unsigned unprinted;
    pid_t process; /* the last, and how it ended */
    int status;
} death_list;

static struct {
    worker workers[MOST_WORKERS + 3];
    size_t count;
    tally *tallies; /* one for each worker, and the supervisor's own */
    const endpoints *endpoints;
    rate_table *rates;
    int reports; /* -1: there are none */
    uint64_t began;
    death_list died, hung;
    uint64_t drained; /* since when it is drained; 0: it isn't */
    bool is_reading, is_due; /* files are read, and counts are printed after that */
} group = {.died = {.event = "worker-died"}, .hung = {.event = "worker-hung"}};

volatile sig_atomic_t ending;

uint64_t nanoseconds(void) {
    struct timespec now = {0, 0};
    clock_gettime(CLOCK_MONOTONIC, &now);
    return (uint64_t)now.tv_sec * 1000000000 + (uint64_t)now.tv_nsec;
}

uint64_t milliseconds(void) { return nanoseconds() / 1000000; }

void *shared_memory(size_t size) {
    void *at = mmap(NULL, size, PROT_READ | PROT_WRITE, MAP_SHARED | MAP_ANONYMOUS, -1, 0);
    if (at != MAP_FAILED) return at;
    cannot("no memory");
    return NULL;
}

sigset_t awaited_signals(void) {
    static const int numbers[] = {SIGTERM, SIGINT, SIGCHLD, SIGHUP, SIGUSR1, SIGUSR2};
    sigset_t signals;
    sigemptyset(&signals);
    for (size_t i = 0; i < sizeof numbers / sizeof *numbers; i++) sigaddset(&signals, numbers[i]);
    return signals;
}

/* ---- A worker -------------------------------------------------------------------------------- */

static void end_soon(int number) {
    (void)number;
    ending = 1;
}

/* A worker heeds SIGTERM alone; the other signals are the supervisor's. */
static void heed_signals(void) {
    static const int ignored[] = {SIGINT, SIGHUP, SIGUSR1, SIGUSR2, SIGPIPE};
    sigset_t signals = awaited_signals();
    struct sigaction action;
    memset(&action, 0, sizeof action);
    action.sa_handler = end_soon;
    sigaction(SIGTERM, &action, NULL);
    action.sa_handler = SIG_IGN;
    for (size_t i = 0; i < sizeof ignored / sizeof *ignored; i++) {
        sigaction(ignored[i], &action, NULL);
    }
    sigprocmask(SIG_UNBLOCK, &signals, NULL);
}

/* The files that the supervisor, or a process that it starts, reads again at SIGHUP. */
enum { MOST_FILES = 3 };
static size_t list_files(const char *files[MOST_FILES]) {
    const char *all[MOST_FILES] = {options.file, NULL, NULL};
    size_t count = 0;
    if (setting(TURN) && !is_reader_kept()) {
        all[1] = file_setting(USERS);
        all[2] = file_setting(SECRET);
    }
    for (size_t i = 0; i < MOST_FILES; i++) {
        if (all[i] != NULL) files[count++] = all[i];
    }
    return count;
}

/* Closes the sockets that a worker doesn't use: it has one over UDP, all over TCP, or that for
 * reports. */
static void close_others(const worker *as) {
    const endpoint *end = group.endpoints->all + group.endpoints->count;
    close_notify();
    close_reader();
    for (const endpoint *at = group.endpoints->all; at < end; at++) {
        bool is_used = as->kind == FOR_TCP ? at->stream : at == as->from;
        if (!is_used) close(at->socket);
    }
    if (as->kind != FOR_REPORTS && group.reports >= 0) close(group.reports);
    if (as->kind != FOR_LOG && has_log()) close(log_file());
}

/* Whether a worker serves clients. */
static bool has_clients(const worker *of) { return of->kind == FOR_UDP || of->kind == FOR_TCP; }

/* What a worker does before its system calls are filtered. */
static bool begin(const worker *as, tally *mine) {
    if (as->kind == FOR_LOG) begin_log(mine);
    if (has_clients(as)) begin_logging((size_t)(as - group.workers), mine);
    if (as->kind == FOR_UDP && !begin_flows((size_t)(as - group.workers), mine)) return false;
    if (as->kind == FOR_UDP) return begin_udp(as->from, group.rates, mine);
    return as->kind != FOR_TCP || begin_tcp(group.endpoints, mine);
}

static void serve(const worker *as, tally *mine) {
    if (as->kind == FOR_UDP) serve_udp();
    if (as->kind == FOR_TCP) serve_tcp();
    if (has_clients(as) && is_logging()) log_last_relays();
    if (as->kind == FOR_LOG) serve_log();
    if (as->kind == FOR_REPORTS) {
        serve_reports(group.reports, group.tallies, group.count + 1, group.began, mine);
    }
}

/* Has the system filter the calls of a worker, if it can. */
static bool filter(const worker *as) {
    int own = as->from != NULL ? as->from->socket : -1;
    if (!can_filter()) return true;
    if (as->kind == FOR_LOG) return filter_log_calls(log_file());
    socket_option set[MOST_OPTIONS];
    return filter_calls(own, setting(TURN) && has_clients(as), set, relay_options(set), has_flows());
}

/* Runs as a worker, which ends with its supervisor. It prints nothing once it serves: what is then
 * open under the standard numbers is a client's. */
static void work(const worker *as, tally *mine, pid_t supervisor) {
    prctl(PR_SET_PDEATHSIG, SIGKILL);
    if (getppid() != supervisor) _exit(1);
    heed_signals();
    close_others(as);
    protect_settings();
    protect_users(has_clients(as));
    protect_orders();
    protect_peers();
    if (as->kind != FOR_UDP) leave_kernel();
    if (!begin(as, mine)) _exit(1);
    if (setting(SANDBOX)) close_off_system(NULL, 0, NULL);
    close(STDIN_FILENO);
    close(STDOUT_FILENO);
    if (setting(SANDBOX) && !filter(as)) {
        cannot("seccomp");
        _exit(1);
    }
    close_lines();
    serve(as, mine);
    _exit(0);
}

static uint64_t beats_of(const worker *of) {
    return atomic_load_explicit(&group.tallies[of - group.workers].beats, memory_order_relaxed);
}

/* Starts a worker. If the system can't, that is an event once, however often it is tried again. */
static void start(worker *started) {
    bool has_failed = started->process < 0;
    pid_t supervisor = getpid();
    tally *mine = &group.tallies[started - group.workers];
    started->started = milliseconds();
    started->born = started->beats = beats_of(started);
    started->missed = 0;
    started->hung = started->ends = false;
    started->process = fork();
    if (started->process == 0) work(started, mine, supervisor);
    if (started->process < 0 && !has_failed) {
        say(FAILURE, "event=worker-not-started error=%d\n", errno);
    }
}

/* ---- Looking after them ---------------------------------------------------------------------- */

/* The memory that the processes have for themselves. */
static uint64_t memory_of_all(void) {
    uint64_t sum = memory_of(getpid());
    for (const worker *at = group.workers; at < group.workers + group.count; at++) {
        if (at->process > 0) sum += memory_of(at->process);
    }
    return sum;
}

static uint64_t allocations_left(void) {
    return sum_of_gauges(group.tallies, group.count + 1, ALLOCATIONS_NOW);
}

/* Counts what the supervisor alone knows. */
static void count_own(void) {
    tally *own = &group.tallies[group.count];
    set_count(own, UDP_DROPPED, dropped_by_all(group.endpoints));
    set_count(own, WORKERS_DIED, group.died.all);
    set_count(own, WORKERS_HUNG, group.hung.all);
    set_count(own, LINES_LOST, lost_lines());
    set_gauge(own, USERS_KNOWN, count_users());
    set_gauge(own, MEMORY, memory_of_all());
    set_gauge(own, DRAINING, group.drained > 0);
}

/* Whether a worker has nothing to do, as that of the log while there is none. */
static bool is_idle(const worker *of) { return of->kind == FOR_LOG && !has_log(); }

/* Starts those that aren't there. Returns whether some still are not. */
static bool start_missing(void) {
    bool missing = false;
    for (worker *at = group.workers; at < group.workers + group.count; at++) {
        if (is_idle(at)) continue;
        uint64_t pause = (uint64_t)RESTART_TIME << (at->deaths > 0 ? at->deaths - 1 : 0);
        uint64_t since = at->process < 0 ? at->started : at->ended;
        if (at->process < 1 && milliseconds() - since >= pause) start(at);
        missing |= at->process < 1;
    }
    return missing;
}

/* Prints the deaths that are to be printed, unless their last line is newer than a second. */
static void print_deaths(death_list *of) {
    uint64_t now = milliseconds();
    int number = WIFSIGNALED(of->status) ? WTERMSIG(of->status) : WEXITSTATUS(of->status);
    if (of->unprinted == 0 || (of->printed_at > 0 && now - of->printed_at < SECOND)) return;
    say(FAILURE, "event=%s process=%ld %s=%d deaths=%u\n", of->event, (long)of->process,
        WIFSIGNALED(of->status) ? "signal" : "status", number, of->unprinted);
    of->unprinted = 0;
    of->printed_at = now;
}

static void note_death(worker *dead, int status) {
    death_list *kind = dead->hung ? &group.hung : &group.died;
    uint64_t now = milliseconds();
    if (dead->kind == FOR_UDP) end_life((size_t)(dead - group.workers), &group.tallies[dead - group.workers]);
    if (dead->ends) {
        clear_gauges(&group.tallies[dead - group.workers]);
        dead->process = 0;
        dead->ended = dead->deaths = 0;
        return;
    }
    bool early = now - dead->started < SECOND || beats_of(dead) == dead->born;
    dead->deaths = early && !dead->hung ? dead->deaths + 1 : 0;
    kind->all++;
    kind->unprinted++;
    kind->process = dead->process;
    kind->status = status;
    clear_gauges(&group.tallies[dead - group.workers]);
    dead->process = 0;
    dead->ended = now;
}

/* Notes which have died. Their sockets stay open, so that no datagram in these is lost. */
static void note_dead(void) {
    pid_t dead;
    int status;
    while ((dead = waitpid(-1, &status, WNOHANG)) > 0) {
        for (worker *at = group.workers; at < group.workers + group.count; at++) {
            if (at->process == dead) note_death(at, status);
        }
        count_own();
    }
    print_deaths(&group.died);
    print_deaths(&group.hung);
}

/* Whether a worker has died so often in a row that the server gives up. */
static bool is_hopeless(void) {
    for (worker *at = group.workers; at < group.workers + group.count; at++) {
        if (at->deaths < MOST_DEATHS) continue;
        group.died.printed_at = 0;
        print_deaths(&group.died);
        say(FAILURE, "event=gave-up deaths=%u\n", (unsigned)at->deaths);
        return true;
    }
    return false;
}

/* Ends those whose loops don't turn. The time is counted in looks of the supervisor's own: if the
 * whole machine pauses for a while, nobody is missed. */
static void end_hung(void) {
    for (worker *at = group.workers; at < group.workers + group.count; at++) {
        uint64_t beats = beats_of(at);
        if (at->process < 1) continue;
        at->missed = beats == at->beats ? at->missed + 1 : 0;
        at->beats = beats;
        if (at->missed < setting(HANG_TIMEOUT)) continue;
        at->hung = true;
        kill(at->process, SIGKILL);
    }
}

/* Whether each worker has begun to serve, and turns. */
static bool all_serve(void) {
    for (worker *at = group.workers; at < group.workers + group.count; at++) {
        if (is_idle(at)) continue;
        if (at->process < 1 || beats_of(at) == at->born || at->missed >= MOST_MISSED) return false;
    }
    return true;
}

/* Whether some workers are left, the log's or others; those that have ended are noted. */
static bool are_left(bool log) {
    for (worker *at = group.workers; at < group.workers + group.count; at++) {
        if ((at->kind == FOR_LOG) != log) continue;
        if (at->process > 0 && waitpid(at->process, NULL, WNOHANG) != 0) at->process = 0;
        if (at->process > 0) return true;
    }
    return false;
}

static void signal_all(int number, bool log) {
    for (worker *at = group.workers; at < group.workers + group.count; at++) {
        if (at->process > 0 && (at->kind == FOR_LOG) == log) kill(at->process, number);
    }
}

/* Ends the worker of the log, or all others, the hard way in the end. */
static void end_workers(bool log) {
    const struct timespec pause = {0, 20000000};
    uint64_t end = milliseconds() + ENDING_TIME;
    signal_all(SIGTERM, log);
    while (are_left(log)) {
        if (milliseconds() >= end) signal_all(SIGKILL, log);
        nanosleep(&pause, NULL);
    }
}

/* ---- The run --------------------------------------------------------------------------------- */

static size_t count_workers(void) {
    size_t idle = 0;
    for (worker *at = group.workers; at < group.workers + group.count; at++) idle += is_idle(at);
    return group.count - idle;
}

static void print_start(int landlock) {
    char version[16] = "none";
    if (landlock > 0) snprintf(version, sizeof version, "%d", landlock);
    say(NEWS, "event=started process=%ld workers=%zu uid=%ld seccomp=%s landlock=%s\n",
        (long)getpid(), count_workers(), (long)getuid(),
        setting(SANDBOX) && can_filter() ? "on" : "none", version);
    if (getuid() == 0) say(WARNING, "event=warning reason=runs-as-root\n");
}

static void print_now(void) {
    count_own();
    print_counts(group.tallies, group.count + 1, (milliseconds() - group.began) / SECOND);
}

/* Prints the counts that a signal asks for: after SIGHUP once the files are read. */
static void print_due(int number) {
    group.is_reading = hear_reader();
    group.is_due |= number == SIGHUP;
    if (number == SIGUSR1 || (group.is_due && !group.is_reading)) print_now();
    group.is_due &= group.is_reading;
}

/* ---- Draining -------------------------------------------------------------------------------- */

static void begin_drain(void) {
    if (group.drained > 0) return;
    group.drained = milliseconds();
    if (setting(TURN)) drain();
    say(NEWS, "event=draining allocations=%llu\n", (unsigned long long)allocations_left());
    notify("STATUS=Draining");
    count_own();
}

/* Whether it ends, since the last allocation has, or the time is over. */
static bool is_drained(void) {
    uint64_t took = milliseconds() - group.drained, left = allocations_left();
    uint64_t most = (uint64_t)setting(DRAIN_SECONDS) * SECOND;
    bool is_over = group.drained > 0 && took >= LEAST_DRAIN && (left == 0 || (most > 0 && took >= most));
    if (is_over) say(NEWS, "event=drained allocations=%llu\n", (unsigned long long)left);
    return is_over;
}

/* ---- What is read again ---------------------------------------------------------------------- */

/* Has the process of the log end, which writes what waits, and another one begin. */
static void restart_log(void) {
    for (worker *at = group.workers; at < group.workers + group.count; at++) {
        if (at->kind != FOR_LOG || at->process < 1) continue;
        at->ends = true;
        kill(at->process, SIGTERM);
    }
}

static void read_again(void) {
    if (read_settings_again()) {
        prepare_listeners(group.endpoints);
        if (setting(TURN)) renew_turn();
    }
    if (setting(TURN) && renew_log()) restart_log();
    if (setting(TURN)) ask_reader();
}

static void plan(int kind, const endpoint *from) {
    group.workers[group.count].kind = kind;
    group.workers[group.count++].from = from;
}

/* Plans a worker for each socket over UDP, as many as it is to have, one for all over TCP, one for
 * reports, and one for the log. */
static bool plan_workers(void) {
    const endpoint *end = group.endpoints->all + group.endpoints->count;
    bool tcp = false;
    for (const endpoint *at = group.endpoints->all; at < end; at++) {
        uint32_t workers = at->stream ? 0 : at->workers;
        for (uint32_t i = 0; i < workers; i++) plan(FOR_UDP, at);
        tcp |= at->stream;
    }
    if (tcp) plan(FOR_TCP, NULL);
    if (setting(TURN) && !make_log(group.count)) return false;
    if (group.reports >= 0) plan(FOR_REPORTS, NULL);
    if (setting(TURN)) plan(FOR_LOG, NULL);
    group.tallies = shared_memory(sizeof *group.tallies * (group.count + 1));
    return group.tallies != NULL;
}

/* Looks after the workers until a signal ends the server. False: it gave up. */
static bool look_after(void) {
    const struct timespec second = {1, 0}, moment = {0, MOMENT * 1000000};
    sigset_t signals = awaited_signals();
    uint64_t looked = milliseconds();
    bool is_ready = false;
    for (;;) {
        bool waits = start_missing() || !is_ready || group.is_reading;
        int number = sigtimedwait(&signals, NULL, waits ? &moment : &second);
        if (number == SIGTERM || number == SIGINT) return true;
        if (number == SIGUSR2) begin_drain();
        if (number == SIGHUP) read_again();
        print_due(number);
        note_dead();
        if (is_hopeless()) return false;
        if (is_drained()) return true;
        if (!is_ready && (is_ready = all_serve())) notify("READY=1");
        if (milliseconds() - looked < SECOND) continue;
        looked = milliseconds();
        count_own();
        end_hung();
        if (is_ready && all_serve()) notify_alive();
    }
}

/* Closes off the system, but for the folders of the files that are read again, and for what says how much
 * memory a process has. Returns Landlock's version, or 0. */
static int close_off(void) {
    static char paths[MOST_FILES][4096];
    const char *files[MOST_FILES], *folders[MOST_FILES + 1];
    size_t count = list_files(files);
    if (!setting(SANDBOX)) return 0;
    for (size_t i = 0; i < count; i++) {
        if (strlen(files[i]) < sizeof paths[i]) memcpy(paths[i], files[i], strlen(files[i]));
        folders[i] = dirname(paths[i]);
    }
    if (memory_of(getpid()) > 0) folders[count++] = "/proc";
    return close_off_system(folders, count, log_folder());
}

bool supervise(const endpoints *from, rate_table *rates, int reports) {
    group.endpoints = from;
    group.rates = rates;
    group.reports = reports;
    group.began = milliseconds();
    if (!plan_workers()) return false;
    int landlock = close_off();
    if (setting(SANDBOX) == 2 && (landlock == 0 || !can_filter())) {
        fprintf(stderr, "stun-server: sandbox=2: the system has no seccomp or no Landlock\n");
        return false;
    }
    print_endpoints(from);
    (void)start_missing();
    print_start(landlock);
    count_own();
    bool ended = look_after();
    notify("STOPPING=1");
    end_workers(false);
    end_workers(true); /* (it writes what the others have logged in the end) */
    end_kernel(&group.tallies[group.count]);
    if (setting(LOG_LEVEL) >= NEWS) print_now();
    return ended;
}
