/* What a worker can't do, even if somebody else's code ran in it: the kernel refuses it. */
#include "server.h"

#include <fcntl.h>
#include <linux/audit.h>
#include <linux/bpf.h>
#include <linux/filter.h>
#include <linux/seccomp.h>
#include <stddef.h>
#include <sys/mman.h>
#include <sys/prctl.h>
#include <sys/socket.h>
#include <sys/syscall.h>

/* ---- Landlock -------------------------------------------------------------------------------- */

#ifndef SYS_landlock_create_ruleset
#define SYS_landlock_create_ruleset 444
#define SYS_landlock_add_rule 445
#define SYS_landlock_restrict_self 446
#endif

/* What is closed off (struct landlock_ruleset_attr, which grew with its versions). */
typedef struct {
    uint64_t files;   /* each way to use a file that isn't open yet */
    uint64_t network; /* from version 4 on: to bind and to connect TCP sockets */
    uint64_t scoped;  /* from version 6 on: other processes, by signals and abstract sockets */
} ruleset;

static size_t size_in(int version) {
    return version >= 6 ? sizeof(ruleset) : offsetof(ruleset, scoped) / (version >= 4 ? 1 : 2);
}

static ruleset rules_in(int version) {
    ruleset rules = {(1u << 13) - 1, 0, 0};
    if (version >= 2) rules.files |= 1u << 13;
    if (version >= 3) rules.files |= 1u << 14;
    if (version >= 5) rules.files |= 1u << 15;
    if (version >= 4) rules.network = 3;
    if (version >= 6) rules.scoped = 3;
    return rules;
}

enum { WRITE_FILE = 1u << 1, READ_FILE = 1u << 2, MAKE_FILE = 1u << 8 };

/* Lets the files in a folder be used. */
static bool allow_folder(int made, const char *folder, uint64_t ways) {
    enum { BENEATH = 1 };
    struct __attribute__((packed)) {
        uint64_t allowed;
        int32_t folder;
    } rule = {ways, open(folder, O_PATH | O_CLOEXEC)};
    if (rule.folder < 0) return false;
    bool added = syscall(SYS_landlock_add_rule, made, BENEATH, &rule, 0) == 0;
    close(rule.folder);
    return added;
}

static bool allow_folders(int made, const char *const *folders, size_t count) {
    for (size_t i = 0; i < count; i++) {
        if (!allow_folder(made, folders[i], READ_FILE)) return false;
    }
    return true;
}

int close_off_system(const char *const *folders, size_t count, const char *written) {
    enum { ASK_VERSION = 1 };
    int version = (int)syscall(SYS_landlock_create_ruleset, NULL, 0, ASK_VERSION);
    if (prctl(PR_SET_NO_NEW_PRIVS, 1, 0, 0, 0) != 0 || version < 1) return 0;
    ruleset rules = rules_in(version);
    int made = (int)syscall(SYS_landlock_create_ruleset, &rules, size_in(version), 0);
    if (made < 0) return 0;
    bool closed = allow_folders(made, folders, count) &&
                  (written == NULL || allow_folder(made, written, WRITE_FILE | MAKE_FILE)) &&
                  syscall(SYS_landlock_restrict_self, made, 0) == 0;
    close(made);
    return closed ? version : 0;
}

/* ---- seccomp --------------------------------------------------------------------------------- */

#if defined __x86_64__
#define MACHINE AUDIT_ARCH_X86_64
#elif defined __aarch64__
#define MACHINE AUDIT_ARCH_AARCH64
#endif

bool can_filter(void) {
#ifdef MACHINE
    uint32_t action = SECCOMP_RET_KILL_PROCESS;
    return syscall(SYS_seccomp, SECCOMP_GET_ACTION_AVAIL, 0, &action) == 0;
#else
    return false;
#endif
}

#ifdef MACHINE

/* Steps that read a call. What they compare is the number of the call, unless arguments were loaded. */
typedef struct {
    struct sock_filter steps[256];
    unsigned short count;
} program;

static void load(program *to, size_t offset) {
    to->steps[to->count++] =
        (struct sock_filter)BPF_STMT(BPF_LD | BPF_W | BPF_ABS, (uint32_t)offset);
}

/* Leaves out so many steps if what was loaded is a number, and so many if it is another. */
static void compare(program *to, int number, uint8_t if_equal, uint8_t otherwise) {
    to->steps[to->count++] = (struct sock_filter)BPF_JUMP(BPF_JMP | BPF_JEQ | BPF_K,
                                                          (uint32_t)number, if_equal, otherwise);
}

static void end_by(program *to, uint32_t action) {
    to->steps[to->count++] = (struct sock_filter)BPF_STMT(BPF_RET | BPF_K, action);
}

/* An argument, which is an integer, and what it has to be. */
typedef struct {
    size_t place;
    int number;
} argument;

/* Allows a call whose arguments are some numbers. (Both machines have the lower half of an argument
 * first.) */
static void allow_if(program *to, int call, const argument *arguments, uint8_t count) {
    compare(to, call, 0, (uint8_t)(2 * count + (count > 0 ? 2 : 1)));
    for (uint8_t i = 0; i < count; i++) {
        load(to, offsetof(struct seccomp_data, args) + 8 * arguments[i].place);
        compare(to, arguments[i].number, 0, (uint8_t)(2 * (count - 1 - i) + 1));
    }
    end_by(to, SECCOMP_RET_ALLOW);
    if (count > 0) load(to, offsetof(struct seccomp_data, nr));
}

static void allow(program *to, int call) { allow_if(to, call, NULL, 0); }

static void allow_one_if(program *to, int call, size_t place, int number) {
    allow_if(to, call, &(argument){place, number}, 1);
}

static void allow_option(program *to, int level, int name) {
    const argument option[] = {{1, level}, {2, name}};
    allow_if(to, SYS_setsockopt, option, 2);
}

static void allow_events(program *to) {
#ifdef SYS_epoll_wait
    allow(to, SYS_epoll_wait);
#endif
    allow(to, SYS_epoll_pwait);
    allow(to, SYS_epoll_ctl);
}

/* What a worker with connections does: it sends to no address, and opens no connection by that. */
static void allow_tcp(program *to) {
    allow(to, SYS_recvfrom);
    allow(to, SYS_accept4);
    allow_one_if(to, SYS_sendto, 5, 0);
    allow_one_if(to, SYS_shutdown, 1, SHUT_WR);
    allow_one_if(to, SYS_madvise, 2, MADV_DONTNEED);
    allow_option(to, SOL_SOCKET, SO_LINGER);
}

/* What a worker does that relays: it opens sockets for UDP, sets some options, and sends by each; and the library
 * takes memory, while it authenticates a request. */
static void allow_relays(program *to, const socket_option *set, size_t count) {
    enum { UDP = SOCK_DGRAM | SOCK_NONBLOCK | SOCK_CLOEXEC };
    const argument four[] = {{0, AF_INET}, {1, UDP}}, six[] = {{0, AF_INET6}, {1, UDP}};
    const argument memory[] = {{2, PROT_READ | PROT_WRITE}, {3, MAP_PRIVATE | MAP_ANONYMOUS}};
    static const int calls[] = {SYS_recvmmsg,  SYS_sendmmsg, SYS_sendto, SYS_bind, SYS_getsockname,
                                SYS_getrandom, SYS_brk,      SYS_munmap};
    for (size_t i = 0; i < sizeof calls / sizeof *calls; i++) allow(to, calls[i]);
    allow_if(to, SYS_socket, four, 2);
    allow_if(to, SYS_socket, six, 2);
    allow_if(to, SYS_mmap, memory, 2);
    allow_option(to, IPPROTO_IPV6, IPV6_V6ONLY);
    for (size_t i = 0; i < count; i++) allow_option(to, set[i].level, set[i].name);
}

/* What a worker does that has flows: it changes entries of a map of the kernel's, and connects a socket to learn by which
 * address it sends. */
static void allow_flows(program *to) {
    allow_one_if(to, SYS_bpf, 0, BPF_MAP_UPDATE_ELEM);
    allow_one_if(to, SYS_bpf, 0, BPF_MAP_DELETE_ELEM);
    allow(to, SYS_connect);
}

static void allow_both(program *to) {
    static const int calls[] = {
        SYS_clock_gettime, SYS_close,
#ifdef SYS_poll
        SYS_poll,
#endif
        SYS_ppoll, SYS_rt_sigreturn, SYS_restart_syscall, SYS_exit_group
    };
    for (size_t i = 0; i < sizeof calls / sizeof *calls; i++) allow(to, calls[i]);
}

/* Begins a filter: calls of another machine end the process. */
static void begin_filter(program *to) {
    *to = (program){.count = 0};
    load(to, offsetof(struct seccomp_data, arch));
    compare(to, (int)MACHINE, 1, 0);
    end_by(to, SECCOMP_RET_KILL_PROCESS);
    load(to, offsetof(struct seccomp_data, nr));
}

/* Ends a filter: other calls than those that are allowed end the process. */
static bool set_filter(program *made, unsigned long flags) {
    allow_both(made);
    end_by(made, SECCOMP_RET_KILL_PROCESS);
    struct sock_fprog filter = {made->count, made->steps};
    return prctl(PR_SET_NO_NEW_PRIVS, 1, 0, 0, 0) == 0 &&
           syscall(SYS_seccomp, SECCOMP_SET_MODE_FILTER, flags, &filter) == 0;
}

/* SPEC_ALLOW: the processor may speculate as before. Older systems would slow the process down,
 * against code in it that reads its memory; unless it relays it holds no secrets. */
bool filter_calls(int own, bool relays, const socket_option *set, size_t count, bool flows) {
    program made;
    begin_filter(&made);
    if (own < 0 || relays) allow_events(&made);
    if (relays) allow_relays(&made, set, count);
    if (flows) allow_flows(&made);
    if (own < 0) {
        allow_tcp(&made);
    } else if (!relays) {
        allow(&made, SYS_recvmmsg);
        allow_one_if(&made, SYS_sendmmsg, 0, own);
    }
    return set_filter(&made, relays ? 0 : SECCOMP_FILTER_FLAG_SPEC_ALLOW);
}

/* (/dev/log is connected anew if its service has begun anew) */
bool filter_log_calls(int log) {
    program made;
    begin_filter(&made);
    allow_one_if(&made, SYS_write, 0, log);
    allow_one_if(&made, SYS_connect, 0, log);
    return set_filter(&made, SECCOMP_FILTER_FLAG_SPEC_ALLOW);
}

#else

bool filter_calls(int own, bool relays, const socket_option *set, size_t count, bool flows) {
    (void)own;
    (void)relays;
    (void)set;
    (void)count;
    (void)flows;
    return false;
}

bool filter_log_calls(int log) {
    (void)log;
    return false;
}

#endif
