/* What own.c and libnice.c share: networks, and what an agent takes of the machine. Each includes it first.
 *
 * PROGRAM connect COUNT LEFT NETWORK RIGHT NETWORK [STUN PORT]
 *     connects two agents so many times, at two addresses in networks that two files stand for, with the
 *     address that a STUN server sees if one is named. For each it prints the time from the moment at which both
 *     know the other's candidates until both may send, in microseconds, and the datagrams sent meanwhile.
 * PROGRAM hold AGENTS SECONDS
 *     connects so many agents in pairs on the loopback, in one loop. It prints the octets that are resident for
 *     each, and then, twice after so many seconds, the microseconds of the processor that all took in a second. */
#ifndef MEASURED_H
#define MEASURED_H

#ifndef _GNU_SOURCE
#define _GNU_SOURCE
#endif
#include <fcntl.h>
#include <sched.h>
#include <stdbool.h>
#include <stdint.h>
#include <stdio.h>
#include <stdlib.h>
#include <string.h>
#include <sys/resource.h>
#include <time.h>
#include <unistd.h>

/* The addresses and networks of a pair of agents, and the STUN server that they ask. */
typedef struct {
    const char *address[2], *network[2];
    const char *stun_address, *stun_port; /* NULL: none */
    int counters[2];
} place;

static inline void fail(const char *why) {
    perror(why);
    exit(1);
}

static inline uint64_t nanoseconds(void) {
    struct timespec now;
    clock_gettime(CLOCK_MONOTONIC, &now);
    return (uint64_t)now.tv_sec * 1000000000 + (uint64_t)now.tv_nsec;
}

/* The microseconds of the processor that this process has taken. */
static inline uint64_t processor(void) {
    struct timespec taken;
    clock_gettime(CLOCK_PROCESS_CPUTIME_ID, &taken);
    return (uint64_t)taken.tv_sec * 1000000 + (uint64_t)taken.tv_nsec / 1000;
}

/* The octets that are resident. */
static inline uint64_t resident(void) {
    unsigned long pages = 0;
    FILE *from = fopen("/proc/self/statm", "r");
    if (from == NULL || fscanf(from, "%*u %lu", &pages) != 1) fail("statm");
    fclose(from);
    return (uint64_t)pages * (uint64_t)sysconf(_SC_PAGE_SIZE);
}

/* Sockets that are opened from now on are in this network. */
static inline void enter(const char *network) {
    int file = open(network, O_RDONLY | O_CLOEXEC);
    if (file < 0 || setns(file, CLONE_NEWNET) != 0) fail(network);
    close(file);
}

/* The datagrams that the network has sent. */
static inline unsigned long sent_by(int counters) {
    char text[8192];
    unsigned long sent = 0;
    ssize_t length = pread(counters, text, sizeof text - 1, 0);
    if (length <= 0) fail("the counters of a network");
    text[length] = 0;
    char *at = strstr(text, "\nUdp: ");
    at = at == NULL ? NULL : strstr(at + 1, "\nUdp: ");
    if (at == NULL || sscanf(at, "\nUdp: %*u %*u %*u %lu", &sent) != 1) fail("the counters of a network");
    return sent;
}

static inline unsigned long sent_in(const place *of) {
    return sent_by(of->counters[0]) + sent_by(of->counters[1]);
}

/* Reads the words after `connect`. */
static inline int read_place(int count, char **words, place *read) {
    memset(read, 0, sizeof *read);
    if (count != 7 && count != 9) exit(2);
    for (int side = 0; side < 2; side++) {
        read->address[side] = words[3 + 2 * side];
        read->network[side] = words[4 + 2 * side];
        enter(read->network[side]);
        read->counters[side] = open("/proc/thread-self/net/snmp", O_RDONLY | O_CLOEXEC);
    }
    if (count == 9) read->stun_address = words[7], read->stun_port = words[8];
    return atoi(words[2]);
}

/* Room for as many sockets as the system allows. */
static inline void make_room(void) {
    struct rlimit files;
    if (getrlimit(RLIMIT_NOFILE, &files) != 0) fail("files");
    files.rlim_cur = files.rlim_max;
    if (setrlimit(RLIMIT_NOFILE, &files) != 0) fail("files");
}

#endif
