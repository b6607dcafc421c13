/* Sockets for datagrams, the clock, random bytes and errors, for the examples. */
#ifndef DATAGRAMS_H
#define DATAGRAMS_H

#include <poll.h>
#include <stdlib.h>
#include <sys/random.h>
#include <time.h>
#include <unistd.h>

#include "addresses.h"

/* The moment of a monotonic clock. */
static inline uint64_t nanoseconds(void) {
    struct timespec now;
    clock_gettime(CLOCK_MONOTONIC, &now);
    return (uint64_t)now.tv_sec * 1000000000 + (uint64_t)now.tv_nsec;
}

/* How long poll has to wait for a moment: milliseconds, at most a minute. */
static inline int milliseconds_until(uint64_t moment) {
    const uint64_t now = nanoseconds(), minute = 60000;
    uint64_t left = moment > now ? (moment - now) / 1000000 + 1 : 0;
    return (int)(left < minute ? left : minute);
}

/* Draws bytes that nobody can guess; false if there are none. */
static inline bool draw(void *bytes, size_t length) {
    return getrandom(bytes, length, 0) == (ssize_t)length;
}

/* Ends the program if something doesn't hold, for the reason that errno has. */
static inline void need(bool holds, const char *what) {
    if (holds) return;
    perror(what);
    exit(2);
}

/* The same with an answer of the library. */
static inline void need_ok(stun_types_answer answer) {
    if (answer.code == STUN_TYPES_OK) return;
    fprintf(stderr, "%s\n", stun_types_status_text(answer.code));
    exit(2);
}

/* Opens a socket at an address, and writes where it is; without one the family becomes 0. */
static inline struct pollfd open_socket(stun_types_address *address) {
    socket_address at;
    socket_address_of(address, &at);
    struct pollfd opened = {socket(at.bytes.ss_family, SOCK_DGRAM, 0), POLLIN, 0};
    if (bind(opened.fd, (struct sockaddr *)&at.bytes, at.length) != 0 ||
        getsockname(opened.fd, (struct sockaddr *)&at.bytes, &at.length) != 0 ||
        !address_of(&at.bytes, address)) {
        close(opened.fd);
        address->family = 0;
    }
    return opened;
}

/* Sends a datagram. One that can't be sent counts as lost. */
static inline void send_datagram(int by, const stun_types_address *to, const uint8_t *bytes, size_t length) {
    socket_address at;
    socket_address_of(to, &at);
    (void)sendto(by, bytes, length, 0, (struct sockaddr *)&at.bytes, at.length);
}

/* Receives a datagram, if one has come. */
static inline bool receive_datagram(int by, stun_types_address *from, uint8_t *bytes, size_t size,
                                    size_t *length) {
    socket_address at;
    at.length = sizeof at.bytes;
    ssize_t got = recvfrom(by, bytes, size, MSG_DONTWAIT, (struct sockaddr *)&at.bytes, &at.length);
    *length = (size_t)got;
    return got >= 0 && address_of(&at.bytes, from);
}

#endif
