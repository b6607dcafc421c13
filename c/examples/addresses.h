/* Addresses as sockets, as the library and as people have them, for the examples. */
#ifndef ADDRESSES_H
#define ADDRESSES_H

#include <arpa/inet.h>
#include <netdb.h>
#include <netinet/in.h>
#include <stdio.h>
#include <string.h>
#include <sys/socket.h>

#include "stun_types.h"

/* An address of a socket, IPv4 or IPv6, and how many bytes of it count. */
typedef struct {
    struct sockaddr_storage bytes;
    socklen_t length;
} socket_address;

/* Reads a decimal number from least to most: digits, and nothing before or after them. */
static inline bool read_number(const char *text, uint32_t least, uint32_t most, uint32_t *number) {
    uint64_t read = 0;
    if (*text == 0) return false;
    for (; *text != 0; text++) {
        if (*text < '0' || *text > '9') return false;
        read = read * 10 + (uint64_t)(*text - '0');
        if (read > most) return false;
    }
    if (read < least) return false;
    *number = (uint32_t)read;
    return true;
}

/* Reads an IPv6 address, which may name an interface: fe80::1%eth0. */
static inline bool read_six(const char *text, uint16_t port, int type, socket_address *read) {
    struct addrinfo hints, *found;
    struct sockaddr_in6 six;
    memset(&hints, 0, sizeof hints);
    hints.ai_family = AF_INET6;
    hints.ai_flags = AI_NUMERICHOST;
    hints.ai_socktype = type;
    if (getaddrinfo(text, NULL, &hints, &found) != 0) return false;
    memcpy(&six, found->ai_addr, sizeof six);
    freeaddrinfo(found);
    six.sin6_port = htons(port);
    memcpy(&read->bytes, &six, sizeof six);
    read->length = sizeof six;
    return true;
}

/* Reads an IP address and a port from 0 to 65535, both as numbers; nothing is asked of a name
 * server. */
static inline bool read_address(const char *address, const char *port, int type,
                                socket_address *read) {
    struct sockaddr_in four;
    uint32_t number;
    if (!read_number(port, 0, 65535, &number)) return false;
    memset(read, 0, sizeof *read);
    memset(&four, 0, sizeof four);
    if (inet_pton(AF_INET, address, &four.sin_addr) != 1) {
        return read_six(address, (uint16_t)number, type, read);
    }
    four.sin_family = AF_INET;
    four.sin_port = htons((uint16_t)number);
    memcpy(&read->bytes, &four, sizeof four);
    read->length = sizeof four;
    return true;
}

/* An address of a socket for the library. An IPv4 address that a socket for IPv6 shows as
 * ::ffff:192.0.2.1 becomes an IPv4 address again. False: it is neither IPv4 nor IPv6. */
static inline bool address_of(const struct sockaddr_storage *from, stun_types_address *to) {
    struct sockaddr_in four;
    struct sockaddr_in6 six;
    memset(to, 0, sizeof *to);
    if (from->ss_family == AF_INET) {
        memcpy(&four, from, sizeof four);
        memcpy(to->octets, &four.sin_addr, 4);
        to->port = ntohs(four.sin_port);
        to->family = 4;
        return true;
    }
    if (from->ss_family != AF_INET6) return false;
    memcpy(&six, from, sizeof six);
    bool mapped = IN6_IS_ADDR_V4MAPPED(&six.sin6_addr);
    memcpy(to->octets, six.sin6_addr.s6_addr + (mapped ? 12 : 0), mapped ? 4 : 16);
    to->port = ntohs(six.sin6_port);
    to->family = mapped ? 4 : 6;
    return true;
}

/* An address of the library for a socket of its family. */
static inline void socket_address_of(const stun_types_address *from, socket_address *to) {
    struct sockaddr_in four;
    struct sockaddr_in6 six;
    memset(&four, 0, sizeof four);
    memset(&six, 0, sizeof six);
    if (from->family == 4) {
        four.sin_family = AF_INET;
        four.sin_port = htons(from->port);
        memcpy(&four.sin_addr, from->octets, sizeof four.sin_addr);
        memcpy(&to->bytes, &four, sizeof four);
        to->length = sizeof four;
    } else {
        six.sin6_family = AF_INET6;
        six.sin6_port = htons(from->port);
        memcpy(&six.sin6_addr, from->octets, sizeof six.sin6_addr);
        memcpy(&to->bytes, &six, sizeof six);
        to->length = sizeof six;
    }
}

/* Whether an address has a port; 0 is none. */
static inline bool has_port(const socket_address *address) {
    stun_types_address read;
    return address_of(&address->bytes, &read) && read.port != 0;
}

/* Prints an address: 192.0.2.1:32853, or [2001:db8::1]:32853. */
static inline void print_address(FILE *to, const stun_types_address *address) {
    char text[INET6_ADDRSTRLEN] = "?";
    bool six = address->family == 6;
    inet_ntop(six ? AF_INET6 : AF_INET, address->octets, text, sizeof text);
    fprintf(to, six ? "[%s]:%u" : "%s:%u", text, (unsigned)address->port);
}

#endif
