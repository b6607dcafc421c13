/* The header of the PROXY protocol, versions 1 and 2, by which a proxy says whose connection it passes on:
 * https://www.haproxy.org/download/2.6/doc/proxy-protocol.txt */
#include "server.h"

enum {
    TEXT_MOST = 107, /* bytes of a header of version 1, with its line break */
    HEAD = 16,       /* of a header of version 2 before the addresses: a signature, */
    COMMAND_AT = 12, /* version and command, */
    FAMILY_AT = 13,  /* family and transport, */
    LENGTH_AT = 14   /* and the length of what follows, in two bytes */
};

static const char text_begins[] = "PROXY ";
static const uint8_t signature[COMMAND_AT] = "\r\n\r\n\0\r\nQUIT\n";

static const proxy_header unfinished = {.kind = PROXY_UNFINISHED}, wrong = {.kind = PROXY_WRONG};

/* An address; one of IPv4 that is mapped to IPv6 is one of IPv4 again. */
static bool set_address(stun_types_address *to, uint16_t family, const uint8_t *octets, uint32_t port) {
    stun_types_address given = {.family = family, .port = (uint16_t)port};
    socket_address at;
    memset(&at, 0, sizeof at);
    memcpy(given.octets, octets, family == 4 ? 4 : 16);
    socket_address_of(&given, &at);
    return address_of(&at.bytes, to);
}

/* The header of a client, if its two addresses are of one family. */
static proxy_header of_client(proxy_header header) {
    header.kind = header.client.family == header.server.family ? PROXY_CLIENT : PROXY_WRONG;
    return header;
}

/* ---- Version 1 ------------------------------------------------------------------------------- */

/* Reads an address and a port, each as the protocol writes it. */
static bool read_side(const char *address, const char *port, uint16_t family, stun_types_address *read) {
    uint8_t octets[16];
    uint32_t number;
    if (address == NULL || port == NULL || (port[0] == '0' && port[1] != 0)) return false;
    return inet_pton(family == 4 ? AF_INET : AF_INET6, address, octets) == 1 &&
           read_number(port, 0, UINT16_MAX, &number) && set_address(read, family, octets, number);
}

/* Reads a line after PROXY and a blank: TCP4 or TCP6, two addresses and two ports, with a blank between any
 * two; or UNKNOWN, and whatever follows it. */
static proxy_header read_fields(char *line, size_t length) {
    proxy_header read = {.kind = PROXY_OWN, .length = length};
    const char *family = strsep(&line, " ");
    if (strcmp(family, "UNKNOWN") == 0) return read;
    uint16_t of = strcmp(family, "TCP4") == 0 ? 4 : strcmp(family, "TCP6") == 0 ? 6 : 0;
    const char *client = strsep(&line, " "), *server = strsep(&line, " ");
    const char *client_port = strsep(&line, " "), *server_port = line;
    if (of == 0 || !read_side(client, client_port, of, &read.client)) return wrong;
    return read_side(server, server_port, of, &read.server) ? of_client(read) : wrong;
}

static proxy_header read_text(const uint8_t *bytes, size_t length) {
    char line[TEXT_MOST + 1];
    size_t begins = sizeof text_begins - 1, most = length < TEXT_MOST ? length : TEXT_MOST;
    const uint8_t *end = memchr(bytes, '\n', most);
    if (end == NULL) return length < TEXT_MOST ? unfinished : wrong;
    size_t whole = (size_t)(end - bytes) + 1;
    if (whole < begins + 2 || bytes[whole - 2] != '\r' || memchr(bytes, 0, whole) != NULL) return wrong;
    memcpy(line, bytes + begins, whole - begins - 2);
    line[whole - begins - 2] = 0;
    return read_fields(line, whole);
}

/* ---- Version 2 ------------------------------------------------------------------------------- */

static uint32_t read_two(const uint8_t *at) { return (uint32_t)at[0] << 8 | at[1]; }

/* Reads a header whose signature is right. What follows the addresses says more of the connection, and is
 * left out. */
static proxy_header read_binary(const uint8_t *bytes, size_t length) {
    enum { OF_PROXY = 0x20, OF_CLIENT = 0x21, UNSPECIFIED = 0x00, TCP4 = 0x11, TCP6 = 0x21 };
    if (length < HEAD) return unfinished;
    int family = bytes[FAMILY_AT], command = bytes[COMMAND_AT];
    proxy_header read = {.kind = PROXY_OWN, .length = HEAD + read_two(bytes + LENGTH_AT)};
    bool is_own = command == OF_PROXY || (command == OF_CLIENT && family == UNSPECIFIED);
    size_t octets = family == TCP4 ? 4 : 16;
    bool has_addresses = command == OF_CLIENT && (family == TCP4 || family == TCP6) &&
                         read.length >= HEAD + 2 * octets + 4;
    if (read.length > PROXY_MOST || (!is_own && !has_addresses)) return wrong;
    if (length < read.length || is_own) return length < read.length ? unfinished : read;
    const uint8_t *ports = bytes + HEAD + 2 * octets;
    uint16_t of = family == TCP4 ? 4 : 6;
    (void)set_address(&read.client, of, bytes + HEAD, read_two(ports));
    (void)set_address(&read.server, of, bytes + HEAD + octets, read_two(ports + 2));
    return of_client(read);
}

/* ---- Either ---------------------------------------------------------------------------------- */

/* Whether bytes are, as far as they go, the beginning of a header. */
static bool begins_with(const uint8_t *bytes, size_t length, const void *beginning, size_t most) {
    return memcmp(bytes, beginning, length < most ? length : most) == 0;
}

proxy_header read_proxy_header(const uint8_t *bytes, size_t length) {
    if (begins_with(bytes, length, signature, sizeof signature)) return read_binary(bytes, length);
    if (begins_with(bytes, length, text_begins, sizeof text_begins - 1)) return read_text(bytes, length);
    return wrong;
}
