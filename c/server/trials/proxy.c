/* The headers of the PROXY protocol that the server reads, and those that it refuses. c/server/run builds this
 * with c/server/proxy.c. Prints each case that is read otherwise; the last line is 'N cases, M wrong'. */
#include "../server.h"

#define V2 "\r\n\r\n\0\r\nQUIT\n"
#define FOUR "\xC0\0\2\1\xC6\x33\x64\7\x30\x39\x14\xE5"
#define SIX "\x20\1\r\xB8\0\0\0\0\0\0\0\0\0\0\0\1\x20\1\r\xB8\0\0\0\0\0\0\0\0\0\0\0\2\x30\x39\x14\xE5"
#define MAPPED "\0\0\0\0\0\0\0\0\0\0\xFF\xFF\xC0\0\2\1\0\0\0\0\0\0\0\0\0\0\xFF\xFF\xC6\x33\x64\7\x30\x39\x14\xE5"
#define HALF_MAPPED "\0\0\0\0\0\0\0\0\0\0\xFF\xFF\xC0\0\2\1\x20\1\r\xB8\0\0\0\0\0\0\0\0\0\0\0\2\x30\x39\x14\xE5"
#define IN_FOUR "192.0.2.1:12345 198.51.100.7:5349"
#define IN_SIX "[2001:db8::1]:12345 [2001:db8::2]:5349"

#define CASE(name, bytes, kind, ends) {name, bytes, sizeof bytes - 1, kind, ends}
static const struct {
    const char *name, *bytes;
    size_t length;
    proxy_kind kind;
    const char *ends; /* the addresses of a client's header */
} cases[] = {
    /* version 1: lines of the specification, section 2.1, and what breaks them */
    CASE("IPv4", "PROXY TCP4 192.0.2.1 198.51.100.7 12345 5349\r\n", PROXY_CLIENT, IN_FOUR),
    CASE("IPv6", "PROXY TCP6 2001:db8::1 2001:db8::2 12345 5349\r\n", PROXY_CLIENT, IN_SIX),
    CASE("the longest of IPv4", "PROXY TCP4 255.255.255.255 255.255.255.255 65535 65535\r\n", PROXY_CLIENT,
         "255.255.255.255:65535 255.255.255.255:65535"),
    CASE("the longest of IPv6",
         "PROXY TCP6 ffff:ffff:ffff:ffff:ffff:ffff:ffff:ffff ffff:ffff:ffff:ffff:ffff:ffff:ffff:ffff 65535 65535\r\n",
         PROXY_CLIENT,
         "[ffff:ffff:ffff:ffff:ffff:ffff:ffff:ffff]:65535 [ffff:ffff:ffff:ffff:ffff:ffff:ffff:ffff]:65535"),
    CASE("port 0", "PROXY TCP4 192.0.2.1 198.51.100.7 0 0\r\n", PROXY_CLIENT, "192.0.2.1:0 198.51.100.7:0"),
    CASE("mapped", "PROXY TCP6 ::ffff:192.0.2.1 ::ffff:198.51.100.7 12345 5349\r\n", PROXY_CLIENT, IN_FOUR),
    CASE("half mapped", "PROXY TCP6 ::ffff:192.0.2.1 2001:db8::2 12345 5349\r\n", PROXY_WRONG, NULL),
    CASE("unknown", "PROXY UNKNOWN\r\n", PROXY_OWN, NULL),
    CASE("unknown, the longest line",
         "PROXY UNKNOWN ffff:ffff:ffff:ffff:ffff:ffff:ffff:ffff ffff:ffff:ffff:ffff:ffff:ffff:ffff:ffff 65535 65535\r\n",
         PROXY_OWN, NULL),
    CASE("unknown, a byte too many",
         "PROXY UNKNOWN ffff:ffff:ffff:ffff:ffff:ffff:ffff:ffff ffff:ffff:ffff:ffff:ffff:ffff:ffff:ffff 65535 655355\r\n",
         PROXY_WRONG, NULL),
    CASE("no end in 107 bytes",
         "PROXY TCP4 192.0.2.1 198.51.100.7 12345                                                                    ",
         PROXY_WRONG, NULL),
    CASE("another word", "PROXX TCP4 192.0.2.1 198.51.100.7 12345 5349\r\n", PROXY_WRONG, NULL),
    CASE("small letters", "proxy TCP4 192.0.2.1 198.51.100.7 12345 5349\r\n", PROXY_WRONG, NULL),
    CASE("no family", "PROXY \r\n", PROXY_WRONG, NULL),
    CASE("another family", "PROXY UDP4 192.0.2.1 198.51.100.7 12345 5349\r\n", PROXY_WRONG, NULL),
    CASE("an address of the other family", "PROXY TCP4 2001:db8::1 198.51.100.7 12345 5349\r\n", PROXY_WRONG, NULL),
    CASE("addresses of the other family", "PROXY TCP6 192.0.2.1 198.51.100.7 12345 5349\r\n", PROXY_WRONG, NULL),
    CASE("a name", "PROXY TCP4 localhost 198.51.100.7 12345 5349\r\n", PROXY_WRONG, NULL),
    CASE("an octet too large", "PROXY TCP4 192.0.2.256 198.51.100.7 12345 5349\r\n", PROXY_WRONG, NULL),
    CASE("three octets", "PROXY TCP4 192.0.2 198.51.100.7 12345 5349\r\n", PROXY_WRONG, NULL),
    CASE("a port too large", "PROXY TCP4 192.0.2.1 198.51.100.7 65536 5349\r\n", PROXY_WRONG, NULL),
    CASE("a port with a zero", "PROXY TCP4 192.0.2.1 198.51.100.7 012345 5349\r\n", PROXY_WRONG, NULL),
    CASE("a port with a sign", "PROXY TCP4 192.0.2.1 198.51.100.7 +1234 5349\r\n", PROXY_WRONG, NULL),
    CASE("no port", "PROXY TCP4 192.0.2.1 198.51.100.7 12345\r\n", PROXY_WRONG, NULL),
    CASE("an empty port", "PROXY TCP4 192.0.2.1 198.51.100.7 12345 \r\n", PROXY_WRONG, NULL),
    CASE("a port too many", "PROXY TCP4 192.0.2.1 198.51.100.7 12345 5349 1\r\n", PROXY_WRONG, NULL),
    CASE("two blanks", "PROXY TCP4  192.0.2.1 198.51.100.7 12345 5349\r\n", PROXY_WRONG, NULL),
    CASE("a tabulator", "PROXY TCP4 192.0.2.1\t198.51.100.7 12345 5349\r\n", PROXY_WRONG, NULL),
    CASE("no carriage return", "PROXY TCP4 192.0.2.1 198.51.100.7 12345 5349\n", PROXY_WRONG, NULL),
    CASE("a zero byte", "PROXY TCP4 192.0.2.1 198.51.100.7 12345 5349\0\r\n", PROXY_WRONG, NULL),
    CASE("unknown, a zero byte", "PROXY UNKNOWN\0\r\n", PROXY_WRONG, NULL),
    CASE("a word that begins with unknown", "PROXY UNKNOWNS\r\n", PROXY_WRONG, NULL),
    /* version 2: section 2.2 */
    CASE("2, IPv4", V2 "\x21\x11\0\x0C" FOUR, PROXY_CLIENT, IN_FOUR),
    CASE("2, IPv6", V2 "\x21\x21\0\x24" SIX, PROXY_CLIENT, IN_SIX),
    CASE("2, mapped", V2 "\x21\x21\0\x24" MAPPED, PROXY_CLIENT, IN_FOUR),
    CASE("2, half mapped", V2 "\x21\x21\0\x24" HALF_MAPPED, PROXY_WRONG, NULL),
    CASE("2, more after the addresses", V2 "\x21\x11\0\x10" FOUR "\4\0\1x", PROXY_CLIENT, IN_FOUR),
    CASE("2, local", V2 "\x20\0\0\0", PROXY_OWN, NULL),
    CASE("2, local with addresses", V2 "\x20\x11\0\x0C" FOUR, PROXY_OWN, NULL),
    CASE("2, local of a family that nobody knows", V2 "\x20\xFF\0\1x", PROXY_OWN, NULL),
    CASE("2, unspecified", V2 "\x21\0\0\0", PROXY_OWN, NULL),
    CASE("2, unspecified and more", V2 "\x21\0\0\3abc", PROXY_OWN, NULL),
    CASE("2, addresses too short", V2 "\x21\x11\0\x0B\xC0\0\2\1\xC6\x33\x64\7\x30\x39\x14", PROXY_WRONG, NULL),
    CASE("2, no addresses", V2 "\x21\x11\0\0", PROXY_WRONG, NULL),
    CASE("2, IPv6 with addresses of IPv4", V2 "\x21\x21\0\x0C" FOUR, PROXY_WRONG, NULL),
    CASE("2, IPv6 a byte too short", V2 "\x21\x21\0\x23" SIX, PROXY_WRONG, NULL),
    CASE("2, UDP", V2 "\x21\x12\0\x0C" FOUR, PROXY_WRONG, NULL),
    CASE("2, UDP over IPv6", V2 "\x21\x22\0\x24" SIX, PROXY_WRONG, NULL),
    CASE("2, UNIX", V2 "\x21\x31\0\xD8", PROXY_WRONG, NULL),
    CASE("2, UNIX datagrams", V2 "\x21\x32\0\xD8", PROXY_WRONG, NULL),
    CASE("2, a transport that nobody knows", V2 "\x21\x13\0\x0C" FOUR, PROXY_WRONG, NULL),
    CASE("2, another version", V2 "\x31\x11\0\x0C" FOUR, PROXY_WRONG, NULL),
    CASE("2, another command", V2 "\x22\x11\0\x0C" FOUR, PROXY_WRONG, NULL),
    CASE("2, as long as it gets", V2 "\x21\x11\xFF\xFF", PROXY_WRONG, NULL),
    CASE("2, a byte more than is read", V2 "\x21\x11\x0F\xF1", PROXY_WRONG, NULL),
    CASE("2, another signature", "\r\n\r\n\0\r\nQUIT\r\x21\x11\0\x0C" FOUR, PROXY_WRONG, NULL),
    /* neither */
    CASE("a STUN message", "\0\1\0\0\x21\x12\xA4\x42", PROXY_WRONG, NULL),
    CASE("HTTP", "GET / HTTP/1.0\r\n\r\n", PROXY_WRONG, NULL),
    CASE("TLS", "\x16\3\1\2\0\1\0", PROXY_WRONG, NULL),
};

static void show(const proxy_header *header, char text[200]) {
    const stun_types_address *ends[] = {&header->client, &header->server};
    size_t length = 0;
    for (size_t i = 0; i < 2; i++) {
        char octets[INET6_ADDRSTRLEN] = "?";
        bool is_four = ends[i]->family == 4;
        inet_ntop(is_four ? AF_INET : AF_INET6, ends[i]->octets, octets, sizeof octets);
        length += (size_t)snprintf(text + length, 200 - length, is_four ? "%s%s:%u" : "%s[%s]:%u",
                                   i > 0 ? " " : "", octets, (unsigned)ends[i]->port);
    }
}

/* What is wrong with how a case is read; NULL: nothing. A right header is unfinished wherever it is cut, and
 * what comes after it changes nothing. */
static const char *fault_in(size_t which, char text[200]) {
    uint8_t bytes[512];
    size_t length = cases[which].length;
    memcpy(bytes, cases[which].bytes, length);
    memset(bytes + length, 'P', sizeof bytes - length);
    proxy_header read = read_proxy_header(bytes, length);
    show(&read, text);
    if (read.kind != cases[which].kind) return "is of another kind";
    if (read.kind == PROXY_WRONG) return NULL;
    if (read.length != length) return "has another length";
    if (read.kind == PROXY_CLIENT && strcmp(text, cases[which].ends) != 0) return "has other addresses";
    for (size_t cut = 0; cut < length; cut++) {
        if (read_proxy_header(bytes, cut).kind != PROXY_UNFINISHED) return "is read before it is whole";
    }
    char again[200] = "";
    proxy_header more = read_proxy_header(bytes, sizeof bytes);
    show(&more, again);
    bool is_same = more.kind == read.kind && more.length == length && strcmp(again, text) == 0;
    return is_same ? NULL : "is another one if more follows";
}

/* The longest header that is read, as its last byte comes. */
static bool reads_longest(void) {
    static uint8_t bytes[PROXY_MOST] = V2 "\x21\x11\x0F\xF0" FOUR;
    return read_proxy_header(bytes, sizeof bytes - 1).kind == PROXY_UNFINISHED &&
           read_proxy_header(bytes, sizeof bytes).length == sizeof bytes;
}

int main(void) {
    size_t count = sizeof cases / sizeof *cases, wrong = !reads_longest();
    if (wrong > 0) printf("the longest is read otherwise\n");
    for (size_t i = 0; i < count; i++) {
        char text[200] = "";
        const char *fault = fault_in(i, text);
        if (fault == NULL) continue;
        printf("%s: it %s: %s\n", cases[i].name, fault, text);
        wrong++;
    }
    printf("%zu cases, %zu wrong\n", count + 1, wrong);
    return wrong > 0;
}
