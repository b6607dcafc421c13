/* Reads the address in a response, and writes and validates a signed request; with an argument, a
 * datagram in hexadecimal, it also prints the reply of a server without credentials, if there is one. The
 * programs messages.cc, .py, .go and .rs do the same, and print the same. */
#include <arpa/inet.h>
#include <stdio.h>
#include <stun_types.h>

static const uint8_t RESPONSE[] = {
    0x01, 0x01, 0x00, 0x0c, 0x21, 0x12, 0xa4, 0x42, 0xb7, 0xe7, 0xa7, 0x01, 0xbc, 0x34, 0xd6, 0x86,
    0xfa, 0x87, 0xdf, 0xae, 0x00, 0x20, 0x00, 0x08, 0x00, 0x01, 0xa1, 0x47, 0xe1, 0x12, 0xa6, 0x43};

/* Prints the address that the response reports: 192.0.2.1:32853, or [2001:db8::1]:32853. */
static stun_types_answer show_address(const uint8_t *bytes, size_t length) {
    stun_types_attribute found;
    stun_types_address address;
    stun_types_answer a = stun_types_parse(bytes, length);
    if (a.code) return a;
    if (!stun_types_find(bytes, length, STUN_TYPES_ATTRIBUTE_XOR_MAPPED_ADDRESS, &found)) {
        a.code = STUN_TYPES_MISSING_ATTRIBUTE;
        return a;
    }
    a = stun_types_read_xor_address(bytes, length, &found, &address);
    if (a.code) return a;
    char ip[INET6_ADDRSTRLEN] = "";
    int is_six = address.family == 6;
    inet_ntop(is_six ? AF_INET6 : AF_INET, address.octets, ip, sizeof ip);
    printf(is_six ? "[%s]:%d\n" : "%s:%d\n", ip, address.port);
    return a;
}

/* Writes a request of the user, signed with the key, and returns how it went. */
static stun_types_answer write_request(const stun_types_key *key, uint8_t *room, size_t size,
                                       size_t *length) {
    stun_types_id id = {{1, 2, 3, 4, 5, 6, 7, 8, 9, 10, 11, 12}}; /* yours is drawn at random */
    uint16_t type = stun_types_message_type(STUN_TYPES_CLASS_REQUEST, STUN_TYPES_METHOD_BINDING);
    stun_types_answer a = stun_types_begin(room, size, type, &id, length);
    if (!a.code)
        a = stun_types_add(room, size, length, STUN_TYPES_ATTRIBUTE_USERNAME, "alice", 5);
    if (!a.code)
        a = stun_types_add_integrity(room, size, length, key, STUN_TYPES_INTEGRITY_SHA256);
    if (!a.code) a = stun_types_add_fingerprint(room, size, length);
    return a;
}

static void print_hex(const uint8_t *bytes, size_t length) {
    for (size_t at = 0; at < length; at++) printf("%02x", bytes[at]);
    printf("\n");
}

/* Prints what a server replies to a datagram from 192.0.2.1:32853. */
static stun_types_answer show_reply(const char *digits) {
    static const stun_types_address source = {{192, 0, 2, 1}, 32853, 4};
    uint8_t datagram[1500], reply[1548]; /* a reply is at most 48 bytes longer */
    size_t length = 0, reply_length;
    unsigned byte;
    while (length < sizeof datagram && sscanf(digits + 2 * length, "%2x", &byte) == 1)
        datagram[length++] = (uint8_t)byte;
    stun_types_answer a =
        stun_types_binding_reply(datagram, length, &source, reply, sizeof reply, &reply_length);
    if (!a.code) print_hex(reply, reply_length);
    return a;
}

int main(int count, char **arguments) {
    stun_types_key key = STUN_TYPES_KEY_INIT;
    stun_types_policy policy = STUN_TYPES_POLICY_BOTH;
    stun_types_validated validated;
    uint8_t request[200];
    size_t length = 0;
    stun_types_answer a = show_address(RESPONSE, sizeof RESPONSE);
    if (!a.code) a = stun_types_key_short_term(&key, "wonderland", 10);
    if (!a.code) a = write_request(&key, request, sizeof request, &length);
    if (!a.code) a = stun_types_validate_by_policy(request, length, &policy, &key, &validated);
    stun_types_key_free(&key);
    if (!a.code) print_hex(request, length);
    if (!a.code && count > 1) a = show_reply(arguments[1]);
    if (a.code) return fprintf(stderr, "%s\n", stun_types_status_text(a.code)), 1;
    return 0;
}
