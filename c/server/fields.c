/* Fields of the IP header of what is relayed: which of them sockets show, and those that a datagram is sent
 * with (RFC 8656, sections 13 to 15). */
#include "server.h"

#ifndef IP_PMTUDISC_OMIT
#define IP_PMTUDISC_OMIT 5
#endif

/* Options by which a socket shows fields of what it receives, and sends without the DF bit but when asked to;
 * by which a relay socket also shows ICMP packets; and the setting that each has. */
static const struct {
    int setting;
    bool is_listeners; /* as well as a relay socket's */
    socket_option option;
} known[] = {
    {HEADER_FIELDS, true, {IPPROTO_IP, IP_RECVTOS, 1}},
    {HEADER_FIELDS, true, {IPPROTO_IP, IP_RECVTTL, 1}},
    {HEADER_FIELDS, true, {IPPROTO_IPV6, IPV6_RECVTCLASS, 1}},
    {HEADER_FIELDS, true, {IPPROTO_IPV6, IPV6_RECVHOPLIMIT, 1}},
    {DONT_FRAGMENT, true, {IPPROTO_IP, IP_MTU_DISCOVER, IP_PMTUDISC_OMIT}},
    {ICMP, false, {IPPROTO_IP, IP_RECVERR, 1}},
    {ICMP, false, {IPPROTO_IPV6, IPV6_RECVERR, 1}},
};

enum { KNOWN = sizeof known / sizeof *known };

size_t relay_options(socket_option options[MOST_OPTIONS]) {
    size_t count = 0;
    for (size_t i = 0; i < KNOWN; i++) {
        if (setting(known[i].setting)) options[count++] = known[i].option;
    }
    return count;
}

static void set_options(int socket, bool is_listener, int level) {
    for (size_t i = 0; i < KNOWN; i++) {
        const socket_option *of = &known[i].option;
        if (!setting(known[i].setting) || of->level != level) continue;
        if (is_listener && !known[i].is_listeners) continue;
        (void)setsockopt(socket, of->level, of->name, &of->value, sizeof of->value);
    }
}

void set_relay_options(int socket, uint16_t family) {
    set_options(socket, false, family == 4 ? IPPROTO_IP : IPPROTO_IPV6);
}

/* (one of IPv6 may receive over IPv4 too) */
void set_listener_options(int socket, int family) {
    if (!setting(TURN)) return;
    set_options(socket, true, IPPROTO_IP);
    if (family == AF_INET6) set_options(socket, true, IPPROTO_IPV6);
}

/* ---- What was received ----------------------------------------------------------------------- */

static const stun_types_ip_fields unset = {STUN_TYPES_FIELD_UNSET, STUN_TYPES_FIELD_UNSET, STUN_TYPES_FIELD_UNSET,
                                           STUN_TYPES_FIELD_UNSET};

stun_types_ip_fields no_fields(void) { return unset; }

static bool is_field(const struct cmsghdr *of, int four, int six) {
    return (of->cmsg_level == IPPROTO_IP && of->cmsg_type == four) ||
           (of->cmsg_level == IPPROTO_IPV6 && of->cmsg_type == six);
}

/* Reads a field of eight bits: IP_TOS has a byte, and the others an int. */
static uint16_t read_field(const struct cmsghdr *of) {
    int number = 0;
    if (of->cmsg_len < CMSG_LEN(sizeof number)) return *CMSG_DATA(of);
    memcpy(&number, CMSG_DATA(of), sizeof number);
    return (uint16_t)(number & 0xFF);
}

/* Reads what a control message says of a field. False: it says something else. */
static bool take_field(const struct cmsghdr *of, stun_types_ip_fields *fields) {
    if (is_field(of, IP_TTL, IPV6_HOPLIMIT)) {
        fields->hop_limit = read_field(of);
        return true;
    }
    if (!is_field(of, IP_TOS, IPV6_TCLASS)) return false;
    fields->dscp = (uint16_t)(read_field(of) >> 2);
    fields->ecn = read_field(of) & 3;
    return true;
}

stun_types_ip_fields take_fields(struct msghdr *received) {
    stun_types_ip_fields fields = unset;
    if (!setting(HEADER_FIELDS)) return fields;
    char *end = received->msg_control;
    struct cmsghdr *at = CMSG_FIRSTHDR(received), *next;
    for (; at != NULL; at = next) {
        size_t size = CMSG_ALIGN(at->cmsg_len);
        next = CMSG_NXTHDR(received, at);
        if (take_field(at, &fields)) continue;
        memmove(end, at, size);
        end += size;
    }
    received->msg_controllen = (size_t)(end - (char *)received->msg_control);
    return fields;
}

/* ---- What is sent ---------------------------------------------------------------------------- */


bool choose_fields(const stun_types_turn_relayed *relayed, stun_types_ip_fields *fields) {
    stun_types_turn_sent sent;
    if (stun_types_turn_fields(relayed, &sent).code != STUN_TYPES_OK) return false;
    *fields = sent.fields;
    return sent.sends == 1;
}

/* Appends a control message with an int. */
static void add_control(struct msghdr *to, int level, int type, int value) {
    struct cmsghdr head = {.cmsg_len = CMSG_LEN(sizeof value), .cmsg_level = level, .cmsg_type = type};
    char *at = (char *)to->msg_control + to->msg_controllen;
    memcpy(at, &head, sizeof head);
    memcpy(at + CMSG_LEN(0), &value, sizeof value);
    to->msg_controllen += CMSG_SPACE(sizeof value);
}

/* (without a control message a field has the default of the system, 0 but for the hop limit) */
void add_fields(struct msghdr *to, sent_control *room, const stun_types_ip_fields *fields, uint16_t family) {
    bool six = family == 6;
    int level = six ? IPPROTO_IPV6 : IPPROTO_IP;
    int tos = fields->dscp << 2 | fields->ecn;
    bool is_whole = six && fields->dont_fragment == 1;
    if (tos == 0 && fields->hop_limit == STUN_TYPES_FIELD_UNSET && !is_whole) return;
    memset(room, 0, sizeof *room);
    if (to->msg_controllen > 0) memcpy(room, to->msg_control, to->msg_controllen);
    to->msg_control = room;
    if (tos != 0) add_control(to, level, six ? IPV6_TCLASS : IP_TOS, tos);
    if (fields->hop_limit != STUN_TYPES_FIELD_UNSET) {
        add_control(to, level, six ? IPV6_HOPLIMIT : IP_TTL, fields->hop_limit);
    }
    if (is_whole) add_control(to, level, IPV6_DONTFRAG, 1);
}

/* (no control message of IPv4 has the DF bit) */
void set_whole(int socket, bool is_whole) {
    int how = is_whole ? IP_PMTUDISC_PROBE : IP_PMTUDISC_OMIT;
    (void)setsockopt(socket, IPPROTO_IP, IP_MTU_DISCOVER, &how, sizeof how);
}
