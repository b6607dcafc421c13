/* ICMP packets about datagrams that relay sockets have sent (RFC 8656, section 11.5). The system shows those
 * that have the head of such a datagram in them. */
#include "server.h"

#include <linux/errqueue.h>

/* What the system says of one: the error, and the address that it came from. */
typedef union {
    size_t aligned;
    char bytes[CMSG_SPACE(sizeof(struct sock_extended_err) + sizeof(struct sockaddr_in6)) + 128];
} icmp_control;

/* Reads one: to which peer the datagram went, and what the packet says. False: it is no ICMP packet. */
static bool read_packet(struct msghdr *message, icmp_packet *packet) {
    struct sock_extended_err error;
    for (struct cmsghdr *at = CMSG_FIRSTHDR(message); at != NULL; at = CMSG_NXTHDR(message, at)) {
        bool is_error = (at->cmsg_level == IPPROTO_IP && at->cmsg_type == IP_RECVERR) ||
                        (at->cmsg_level == IPPROTO_IPV6 && at->cmsg_type == IPV6_RECVERR);
        if (!is_error || at->cmsg_len < CMSG_LEN(sizeof error)) continue;
        memcpy(&error, CMSG_DATA(at), sizeof error);
        if (error.ee_origin != SO_EE_ORIGIN_ICMP && error.ee_origin != SO_EE_ORIGIN_ICMP6) continue;
        packet->error = (stun_types_icmp){.data = error.ee_info, .icmp_type = error.ee_type, .code = error.ee_code};
        return address_of(message->msg_name, &packet->peer);
    }
    return false;
}

/* (a socket that shows ICMP packets has what is sent next fail once by an earlier one) */
bool is_icmp_error(int error) {
    return setting(ICMP) && (error == ECONNREFUSED || error == EHOSTUNREACH || error == ENETUNREACH ||
                             error == EMSGSIZE || error == EPROTO || error == ENOPROTOOPT ||
                             error == EOPNOTSUPP || error == EACCES || error == EHOSTDOWN || error == ENONET);
}

size_t read_icmp(int socket, icmp_packet packets[MOST_ICMP]) {
    static struct mmsghdr messages[MOST_ICMP];
    static struct iovec places[MOST_ICMP];
    static struct sockaddr_storage peers[MOST_ICMP];
    static icmp_control controls[MOST_ICMP];
    static uint8_t starts[MOST_ICMP]; /* of their data, which isn't read */
    size_t count = 0;
    for (int i = 0; i < MOST_ICMP; i++) {
        places[i] = (struct iovec){&starts[i], 1};
        messages[i].msg_hdr = (struct msghdr){.msg_name = &peers[i], .msg_namelen = sizeof peers[i],
                                              .msg_iov = &places[i], .msg_iovlen = 1,
                                              .msg_control = &controls[i], .msg_controllen = sizeof controls[i]};
    }
    int got = recvmmsg(socket, messages, MOST_ICMP, MSG_ERRQUEUE | MSG_DONTWAIT, NULL);
    for (int i = 0; i < got; i++) {
        if (read_packet(&messages[i].msg_hdr, &packets[count])) count++;
    }
    return count;
}
