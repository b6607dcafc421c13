/* Serving UDP: datagrams are received, and replies sent, in batches. With TURN a turn of the loop sends
 * all that goes to clients at once: replies, and the data of their peers. */
#include "server.h"

#include <poll.h>
#include <stddef.h>
#include <sys/epoll.h>

enum {
    BATCH = 64,
    TO_CLIENTS = BATCH + HELD, /* replies, and data of peers */
    SECOND = 1000000000,
    /* no datagram is longer; the odd number of lines of the cache spreads the buffers over it */
    DATAGRAM_ROOM = 65536 + 64,
    REPLY_ROOM = 32896 + 64
};

/* A batch: what was received, and the replies to it. */
static struct mmsghdr received[BATCH], replies[TO_CLIENTS];
static struct iovec received_at[BATCH], replies_at[TO_CLIENTS];
static struct sockaddr_storage sources[BATCH];
static uint8_t datagrams[BATCH][DATAGRAM_ROOM], reply_rooms[BATCH][REPLY_ROOM];

/* To which of this machine's addresses a datagram was sent: the reply comes from there. The system
 * says so if the socket stands for several addresses. */
static received_control targets[BATCH];
static bool many_targets, has_control; /* has_control: that, or fields of the IP header */
static sent_control sent_controls[TO_CLIENTS];

static struct {
    const endpoint *from;
    rate_table *limits;
    tally *mine;
    int poller; /* with TURN */
    int owed;   /* how many of `replies` wait */
} udp;

static void make_ready(int i) {
    struct msghdr *header = &received[i].msg_hdr;
    header->msg_name = &sources[i];
    header->msg_namelen = sizeof sources[i];
    header->msg_control = has_control ? &targets[i] : NULL;
    header->msg_controllen = has_control ? sizeof targets[i] : 0;
    header->msg_flags = 0;
}

static void make_all_ready(void) {
    for (int i = 0; i < BATCH; i++) {
        received_at[i].iov_base = datagrams[i];
        received_at[i].iov_len = sizeof datagrams[i];
        received[i].msg_hdr.msg_iov = &received_at[i];
        received[i].msg_hdr.msg_iovlen = 1;
        make_ready(i);
    }
    for (int i = 0; i < TO_CLIENTS; i++) {
        replies[i].msg_hdr.msg_iov = &replies_at[i];
        replies[i].msg_hdr.msg_iovlen = 1;
    }
}

/* Whether a datagram was sent to an address of this machine, and not to everybody's: such a one of
 * IPv4 isn't the address that a reply would come from. Leaves it to the system by which interface
 * the reply goes; it keeps the address it comes from. */
static bool take_target(struct msghdr *header) {
    struct cmsghdr *at = CMSG_FIRSTHDR(header);
    struct in_pktinfo four;
    struct in6_pktinfo six;
    for (; at != NULL; at = CMSG_NXTHDR(header, at)) {
        if (at->cmsg_level == IPPROTO_IP && at->cmsg_type == IP_PKTINFO) {
            memcpy(&four, CMSG_DATA(at), sizeof four);
            if (four.ipi_spec_dst.s_addr != four.ipi_addr.s_addr) return false;
            memset(CMSG_DATA(at) + offsetof(struct in_pktinfo, ipi_ifindex), 0, sizeof(int));
        }
        if (at->cmsg_level == IPPROTO_IPV6 && at->cmsg_type == IPV6_PKTINFO) {
            memcpy(&six, CMSG_DATA(at), sizeof six);
            if (IN6_IS_ADDR_MULTICAST(&six.ipi6_addr)) return false;
            memset(CMSG_DATA(at) + offsetof(struct in6_pktinfo, ipi6_ifindex), 0, sizeof(int));
        }
    }
    return true;
}

/* Addresses what goes back to where a datagram came from. */
static void address_reply(const struct msghdr *from, uint8_t *bytes, size_t length) {
    struct msghdr *to = &replies[udp.owed].msg_hdr;
    replies_at[udp.owed].iov_base = bytes;
    replies_at[udp.owed].iov_len = length;
    to->msg_name = from->msg_name;
    to->msg_namelen = from->msg_namelen;
    to->msg_control = from->msg_control;
    to->msg_controllen = from->msg_controllen;
    udp.owed++;
}

/* Whether a reply may be sent, now, by a rate. Of those over the limit one in `slip` may, whoever's
 * it is: nobody is silenced by requests that others forge in the name of the prefix. */
static bool is_within(const stun_types_address *source, uint32_t rate, uint64_t now) {
    static uint32_t over;
    uint32_t slip = setting(SLIP);
    if (may_answer(udp.limits, source, rate, now)) return true;
    bool slips = slip > 0 && ++over % slip == 0;
    count(udp.mine, slips ? UDP_SLIPPED : UDP_LIMITED, 1);
    return slips;
}

/* Reads the source of datagram i. False: it gets no reply. */
static bool read_source(int i, stun_types_address *source) {
    return address_of(&sources[i], source) && (!many_targets || take_target(&received[i].msg_hdr));
}

/* Makes the reply to datagram i. */
static void answer_datagram(int i, uint32_t rate, uint64_t now) {
    stun_types_address source;
    uint8_t *room = reply_rooms[i];
    size_t length = 0;
    if (read_source(i, &source)) length = reply_to(datagrams[i], received[i].msg_len, &source, room);
    if (length == 0) count(udp.mine, UDP_UNANSWERED, 1);
    if (length == 0 || (rate > 0 && !is_within(&source, rate, now))) return;
    address_reply(&received[i].msg_hdr, room, length);
}

/* Sends what waits. One that the system refuses is left out: its client asks again. */
static void send_replies(void) {
    int sent = send_all(udp.from->socket, replies, udp.owed, 0, udp.mine, UDP_FAILED);
    count(udp.mine, UDP_SENT, (uint64_t)sent);
    udp.owed = 0;
}

/* Receives a batch. Returns how many datagrams it has. */
static int receive_batch(int flags) {
    int got = recvmmsg(udp.from->socket, received, BATCH, flags, NULL);
    /* (an error that stays would else be met without a pause) */
    if (got < 0 && errno != EINTR && errno != EAGAIN) poll(NULL, 0, 10);
    if (got > 0) count(udp.mine, UDP_RECEIVED, (uint64_t)got);
    return got;
}

/* Receives a batch and answers it. */
static void serve_batch(void) {
    int got = receive_batch(MSG_WAITFORONE);
    uint32_t rate = setting(RATE);
    uint64_t now = rate > 0 ? nanoseconds() : 0;
    for (int i = 0; i < got; i++) answer_datagram(i, rate, now);
    send_replies();
    for (int i = 0; i < got; i++) make_ready(i);
}

/* ---- With TURN ------------------------------------------------------------------------------- */

/* The address of this machine to which a datagram was sent. */
static stun_types_address target_of(const struct msghdr *header) {
    struct sockaddr_storage bytes;
    stun_types_address target = udp.from->address;
    struct msghdr copy = *header;
    struct in_pktinfo four;
    struct in6_pktinfo six;
    socket_address at;
    memset(&bytes, 0, sizeof bytes);
    for (struct cmsghdr *in = CMSG_FIRSTHDR(&copy); many_targets && in != NULL;
         in = CMSG_NXTHDR(&copy, in)) {
        stun_types_address found = {.port = target.port};
        if (in->cmsg_level == IPPROTO_IP && in->cmsg_type == IP_PKTINFO) {
            memcpy(&four, CMSG_DATA(in), sizeof four);
            memcpy(found.octets, &four.ipi_addr, sizeof four.ipi_addr);
            found.family = 4;
        } else if (in->cmsg_level == IPPROTO_IPV6 && in->cmsg_type == IPV6_PKTINFO) {
            memcpy(&six, CMSG_DATA(in), sizeof six);
            memcpy(found.octets, &six.ipi6_addr, sizeof six.ipi6_addr);
            found.family = 6;
        } else {
            continue;
        }
        /* (an address of IPv4 may come as one that is mapped to IPv6) */
        socket_address_of(&found, &at);
        (void)address_of(&at.bytes, &target);
    }
    return target;
}

/* Who has sent datagram i. */
static turn_client client_of(int i, const stun_types_address *source) {
    struct msghdr *header = &received[i].msg_hdr;
    turn_client client;
    memset(&client, 0, sizeof client);
    client.received = take_fields(header);
    client.tuple.client = *source;
    client.tuple.server = target_of(header);
    client.to = sources[i];
    client.to_length = header->msg_namelen;
    client.control_length = header->msg_controllen;
    if (header->msg_controllen > 0) memcpy(&client.control, &targets[i], sizeof client.control);
    return client;
}

/* Whether a datagram is a request that isn't signed. */
static bool is_unsigned(const uint8_t *datagram, size_t length) {
    enum { HEADER = 20, CHANNELS = 0x40, CLASS = 0x0110 };
    stun_types_attribute found;
    if (length < HEADER || datagram[0] >= CHANNELS) return false;
    if (((datagram[0] << 8 | datagram[1]) & CLASS) != 0) return false;
    return !stun_types_find(datagram, length, STUN_TYPES_ATTRIBUTE_MESSAGE_INTEGRITY, &found) &&
           !stun_types_find(datagram, length, STUN_TYPES_ATTRIBUTE_MESSAGE_INTEGRITY_SHA256, &found);
}

/* Takes datagram i to the TURN server. What is of no user counts as a reply; before it is made, if that is
 * known: a nonce takes an HMAC. */
static void relay_datagram(int i, uint32_t rate, uint64_t now) {
    const uint8_t *datagram = datagrams[i];
    stun_types_address source;
    size_t length = 0, taken = received[i].msg_len;
    if (!read_source(i, &source)) {
        count(udp.mine, UDP_UNANSWERED, 1);
        return;
    }
    bool is_counted = rate > 0 && is_unsigned(datagram, taken);
    if (is_counted && !is_within(&source, rate, now)) return;
    turn_client client = client_of(i, &source);
    turn_outcome outcome = take_from_client(&client, datagram, taken, reply_rooms[i], REPLY_ROOM, &length);
    if (outcome == TURN_NOTHING_DUE) count(udp.mine, UDP_UNANSWERED, 1);
    if (outcome == TURN_NOTHING_DUE || outcome == TURN_RELAYED) return;
    bool is_limited = rate > 0 && outcome == TURN_ANSWERED && !is_counted;
    if (is_limited && !is_within(&source, rate, now)) return;
    address_reply(&received[i].msg_hdr, reply_rooms[i], length);
}

static void deliver(turn_client *to, uint8_t *bytes, size_t length, bool alone, const stun_types_ip_fields *fields) {
    (void)alone;
    struct msghdr header = {.msg_name = &to->to,
                                  .msg_namelen = to->to_length,
                                  .msg_control = to->control_length > 0 ? &to->control : NULL,
                                  .msg_controllen = to->control_length};
    if (fields != NULL) add_fields(&header, &sent_controls[udp.owed], fields, to->tuple.client.family);
    address_reply(&header, bytes, length);
}

static void flush(void) {
    int sent = send_bundled(udp.from->socket, replies, udp.owed, udp.mine, UDP_FAILED);
    count(udp.mine, UDP_SENT, (uint64_t)sent);
    udp.owed = 0;
}

/* Serves whatever is ready: the batch of clients, and a few datagrams of each relay socket. Returns when it began. */
static uint64_t serve_turn(void) {
    struct epoll_event events[BATCH];
    int ready = epoll_wait(udp.poller, events, BATCH, 1000), got = 0;
    uint32_t rate = setting(RATE);
    uint64_t now = nanoseconds();
    begin_turn_at(now);
    for (int i = 0; i < ready; i++) {
        if (events[i].data.u64 != 0) {
            if (events[i].events & EPOLLERR) take_icmp(events[i].data.u64);
            take_from_peers(events[i].data.u64);
            continue;
        }
        got = receive_batch(MSG_DONTWAIT);
        for (int j = 0; j < got; j++) relay_datagram(j, rate, now);
    }
    send_to_peers();
    flush();
    for (int i = 0; i < got; i++) make_ready(i);
    return now;
}

static void serve_turns(void) {
    uint64_t looked = nanoseconds();
    while (!ending) {
        raise_by(&udp.mine->beats, 1);
        uint64_t now = serve_turn();
        if (now - looked < SECOND) continue;
        looked = now;
        look_after_relays();
    }
    end_all_flows();
}

/* ---- The run --------------------------------------------------------------------------------- */

static bool begin_turns(void) {
    struct epoll_event event;
    udp.poller = epoll_create1(EPOLL_CLOEXEC);
    memset(&event, 0, sizeof event);
    event.events = EPOLLIN;
    if (udp.poller < 0 || epoll_ctl(udp.poller, EPOLL_CTL_ADD, udp.from->socket, &event) != 0) {
        return cannot("no epoll");
    }
    return begin_turn(&(turn_process){.deliver = deliver, .flush = flush, .poller = udp.poller,
                                      .first = 1, .mine = udp.mine});
}

bool begin_udp(const endpoint *from, rate_table *rates, tally *mine) {
    many_targets = from->wildcard;
    has_control = many_targets || (setting(TURN) && setting(HEADER_FIELDS));
    udp.from = from;
    udp.limits = rates;
    udp.mine = mine;
    make_all_ready();
    return !setting(TURN) || begin_turns();
}

void serve_udp(void) {
    if (setting(TURN)) serve_turns();
    while (!ending) {
        raise_by(&udp.mine->beats, 1);
        serve_batch();
    }
}
