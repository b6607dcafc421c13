/* Sending datagrams. Those that follow each other to one address, and are equally long but for a shorter
 * last one, are given to the system as one, which it cuts (UDP_SEGMENT). */
#include "server.h"

#include <netinet/udp.h>

#ifndef UDP_SEGMENT
#define UDP_SEGMENT 103
#endif

enum {
    MOST = 64 + HELD, /* datagrams that are bundled at once */
    SEGMENT = 1400,   /* the longest datagram of a bundle, which is no longer than a packet */
    TOTAL = 60000,    /* bytes, and */
    SEGMENTS = 64     /* datagrams of a bundle */
};

/* The control message of a bundle: that of its datagrams, and its length. */
typedef union {
    size_t aligned;
    char bytes[sizeof(sent_control) + CMSG_SPACE(sizeof(uint16_t))];
} bundle_control;

static struct {
    struct mmsghdr messages[MOST];
    struct iovec parts[MOST];
    bundle_control controls[MOST];
    int counts[MOST]; /* how many datagrams each has */
    bool is_off; /* the system can't cut them */
} bundles;

static bool goes_with(const struct msghdr *first, const struct msghdr *next) {
    return first->msg_namelen == next->msg_namelen && first->msg_controllen == next->msg_controllen &&
           (first->msg_name == next->msg_name ||
            memcmp(first->msg_name, next->msg_name, first->msg_namelen) == 0) &&
           (first->msg_control == next->msg_control ||
            memcmp(first->msg_control, next->msg_control, first->msg_controllen) == 0);
}

/* How many of the datagrams make a bundle with the first. */
static int count_bundle(const struct mmsghdr *messages, int count) {
    size_t length = messages->msg_hdr.msg_iov->iov_len, total = length, last = length;
    int found = 1;
    if (length == 0 || length > SEGMENT) return 1;
    for (; found < count && found < SEGMENTS && last == length; found++) {
        last = messages[found].msg_hdr.msg_iov->iov_len;
        total += last;
        if (last > length || last == 0 || total > TOTAL) break;
        if (!goes_with(&messages->msg_hdr, &messages[found].msg_hdr)) break;
    }
    return found;
}

/* Has the system cut a bundle into datagrams of so many bytes. */
static void set_segment(struct msghdr *of, bundle_control *control, size_t length) {
    uint16_t segment = (uint16_t)length;
    if (of->msg_controllen > 0) memcpy(control, of->msg_control, of->msg_controllen);
    struct cmsghdr head = {.cmsg_len = CMSG_LEN(sizeof segment), .cmsg_level = SOL_UDP,
                           .cmsg_type = UDP_SEGMENT};
    char *at = control->bytes + of->msg_controllen;
    memcpy(at, &head, sizeof head);
    memcpy(at + CMSG_LEN(0), &segment, sizeof segment);
    of->msg_control = control;
    of->msg_controllen += CMSG_SPACE(sizeof segment);
}

/* Makes bundles of datagrams. Returns how many there are. */
static int make_bundles(const struct mmsghdr *messages, int count) {
    int made = 0;
    for (int at = 0; at < count; made++) {
        int together = count_bundle(messages + at, count - at);
        struct msghdr *of = &bundles.messages[made].msg_hdr;
        *of = messages[at].msg_hdr;
        for (int i = 0; i < together; i++) bundles.parts[at + i] = *messages[at + i].msg_hdr.msg_iov;
        of->msg_iov = &bundles.parts[at];
        of->msg_iovlen = (size_t)together;
        if (together > 1) set_segment(of, &bundles.controls[made], bundles.parts[at].iov_len);
        bundles.counts[made] = together;
        at += together;
    }
    return made;
}

/* Whether a datagram is sent again: an ICMP packet about another one was the error. It is once. */
static bool is_tried_again(int which, int *again) {
    if (*again == which || !is_icmp_error(errno)) return false;
    *again = which;
    return true;
}

int send_all(int socket, struct mmsghdr *messages, int messages_count, int flags, tally *mine,
             int refused) {
    int done = 0, all = 0, again = -1;
    while (done < messages_count) {
        int sent = sendmmsg(socket, messages + done, (unsigned)(messages_count - done), flags);
        if (sent < 0 && (errno == EINTR || is_tried_again(done, &again))) continue;
        if (sent > 0) {
            all += sent;
            done += sent;
        } else {
            count(mine, refused, 1);
            raise_by(&mine->beats, 1); /* (it may have waited for a second) */
            done++;
        }
    }
    return all;
}

/* Sends one datagram by a shorter way. */
static int send_one(int socket, const struct msghdr *one, tally *mine, int refused) {
    ssize_t sent;
    int again = -1;
    do {
        sent = sendto(socket, one->msg_iov->iov_base, one->msg_iov->iov_len, MSG_DONTWAIT, one->msg_name,
                      one->msg_namelen);
    } while (sent < 0 && (errno == EINTR || is_tried_again(0, &again)));
    if (sent < 0) count(mine, refused, 1);
    return sent < 0 ? 0 : 1;
}

int send_bundled(int socket, struct mmsghdr *messages, int messages_count, tally *mine, int refused) {
    int made = 0, done = 0, at = 0, all = 0;
    if (messages_count == 1 && messages->msg_hdr.msg_controllen == 0) {
        return send_one(socket, &messages->msg_hdr, mine, refused);
    }
    if (bundles.is_off || messages_count > MOST) {
        return send_all(socket, messages, messages_count, MSG_DONTWAIT, mine, refused);
    }
    made = make_bundles(messages, messages_count);
    while (done < made) {
        int sent = sendmmsg(socket, bundles.messages + done, (unsigned)(made - done), MSG_DONTWAIT);
        if (sent < 0 && errno == EINTR) continue;
        for (int i = 0; i < sent; i++, done++) {
            all += bundles.counts[done];
            at += bundles.counts[done];
        }
        if (sent > 0) continue;
        bundles.is_off |= errno == EIO;
        all += send_all(socket, messages + at, bundles.counts[done], MSG_DONTWAIT, mine, refused);
        at += bundles.counts[done++];
    }
    return all;
}
