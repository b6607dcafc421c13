/* The rules that relay.bpf.c relays by, which crates/kernel_rules has and proves. All numbers are in the
 * machine's order, and where a function takes two addresses, they don't overlap. */
#ifndef RULES_H
#define RULES_H

#include <linux/types.h>

/* The header of IPv4 without options: the version with the header's length, DSCP with ECN, and the flags with
 * the offset. */
struct ipv4 {
    __u8 version, service;
    __u16 length, identification, fragment;
    __u8 hops, protocol;
    __u16 checksum;
    __u32 source, destination;
};

/* The header of IPv6 without its addresses: version, traffic class and flow label first. */
struct ipv6 {
    __u32 start;
    __u16 length;
    __u8 next, hops;
};

struct udp {
    __u16 source, destination, length, checksum;
};

struct ipv4_ends {
    __u32 source, destination;
};

struct ipv6_address {
    __u32 first, second, third, fourth;
};

struct ipv6_ends {
    struct ipv6_address source, destination;
};

/* Whether a packet is plain, in a frame of so many bytes from the header of IP on. */
_Bool kernel_is_plain_ipv4(const struct ipv4 *header, __u32 frame, __u16 datagram);
_Bool kernel_is_plain_ipv6(const struct ipv6 *header, __u32 frame, __u16 datagram, __u16 checksum);

/* Whether a checksum may be one that is still to be written. */
_Bool kernel_is_unsummed_ipv4(const struct ipv4_ends *ends, __u16 length, __u16 checksum);
_Bool kernel_is_unsummed_ipv6(const struct ipv6_ends *ends, __u16 length, __u16 checksum);

_Bool kernel_is_channel(__u16 number);
_Bool kernel_is_exact(__u16 length, __u16 datagram);
_Bool kernel_is_own(__u64 high, __u64 low, __u16 port, __u64 own_high, __u64 own_low, __u16 least, __u16 most);
_Bool kernel_takes(__u64 now, __u64 until, __u64 vouched, __u32 life, __u32 living, __u32 interface, __u32 came_by,
                   __u16 mtu, __u32 length, __u8 hops);
_Bool kernel_may_pass(__u64 until, __u64 now, __u32 amount, __u32 rate, __u64 *paid);

/* The headers of what leaves. */
void kernel_ipv4(const struct ipv4 *header, _Bool to_peer, __u16 identification, __u32 source, __u32 destination,
                 struct ipv4 *made);
void kernel_ipv6(const struct ipv6 *header, _Bool to_peer, struct ipv6 *made);
void kernel_to_peer_ipv4(const struct udp *header, const struct ipv4_ends *from, __u16 number, __u16 length, __u16 source,
                         __u16 destination, const struct ipv4_ends *to, struct udp *made);
void kernel_to_peer_ipv6(const struct udp *header, const struct ipv6_ends *from, __u16 number, __u16 length, __u16 source,
                         __u16 destination, const struct ipv6_ends *to, struct udp *made);
__u16 kernel_to_client_ipv4(const struct udp *header, const struct ipv4_ends *from, __u16 number, __u16 source,
                            __u16 destination, const struct ipv4_ends *to, struct udp *made);
__u16 kernel_to_client_ipv6(const struct udp *header, const struct ipv6_ends *from, __u16 number, __u16 source,
                            __u16 destination, const struct ipv6_ends *to, struct udp *made);

#endif
