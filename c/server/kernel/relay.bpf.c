/* Relays ChannelData of TURN (RFC 8656, 12.4 to 12.7) where packets come in (tc, ingress), by the flows that a
 * TURN server has put into a map. It relays a datagram only if a flow of exactly its addresses, ports and
 * channel number is there, isn't over, and is one from the server's own addresses to its own addresses.
 * Whatever else comes goes on to the server, unchanged, which decides as if this program weren't there. It
 * answers nothing and makes no flow.
 *
 * What it decides and writes is in rules.h; here bytes are moved and maps are asked. */
#include <linux/bpf.h>
#include <linux/if_ether.h>
#include <linux/in.h>
#include <linux/pkt_cls.h>

#include "relay.h"
#include "rules.h"

#define SECTION(name) __attribute__((section(name), used))
#define INLINE static inline __attribute__((always_inline))
#define NULL ((void *)0)
#define memcpy __builtin_memcpy
#define memset __builtin_memset

typedef _Bool bool;
enum { false, true };

/* ---- The kernel's calls ---------------------------------------------------------------------- */

static void *(*const look_up)(void *map, const void *key) = (void *)BPF_FUNC_map_lookup_elem;
static __u64 (*const nanoseconds)(void) = (void *)BPF_FUNC_ktime_get_ns;
static __u32 (*const random_number)(void) = (void *)BPF_FUNC_get_prandom_u32;
static long (*const pull_data)(struct __sk_buff *skb, __u32 length) = (void *)BPF_FUNC_skb_pull_data;
static long (*const adjust_room)(struct __sk_buff *skb, __s32 by, __u32 mode, __u64 flags) = (void *)BPF_FUNC_skb_adjust_room;
static long (*const check_mtu)(void *skb, __u32 interface, __u32 *mtu, __s32 by, __u64 flags) = (void *)BPF_FUNC_check_mtu;
static long (*const redirect_neigh)(__u32 interface, void *to, int length, __u64 flags) = (void *)BPF_FUNC_redirect_neigh;

/* The maps, which the loader makes: code that mentions one gets its number. */
char slots[1] SECTION("maps"), flows[1] SECTION("maps"), leases[1] SECTION("maps"), buckets[1] SECTION("maps"),
    reasons[1] SECTION("maps");

/* What the loader writes before it loads the program. */
const volatile struct own own SECTION(".rodata") = {{{{{0}}, 0, 0}}, {{{{0}}, 0, 0}}, {0}};

/* Counts a reason, and returns what becomes of the datagram. */
INLINE int because(__u32 reason, int verdict) {
    __u64 *count = look_up(reasons, &reason);
    if (count != NULL) ++*count;
    return verdict;
}

INLINE int up(__u32 reason) { return because(reason, TC_ACT_UNSPEC); }

/* ---- Bytes ----------------------------------------------------------------------------------- */

INLINE __u16 to_16(__be16 bytes) { return __builtin_bswap16(bytes); }
INLINE __u32 to_32(__be32 bytes) { return __builtin_bswap32(bytes); }

/* Headers as they are in a packet, and the eight bytes of UDP with four of data. */
struct ipv4_wire {
    __u8 version, service;
    __be16 length, identification, fragment;
    __u8 hops, protocol;
    __be16 checksum;
    __be32 source, destination;
};
struct ipv6_wire {
    __be32 start;
    __be16 length;
    __u8 next, hops;
    __be32 source[4], destination[4];
};
struct udp_wire {
    __be16 source, destination, length, checksum;
    __be16 number, data_length; /* the head of ChannelData, or the first data */
};

struct words_of_ip {
    __be32 words[4];
};
struct long_words {
    __u64 high, low;
} __attribute__((may_alias));

INLINE struct ip mapped(__be32 address) {
    struct words_of_ip words = {{0, 0, to_32(0xffff), address}};
    struct ip made;
    memcpy(&made, &words, sizeof made);
    return made;
}

/* Whether an address is one of IPv4; and that address. */
INLINE bool is_four(const struct ip *of) {
    struct words_of_ip words;
    memcpy(&words, of, sizeof words);
    return words.words[0] == 0 && words.words[1] == 0 && words.words[2] == to_32(0xffff);
}

INLINE __u32 unmapped(const struct ip *of) {
    struct words_of_ip words;
    memcpy(&words, of, sizeof words);
    return to_32(words.words[3]);
}

INLINE struct ipv6_address address_of(const struct ip *of) {
    struct words_of_ip words;
    memcpy(&words, of, sizeof words);
    return (struct ipv6_address){to_32(words.words[0]), to_32(words.words[1]), to_32(words.words[2]), to_32(words.words[3])};
}

/* ---- What was read ----------------------------------------------------------------------------- */

/* A datagram of UDP: its header, the two numbers that follow, its addresses as a key, and what its packet had. */
struct seen {
    struct udp udp;
    __u16 number, data_length;
    struct flow_key key;
    __u32 length; /* of the packet */
    __u8 hops;
    bool is_four;
};

/* The address of so many bytes from a place of the frame on; NULL: there aren't as many. */
INLINE void *bytes_at(struct __sk_buff *skb, __u32 at, __u32 count) {
    void *data = (void *)(long)skb->data, *end = (void *)(long)skb->data_end;
    return data + at + count > end ? NULL : data + at;
}

/* Reads UDP, and four bytes more: ChannelData has at least these, and a shorter datagram of a peer is rare
 * enough to go up. */
INLINE bool read_udp(struct __sk_buff *skb, __u32 at, struct seen *seen) {
    const struct udp_wire *wire = bytes_at(skb, at, sizeof *wire);
    if (wire == NULL) {
        if (pull_data(skb, at + sizeof *wire) != 0) return false;
        wire = bytes_at(skb, at, sizeof *wire);
        if (wire == NULL) return false;
    }
    seen->udp = (struct udp){to_16(wire->source), to_16(wire->destination), to_16(wire->length), to_16(wire->checksum)};
    seen->key.their_port = wire->source;
    seen->key.our_port = wire->destination;
    seen->number = to_16(wire->number);
    seen->data_length = to_16(wire->data_length);
    return true;
}

/* ---- Own places -------------------------------------------------------------------------------- */

INLINE bool is_at(const struct ip *address, __be16 port, const volatile struct own_place *place) {
    const struct long_words *given = (const struct long_words *)address;
    const volatile struct long_words *own_words = (const volatile struct long_words *)&place->ip;
    return kernel_is_own(given->high, given->low, to_16(port), own_words->high, own_words->low, place->least, place->most);
}

INLINE bool is_listening(const struct ip *address, __be16 port) {
#pragma unroll
    for (unsigned i = 0; i < MOST_LISTENING_PLACES; i++) {
        if (is_at(address, port, &own.listening[i])) return true;
    }
    return false;
}

INLINE bool is_relayed(const struct ip *address, __be16 port) {
#pragma unroll
    for (unsigned i = 0; i < MOST_RELAYED_PLACES; i++) {
        if (is_at(address, port, &own.relayed[i])) return true;
    }
    return false;
}

INLINE bool has_interface(__u32 interface) {
#pragma unroll
    for (unsigned i = 0; i < MOST_INTERFACES; i++) {
        if (interface != 0 && own.interfaces[i] == interface) return true;
    }
    return false;
}

/* ---- A flow ---------------------------------------------------------------------------------- */

/* The way of a datagram, as its flow has it: read once, since the writer of the flow may change it at any time. */
struct way {
    struct ip ours, theirs;
    __be16 our_port, their_port;
    __be16 number;
    __u16 mtu;
    __u64 until;
    __u32 from_interface, to_interface, worker, life, bucket;
};

/* Whether a slot holds the flow of this key. The kernel may give the memory of an entry that has just been
 * deleted from the index to another one, whatever reads it: so the entry alone proves nothing. */
INLINE bool is_of(const struct flow *of, const struct flow_key *key) {
    const volatile struct long_words *one = (const volatile struct long_words *)&of->key;
    const struct long_words *other = (const struct long_words *)key;
    return one[0].high == other[0].high && one[0].low == other[0].low && one[1].high == other[1].high &&
           one[1].low == other[1].low && one[2].high == other[2].high;
}

INLINE struct flow *find(const struct flow_key *key) {
    __u32 *slot = look_up(slots, key);
    if (slot == NULL) return NULL;
    __u32 number = *(volatile __u32 *)slot;
    struct flow *found = look_up(flows, &number);
    return found != NULL && is_of(found, key) ? found : NULL;
}

INLINE void read_way(const struct flow *of, struct way *way) {
    way->ours = of->ours;
    way->theirs = of->theirs;
    way->our_port = of->our_port;
    way->their_port = of->their_port;
    way->number = of->number;
    way->mtu = of->mtu;
    way->until = of->until;
    way->from_interface = of->from_interface;
    way->to_interface = of->to_interface;
    way->worker = of->worker;
    way->life = of->life;
    way->bucket = of->bucket;
    asm volatile("" : : "r"(way) : "memory"); /* (nothing is read again) */
}

/* Whether a way leaves from an own place, by an own interface: to a peer from a relayed address, with nothing
 * before the data, and to a client from where the server listens, with a channel number. */
INLINE bool is_ours(const struct way *way, bool to_peer) {
    if (!has_interface(way->to_interface)) return false;
    if (to_peer) return way->number == 0 && is_relayed(&way->ours, way->our_port);
    return kernel_is_channel(to_16(way->number)) && is_listening(&way->ours, way->our_port);
}

/* Why a flow doesn't take a datagram, for those who look. */
INLINE __u32 reason_of(const struct way *way, const struct lease *lease, __u32 came_by, __u32 length, __u64 now) {
    if (now >= way->until) return UP_EXPIRED;
    if (lease->life != way->life || now >= lease->until) return UP_UNVOUCHED;
    if (way->from_interface != came_by) return UP_INTERFACE;
    return length > way->mtu ? UP_TOO_LONG : UP_TTL;
}

/* Whether a flow takes a datagram now (RELAYED), which changes its length by so much, or why it doesn't. */
INLINE __u32 judge(struct __sk_buff *skb, const struct seen *seen, const struct way *way, int change, __u64 now) {
    __u32 mtu = 0, worker = way->worker, length = seen->length + (__u32)change;
    struct lease *lease = look_up(leases, &worker);
    if (is_four(&way->ours) != seen->is_four || is_four(&way->theirs) != seen->is_four) return UP_FAMILY;
    if (!is_ours(way, seen->key.number != 0)) return UP_NOT_OWN;
    if (lease == NULL) return UP_UNVOUCHED;
    if (!kernel_takes(now, way->until, lease->until, way->life, lease->life, way->from_interface, skb->ifindex, way->mtu,
                      length, seen->hops)) {
        return reason_of(way, lease, skb->ifindex, length, now);
    }
    return check_mtu(skb, way->to_interface, &mtu, change, 0) != 0 ? UP_TOO_LONG : RELAYED;
}

/* ---- Rates ------------------------------------------------------------------------------------- */

/* Pays for so much, at a rate a second. The server's processes pay too, at the same time. */
INLINE bool may_pass_by(__u64 *until, __u32 rate, __u32 amount, __u64 now) {
#pragma unroll
    for (int i = 0; i < 4; i++) {
        __u64 was = *(volatile __u64 *)until, paid = 0;
        if (!kernel_may_pass(was, now, amount, rate, &paid)) return false;
        if (paid == was || __sync_val_compare_and_swap(until, was, paid) == was) return true;
    }
    return false;
}

/* The least that a datagram counts as (peers.c). */
enum { LEAST_OCTETS = 28 };

INLINE bool may_pass(__u32 number, __u32 octets, __u64 now) {
    struct bucket *of = look_up(buckets, &number);
    if (of == NULL) return true;
    if (octets < LEAST_OCTETS) octets = LEAST_OCTETS;
    return may_pass_by(&of->packets_until, of->packet_rate, 1, now) && may_pass_by(&of->octets_until, of->bandwidth, octets, now);
}

/* ---- A datagram ---------------------------------------------------------------------------------- */

/* Finds the flow of what was read, and whether it takes it now. Returns RELAYED, or what becomes of it
 * otherwise. */
INLINE __u32 choose(struct __sk_buff *skb, struct seen *seen, struct flow **found, struct way *way) {
    bool to_peer = kernel_is_channel(seen->number) && is_listening(&seen->key.ours, seen->key.our_port);
    if (!to_peer && !is_relayed(&seen->key.ours, seen->key.our_port)) return UP_UNKNOWN;
    seen->key.number = to_peer ? to_16(seen->number) : 0;
    if ((*found = find(&seen->key)) == NULL) return UP_UNKNOWN;
    if (skb->gso_size != 0) return UP_SEGMENTS;
    if (to_peer && !kernel_is_exact(seen->data_length, seen->udp.length)) return UP_LENGTH;
    read_way(*found, way);
    return RELAYED;
}

/* The change of the length of a datagram: the head of ChannelData is put before what goes to a client, and
 * taken off what goes to a peer. */
INLINE int change_of(const struct seen *seen) { return seen->key.number != 0 ? -4 : 4; }

/* What is data of it. */
INLINE __u32 octets_of(const struct seen *seen) {
    return seen->udp.length - (seen->key.number != 0 ? 12u : 8u);
}

/* Writes UDP, and the head of ChannelData, at the place where a datagram begins now. */
INLINE bool write_udp(struct __sk_buff *skb, __u32 at, const struct udp *made, __be16 number, __u16 data_length) {
    struct udp_wire *wire = bytes_at(skb, at, number != 0 ? sizeof *wire : sizeof(struct udp));
    if (wire == NULL) return false;
    wire->source = to_16(made->source);
    wire->destination = to_16(made->destination);
    wire->length = to_16(made->length);
    wire->checksum = to_16(made->checksum);
    if (number == 0) return true;
    if (bytes_at(skb, at, sizeof *wire) == NULL) return false;
    wire->number = number;
    wire->data_length = to_16(data_length);
    return true;
}

/* Counts what is relayed, and sends it. */
INLINE int leave(struct flow *by, const struct seen *seen, __u32 interface) {
    __sync_fetch_and_add(&by->datagrams, 1);
    __sync_fetch_and_add(&by->octets, octets_of(seen));
    return because(RELAYED, (int)redirect_neigh(interface, NULL, 0, 0));
}

INLINE int drop_over(struct flow *by) {
    __sync_fetch_and_add(&by->over, 1);
    return because(DROPPED_OVER, TC_ACT_SHOT);
}

/* ---- IPv4 ------------------------------------------------------------------------------------ */

INLINE bool read_ipv4(struct __sk_buff *skb, struct ipv4 *header, struct seen *seen) {
    const struct ipv4_wire *wire = bytes_at(skb, ETH_HLEN, sizeof *wire);
    if (wire == NULL) return false;
    *header = (struct ipv4){wire->version, wire->service, to_16(wire->length), to_16(wire->identification),
                            to_16(wire->fragment), wire->hops, wire->protocol, to_16(wire->checksum),
                            to_32(wire->source), to_32(wire->destination)};
    seen->key.theirs = mapped(wire->source);
    seen->key.ours = mapped(wire->destination);
    seen->length = header->length;
    seen->hops = header->hops;
    seen->is_four = true;
    return true;
}

INLINE bool write_ipv4(struct __sk_buff *skb, const struct ipv4 *made) {
    struct ipv4_wire *wire = bytes_at(skb, ETH_HLEN, sizeof *wire);
    if (wire == NULL) return false;
    wire->version = made->version;
    wire->service = made->service;
    wire->length = to_16(made->length);
    wire->identification = to_16(made->identification);
    wire->fragment = to_16(made->fragment);
    wire->hops = made->hops;
    wire->protocol = made->protocol;
    wire->checksum = to_16(made->checksum);
    wire->source = to_32(made->source);
    wire->destination = to_32(made->destination);
    return true;
}

INLINE int relay_ipv4(struct __sk_buff *skb) {
    enum { UDP_AT = ETH_HLEN + sizeof(struct ipv4_wire) };
    struct ipv4 header, made;
    struct seen seen;
    struct flow *by;
    struct way way;
    struct udp udp;
    memset(&seen, 0, sizeof seen);
    if (!read_ipv4(skb, &header, &seen) || header.protocol != IPPROTO_UDP) return up(UP_OTHER);
    if (!read_udp(skb, UDP_AT, &seen)) return up(UP_NOT_PLAIN);
    if (!kernel_is_plain_ipv4(&header, skb->len - ETH_HLEN, seen.udp.length)) return up(UP_NOT_PLAIN);
    struct ipv4_ends from = {header.source, header.destination};
    __u32 reason = choose(skb, &seen, &by, &way);
    if (reason != RELAYED) return up(reason);
    if (kernel_is_unsummed_ipv4(&from, seen.udp.length, seen.udp.checksum)) return up(UP_SEGMENTS);
    __u64 now = nanoseconds();
    int change = change_of(&seen);
    if ((reason = judge(skb, &seen, &way, change, now)) != RELAYED) return up(reason);
    if (!may_pass(way.bucket, octets_of(&seen), now)) return drop_over(by);

    bool to_peer = change < 0;
    struct ipv4_ends to = {unmapped(&way.ours), unmapped(&way.theirs)};
    __u16 source = to_16(way.our_port), destination = to_16(way.their_port), data_length = 0;
    kernel_ipv4(&header, to_peer, (__u16)random_number(), to.source, to.destination, &made);
    if (to_peer) {
        kernel_to_peer_ipv4(&seen.udp, &from, seen.number, seen.data_length, source, destination, &to, &udp);
    } else {
        data_length = kernel_to_client_ipv4(&seen.udp, &from, to_16(way.number), source, destination, &to, &udp);
    }
    if (adjust_room(skb, change, BPF_ADJ_ROOM_NET, 0) != 0) return up(UP_NOT_PLAIN);
    if (!write_ipv4(skb, &made) || !write_udp(skb, UDP_AT, &udp, way.number, data_length)) {
        return because(DROPPED_ERROR, TC_ACT_SHOT);
    }
    return leave(by, &seen, way.to_interface);
}

/* ---- IPv6 ------------------------------------------------------------------------------------ */

INLINE bool read_ipv6(struct __sk_buff *skb, struct ipv6 *header, struct seen *seen) {
    const struct ipv6_wire *wire = bytes_at(skb, ETH_HLEN, sizeof *wire);
    if (wire == NULL) return false;
    *header = (struct ipv6){to_32(wire->start), to_16(wire->length), wire->next, wire->hops};
    memcpy(&seen->key.theirs, wire->source, sizeof(struct ip));
    memcpy(&seen->key.ours, wire->destination, sizeof(struct ip));
    seen->length = header->length + (__u32)sizeof *wire;
    seen->hops = header->hops;
    return true;
}

INLINE bool write_ipv6(struct __sk_buff *skb, const struct ipv6 *made, const struct way *way) {
    struct ipv6_wire *wire = bytes_at(skb, ETH_HLEN, sizeof *wire);
    if (wire == NULL) return false;
    wire->start = to_32(made->start);
    wire->length = to_16(made->length);
    wire->next = made->next;
    wire->hops = made->hops;
    memcpy(wire->source, &way->ours, sizeof(struct ip));
    memcpy(wire->destination, &way->theirs, sizeof(struct ip));
    return true;
}

INLINE int relay_ipv6(struct __sk_buff *skb) {
    enum { UDP_AT = ETH_HLEN + sizeof(struct ipv6_wire) };
    struct ipv6 header, made;
    struct seen seen;
    struct flow *by;
    struct way way;
    struct udp udp;
    memset(&seen, 0, sizeof seen);
    if (!read_ipv6(skb, &header, &seen) || header.next != IPPROTO_UDP) return up(UP_OTHER);
    if (!read_udp(skb, UDP_AT, &seen)) return up(UP_NOT_PLAIN);
    if (!kernel_is_plain_ipv6(&header, skb->len - ETH_HLEN, seen.udp.length, seen.udp.checksum)) return up(UP_NOT_PLAIN);
    struct ipv6_ends from = {address_of(&seen.key.theirs), address_of(&seen.key.ours)};
    __u32 reason = choose(skb, &seen, &by, &way);
    if (reason != RELAYED) return up(reason);
    if (kernel_is_unsummed_ipv6(&from, seen.udp.length, seen.udp.checksum)) return up(UP_SEGMENTS);
    __u64 now = nanoseconds();
    int change = change_of(&seen);
    if ((reason = judge(skb, &seen, &way, change, now)) != RELAYED) return up(reason);
    if (!may_pass(way.bucket, octets_of(&seen), now)) return drop_over(by);

    bool to_peer = change < 0;
    struct ipv6_ends to = {address_of(&way.ours), address_of(&way.theirs)};
    __u16 source = to_16(way.our_port), destination = to_16(way.their_port), data_length = 0;
    kernel_ipv6(&header, to_peer, &made);
    if (to_peer) {
        kernel_to_peer_ipv6(&seen.udp, &from, seen.number, seen.data_length, source, destination, &to, &udp);
    } else {
        data_length = kernel_to_client_ipv6(&seen.udp, &from, to_16(way.number), source, destination, &to, &udp);
    }
    if (adjust_room(skb, change, BPF_ADJ_ROOM_NET, 0) != 0) return up(UP_NOT_PLAIN);
    if (!write_ipv6(skb, &made, &way) || !write_udp(skb, UDP_AT, &udp, way.number, data_length)) {
        return because(DROPPED_ERROR, TC_ACT_SHOT);
    }
    return leave(by, &seen, way.to_interface);
}

SECTION("tc")
int turn_relay(struct __sk_buff *skb) {
    if (skb->pkt_type != 0 || skb->vlan_present) return up(UP_OTHER);
    if (skb->protocol == to_16(ETH_P_IP)) return relay_ipv4(skb);
    if (skb->protocol == to_16(ETH_P_IPV6)) return relay_ipv6(skb);
    return up(UP_OTHER);
}

/* (the kernel lends check_mtu to such programs alone) */
char LICENSE[] SECTION("license") = "Dual MIT/GPL";
