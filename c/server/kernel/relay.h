/* What relay.bpf.c shares with load.c, which pins its maps, and with the server, which fills them. Addresses
 * are in network order, and so are ports, except those of `struct own`. */
#ifndef RELAY_H
#define RELAY_H

#include <linux/types.h>

/* The folder of the pins, in a file system of type bpf; and their names, by the numbers of the maps. */
#define RELAY_FOLDER "/sys/fs/bpf/stun-server"
#define RELAY_PINS {"slots", "flows", "leases", "buckets", "reasons", "own"}
enum { SLOTS, FLOWS, LEASES, BUCKETS, REASONS, OWN, RELAY_MAPS };

enum {
    MOST_FLOWS = 65536,
    MOST_BUCKETS = 65536,
    MOST_LEASES = 64,
    MOST_LISTENING_PLACES = 8,
    MOST_RELAYED_PLACES = 2, /* one of a family */
    MOST_INTERFACES = 4
};
#define NO_BUCKET 0xFFFFFFFFu /* of a flow without limits */

/* An address of IPv6, or one of IPv4 as ::ffff:a.b.c.d. */
struct ip {
    __u8 octets[16];
} __attribute__((aligned(8)));

/* slots: a hash from a key to the number of the flow's slot. Who sent a datagram, where it came to, and its
 * channel number; 0: it is a peer's, which has none. A relayed address is no address that clients send to, so
 * no two flows have one key. */
struct flow_key {
    struct ip theirs, ours;
    __be16 their_port, our_port;
    __be16 number;
    __u16 zero;
};

/* flows: an array that its writers map into their memory. What becomes of a datagram: from which address it
 * goes where, and with which channel number before it.
 *
 * A writer fills a slot while `until` is 0, then puts its number into `slots`, then sets `until`; it may set
 * `until` again at any time. To end a flow it sets `until` to 0, takes it out of `slots`, and leaves the slot
 * alone for a second, since the kernel may still be reading it. The kernel adds to `over`, `datagrams` and
 * `octets` atomically, and a writer exchanges them for 0 to count. */
struct flow {
    struct flow_key key;
    struct ip ours, theirs;
    __be16 our_port, their_port;
    __be16 number; /* 0: none; otherwise the datagram gets a head of ChannelData */
    __u16 mtu;     /* no longer IP packet of this flow is sent, nor one that the interface doesn't take */
    __u64 until;   /* CLOCK_MONOTONIC in nanoseconds: the first end among those of channel, permission and allocation */
    __u32 from_interface, to_interface;
    __u32 worker; /* whose lease it has, below MOST_LEASES, and in which of its lives */
    __u32 life;
    __u32 bucket; /* NO_BUCKET: its octets and datagrams have no limit */
    __u32 over;   /* datagrams that a rate dropped */
    __u64 datagrams, octets; /* that were relayed; the octets are those of the data */
} __attribute__((aligned(64)));

/* leases: an array that is mapped too. A process vouches for its flows until this moment, which it moves on
 * while it lives. Whoever starts a process raises `life` first. */
struct lease {
    __u64 until;
    __u32 life;
    __u32 zero;
};

/* buckets: an array that is mapped too. The rates of an allocation, 0 for any, and until when what has passed
 * is paid for, by process and kernel, as rate.c says: a datagram pays as one, and as its octets, 28 at least. */
struct bucket {
    __u64 octets_until, packets_until;
    __u32 bandwidth, packet_rate; /* octets and datagrams a second */
};

/* own: an array of one, which the loader writes once; then nobody can. The program relays only what comes to an
 * own address and leaves from one, by these interfaces. Unused entries are zeros. */
struct own_place {
    struct ip ip;
    __u16 least, most; /* ports, both included, in the machine's order */
};
struct own {
    struct own_place listening[MOST_LISTENING_PLACES];
    struct own_place relayed[MOST_RELAYED_PLACES];
    __u32 interfaces[MOST_INTERFACES];
};

/* reasons: how many datagrams for each of these, an array of each processor's counts. Why one went up to the
 * server, or what else became of it. */
enum reason {
    UP_OTHER,     /* no UDP, or not for this machine */
    UP_NOT_PLAIN, /* options, fragments, extension headers, lengths that don't agree */
    UP_UNKNOWN,   /* no flow */
    UP_SEGMENTS,  /* several datagrams in one, or one whose checksum isn't written yet */
    UP_LENGTH,    /* the length field isn't that of the datagram */
    UP_EXPIRED,
    UP_UNVOUCHED, /* the process has died or hangs */
    UP_INTERFACE, /* it came by another one */
    UP_TOO_LONG,
    UP_TTL,
    UP_FAMILY, /* it would leave by the other version of IP */
    UP_NOT_OWN, /* the flow isn't from own addresses to own addresses and interfaces */
    RELAYED,
    DROPPED_OVER,
    DROPPED_ERROR,
    REASON_COUNT
};

#endif
