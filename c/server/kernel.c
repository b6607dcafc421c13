/* Relaying in the kernel: the flows by which kernel/relay.bpf.c relays the data of channels. A flow is there only
 * while the library says that its channel relays, and ends at the moment that the library says, whatever becomes of this
 * process. kernel/load.c has loaded the program and pinned its maps; this file fills them.
 *
 * A channel that the kernel relays is a pair: its two flows are in slots 2n and 2n + 1 of those of its worker. */
#include "server.h"

#include <fcntl.h>
#include <ifaddrs.h>
#include <linux/bpf.h>
#include <net/if.h>
#include <sys/file.h>
#include <sys/mman.h>
#include <sys/random.h>
#include <sys/syscall.h>

#include "kernel/relay.h"

enum {
    MTU = 1500,      /* longer packets go up: a way with a lower limit is left to the system */
    MOST_OWN = 128,  /* addresses of this machine */
    CHAINS = 1 << 14 /* of pairs, by their clients */
};
static const uint64_t SECOND = 1000000000, LEASE = 3 * 1000000000ull;
static const uint32_t NO_PAIR = UINT32_MAX;

typedef struct {
    bool is_live;
    uint16_t channel;
    stun_types_five_tuple client;
    stun_types_address peer;
    uint64_t relay;
    uint64_t until; /* by the library's clock */
    uint64_t freed; /* when it was given back; 0: it is new */
    uint32_t next;  /* in its chain, if it is live; otherwise in the list of those that are free */
} pair;

static struct {
    bool is_on;
    int folder, index;   /* the folder of the pins, which is locked; the map from keys to slots */
    struct flow *flows;  /* this and the next two are memory that the kernel reads */
    struct lease *leases;
    struct bucket *buckets;
    struct own own;      /* the addresses and interfaces by which the program relays */
    uint32_t near, far;  /* interfaces towards clients and towards peers */
    uint32_t share;      /* how many slots, and how many buckets, each worker has */
    struct {
        stun_types_address address;
        uint32_t interface;
    } machine[MOST_OWN];
    size_t machine_count;
} kernel = {.folder = -1, .index = -1};

/* What a worker has of it. */
static struct {
    uint32_t number, live;
    tally *mine;
    pair *pairs;
    uint32_t *chains;
    uint32_t first_free, last_free;
    uint64_t seed;
    uint32_t bandwidth, packet_rate; /* that its buckets have */
} own;

/* ---- The maps -------------------------------------------------------------------------------- */

/* (the headers of some systems have a shorter union) */
static int call_bpf(int command, union bpf_attr *how) { return (int)syscall(SYS_bpf, command, how, sizeof *how); }

static int open_pin(int which) {
    static const char *const names[] = RELAY_PINS;
    char path[sizeof RELAY_FOLDER + 32];
    union bpf_attr how;
    snprintf(path, sizeof path, "%s/%s", RELAY_FOLDER, names[which]);
    memset(&how, 0, sizeof how);
    how.pathname = (uintptr_t)path;
    return call_bpf(BPF_OBJ_GET, &how);
}

/* Whether a map has the form that this file knows. */
static bool has_form(int map, size_t key, size_t value, size_t entries) {
    struct bpf_map_info found;
    union bpf_attr how;
    memset(&found, 0, sizeof found);
    memset(&how, 0, sizeof how);
    how.info.bpf_fd = (uint32_t)map;
    how.info.info_len = sizeof found;
    how.info.info = (uintptr_t)&found;
    return call_bpf(BPF_OBJ_GET_INFO_BY_FD, &how) == 0 && found.key_size == key && found.value_size == value &&
           found.max_entries == entries;
}

/* Closes a map that was opened, or wasn't; fits: it has the form that it should have. */
static void close_map(int map, bool fits) {
    int error = map >= 0 && !fits ? EINVAL : errno;
    if (map >= 0) close(map);
    errno = error;
}

/* The memory of an array that the kernel reads; NULL: it isn't there, as errno says. */
static void *open_array(int which, size_t value, size_t entries) {
    int map = open_pin(which);
    bool fits = map >= 0 && has_form(map, sizeof(uint32_t), value, entries);
    void *at = fits ? mmap(NULL, value * entries, PROT_READ | PROT_WRITE, MAP_SHARED, map, 0) : MAP_FAILED;
    close_map(map, fits);
    return at == MAP_FAILED ? NULL : at;
}

/* Reads the only entry of a map. */
static bool read_entry(int which, void *into, size_t size) {
    uint32_t first = 0;
    union bpf_attr how;
    int map = open_pin(which);
    memset(&how, 0, sizeof how);
    how.map_fd = (uint32_t)map;
    how.key = (uintptr_t)&first;
    how.value = (uintptr_t)into;
    bool fits = map >= 0 && has_form(map, sizeof first, size, 1);
    bool is_read = fits && call_bpf(BPF_MAP_LOOKUP_ELEM, &how) == 0;
    close_map(map, fits);
    return is_read;
}

static bool put_in_index(const struct flow_key *key, uint32_t slot) {
    union bpf_attr how;
    memset(&how, 0, sizeof how);
    how.map_fd = (uint32_t)kernel.index;
    how.key = (uintptr_t)key;
    how.value = (uintptr_t)&slot;
    how.flags = BPF_NOEXIST;
    return call_bpf(BPF_MAP_UPDATE_ELEM, &how) == 0;
}

static void take_from_index(const struct flow_key *key) {
    union bpf_attr how;
    memset(&how, 0, sizeof how);
    how.map_fd = (uint32_t)kernel.index;
    how.key = (uintptr_t)key;
    (void)call_bpf(BPF_MAP_DELETE_ELEM, &how);
}

static bool open_maps(void) {
    kernel.index = open_pin(SLOTS);
    if (kernel.index < 0 || !has_form(kernel.index, sizeof(struct flow_key), sizeof(uint32_t), MOST_FLOWS)) return false;
    kernel.flows = open_array(FLOWS, sizeof *kernel.flows, MOST_FLOWS);
    kernel.leases = open_array(LEASES, sizeof *kernel.leases, MOST_LEASES);
    kernel.buckets = open_array(BUCKETS, sizeof *kernel.buckets, MOST_BUCKETS);
    return kernel.flows != NULL && kernel.leases != NULL && kernel.buckets != NULL &&
           read_entry(OWN, &kernel.own, sizeof kernel.own);
}

static void close_maps(void) {
    if (kernel.flows != NULL) (void)munmap(kernel.flows, MOST_FLOWS * sizeof *kernel.flows);
    if (kernel.leases != NULL) (void)munmap(kernel.leases, MOST_LEASES * sizeof *kernel.leases);
    if (kernel.buckets != NULL) (void)munmap(kernel.buckets, MOST_BUCKETS * sizeof *kernel.buckets);
    if (kernel.index >= 0) close(kernel.index);
    if (kernel.folder >= 0) close(kernel.folder);
    kernel.flows = NULL;
    kernel.leases = NULL;
    kernel.buckets = NULL;
    kernel.index = kernel.folder = -1;
    kernel.is_on = false;
}

/* ---- Addresses ------------------------------------------------------------------------------- */

static struct ip ip_of(const stun_types_address *address) {
    struct ip made = {{0}};
    if (address->family == 6) {
        memcpy(made.octets, address->octets, 16);
    } else {
        made.octets[10] = made.octets[11] = 0xff;
        memcpy(made.octets + 12, address->octets, 4);
    }
    return made;
}

static bool is_among(const struct own_place *places, int count, const stun_types_address *address) {
    struct ip ip = ip_of(address);
    for (const struct own_place *at = places; at < places + count; at++) {
        if (at->most == 0 || memcmp(&at->ip, &ip, sizeof ip) != 0) continue;
        if (address->port >= at->least && address->port <= at->most) return true;
    }
    return false;
}

/* Whether the program relays for clients of an endpoint, which may stand for several addresses. */
static bool is_listening(const endpoint *at) {
    if (!at->wildcard) return is_among(kernel.own.listening, MOST_LISTENING_PLACES, &at->address);
    for (const struct own_place *it = kernel.own.listening; it < kernel.own.listening + MOST_LISTENING_PLACES; it++) {
        if (at->address.port >= it->least && at->address.port <= it->most) return true;
    }
    return false;
}

/* ---- The supervisor -------------------------------------------------------------------------- */

/* Lists the addresses of this machine, with their interfaces. */
static bool list_machine(void) {
    struct ifaddrs *all;
    if (getifaddrs(&all) != 0) return false;
    for (const struct ifaddrs *at = all; at != NULL && kernel.machine_count < MOST_OWN; at = at->ifa_next) {
        struct sockaddr_storage bytes;
        bool is_four = at->ifa_addr != NULL && at->ifa_addr->sa_family == AF_INET;
        if (!is_four && (at->ifa_addr == NULL || at->ifa_addr->sa_family != AF_INET6)) continue;
        memset(&bytes, 0, sizeof bytes);
        memcpy(&bytes, at->ifa_addr, is_four ? sizeof(struct sockaddr_in) : sizeof(struct sockaddr_in6));
        if (!address_of(&bytes, &kernel.machine[kernel.machine_count].address)) continue;
        kernel.machine[kernel.machine_count++].interface = if_nametoindex(at->ifa_name);
    }
    freeifaddrs(all);
    return true;
}

/* Whether the clock of this process is the kernel's, in which a flow ends: a container may have another one. */
static bool has_kernel_clock(void) {
    long long seconds = 0, nanoseconds = 0;
    FILE *from = fopen("/proc/self/timens_offsets", "re");
    if (from == NULL) return true;
    bool is_read = fscanf(from, "monotonic %lld %lld", &seconds, &nanoseconds) == 2;
    fclose(from);
    return is_read && seconds == 0 && nanoseconds == 0;
}

/* Whether the program relays by an interface. */
static bool is_watched(uint32_t interface) {
    for (int i = 0; i < MOST_INTERFACES; i++) {
        if (interface != 0 && kernel.own.interfaces[i] == interface) return true;
    }
    return false;
}

/* Whether the program relays for clients of one of the sockets. */
static bool any_listens(const endpoints *of) {
    for (size_t i = 0; i < of->count; i++) {
        if (!of->all[i].stream && is_listening(&of->all[i])) return true;
    }
    return false;
}

/* Locks the folder of the pins: another server may use them. */
static bool lock_folder(void) {
    kernel.folder = open(RELAY_FOLDER, O_RDONLY | O_DIRECTORY | O_CLOEXEC);
    return kernel.folder >= 0 && flock(kernel.folder, LOCK_EX | LOCK_NB) == 0;
}

/* Why the kernel doesn't relay; NULL: it does. */
static const char *open_all_maps(const endpoints *of) {
    const char *near = text_setting(KERNEL, 0), *far = text_setting(KERNEL, 1);
    kernel.near = if_nametoindex(near);
    kernel.far = far != NULL ? if_nametoindex(far) : kernel.near;
    if (kernel.near == 0 || kernel.far == 0) return "no-interface";
    bool is_locked = lock_folder();
    if (!is_locked && errno == EWOULDBLOCK) return "in-use";
    if (!is_locked || !open_maps()) return errno == EPERM || errno == EACCES ? "no-rights" : "not-loaded";
    errno = 0;
    if (!is_watched(kernel.near) || !is_watched(kernel.far)) return "other-interface";
    if (!any_listens(of)) return "other-addresses";
    if (!has_kernel_clock()) return "other-clock";
    return list_machine() ? NULL : "no-addresses";
}

/* Ends the flows in some slots, and counts for a process what they relayed. */
static void end_slots(uint32_t first, uint32_t count, tally *of);

void open_kernel(const endpoints *of) {
    uint32_t workers = 0;
    if (text_setting(KERNEL, 0) == NULL) return;
    for (size_t i = 0; i < of->count; i++) workers += of->all[i].stream ? 0 : of->all[i].workers;
    errno = 0;
    const char *reason = workers == 0 ? "no-udp" : open_all_maps(of);
    if (reason != NULL) {
        say(WARNING, "event=kernel-off reason=%s error=%d\n", reason, errno);
        close_maps();
        return;
    }
    kernel.share = MOST_FLOWS / workers / 2 * 2;
    kernel.is_on = true;
    end_slots(0, MOST_FLOWS, NULL);
    for (int i = 0; i < MOST_LEASES; i++) kernel.leases[i].life++;
    say(NEWS, "event=kernel-on flows=%u\n", (unsigned)(kernel.share * workers));
}

static void set_until(struct flow *of, uint64_t until) { __atomic_store_n(&of->until, until, __ATOMIC_SEQ_CST); }

/* Counts what a flow has relayed since the last time, also for its allocation, if that is there. */
static void count_flow(struct flow *of, bool to_peer, tally *in, relay *by) {
    uint64_t datagrams = __atomic_exchange_n(&of->datagrams, 0, __ATOMIC_RELAXED);
    uint64_t octets = __atomic_exchange_n(&of->octets, 0, __ATOMIC_RELAXED);
    relayed_data *sum = by == NULL ? NULL : to_peer ? &by->to_peer : &by->to_client;
    count(in, to_peer ? TURN_TO_PEER : TURN_TO_CLIENT, datagrams);
    count(in, to_peer ? TURN_TO_PEER_OCTETS : TURN_TO_CLIENT_OCTETS, octets);
    count(in, TURN_IN_KERNEL, datagrams);
    count(in, TURN_IN_KERNEL_OCTETS, octets);
    count(in, TURN_OVER, __atomic_exchange_n(&of->over, 0, __ATOMIC_RELAXED));
    if (sum == NULL) return;
    sum->datagrams += datagrams;
    sum->octets += octets;
}

static void end_slots(uint32_t first, uint32_t many, tally *of) {
    for (struct flow *at = kernel.flows + first; at < kernel.flows + first + many; at++) {
        if (at->mtu == 0) continue; /* (it was never used) */
        set_until(at, 0);
        take_from_index(&at->key);
        if (of != NULL) count_flow(at, at->key.number != 0, of, NULL);
    }
}

void end_life(size_t worker, tally *of) {
    if (!kernel.is_on || worker >= MOST_LEASES || kernel.share * (worker + 1) > MOST_FLOWS) return;
    __atomic_store_n(&kernel.leases[worker].until, 0, __ATOMIC_SEQ_CST);
    kernel.leases[worker].life++;
    end_slots((uint32_t)worker * kernel.share, kernel.share, of);
}

void end_kernel(tally *of) {
    if (kernel.is_on) end_slots(0, MOST_FLOWS, of);
}

void leave_kernel(void) { close_maps(); }

/* ---- A worker -------------------------------------------------------------------------------- */

static struct flow *slot_of(uint32_t number, bool to_peer) {
    return &kernel.flows[own.number * kernel.share + 2 * number + (to_peer ? 0 : 1)];
}

static void add_free(uint32_t number, uint64_t freed) {
    own.pairs[number].is_live = false;
    own.pairs[number].freed = freed;
    own.pairs[number].next = NO_PAIR;
    if (own.first_free == NO_PAIR) own.first_free = number;
    else own.pairs[own.last_free].next = number;
    own.last_free = number;
}

/* Has the pairs of a new worker be free: last those that the one before has used, since the kernel may still read
 * one. */
static void free_all(void) {
    uint64_t now = nanoseconds();
    own.first_free = NO_PAIR;
    for (int used = 0; used < 2; used++) {
        for (uint32_t i = 0; i < kernel.share / 2; i++) {
            if ((slot_of(i, true)->mtu != 0) == (used == 1)) add_free(i, used == 1 ? now : 0);
        }
    }
}

bool begin_flows(size_t worker, tally *mine) {
    if (!kernel.is_on) return true;
    own.number = (uint32_t)worker;
    own.mine = mine;
    own.pairs = calloc(kernel.share / 2, sizeof *own.pairs);
    own.chains = calloc(CHAINS, sizeof *own.chains);
    if (own.pairs == NULL || own.chains == NULL) return cannot("no memory");
    if (getrandom(&own.seed, sizeof own.seed, 0) != sizeof own.seed) return cannot("no random numbers");
    for (uint32_t i = 0; i < CHAINS; i++) own.chains[i] = NO_PAIR;
    free_all();
    own.bandwidth = setting(BANDWIDTH);
    own.packet_rate = setting(PACKET_RATE);
    return true;
}

bool has_flows(void) { return kernel.is_on; }

void vouch(uint64_t now) {
    if (kernel.is_on) __atomic_store_n(&kernel.leases[own.number].until, now + LEASE, __ATOMIC_SEQ_CST);
}

/* The chain of the pairs of a client. */
static uint32_t *chain_of(const stun_types_five_tuple *client) {
    const uint8_t *bytes = (const uint8_t *)client;
    uint64_t sum = own.seed;
    for (size_t i = 0; i < sizeof *client; i++) sum = (sum ^ bytes[i]) * 0x100000001b3;
    return &own.chains[(sum ^ sum >> 32) % CHAINS];
}

static bool is_client(const pair *of, const stun_types_five_tuple *client) {
    return memcmp(&of->client, client, sizeof *client) == 0;
}

static uint32_t find_pair(const stun_types_five_tuple *client, uint16_t channel) {
    uint32_t at = *chain_of(client);
    while (at != NO_PAIR && !(own.pairs[at].channel == channel && is_client(&own.pairs[at], client))) {
        at = own.pairs[at].next;
    }
    return at;
}

/* A pair that has been free for a second: no program reads its slots any more. */
static uint32_t take_pair(void) {
    uint32_t taken = own.first_free;
    if (taken == NO_PAIR) return NO_PAIR;
    uint64_t freed = own.pairs[taken].freed;
    if (freed > 0 && nanoseconds() - freed < SECOND) return NO_PAIR;
    own.first_free = own.pairs[taken].next;
    return taken;
}

static void count_pair(uint32_t number) {
    relay *by = find_relay(own.pairs[number].relay);
    count_flow(slot_of(number, true), true, own.mine, by);
    count_flow(slot_of(number, false), false, own.mine, by);
}

static void end_pair(uint32_t number) {
    pair *of = &own.pairs[number];
    uint32_t *at = chain_of(&of->client);
    for (int i = 0; i < 2; i++) {
        set_until(slot_of(number, i == 0), 0);
        take_from_index(&slot_of(number, i == 0)->key);
    }
    count_pair(number);
    while (*at != number) at = &own.pairs[*at].next;
    *at = of->next;
    add_free(number, nanoseconds());
    set_gauge(own.mine, FLOWS_NOW, --own.live);
}

/* ---- Which channels the kernel can relay ----------------------------------------------------- */

/* The address that this machine sends from to another one; false: it sends nothing there. */
static bool find_source(const stun_types_address *to, stun_types_address *source) {
    socket_address at;
    socklen_t length = sizeof at.bytes;
    memset(&at, 0, sizeof at);
    socket_address_of(to, &at);
    int made = socket(at.bytes.ss_family, SOCK_DGRAM | SOCK_NONBLOCK | SOCK_CLOEXEC, 0);
    bool is_found = made >= 0 && connect(made, (const struct sockaddr *)&at.bytes, at.length) == 0 &&
                    getsockname(made, (struct sockaddr *)&at.bytes, &length) == 0 && address_of(&at.bytes, source);
    if (made >= 0) close(made);
    return is_found;
}

static bool is_same_ip(const stun_types_address *one, const stun_types_address *other) {
    return one->family == other->family && memcmp(one->octets, other->octets, sizeof one->octets) == 0;
}

/* Whether the way to an address is by an interface, as the address that is sent from says. That to one of this
 * machine itself isn't: it is sent from that. */
static bool is_by(uint32_t interface, const stun_types_address *to) {
    stun_types_address source;
    if (!find_source(to, &source) || is_same_ip(to, &source)) return false;
    for (size_t i = 0; i < kernel.machine_count; i++) {
        if (kernel.machine[i].interface == interface && is_same_ip(&kernel.machine[i].address, &source)) return true;
    }
    return false;
}

/* A limit of all that a user has isn't the kernel's: it knows no users. */
static bool are_limits_known(void) { return setting(USER_BANDWIDTH) == 0 && setting(USER_PACKET_RATE) == 0; }

static bool can_carry(const relay *by, const stun_types_five_tuple *client, const stun_types_flow *flow) {
    stun_types_address bound = bound_address(by);
    return are_limits_known() && by->socket >= 0 && relay_slot(by) < kernel.share &&
           client->client.family == flow->peer.family &&
           is_among(kernel.own.listening, MOST_LISTENING_PLACES, &client->server) &&
           is_among(kernel.own.relayed, MOST_RELAYED_PLACES, &bound) && is_by(kernel.near, &client->client) &&
           is_by(kernel.far, &flow->peer);
}

/* ---- Flows ----------------------------------------------------------------------------------- */

/* A flow's way: what comes from one address to another leaves from a third for a fourth. */
typedef struct {
    const stun_types_address *from, *to, *by, *then;
    uint16_t read, written; /* channel numbers; 0: none */
} way;

static void fill_slot(struct flow *made, const way *of, bool to_peer, const relay *by) {
    memset(made, 0, sizeof *made);
    made->key = (struct flow_key){.theirs = ip_of(of->from), .ours = ip_of(of->to),
                                  .their_port = htons(of->from->port), .our_port = htons(of->to->port),
                                  .number = htons(of->read)};
    made->ours = ip_of(of->by);
    made->theirs = ip_of(of->then);
    made->our_port = htons(of->by->port);
    made->their_port = htons(of->then->port);
    made->number = htons(of->written);
    made->mtu = MTU;
    made->from_interface = to_peer ? kernel.near : kernel.far;
    made->to_interface = to_peer ? kernel.far : kernel.near;
    made->worker = own.number;
    made->life = kernel.leases[own.number].life;
    made->bucket = own.number * kernel.share + (uint32_t)relay_slot(by);
}

/* Begins a flow that is over, until it is extended. */
static bool begin_flow(uint32_t number, const way *of, bool to_peer, const relay *by) {
    struct flow *made = slot_of(number, to_peer);
    count_flow(made, to_peer, own.mine, NULL); /* (what came in the end) */
    fill_slot(made, of, to_peer, by);
    atomic_thread_fence(memory_order_seq_cst);
    return put_in_index(&made->key, (uint32_t)(made - kernel.flows));
}

static bool begin_both(uint32_t number, const relay *by, const stun_types_five_tuple *client,
                       const stun_types_address *peer, uint16_t channel) {
    stun_types_address bound = bound_address(by);
    const way out = {&client->client, &client->server, &bound, peer, channel, 0};
    const way back = {peer, &bound, &client->server, &client->client, 0, channel};
    if (!begin_flow(number, &out, true, by)) return false;
    if (begin_flow(number, &back, false, by)) return true;
    take_from_index(&slot_of(number, true)->key);
    return false;
}

/* Has both flows of a pair last until a moment of the library's clock. */
static void extend_pair(uint32_t number, uint64_t until) {
    own.pairs[number].until = until;
    for (int i = 0; i < 2; i++) set_until(slot_of(number, i == 0), until - nonce_time(0));
}

static void begin_pair(const relay *by, const stun_types_five_tuple *client, uint16_t channel,
                       const stun_types_flow *flow) {
    uint32_t number = take_pair();
    if (number == NO_PAIR) return;
    if (!begin_both(number, by, client, &flow->peer, channel)) {
        add_free(number, nanoseconds());
        return;
    }
    uint32_t *chain = chain_of(client);
    own.pairs[number] = (pair){.is_live = true, .channel = channel, .client = *client, .peer = flow->peer,
                               .relay = flow->relay, .next = *chain};
    *chain = number;
    extend_pair(number, flow->expires_at);
    set_gauge(own.mine, FLOWS_NOW, ++own.live);
}

/* Makes what the kernel relays of a channel what the library says that it relays. */
static void agree(stun_types_turn *server, const stun_types_five_tuple *client, uint16_t channel) {
    stun_types_flow flow;
    uint32_t there = find_pair(client, channel);
    bool is_flow = stun_types_turn_flow(server, client, channel, &flow);
    const relay *by = is_flow ? find_relay(flow.relay) : NULL;
    bool fits = by != NULL && can_carry(by, client, &flow);
    bool is_same = there != NO_PAIR && own.pairs[there].relay == flow.relay &&
                   memcmp(&own.pairs[there].peer, &flow.peer, sizeof flow.peer) == 0;
    if (fits && is_same) {
        extend_pair(there, flow.expires_at);
        return;
    }
    if (there != NO_PAIR) end_pair(there);
    if (fits) begin_pair(by, client, channel, &flow);
}

void follow_request(stun_types_turn *server, const stun_types_five_tuple *client, const uint8_t *request,
                    size_t length) {
    stun_types_attribute found;
    if (!kernel.is_on || client->stream != 0) return;
    for (uint32_t at = *chain_of(client), next; at != NO_PAIR; at = next) {
        next = own.pairs[at].next;
        if (is_client(&own.pairs[at], client)) agree(server, client, own.pairs[at].channel);
    }
    if (!stun_types_find(request, length, STUN_TYPES_ATTRIBUTE_CHANNEL_NUMBER, &found) || found.length != 4) return;
    agree(server, client, (uint16_t)(request[found.value_at] << 8 | request[found.value_at + 1]));
}

void follow_data(stun_types_turn *server, relay *by, uint16_t channel, uint64_t now) {
    const stun_types_five_tuple *client = &by->client.tuple;
    if (!kernel.is_on || client->stream != 0 || now < by->offered_at) return;
    if (find_pair(client, channel) == NO_PAIR) agree(server, client, channel);
    if (find_pair(client, channel) == NO_PAIR) by->offered_at = now + SECOND;
}

void end_flows(const relay *of) {
    const stun_types_five_tuple *client = &of->client.tuple;
    if (!kernel.is_on || client->stream != 0) return;
    for (uint32_t at = *chain_of(client), next; at != NO_PAIR; at = next) {
        next = own.pairs[at].next;
        if (own.pairs[at].relay == of->number) end_pair(at);
    }
}

void end_all_flows(void) {
    for (uint32_t i = 0; kernel.is_on && i < kernel.share / 2; i++) {
        if (own.pairs[i].is_live) end_pair(i);
    }
}

/* ---- Rates ----------------------------------------------------------------------------------- */

/* The bucket of an allocation, which this process and the kernel pay into; NULL: it has none. */
static struct bucket *bucket_of(const relay *of) {
    if (!kernel.is_on || relay_slot(of) >= kernel.share) return NULL;
    return &kernel.buckets[own.number * kernel.share + relay_slot(of)];
}

static void set_rates(struct bucket *of) {
    __atomic_store_n(&of->bandwidth, own.bandwidth, __ATOMIC_RELAXED);
    __atomic_store_n(&of->packet_rate, own.packet_rate, __ATOMIC_RELAXED);
}

void begin_bucket(const relay *of) {
    struct bucket *begun = bucket_of(of);
    if (begun == NULL) return;
    *begun = (struct bucket){.octets_until = 0};
    set_rates(begun);
}

bool may_pass_beside_kernel(relay *of, bool packets, uint32_t rate, size_t amount, uint64_t now) {
    struct bucket *shared = bucket_of(of);
    if (shared == NULL) return may_pass_by(packets ? &of->packets_until : &of->octets_until, rate, amount, now);
    __u64 *until = packets ? &shared->packets_until : &shared->octets_until, was = *until;
    uint64_t paid;
    do {
        paid = was;
        if (!may_pass_by(&paid, rate, amount, now)) return false;
    } while (!__atomic_compare_exchange_n(until, &was, paid, false, __ATOMIC_SEQ_CST, __ATOMIC_SEQ_CST));
    return true;
}

/* Has the kernel know of rates that have changed. */
static void follow_rates(void) {
    uint32_t bandwidth = setting(BANDWIDTH), packet_rate = setting(PACKET_RATE);
    if (bandwidth == own.bandwidth && packet_rate == own.packet_rate) return;
    own.bandwidth = bandwidth;
    own.packet_rate = packet_rate;
    for (uint32_t i = 0; i < kernel.share; i++) set_rates(&kernel.buckets[own.number * kernel.share + i]);
}

void look_after_flows(uint64_t now) {
    if (!kernel.is_on) return;
    follow_rates();
    for (uint32_t i = 0; i < kernel.share / 2; i++) {
        if (!own.pairs[i].is_live) continue;
        if (own.pairs[i].until <= now || !are_limits_known()) end_pair(i);
        else count_pair(i);
    }
}
