/* The TURN server of a process: what the library decides is done here with sockets. */
#include "server.h"

#include <sys/epoll.h>
#include <sys/random.h>

enum {
    FEW = 64, /* datagrams that are received from one relay socket before it is the others' turn */
    /* what comes before the data, the longest datagram, and zeros after it; an odd number of lines of
     * the cache spreads the rooms over it */
    PEER_ROOM = STUN_TYPES_TURN_HEAD + 65536 + 16 + 64,
    IDS = 64,
    LEAST_OCTETS = 28, /* that a datagram counts as: the headers of IPv4 and UDP */
    CHANNELS = 0x40, /* the least first byte of ChannelData, */
    CHANNEL_HEAD = 4 /* and the length of its head */
};

/* What was settled before the workers started. */
static struct {
    stun_types_turn_settings settings;
    rate_table *user_octets, *user_packets;
} plan;

static struct {
    stun_types_turn server;
    turn_process process;
    uint64_t now, clock; /* the library's time, and that of nanoseconds() */
    user_keys keys;
    stun_types_id ids[IDS]; /* random */
    size_t ids_left;
    bool sets_fields, reads_fields; /* of the IP header */
} turn;

/* Datagrams for peers that wait, and those of peers. */
static struct {
    struct mmsghdr messages[HELD];
    struct iovec places[HELD];
    socket_address peers[HELD];
    relay *from[HELD];
    sent_control controls[HELD];
    bool are_whole[HELD]; /* over IPv4, with the DF bit */
    int count;
} outgoing;
static uint8_t copies[4 * 65536]; /* of their data, if what they came in doesn't stay */
static size_t copied;
static struct mmsghdr incoming[FEW];
static struct iovec incoming_at[FEW];
static struct sockaddr_storage sources[FEW];
static received_control incoming_controls[FEW];
static uint8_t rooms[HELD][PEER_ROOM];
static size_t held;

/* ---- The start ------------------------------------------------------------------------------- */

static void set_limits(void) {
    plan.settings.limits = (stun_types_turn_limits){.relays = setting(ALLOCATIONS),
                                                    .relays_per_user = setting(USER_ALLOCATIONS),
                                                    .reservations = setting(RESERVATIONS),
                                                    .greatest_lifetime = setting(LIFETIME),
                                                    .ipv4 = relays_family(4),
                                                    .ipv6 = relays_family(6),
                                                    .dont_fragment = setting(DONT_FRAGMENT) != 0,
                                                    .icmp = setting(ICMP) != 0,
                                                    .channel_permits = setting(CHANNEL_PERMITS) != 0,
                                                    .old_channels = setting(OLD_CHANNELS) != 0};
}

static void set_settings(void) {
    bool has_hashes = text_setting(SECRET, 0) == NULL; /* a hash doesn't say until when it is valid */
    const char *software = setting(SOFTWARE) ? "stun-types" : "";
    plan.settings.window = setting(NONCE_LIFETIME);
    set_limits();
    if (setting(SHA256)) plan.settings.features |= STUN_TYPES_FEATURE_PASSWORD_ALGORITHMS;
    if (has_hashes) plan.settings.features |= STUN_TYPES_FEATURE_USERNAME_ANONYMITY;
    plan.settings.software = software;
    plan.settings.software_length = strlen(software);
}

/* Makes a TURN server. */
static bool make_server(stun_types_turn *made) {
    stun_types_key secret = STUN_TYPES_KEY_INIT;
    plan.settings.realm = text_setting(REALM, 0);
    plan.settings.realm_length = strlen(plan.settings.realm);
    size_t length = sizeof plan.settings.seed;
    if (getrandom(plan.settings.seed, length, 0) != (ssize_t)length) return cannot("no random numbers");
    if (!make_nonce_key(&secret)) return false;
    stun_types_answer answer = stun_types_turn_new(made, &plan.settings, &secret);
    stun_types_key_free(&secret);
    return answer.code == STUN_TYPES_OK || complain(stun_types_status_text(answer.code));
}

bool prepare_turn(const endpoints *of) {
    stun_types_turn tried = STUN_TYPES_TURN_INIT;
    if (text_setting(REALM, 0) == NULL) return complain("realm is missing; one, as example.org, is needed");
    if (text_setting(USERS, 0) == NULL && text_setting(SECRET, 0) == NULL) {
        return complain("users and secret are missing; one of them, a file, is needed");
    }
    for (const endpoint *at = of->all; at < of->all + of->count; at++) {
        if (at->stream || at->workers == 1) continue;
        return complain("processes can't share a socket that was passed: -j 1");
    }
    if (setting(RESERVATIONS) > 0 && options.processes > 1) {
        return complain("reservations are known to one process; -j 1 is needed, or reservations 0");
    }
    if (!prepare_relays(of) || !make_users() || !prepare_nonces()) return false;
    set_settings();
    if (!prepare_peers(of, &plan.settings) || !prepare_drain()) return false;
    if ((plan.user_octets = make_rate_table()) == NULL) return false;
    if ((plan.user_packets = make_rate_table()) == NULL || !make_server(&tried)) return false;
    stun_types_turn_free(&tried);
    return true;
}

void renew_turn(void) {
    renew_alternates();
    renew_peers(&plan.settings);
    set_limits();
}

size_t turn_files(void) { return setting(TURN) ? setting(ALLOCATIONS) + setting(RESERVATIONS) + 16 : 0; }

bool begin_turn(const turn_process *of) {
    turn.process = *of;
    turn.now = nonce_time(nanoseconds());
    turn.reads_fields = setting(HEADER_FIELDS);
    turn.sets_fields = turn.reads_fields || setting(DONT_FRAGMENT);
    for (int i = 0; i < HELD; i++) {
        outgoing.messages[i].msg_hdr.msg_name = &outgoing.peers[i].bytes;
        outgoing.messages[i].msg_hdr.msg_iov = &outgoing.places[i];
        outgoing.messages[i].msg_hdr.msg_iovlen = 1;
    }
    for (int i = 0; i < FEW; i++) {
        incoming[i].msg_hdr.msg_name = &sources[i];
        incoming[i].msg_hdr.msg_iov = &incoming_at[i];
        incoming[i].msg_hdr.msg_iovlen = 1;
    }
    if (!make_server(&turn.server) || !begin_relays()) return false;
    (void)have_users_changed(); /* (they haven't, from now on) */
    forget_nonce_secret();
    open_spares(turn.process.mine);
    return true;
}

/* Has the server take limits and rules that have changed. */
static void follow_settings(void) {
    const stun_types_turn_limits *limits = &plan.settings.limits;
    if (limits->relays_per_user != setting(USER_ALLOCATIONS) || limits->greatest_lifetime != setting(LIFETIME)) {
        set_limits();
        stun_types_answer answer = stun_types_turn_set_limits(&turn.server, limits);
        (void)answer; /* (there is a server, and nothing else is wrong) */
    }
    (void)follow_peers(&turn.server, &plan.settings);
}

/* ---- The end of relays ----------------------------------------------------------------------- */

static void log_end(const relay *of, unsigned why) {
    if (!is_logging()) return;
    log_allocation(&(log_event){.kind = LOG_ENDED,
                                .why = why,
                                .tuple = of->client.tuple,
                                .relayed = of->relayed,
                                .lasted = turn.now - of->opened,
                                .to_peer = of->to_peer,
                                .to_client = of->to_client,
                                .user = of->name});
}

static void close_relay(uint64_t number, unsigned why) {
    relay *ended = find_relay(number);
    count(turn.process.mine, TURN_ENDED, 1);
    if (ended == NULL) return;
    raise_by(&turn.process.mine->gauges[ALLOCATIONS_NOW], UINT64_MAX); /* (one less) */
    end_flows(ended);
    log_end(ended, why);
    if (turn.process.changed != NULL) turn.process.changed(ended, false);
    free_relay(ended);
}

/* Closes the sockets that the last call ended: it says how many. What waits for them, and for their clients,
 * is sent first. */
static void close_ended(size_t ended, unsigned why) {
    enum { MANY = 64 };
    uint64_t numbers[MANY];
    size_t got = 0;
    if (ended == 0) return;
    send_to_peers();
    if (turn.process.flush != NULL) turn.process.flush();
    for (size_t first = 0; first < ended; first += got) {
        got = stun_types_turn_ended(&turn.server, numbers, MANY, first);
        if (got == 0) return;
        for (size_t i = 0; i < got; i++) close_relay(numbers[i], why);
    }
}

/* (the calls for other causes end what has expired too: that goes first) */
static void end_expired(void) {
    close_ended(stun_types_turn_poll(&turn.server, turn.now), END_EXPIRED);
}

void end_relay(uint64_t number) {
    end_expired();
    close_ended(stun_types_turn_end(&turn.server, turn.now, number), END_CLOSED);
}

static void show_reserved(void) { set_gauge(turn.process.mine, RESERVED_NOW, count_reserved()); }

/* Closes the reserved sockets whose time is over, before another call ends them. */
static void end_reserved(void) {
    enum { MANY = 64 };
    uint64_t tokens[MANY];
    size_t got = 0;
    end_expired();
    for (size_t first = 0; (got = stun_types_turn_over(&turn.server, tokens, MANY, first)) > 0; first += got) {
        for (size_t i = 0; i < got; i++) close_reserved(tokens[i]);
    }
    show_reserved();
}

void begin_turn_at(uint64_t now) {
    turn.now = nonce_time(now);
    turn.clock = now;
    vouch(now);
    follow_settings();
    held = 0;
    if (is_reserved_over(turn.now)) end_reserved();
}

/* Ends the relays of users whom the file had and no longer has. */
static void end_revoked(void) {
    if (!have_users_changed()) return;
    for (size_t slot = 0; slot < setting(ALLOCATIONS); slot++) {
        const relay *at = relay_at(slot);
        if (at == NULL || !at->is_listed || is_listed_user(&at->hash)) continue;
        close_ended(stun_types_turn_end_user(&turn.server, turn.now, &at->hash), END_REVOKED);
    }
}

void look_after_relays(void) {
    end_expired();
    end_revoked();
    look_after_flows(turn.now);
    open_spares(turn.process.mine);
}

void log_last_relays(void) {
    for (size_t slot = 0; setting(TURN) && slot < setting(ALLOCATIONS); slot++) {
        const relay *at = relay_at(slot);
        if (at != NULL) log_end(at, END_STOPPED);
    }
}

/* ---- From a client --------------------------------------------------------------------------- */

enum { ALLOCATE = 0x0003, REFRESH = 0x0004 };

static bool is_request(const uint8_t *bytes, size_t length, int method) {
    return length >= 2 && (bytes[0] << 8 | bytes[1]) == method;
}

/* Has the library refuse an Allocate request while the server is drained, or send its client elsewhere. */
static void withhold(stun_types_turn_datagram *request) {
    stun_types_address other = alternate_of(request->from.client.family);
    memset(&request->ready, 0, sizeof request->ready);
    stun_types_answer answer = stun_types_turn_set_alternate(&turn.server, &other);
    (void)answer; /* (as above) */
}

/* Passes the sockets that are ready with a request of a user, which alone takes one; and a token, without which
 * it reserves none. */
static void pass_sockets(stun_types_turn_datagram *request) {
    request->ready = *ready_sockets();
    if (setting(RESERVATIONS) == 0) return;
    if (getrandom(&request->token, sizeof request->token, 0) == sizeof request->token) return;
    memset(&request->ready.next_ipv4, 0, sizeof request->ready.next_ipv4);
    memset(&request->ready.next_ipv6, 0, sizeof request->ready.next_ipv6);
}

static stun_types_answer pass_on(const turn_client *from, const uint8_t *bytes, size_t length,
                                 bool looked_up, uint8_t *room, size_t size,
                                 stun_types_turn_action *action) {
    stun_types_turn_datagram datagram = {.bytes = bytes,
                                         .length = length,
                                         .from = from->tuple,
                                         .looked_up = looked_up};
    if (looked_up) pass_sockets(&datagram);
    bool refreshes = looked_up && is_request(bytes, length, REFRESH);
    if (refreshes) end_expired();
    if (looked_up && is_draining()) withhold(&datagram);
    stun_types_answer answer = stun_types_turn_client(&turn.server, turn.now, &datagram, &turn.keys.md5,
                                                      &turn.keys.sha256, room, size, action);
    close_ended(action->ended, refreshes ? END_DELETED : END_EXPIRED);
    return answer;
}

static void free_keys(void) {
    stun_types_key_free(&turn.keys.md5);
    stun_types_key_free(&turn.keys.sha256);
}

/* Finds keys of the user of a request. False, and there are none: the user isn't known, or has no more. */
static bool find_keys(const uint8_t *request, size_t length, unsigned attempt) {
    if (find_user(request, length, attempt, &turn.keys)) return true;
    free_keys();
    return false;
}

/* Passes a signed request on with the keys of its user: with each of them until one isn't refused. */
static stun_types_answer pass_on_signed(const turn_client *from, const uint8_t *datagram, size_t length,
                                        uint8_t *room, size_t size, stun_types_turn_action *action) {
    stun_types_answer answer = {STUN_TYPES_OUT_OF_MEMORY, 0, 0, 0};
    stun_types_address itself;
    unsigned attempt = 0;
    bool is_known;
    if (binds_server(datagram, length, &itself) && !deny_server(&turn.server, &plan.settings, &itself)) return answer;
    do {
        is_known = find_keys(datagram, length, attempt);
        if (!is_known && attempt > 0) break;
        answer = pass_on(from, datagram, length, true, room, size, action);
        free_keys();
    } while (is_known && answer.code == STUN_TYPES_OK && action->kind == STUN_TYPES_TURN_RESPONSE &&
             action->code == STUN_TYPES_CODE_UNAUTHORIZED && ++attempt > 0);
    return answer;
}

static void log_open(const relay *of) {
    if (!is_logging()) return;
    log_allocation(&(log_event){.kind = LOG_OPENED,
                                .tuple = of->client.tuple,
                                .relayed = of->relayed,
                                .user = of->name});
}

/* Has the log know of an Allocate request that is refused. A client's first one isn't signed, and refused by
 * the rules: it doesn't count. */
static void log_refusal(const turn_client *from, uint32_t code, bool is_signed) {
    log_event event = {.kind = LOG_REFUSED, .code = code, .tuple = from->tuple};
    if (!is_logging() || (code == STUN_TYPES_CODE_UNAUTHORIZED && !is_signed)) return;
    if (is_signed) event.user = turn.keys.name;
    log_allocation(&event);
}

/* Keeps the socket that a request took, if it took one. If it can't be waited for, the relay has none. */
static void keep_socket(const turn_client *of, const stun_types_turn_opened *opened) {
    struct epoll_event event;
    if (!opened->took) return;
    relay *taken = take_spare(&opened->relayed, opened->relay);
    open_spares(turn.process.mine);
    if (taken == NULL) return;
    taken->client = *of;
    taken->user = turn.keys.user;
    taken->hash = turn.keys.hash;
    taken->is_listed = turn.keys.is_listed;
    taken->name = turn.keys.name;
    taken->relayed = opened->relayed;
    taken->opened = turn.now;
    begin_bucket(taken);
    memset(&event, 0, sizeof event);
    event.events = EPOLLIN;
    event.data.u64 = turn.process.first + relay_slot(taken);
    if (epoll_ctl(turn.process.poller, EPOLL_CTL_ADD, taken->socket, &event) != 0) {
        close_relay_socket(taken);
    }
    if (turn.process.changed != NULL) turn.process.changed(taken, true);
    count(turn.process.mine, TURN_ALLOCATED, 1);
    raise_by(&turn.process.mine->gauges[ALLOCATIONS_NOW], 1);
    log_open(taken);
}

/* Keeps the socket that a request reserved, or gives it the one that it claims, before keep_socket. */
static void keep_reserved(const stun_types_turn_action *action) {
    const stun_types_turn_opened *opened = action->ipv4.took ? &action->ipv4 : &action->ipv6;
    if (action->reserves && opened->took) reserve_next(&opened->relayed, action->reserved, turn.now);
    if (action->claims && opened->took) claim_reserved(action->claimed);
    if (action->reserves || action->claims) show_reserved();
}

/* Whether a datagram may pass by the packet rates of an allocation and of its user. */
static bool may_count(relay *by) {
    uint32_t rate = setting(PACKET_RATE), of_user = setting(USER_PACKET_RATE);
    return (rate == 0 || may_pass_beside_kernel(by, true, rate, 1, turn.clock)) &&
           (of_user == 0 || may_pass(plan.user_packets, by->user, of_user, 1, turn.now));
}

/* Whether its octets may pass by the bandwidths. */
static bool may_weigh(relay *by, size_t octets) {
    uint32_t rate = setting(BANDWIDTH), of_user = setting(USER_BANDWIDTH);
    if (octets < LEAST_OCTETS) octets = LEAST_OCTETS;
    return (rate == 0 || may_pass_beside_kernel(by, false, rate, octets, turn.clock)) &&
           (of_user == 0 || may_pass(plan.user_octets, by->user, of_user, octets, turn.now));
}

static bool may_relay(relay *by, size_t octets) {
    bool may = may_count(by) && may_weigh(by, octets);
    if (!may) count(turn.process.mine, TURN_OVER, 1);
    return may;
}

/* Has a datagram for a peer have the fields that it is to have. False: its hop limit is used up. */
static bool set_fields(const turn_client *of, const stun_types_turn_action *action, int at) {
    struct msghdr *to = &outgoing.messages[at].msg_hdr;
    stun_types_turn_relayed relayed = {.length = action->length,
                                       .stream = of->tuple.stream,
                                       .from = of->tuple.client.family,
                                       .to = action->peer.family,
                                       .dont_fragment = action->dont_fragment != 0,
                                       .received = of->received};
    stun_types_ip_fields fields;
    to->msg_control = NULL;
    to->msg_controllen = 0;
    if (!choose_fields(&relayed, &fields)) {
        count(turn.process.mine, TURN_HOPS, 1);
        return false;
    }
    outgoing.are_whole[at] = relayed.to == 4 && fields.dont_fragment == 1;
    add_fields(to, &outgoing.controls[at], &fields, relayed.to);
    return true;
}

/* Has data of a client wait to be sent to a peer. */
static void send_later(const turn_client *of, const stun_types_turn_action *action, const uint8_t *datagram) {
    relay *from = find_relay(action->relay);
    /* (no channel is bound to the server itself) */
    if (datagram[0] < CHANNELS && is_server(&action->peer)) return;
    if (from == NULL || from->socket < 0 || !may_relay(from, action->length)) return;
    if (outgoing.count == HELD || copied + action->length > sizeof copies) send_to_peers();
    if (turn.sets_fields && !set_fields(of, action, outgoing.count)) return;
    int at = outgoing.count++;
    const uint8_t *data = datagram + action->at;
    if (turn.process.copies) {
        data = memcpy(copies + copied, data, action->length);
        copied += action->length;
    }
    socket_address_of(&action->peer, &outgoing.peers[at]);
    outgoing.messages[at].msg_hdr.msg_namelen = outgoing.peers[at].length;
    outgoing.places[at].iov_base = (void *)(uintptr_t)data;
    outgoing.places[at].iov_len = action->length;
    outgoing.from[at] = from;
    from->to_peer.datagrams++;
    from->to_peer.octets += action->length;
    count(turn.process.mine, TURN_TO_PEER, 1);
    count(turn.process.mine, TURN_TO_PEER_OCTETS, action->length);
    if (datagram[0] >= CHANNELS) {
        follow_data(&turn.server, from, (uint16_t)(datagram[0] << 8 | datagram[1]), turn.clock);
    }
}

void send_to_peers(void) {
    for (int at = 0, end; at < outgoing.count; at = end) {
        const relay *by = outgoing.from[at];
        bool are_whole = outgoing.are_whole[at];
        end = at + 1;
        while (end < outgoing.count && outgoing.from[end] == by && outgoing.are_whole[end] == are_whole) end++;
        if (are_whole) set_whole(by->socket, true);
        (void)send_bundled(by->socket, outgoing.messages + at, end - at, turn.process.mine, TURN_FAILED);
        if (are_whole) set_whole(by->socket, false);
    }
    outgoing.count = 0;
    copied = 0;
}

/* Whether a socket is missing of those that are to be ready. */
static bool lacks_socket(void) {
    const stun_types_turn_ready *ready = ready_sockets();
    return (relays_family(4) && (ready->any_ipv4.family == 0 || ready->even_ipv4.family == 0)) ||
           (relays_family(6) && (ready->any_ipv6.family == 0 || ready->even_ipv6.family == 0));
}

/* Why a request was refused by a code. */
static int cause_of(uint32_t code, bool is_signed) {
    if (code == STUN_TYPES_CODE_UNAUTHORIZED) return is_signed ? REFUSED_CREDENTIALS : REFUSED_UNSIGNED;
    if (code != STUN_TYPES_CODE_INSUFFICIENT_CAPACITY) return refusal_of(code);
    if (is_draining()) return REFUSED_DRAINING;
    if (stun_types_turn_count(&turn.server) >= setting(ALLOCATIONS)) return REFUSED_FULL;
    return lacks_socket() ? REFUSED_NO_PORT : REFUSED_CAPACITY;
}

/* Counts a response by its code. */
static void count_response(uint32_t code, bool is_signed) {
    if (code == 0) return;
    raise_by(&turn.process.mine->refusals[cause_of(code, is_signed)], 1);
    count(turn.process.mine, code == STUN_TYPES_CODE_UNAUTHORIZED ? TURN_UNAUTHORIZED
                             : code == STUN_TYPES_CODE_STALE_NONCE ? TURN_STALE
                                                                   : TURN_REFUSED, 1);
}

turn_outcome take_from_client(const turn_client *from, const uint8_t *datagram, size_t length,
                              uint8_t *room, size_t size, size_t *written) {
    stun_types_turn_action action = {.ended = 0};
    stun_types_answer answer = pass_on(from, datagram, length, false, room, size, &action);
    bool is_signed = answer.code == STUN_TYPES_OK && action.kind == STUN_TYPES_TURN_NEEDS_KEY;
    if (is_signed) answer = pass_on_signed(from, datagram, length, room, size, &action);
    keep_reserved(&action);
    keep_socket(from, &action.ipv4);
    keep_socket(from, &action.ipv6);
    if (is_signed) follow_request(&turn.server, &from->tuple, datagram, length);
    if (answer.code != STUN_TYPES_OK) return TURN_NOTHING_DUE;
    if (action.kind == STUN_TYPES_TURN_TO_PEER) {
        send_later(from, &action, datagram);
        return TURN_RELAYED;
    }
    if (action.kind != STUN_TYPES_TURN_RESPONSE) return TURN_NOTHING_DUE;
    count_response(action.code, is_signed);
    if (action.code != 0 && is_request(datagram, length, ALLOCATE)) {
        log_refusal(from, action.code, is_signed);
    }
    *written = action.length;
    bool is_refused = action.code == STUN_TYPES_CODE_UNAUTHORIZED ||
                      action.code == STUN_TYPES_CODE_STALE_NONCE;
    if (is_signed && !is_refused) return TURN_ACCEPTED;
    if (!setting(SOFTWARE)) *written = without_software(room, action.length);
    return TURN_ANSWERED;
}

/* ---- From a peer ----------------------------------------------------------------------------- */

/* A random transaction ID, the same until it is used. */
static const stun_types_id *next_id(void) {
    if (turn.ids_left == 0 && getrandom(turn.ids, sizeof turn.ids, 0) == sizeof turn.ids) {
        turn.ids_left = IDS;
    }
    return &turn.ids[turn.ids_left > 0 ? turn.ids_left - 1 : 0];
}

/* Which fields a datagram for a client over UDP is to have that brings a peer's data. False: the hop limit is used
 * up. */
static bool fields_for(const relay *by, struct msghdr *received, size_t length, stun_types_ip_fields *fields) {
    const stun_types_five_tuple *to = &by->client.tuple;
    stun_types_turn_relayed relayed = {.length = length,
                                       .from = by->relayed.family,
                                       .to = to->client.family,
                                       .received = take_fields(received)};
    bool is_sent = choose_fields(&relayed, fields);
    if (!is_sent) count(turn.process.mine, TURN_HOPS, 1);
    return is_sent;
}

/* Delivers the data of a peer, which was received in a room after the place of a head. */
static void relay_data(relay *by, struct mmsghdr *received, uint8_t *room, bool alone) {
    stun_types_address peer;
    stun_types_turn_delivery delivery;
    stun_types_ip_fields fields;
    size_t length = received->msg_len;
    bool has_fields = turn.reads_fields && by->client.tuple.stream == 0;
    if (!address_of(received->msg_hdr.msg_name, &peer)) return;
    stun_types_answer answer =
        stun_types_turn_peer(&turn.server, turn.now, &peer, by->number, length, next_id(), room,
                             STUN_TYPES_TURN_HEAD, &delivery);
    if (answer.code != STUN_TYPES_OK || !delivery.sends) {
        count(turn.process.mine, TURN_DROPPED, 1);
        close_ended(delivery.ended, END_EXPIRED);
        return;
    }
    close_ended(delivery.ended, END_EXPIRED); /* (not this one, which is live) */
    if (!may_relay(by, length)) return;
    size_t whole = delivery.head_length + length + delivery.padding;
    if (has_fields && !fields_for(by, &received->msg_hdr, whole, &fields)) return;
    if (delivery.head_length > 4 && turn.ids_left > 0) turn.ids_left--;
    memset(room + STUN_TYPES_TURN_HEAD + length, 0, delivery.padding);
    turn.process.deliver(&by->client, room + STUN_TYPES_TURN_HEAD - delivery.head_length, whole, alone,
                         has_fields ? &fields : NULL);
    by->to_client.datagrams++;
    by->to_client.octets += length;
    count(turn.process.mine, TURN_TO_CLIENT, 1);
    count(turn.process.mine, TURN_TO_CLIENT_OCTETS, length);
}

/* Receives a few datagrams from a relay socket, as many as came the last time and some more: to look for
 * another one that isn't there takes time. Returns how many there are. */
static size_t receive(relay *by) {
    unsigned asked = by->asked > 0 ? by->asked : 1;
    for (size_t i = 0; i < asked; i++) {
        incoming[i].msg_hdr.msg_namelen = sizeof sources[i];
        if (turn.reads_fields) {
            incoming[i].msg_hdr.msg_control = &incoming_controls[i];
            incoming[i].msg_hdr.msg_controllen = sizeof incoming_controls[i];
        }
        incoming_at[i].iov_base = rooms[held + i] + STUN_TYPES_TURN_HEAD;
        incoming_at[i].iov_len = 65536;
    }
    int got = recvmmsg(by->socket, incoming, asked, MSG_DONTWAIT, NULL);
    if (got < 1) return 0;
    unsigned most = (unsigned)got == asked ? 2 * asked : (unsigned)got * 2 <= asked ? (unsigned)got : asked;
    by->asked = most < FEW ? most : FEW;
    return (size_t)got;
}

void take_from_peers(uint64_t number) {
    relay *by = relay_at((size_t)(number - turn.process.first));
    if (by == NULL || by->socket < 0) return;
    if (held + FEW > HELD) {
        turn.process.flush();
        held = 0;
    }
    size_t got = receive(by);
    for (size_t i = 0; i < got; i++) {
        relay_data(by, &incoming[i], rooms[held + i], got == 1);
    }
    if (turn.process.flush != NULL) held += got; /* (otherwise their rooms are free again) */
}

/* Passes an ICMP packet to a client, in a room. Returns whether the room is in use. */
static bool relay_icmp(relay *by, const icmp_packet *packet, uint8_t *room) {
    stun_types_turn_notice notice;
    stun_types_answer answer =
        stun_types_turn_icmp(&turn.server, turn.now, &packet->peer, by->number, &packet->error, next_id(), room,
                             PEER_ROOM, &notice);
    close_ended(notice.ended, END_EXPIRED);
    if (answer.code != STUN_TYPES_OK || !notice.sends) {
        count(turn.process.mine, TURN_DROPPED, 1);
        return false;
    }
    if (!may_relay(by, notice.length)) return false;
    if (turn.ids_left > 0) turn.ids_left--;
    turn.process.deliver(&by->client, room, notice.length, true, NULL);
    count(turn.process.mine, TURN_ICMP, 1);
    return turn.process.flush != NULL;
}

void take_icmp(uint64_t number) {
    icmp_packet packets[MOST_ICMP];
    relay *by = relay_at((size_t)(number - turn.process.first));
    if (by == NULL || by->socket < 0) return;
    size_t got = read_icmp(by->socket, packets);
    for (size_t i = 0; i < got; i++) {
        if (held == HELD) {
            turn.process.flush();
            held = 0;
        }
        if (relay_icmp(by, &packets[i], rooms[held])) held++;
    }
}
