/* stun-turn-client: allocates a relayed address at a TURN server (RFC 8656), keeps it, and sends to peers from it.
 * stun-turn-client.1 says how it is used. */
#include "program.h"

#include <signal.h>

static const char help[] =
    "usage: stun-turn-client [OPTION].. HOST[:PORT]\n"
    "\n"
    "Tries a TURN server: allocates a relayed address over UDP, sends to peers from it, keeps it as\n"
    "long as it is asked to, and deletes it. HOST and PORT are those of stun-client.\n"
    "\n"
    "  -u, --user NAME           the long-term credentials: this user, and the password\n"
    "  -f, --password-file FILE  read the password from the first line of FILE, - for standard\n"
    "                            input; otherwise it is in the variable STUN_PASSWORD\n"
    "  -p, --peer HOST:PORT      permit this peer, and send it a datagram by the server\n"
    "  -c, --channel HOST:PORT   the same on a channel; -p and -c may be given 32 times in all\n"
    "  -d, --data TEXT           what is sent; otherwise hello\n"
    "  -i, --interval SECONDS    send it again and again, at this interval\n"
    "  -r, --receive SECONDS     wait so long for a datagram of each peer\n"
    "  -H, --hold SECONDS        keep the allocation so long, up to a week\n"
    "  -l, --lifetime SECONDS    ask for this lifetime, 1 to 3600; otherwise 600\n"
    "  -e, --even-port           ask for an even port\n"
    "  -P, --port-pair           the same, and have the server reserve the next one: prints its token\n"
    "  -R, --reservation TOKEN   ask for the port that this token reserves\n"
    "  -D, --dont-fragment       have the server set the DF bit in what goes to peers\n"
    "  -4, -6                    ask the server over IPv4, or over IPv6, alone\n"
    "  -t, --tcp                 ask the server over TCP\n"
    "  -w, --wait SECONDS        wait so long for a response, 1 to 3600; otherwise 40 s\n"
    "  -v, --verbose             print each message to standard error\n"
    "  -h, --help; -V, --version\n"
    "\n"
    "Status 0: all was done. 1: the server refused. 2: wrong arguments. 3: it can't read or write, or\n"
    "has no memory. 4: no response in time, none that is authentic, or nothing of a peer.\n";

static const struct option words[] = {COMMON_WORDS,
                                      {"peer", required_argument, NULL, 'p'},
                                      {"channel", required_argument, NULL, 'c'},
                                      {"data", required_argument, NULL, 'd'},
                                      {"interval", required_argument, NULL, 'i'},
                                      {"receive", required_argument, NULL, 'r'},
                                      {"hold", required_argument, NULL, 'H'},
                                      {"lifetime", required_argument, NULL, 'l'},
                                      {"even-port", no_argument, NULL, 'e'},
                                      {"port-pair", no_argument, NULL, 'P'},
                                      {"reservation", required_argument, NULL, 'R'},
                                      {"dont-fragment", no_argument, NULL, 'D'},
                                      {NULL, 0, NULL, 0}};

enum { MOST_PEERS = 32, MOST_HOLD = 604800, KEPT = 60000 };
static const uint64_t NEVER = UINT64_MAX, MILLISECOND = 1000000;

/* Moments are milliseconds. */
typedef struct {
    target name;
    bool binds; /* data goes to it on a channel */
    stun_types_address address;
    stun_types_allocation_change last; /* what was printed of it */
    int status;       /* STATUS_DONE, unless the client has given it up */
    bool is_served;   /* data was sent to it */
    bool has_replied; /* data came from its IP address */
    uint64_t send_at; /* when data goes to it, as soon as it may */
} peer;

static peer peers[MOST_PEERS];
static size_t peer_count;
static const char *data = "hello";
static uint64_t interval, receive_for, hold_for; /* 0: none */
static uint32_t lifetime = 600;
static stun_types_allocation_port port = STUN_TYPES_ALLOCATION_PORT_ANY;
static uint64_t token; /* of a reservation */
static bool is_whole;  /* the DF bit is to be set */

static stun_types_allocation client = STUN_TYPES_ALLOCATION_INIT;
static stun_types_allocation_attempt attempt;
static stun_types_allocation_change end; /* of the client; before it of the kind 0 */
static uint64_t now, wake;               /* wake: when the client has something to do */
static uint64_t allocated_at;            /* by this client; 0: not yet */
static uint64_t hold_until, replies_until, give_up_at;
static bool is_heard;   /* the server has sent something */
static bool is_closing; /* the allocation is being deleted */
static volatile sig_atomic_t is_interrupted; /* it is to be */
static int outcome = STATUS_DONE;            /* of what came before that */

static bool is_fine(stun_types_answer answer) { return answer.code == STUN_TYPES_OK; }

/* Flushes standard output. If that fails, the allocation is deleted. */
static void flush(void) {
    if (outcome == STATUS_BROKEN || end_output() == STATUS_DONE) return;
    outcome = STATUS_BROKEN;
    is_interrupted = 1;
}

static int fails(stun_types_answer answer) {
    return say(STATUS_BROKEN, "%s", stun_types_status_text(answer.code));
}

static int usage(void) {
    fprintf(stderr, "usage: stun-turn-client [OPTION].. HOST[:PORT]\n"
                    "stun-turn-client --help lists the options\n");
    return STATUS_MISUSED;
}

/* ---- A client of the library ----------------------------------------------------------------- */

static uint64_t nanoseconds(void) { return now * MILLISECOND; }

static stun_types_answer want(stun_types_allocation_wish wish, const stun_types_address *of) {
    give_up_at = asked.wait != 0 ? now + asked.wait : NEVER;
    return stun_types_allocation_want(&client, nanoseconds(), wish, of);
}

/* Asks for a permission or a channel of each peer that isn't given up. */
static int want_peers(void) {
    for (size_t i = 0; i < peer_count; i++) {
        const peer *of = &peers[i];
        if (of->status != STATUS_DONE) continue;
        stun_types_answer answer = want(
            of->binds ? STUN_TYPES_ALLOCATION_BIND : STUN_TYPES_ALLOCATION_PERMIT, &of->address);
        if (!is_fine(answer)) return fails(answer);
    }
    return STATUS_DONE;
}

/* Makes a client at the server that is connected. */
static int begin_client(void) {
    stun_types_allocation_settings settings;
    memset(&settings, 0, sizeof settings);
    if (!find_server(&settings.server)) {
        return say(STATUS_SILENT, "%s: %s", asked.server.host, strerror(errno));
    }
    settings.transport = asked.reliable ? STUN_TYPES_TCP : STUN_TYPES_UDP;
    settings.user = asked.user;
    settings.user_length = strlen(asked.user);
    settings.password = asked.password;
    settings.password_length = strlen(asked.password);
    settings.lifetime = lifetime;
    settings.peers = MOST_PEERS;
    settings.family = peer_count > 0 && peers[0].address.family == 6 ? 6 : 0;
    settings.fingerprint = 1;
    settings.port = (uint16_t)port;
    settings.token = token;
    settings.dont_fragment = is_whole;
    stun_types_answer answer = stun_types_allocation_new(&client, &settings);
    attempt.server = settings.server;
    for (size_t i = 0; i < peer_count; i++) {
        peers[i].status = STATUS_DONE;
        memset(&peers[i].last, 0, sizeof peers[i].last);
    }
    memset(&end, 0, sizeof end);
    allocated_at = 0;
    is_heard = false;
    now = milliseconds();
    if (is_fine(answer)) answer = want(STUN_TYPES_ALLOCATION_ALLOCATE, &settings.server);
    return is_fine(answer) ? want_peers() : fails(answer);
}

/* Begins again after the client has ended with a status: from another port after a 437, at another server after
 * a 300. An allocation that was kept for a minute isn't one of a series that fails. */
static int begin_again(int status) {
    if (allocated_at != 0 && now - allocated_at >= KEPT) attempt.tries = attempt.servers = 0;
    if (!stun_types_allocation_attempt_next(&attempt, &end)) return status;
    status = move_to(&attempt.server);
    return status == STATUS_DONE ? begin_client() : status;
}

/* ---- What has changed ------------------------------------------------------------------------ */

static void print_line(const char *what, const stun_types_address *address) {
    printf("%s ", what);
    print_address(stdout, address);
    putchar('\n');
}

/* Prints the LIFETIME of the response, which the client has taken. */
static void print_lifetime(const char *what) {
    stun_types_attribute found;
    uint32_t seconds = 0;
    if (stun_types_find(response.bytes, response.length, STUN_TYPES_ATTRIBUTE_LIFETIME, &found) &&
        is_fine(stun_types_read_u32(response.bytes, response.length, &found, &seconds))) {
        printf("%s %lu\n", what, (unsigned long)seconds);
    }
}

static void report_allocation(const stun_types_allocation_change *change) {
    print_line("relayed", &change->relayed);
    print_line("mapped", &change->mapped);
    print_lifetime("lifetime");
    allocated_at = now;
    if (hold_until == 0) hold_until = now + hold_for;
    give_up_at = asked.wait != 0 ? now + asked.wait : NEVER;
}

/* Prints that the client has given up a peer. If no response came, it is asked for again as long as the allocation
 * is held. Peers with the same IP address have lost their permission, and are asked for. */
static int report_over(peer *of, uint32_t code) {
    const char *host = of->name.host;
    of->status = code != 0 ? tell_error(host, code) : say(STATUS_SILENT, "%s: no response in time", host);
    if (code == 0 && now < hold_until) of->status = STATUS_DONE;
    return want_peers();
}

static bool is_granted(const stun_types_allocation_change *change) {
    return change->kind == STUN_TYPES_ALLOCATION_PERMITTED || change->kind == STUN_TYPES_ALLOCATION_BOUND;
}

/* Prints what is granted for a peer, each time that it is, and when it has expired. */
static int report_peer(const stun_types_allocation_change *change) {
    peer *of = peers;
    while (of < peers + peer_count - 1 && memcmp(&of->address, &change->peer, sizeof of->address) != 0) of++;
    stun_types_allocation_change last = of->last;
    of->last = *change;
    if (change->kind == STUN_TYPES_ALLOCATION_PEER_OVER) return report_over(of, change->code);
    if (is_granted(change) && (change->until > last.until || change->kind != last.kind)) {
        bool is_bound = change->kind == STUN_TYPES_ALLOCATION_BOUND;
        if (is_bound) printf("channel 0x%04x ", (unsigned)change->channel);
        print_line(is_bound ? "of" : "permitted", &change->peer);
    }
    if (change->kind == STUN_TYPES_ALLOCATION_ASKED && is_granted(&last)) print_line("expired", &change->peer);
    return STATUS_DONE;
}

/* Prints why the client has ended. Returns the status. */
static int report_end(bool by_response) {
    const char *host = asked.server.host;
    switch (end.why) {
    case STUN_TYPES_ALLOCATION_CLOSED:
        if (!by_response) break;
        puts("deleted");
        flush();
        return outcome;
    case STUN_TYPES_ALLOCATION_REJECTED:
    case STUN_TYPES_ALLOCATION_MOVED:
        if (end.code != 0) return tell_error("", end.code);
        return say(STATUS_REFUSED, "the response can't be used");
    case STUN_TYPES_ALLOCATION_USELESS:
        return say(STATUS_REFUSED, "the allocation can't be used: its lifetime, or its address family");
    case STUN_TYPES_ALLOCATION_VIOLATED:
        return say(STATUS_SILENT, "%s: no response is authentic", host);
    default: break;
    }
    return say(STATUS_SILENT, "%s: no response in time", host);
}

/* Prints what has changed. Returns the status of the client. */
static int report_changes(bool by_response) {
    stun_types_allocation_change change;
    int status = STATUS_DONE;
    while (stun_types_allocation_changes(&client, &change)) {
        switch (change.kind) {
        case STUN_TYPES_ALLOCATION_ALLOCATED: report_allocation(&change); break;
        case STUN_TYPES_ALLOCATION_REFRESHED: print_lifetime("refreshed"); break;
        case STUN_TYPES_ALLOCATION_CLOSING: break;
        case STUN_TYPES_ALLOCATION_OVER:
            end = change;
            status = report_end(by_response);
            break;
        default: status = report_peer(&change);
        }
    }
    flush();
    return status;
}

/* ---- Data ------------------------------------------------------------------------------------ */

/* Sends the data to a peer, if the server permits it by now. */
static bool send_data(const peer *to) {
    enum { HEAD = STUN_TYPES_ALLOCATION_HEAD };
    static uint8_t head[HEAD];
    stun_types_allocation_head around;
    stun_types_id id;
    size_t length = strlen(data);
    if (!new_id(&id)) return false;
    stun_types_answer answer = (is_whole ? stun_types_allocation_send_whole : stun_types_allocation_send)(
        &client, nanoseconds(), length, &to->address, &id, head, HEAD, &around);
    if (!is_fine(answer) || !around.sends) return false;
    memcpy(request.bytes, head + HEAD - around.length, around.length);
    memcpy(request.bytes + around.length, data, length);
    memset(request.bytes + around.length + length, 0, around.padding);
    request.length = around.length + length + around.padding;
    return send_request();
}

static void send_to_peers(void) {
    for (size_t i = 0; i < peer_count; i++) {
        peer *to = &peers[i];
        if (to->status != STATUS_DONE || now < to->send_at || !send_data(to)) continue;
        printf("sent %zu bytes to ", strlen(data));
        print_address(stdout, &to->address);
        putchar('\n');
        if (!to->is_served) replies_until = now + receive_for;
        to->is_served = true;
        to->send_at = interval != 0 ? now + interval : NEVER;
    }
    flush();
}

static void print_data(const stun_types_allocation_data *shown) {
    printf("received %zu bytes from ", shown->length);
    print_address(stdout, &shown->peer);
    printf(": ");
    for (size_t i = shown->at; i < shown->at + shown->length; i++) {
        uint8_t byte = response.bytes[i];
        printf(byte >= 0x20 && byte < 0x7F && byte != '\\' ? "%c" : "\\x%02x", byte);
    }
    putchar('\n');
    for (size_t i = 0; i < peer_count; i++) {
        const stun_types_address *of = &peers[i].address;
        if (memcmp(of->octets, shown->peer.octets, sizeof of->octets) == 0) peers[i].has_replied = true;
    }
}

/* Prints what a datagram has brought. */
static void print_news(const stun_types_allocation_data *shown) {
    switch (shown->shown) {
    case STUN_TYPES_ALLOCATION_DATA: print_data(shown); break;
    case STUN_TYPES_ALLOCATION_ICMP:
        printf("icmp type %u code %u data %lu of ", (unsigned)shown->icmp_type, (unsigned)shown->icmp_code,
               (unsigned long)shown->icmp_data);
        print_address(stdout, &shown->peer);
        putchar('\n');
        break;
    case STUN_TYPES_ALLOCATION_TOKEN: printf("token %016llx\n", (unsigned long long)shown->token); break;
    default: break;
    }
}

/* ---- The loop -------------------------------------------------------------------------------- */

/* After the connection has failed: an address of which nothing came is given up for the next one of the host. A
 * datagram counts as lost. */
static int reconnect(void) {
    if (!is_heard && connect_next()) return begin_client();
    if (is_heard && !asked.reliable) return STATUS_DONE;
    return say(STATUS_SILENT, "%s: %s", asked.server.host, strerror(errno));
}

/* Sends the requests that are due. */
static int send_requests(void) {
    stun_types_id id;
    for (;;) {
        if (!new_id(&id)) return say(STATUS_BROKEN, "no random bytes: %s", strerror(errno));
        stun_types_answer answer =
            stun_types_allocation_poll(&client, nanoseconds(), &id, request.bytes, sizeof request.bytes,
                                       &request.length, &wake);
        if (!is_fine(answer)) return fails(answer);
        int status = report_changes(false);
        if (request.length == 0 || end.kind != 0 || status != STATUS_DONE) return status;
        if (!send_request()) return reconnect();
    }
}

static int take_message(void) {
    stun_types_allocation_data shown;
    stun_types_answer answer = stun_types_allocation_datagram(
        &client, nanoseconds(), &attempt.server, response.bytes, response.length, &shown);
    if (!is_fine(answer)) return fails(answer);
    is_heard = true;
    give_up_at = asked.wait != 0 ? now + asked.wait : NEVER;
    print_news(&shown);
    return report_changes(true);
}

/* Whether data is still to be sent to a peer for the first time. */
static bool has_to_send(void) {
    for (size_t i = 0; i < peer_count; i++) {
        if (peers[i].status == STATUS_DONE && !peers[i].is_served) return true;
    }
    return false;
}

/* Whether data of a peer is waited for. */
static bool has_to_receive(void) {
    for (size_t i = 0; i < peer_count && receive_for != 0 && now < replies_until; i++) {
        if (peers[i].status == STATUS_DONE && !peers[i].has_replied) return true;
    }
    return false;
}

/* Deletes the allocation, if all is done. */
static int close_client(void) {
    bool is_done = allocated_at != 0 && now >= hold_until && !has_to_send() && !has_to_receive();
    if (is_closing || (!is_done && !is_interrupted)) return STATUS_DONE;
    is_closing = true;
    for (size_t i = 0; i < peer_count && is_done; i++) {
        const peer *of = &peers[i];
        if (of->status != STATUS_DONE) outcome = of->status;
        else if (receive_for != 0 && !of->has_replied) {
            outcome = say(STATUS_SILENT, "%s: nothing came in time", of->name.host);
        }
    }
    stun_types_answer answer = want(STUN_TYPES_ALLOCATION_CLOSE, &attempt.server);
    return is_fine(answer) ? STATUS_DONE : fails(answer);
}

static uint64_t earlier(uint64_t moment, uint64_t other) {
    return other > now && other < moment ? other : moment;
}

/* Waits for a message until there is something else to do. */
static int receive_message(void) {
    uint64_t until = wake == NEVER ? NEVER : wake / MILLISECOND + 1;
    until = earlier(earlier(earlier(until, give_up_at), hold_until), replies_until);
    for (size_t i = 0; i < peer_count; i++) until = earlier(until, peers[i].send_at);
    int got = receive_until(until);
    now = milliseconds();
    if (got == FAILED) return reconnect();
    return got == RECEIVED ? take_message() : STATUS_DONE;
}

/* Does what is to be done until the next message. */
static int turn(void) {
    now = milliseconds();
    if (!is_closing) send_to_peers();
    int status = close_client();
    if (status == STATUS_DONE) status = send_requests();
    if (status != STATUS_DONE || end.kind != 0) return status;
    if (now >= give_up_at && (is_closing || allocated_at == 0 || has_to_send())) {
        return say(STATUS_SILENT, "%s: no response in time", asked.server.host);
    }
    return receive_message();
}

/* Turns until the client has ended, and no other follows. */
static int use_server(void) {
    int status = begin_client();
    while (status == STATUS_DONE) {
        status = turn();
        if (end.kind != 0 && status == STATUS_DONE) return status; /* (it is closed) */
        if (end.kind != 0) status = begin_again(status);
    }
    return status;
}

static void interrupt(int number) {
    (void)number;
    is_interrupted = 1;
}

/* Has signals that end a program close the client. */
static void take_signals(void) {
    struct sigaction action;
    memset(&action, 0, sizeof action);
    action.sa_handler = interrupt;
    sigaction(SIGINT, &action, NULL);
    sigaction(SIGTERM, &action, NULL);
}

/* Finds the addresses of the peers; those of a name are of the first one's family. */
static int find_peers(void) {
    int family = AF_UNSPEC;
    for (size_t i = 0; i < peer_count; i++) {
        struct addrinfo *found;
        struct sockaddr_storage address;
        int status = find_host(&peers[i].name, family, SOCK_DGRAM, &found);
        if (status != STATUS_DONE) return status;
        memset(&address, 0, sizeof address);
        memcpy(&address, found->ai_addr, found->ai_addrlen);
        family = found->ai_family;
        freeaddrinfo(found);
        if (!address_of(&address, &peers[i].address)) {
            return say(STATUS_BROKEN, "%s: no address", peers[i].name.host);
        }
        for (size_t j = 0; j < i; j++) {
            if (memcmp(&peers[j].address, &peers[i].address, sizeof peers[i].address) != 0) continue;
            return say(STATUS_MISUSED, "%s: a peer that is named twice", peers[i].name.host);
        }
    }
    return STATUS_DONE;
}

static int run(void) {
    int status = read_password();
    take_signals();
    if (status == STATUS_DONE) status = find_peers();
    if (status == STATUS_DONE) status = open_server();
    if (status == STATUS_DONE) status = use_server();
    close_server();
    stun_types_allocation_free(&client);
    explicit_bzero(asked.password, sizeof asked.password);
    return status;
}

static bool take_peer(const char *value, bool binds) {
    if (peer_count == MOST_PEERS) return false;
    peer *taken = &peers[peer_count++];
    taken->binds = binds;
    return read_target(value, &taken->name) && taken->name.port[0] != 0;
}

/* Whether no other port was asked for. */
static bool ask_for(stun_types_allocation_port asked_for) {
    if (port != STUN_TYPES_ALLOCATION_PORT_ANY) return false;
    port = asked_for;
    return true;
}

/* Reads the token of a reservation: 16 hexadecimal digits. */
static bool read_token(const char *text) {
    if (strlen(text) != 16 || strspn(text, "0123456789abcdefABCDEF") != 16) return false;
    token = strtoull(text, NULL, 16);
    return true;
}

static bool take_own_option(int letter, const char *value) {
    switch (letter) {
    case 'p': return take_peer(value, false);
    case 'c': return take_peer(value, true);
    case 'd': data = value; return strlen(value) <= 1200;
    case 'i': return read_seconds(value, 3600, &interval);
    case 'r': return read_seconds(value, 3600, &receive_for);
    case 'H': return read_seconds(value, MOST_HOLD, &hold_for);
    case 'l': return read_number(value, 1, 3600, &lifetime);
    case 'e': return ask_for(STUN_TYPES_ALLOCATION_PORT_EVEN);
    case 'P': return ask_for(STUN_TYPES_ALLOCATION_PORT_PAIR);
    case 'R': return read_token(value) && ask_for(STUN_TYPES_ALLOCATION_PORT_RESERVED);
    case 'D': return is_whole = true;
    default: return take_option(letter, value);
    }
}

int main(int count, char **arguments) {
    int letter;
    asked.program = "stun-turn-client";
    asked.carries = STUN_TYPES_STREAM_CHANNEL_DATA;
    const char *letters = COMMON_LETTERS "p:c:d:i:r:H:l:ePR:D";
    while ((letter = getopt_long(count, arguments, letters, words, NULL)) != -1) {
        if (letter == 'h') return print_text(help);
        if (letter == 'V') {
            return print_text("stun-turn-client of stun_types " STUN_TYPES_VERSION_TEXT "\n");
        }
        if (!take_own_option(letter, optarg)) return usage();
    }
    if (count - optind != 1 || !read_target(arguments[optind], &asked.server)) return usage();
    if (asked.user == NULL || ((receive_for != 0 || interval != 0) && peer_count == 0)) return usage();
    return run();
}
