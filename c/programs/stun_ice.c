/* stun-ice: connects two programs over UDP, through NATs and a TURN server if need be (RFC 8445), and passes standard
 * input and output between them. stun-ice.1 says how it is used. */
#include "ice.h"

#include <poll.h>
#include <signal.h>

static const char help[] =
    "usage: stun-ice [OPTION]..\n"
    "\n"
    "Connects to another stun-ice, or another ICE agent, and passes standard input and output to each\n"
    "other as datagrams. It prints its description to standard error; the other one's is read from\n"
    "standard input, up to the line a=end-of-candidates, or from a file.\n"
    "\n"
    "  -c, --controlling         choose the pair; one of both does\n"
    "  -l, --lite-peer           the peer is a lite agent, so this side chooses\n"
    "  -L, --lite                be a lite agent: answer the peer's checks, and send none\n"
    "  -o, --own FILE            write the description to FILE, too\n"
    "  -p, --peer FILE           read the peer's from FILE, as soon as it is there, and when it changes\n"
    "  -a, --address ADDRESS     use this address of this machine; up to 15 times; otherwise all of its\n"
    "                            interfaces but the loopback\n"
    "  -s, --stun HOST[:PORT]    ask this STUN server for the address outside of a NAT; otherwise the\n"
    "                            TURN server is asked, if there is one\n"
    "  -r, --turn HOST[:PORT]    ask this TURN server for a relayed address\n"
    "  -R, --relay-only          use the relayed address alone\n"
    "  -u, --user NAME           the user of the TURN server\n"
    "  -f, --password-file FILE  read the user's password from the first line of FILE; otherwise it is\n"
    "                            in the variable STUN_PASSWORD\n"
    "  -t, --tcp                 ask the TURN server over TCP\n"
    "  -4, -6                    use IPv4, or IPv6, alone\n"
    "  -w, --wait SECONDS        give up if there is no connection so long after the peer's description\n"
    "                            came, 1 to 3600; otherwise 60 s\n"
    "  -j, --json                print each change as a JSON object\n"
    "  -v, --verbose             print the pairs at each change, and messages of the TURN server\n"
    "  -h, --help; -V, --version\n"
    "\n"
    "SIGUSR1 prints the pairs, SIGUSR2 restarts ICE (with --peer).\n"
    "\n"
    "Status 0: both inputs ended, or a signal. 2: wrong arguments. 3: it can't read or write, or has no\n"
    "memory. 4: no connection, or it was lost.\n";

static const struct option words[] = {COMMON_WORDS,
                                      {"controlling", no_argument, NULL, 'c'},
                                      {"lite-peer", no_argument, NULL, 'l'},
                                      {"lite", no_argument, NULL, 'L'},
                                      {"own", required_argument, NULL, 'o'},
                                      {"peer", required_argument, NULL, 'p'},
                                      {"address", required_argument, NULL, 'a'},
                                      {"stun", required_argument, NULL, 's'},
                                      {"turn", required_argument, NULL, 'r'},
                                      {"relay-only", no_argument, NULL, 'R'},
                                      {"json", no_argument, NULL, 'j'},
                                      {NULL, 0, NULL, 0}};

enum {
    QUEUE_ROOM = 1 << 20, /* bytes for standard output */
    PIPE_PIECE = 4096,    /* what a pipe takes at once if it takes anything */
    MOST_AT_A_TURN = 64,
    FILE_INTERVAL = 50,   /* milliseconds */
    END_INTERVAL = 1000,
    LAST_ENDS = 5,
    LAST_INTERVAL = 50,
    USUAL_WAIT = 60000
};

ice_options ice = {.stun = {.port = "3478"}};
uint64_t now;

static volatile sig_atomic_t is_interrupted, is_asked_for_pairs, is_asked_to_restart;

/* What of standard input isn't taken yet. */
static char input[DATAGRAM_ROOM];
static size_t input_length;
static bool is_input_read; /* to its end */

/* What standard output hasn't taken yet. */
static uint8_t queue[QUEUE_ROOM];
static size_t queue_length;
static uint64_t dropped;
static bool is_output_closed;

/* The ends of the inputs, which an empty datagram reports. */
static bool is_peer_ended;
static uint64_t end_at; /* when the next such datagram is sent */
static unsigned last_ends;

static uint64_t file_at; /* when the peer's file is looked at next */

/* ---- Data of the peer ------------------------------------------------------------------------- */

void take_data(const uint8_t *bytes, size_t length) {
    if (length == 0 && !is_peer_ended) report("peer-ended", NULL);
    if (length == 0) is_peer_ended = true;
    if (is_output_closed) return;
    if (length > sizeof queue - queue_length) dropped++;
    else {
        memcpy(queue + queue_length, bytes, length);
        queue_length += length;
    }
}

/* Writes what is queued, as far as standard output takes it. Returns the status. */
static int write_output(void) {
    size_t at = 0;
    struct pollfd waited = {STDOUT_FILENO, POLLOUT, 0};
    while (at < queue_length && poll(&waited, 1, 0) > 0) {
        size_t piece = queue_length - at < PIPE_PIECE ? queue_length - at : PIPE_PIECE;
        ssize_t done = write(STDOUT_FILENO, queue + at, piece);
        if (done < 0 && errno != EINTR) return say(STATUS_BROKEN, "standard output: %s", strerror(errno));
        if (done > 0) at += (size_t)done;
    }
    memmove(queue, queue + at, queue_length - at);
    queue_length -= at;
    if (is_peer_ended && queue_length == 0 && !is_output_closed) {
        is_output_closed = true;
        if (close(STDOUT_FILENO) != 0) return say(STATUS_BROKEN, "standard output: %s", strerror(errno));
    }
    return STATUS_DONE;
}

/* ---- Standard input --------------------------------------------------------------------------- */

/* Whether standard input is the peer's description. */
static bool is_describing(void) {
    return ice.peer_file == NULL && !has_all_candidates();
}

static void drop_input(size_t length) {
    memmove(input, input + length, input_length - length);
    input_length -= length;
}

/* Takes the lines of the peer's description that are there. */
static void take_input_lines(void) {
    while (is_describing() && input_length > 0) {
        char *end = memchr(input, '\n', input_length);
        size_t length = end != NULL ? (size_t)(end - input) : input_length;
        if (end == NULL && !is_input_read && input_length < sizeof input) return;
        take_line(input, length);
        drop_input(end != NULL ? length + 1 : length);
    }
    if (is_describing() && is_input_read) end_candidates();
}

/* Sends what is there, if it may be sent. */
static void send_input(void) {
    while (!is_describing() && input_length > 0 && can_send()) {
        size_t piece = input_length < DATA_ROOM ? input_length : DATA_ROOM;
        (void)send_data((const uint8_t *)input, piece);
        drop_input(piece);
    }
}

/* Reads more: of a description as much as there is, of data no more than a datagram. Returns the status. */
static int read_input(void) {
    size_t room = is_describing() ? sizeof input - input_length : DATA_ROOM;
    ssize_t length = read(STDIN_FILENO, input + input_length, room);
    if (length < 0 && errno != EINTR && errno != EAGAIN) {
        return say(STATUS_BROKEN, "standard input: %s", strerror(errno));
    }
    if (length == 0) is_input_read = true;
    if (length > 0) input_length += (size_t)length;
    take_input_lines();
    send_input();
    return STATUS_DONE;
}

static bool wants_input(void) {
    return !is_input_read && (is_describing() ? input_length < sizeof input : input_length == 0 && can_send());
}

/* Reports the end of standard input, again and again, since datagrams are lost. Returns whether all is done. */
static bool send_ends(void) {
    if (!is_input_read || is_describing() || input_length > 0 || now < end_at || !can_send()) return false;
    (void)send_data((const uint8_t *)input, 0);
    bool is_last = is_peer_ended && queue_length == 0;
    end_at = now + (is_last ? LAST_INTERVAL : END_INTERVAL);
    if (is_last) last_ends++;
    return last_ends == LAST_ENDS;
}

/* ---- The loop --------------------------------------------------------------------------------- */

static void receive_from_host(size_t of) {
    static uint8_t bytes[DATAGRAM_ROOM];
    for (int i = 0; i < MOST_AT_A_TURN; i++) {
        struct sockaddr_storage source;
        stun_types_address from;
        socklen_t length = sizeof source;
        ssize_t got = recvfrom(hosts[of].socket, bytes, sizeof bytes, 0, (struct sockaddr *)&source, &length);
        if (got < 0 && (errno == EAGAIN || errno == EWOULDBLOCK)) return;
        if (got < 0 || !address_of(&source, &from)) continue;
        if (!take_stun(of, &from, bytes, (size_t)got)) take_datagram(of, &from, bytes, (size_t)got);
    }
}

static uint64_t next_wake(void) {
    uint64_t wake = sooner(stun_wake(!can_send()), sooner(relay_wake(), session_wake()));
    if (ice.peer_file != NULL) wake = sooner(wake, file_at);
    if (is_input_read && !is_describing() && input_length == 0 && can_send()) wake = sooner(wake, end_at);
    return wake;
}

/* Waits until there is something to do, and receives what has come. Returns the status. */
static int wait_for_more(void) {
    struct pollfd files[MOST_HOSTS + 3];
    size_t count = 0;
    for (; count < host_count; count++) files[count] = (struct pollfd){hosts[count].socket, POLLIN, 0};
    files[count++] = (struct pollfd){relay_socket(), POLLIN, 0};
    files[count++] = (struct pollfd){wants_input() ? STDIN_FILENO : -1, POLLIN, 0};
    files[count++] = (struct pollfd){queue_length > 0 ? STDOUT_FILENO : -1, POLLOUT, 0};
    uint64_t wake = next_wake(), at = milliseconds();
    uint64_t left = wake > at ? wake - at : 0;
    int ready = poll(files, (nfds_t)count, left > 60000 ? 60000 : (int)left);
    now = milliseconds();
    if (ready < 0) return errno == EINTR ? STATUS_DONE : say(STATUS_BROKEN, "poll: %s", strerror(errno));
    for (size_t i = 0; i < host_count; i++) {
        if (files[i].revents != 0) receive_from_host(i);
    }
    if (files[host_count].revents != 0) receive_from_relay();
    return files[host_count + 1].revents != 0 ? read_input() : STATUS_DONE;
}

/* Does what signals ask for. Returns the status. */
static int take_signals(void) {
    if (is_asked_for_pairs) print_pairs();
    is_asked_for_pairs = 0;
    if (!is_asked_to_restart) return STATUS_DONE;
    is_asked_to_restart = 0;
    if (ice.peer_file != NULL && has_peer()) return restart_session("a signal");
    say(STATUS_DONE, "a restart needs --peer, and a peer that is known");
    return STATUS_DONE;
}

static void look_at_file(void) {
    if (ice.peer_file == NULL || now < file_at) return;
    file_at = now + FILE_INTERVAL;
    read_peer_file();
}

/* Does what is due. Returns the status. */
static int turn(void) {
    int status = take_signals();
    look_at_file();
    ask_stun(!can_send());
    turn_relay();
    if (!is_description_ended() && has_asked_stun() && is_relay_settled()) end_description();
    if (status == STATUS_DONE) status = turn_session();
    turn_relay();
    send_input();
    int written = write_output();
    return status != STATUS_DONE ? status : written;
}

/* Turns until all is done. Returns the status. */
static int connect_programs(void) {
    int status = STATUS_DONE;
    while (status == STATUS_DONE && !is_interrupted) {
        now = milliseconds();
        status = turn();
        if (status != STATUS_DONE || send_ends()) break;
        status = wait_for_more();
    }
    if (dropped > 0) say(STATUS_DONE, "standard output was full: %llu datagrams are lost", (unsigned long long)dropped);
    return status;
}

static void take_signal(int number) {
    if (number == SIGUSR1) is_asked_for_pairs = 1;
    else if (number == SIGUSR2) is_asked_to_restart = 1;
    else is_interrupted = 1;
}

static void prepare_signals(void) {
    static const int numbers[] = {SIGINT, SIGTERM, SIGUSR1, SIGUSR2};
    struct sigaction action;
    memset(&action, 0, sizeof action);
    action.sa_handler = take_signal;
    for (size_t i = 0; i < sizeof numbers / sizeof *numbers; i++) sigaction(numbers[i], &action, NULL);
    action.sa_handler = SIG_IGN;
    sigaction(SIGPIPE, &action, NULL);
}

/* Gathers the host candidates, and begins to gather the others. Returns the status. */
static int gather(void) {
    int status = ice.relay_only ? STATUS_DONE : open_hosts();
    if (status == STATUS_DONE) status = begin_session();
    if (status == STATUS_DONE) print_description();
    for (size_t i = 0; i < host_count && status == STATUS_DONE; i++) {
        add_base(i, &hosts[i].address, hosts[i].link_local);
        describe(HOST, i, &hosts[i].address, NULL);
    }
    if (status == STATUS_DONE) status = find_stun();
    if (status == STATUS_DONE) status = open_relay();
    return status;
}

static int run(void) {
    now = milliseconds();
    int status = read_password();
    prepare_signals();
    if (status == STATUS_DONE) status = gather();
    if (status == STATUS_DONE) status = connect_programs();
    remove_description();
    close_session();
    close_relay();
    close_hosts();
    explicit_bzero(asked.password, sizeof asked.password);
    return status;
}

static bool take_address(const char *value) {
    if (ice.address_count == MOST_HOSTS) return false;
    ice.addresses[ice.address_count++] = value;
    return true;
}

static bool take_own_option(int letter, const char *value) {
    switch (letter) {
    case 'c': return ice.controlling = true;
    case 'l': return ice.lite_peer = true;
    case 'L': return ice.lite = true;
    case 'R': return ice.relay_only = true;
    case 'j': return ice.json = true;
    case 'o': ice.own_file = value; return *value != 0;
    case 'p': ice.peer_file = value; return *value != 0;
    case 'a': return take_address(value);
    case 's': return ice.has_stun = read_target(value, &ice.stun);
    case 'r': return ice.has_turn = read_target(value, &asked.server);
    default: return take_option(letter, value);
    }
}

static int usage(void) {
    fprintf(stderr, "usage: stun-ice [OPTION]..\nstun-ice --help lists the options\n");
    return STATUS_MISUSED;
}

int main(int count, char **arguments) {
    int letter;
    asked.program = "stun-ice";
    asked.carries = STUN_TYPES_STREAM_CHANNEL_DATA;
    asked.wait = USUAL_WAIT;
    while ((letter = getopt_long(count, arguments, COMMON_LETTERS "clLo:p:a:s:r:Rj", words, NULL)) != -1) {
        if (letter == 'h') return print_text(help);
        if (letter == 'V') return print_text("stun-ice of stun_types " STUN_TYPES_VERSION_TEXT "\n");
        if (!take_own_option(letter, optarg)) return usage();
    }
    bool needs_turn = ice.relay_only || asked.reliable || asked.user != NULL;
    if (optind != count || ice.has_turn != (asked.user != NULL) || (needs_turn && !ice.has_turn)) return usage();
    bool controls = ice.controlling || ice.lite_peer;
    if (ice.lite && (controls || ice.has_stun || ice.has_turn)) return usage();
    if (asked.password_file != NULL && (asked.user == NULL || strcmp(asked.password_file, "-") == 0)) return usage();
    return run();
}
