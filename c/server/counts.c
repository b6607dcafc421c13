/* The counts, as a line and as Prometheus reads them. */
#include "server.h"

#include <inttypes.h>
#include <linux/sock_diag.h>

/* The counts: names, and what they are of. */
static const struct {
    const char *name, *meaning;
} counts[COUNTS] = {
    [UDP_RECEIVED] = {"udp_received", "Datagrams received from clients"},
    [UDP_SENT] = {"udp_sent", "Datagrams sent to clients"},
    [UDP_UNANSWERED] = {"udp_unanswered", "Datagrams to which no reply was due"},
    [UDP_LIMITED] = {"udp_limited", "Replies over the rate that were not sent"},
    [UDP_SLIPPED] = {"udp_slipped", "Replies over the rate that were sent nevertheless"},
    [UDP_FAILED] = {"udp_failed", "Datagrams to clients that the system refused to send"},
    [TCP_ACCEPTED] = {"tcp_accepted", "Connections accepted"},
    [TCP_REFUSED] = {"tcp_refused", "Connections closed at once, since there was no place"},
    [TCP_DISPLACED] = {"tcp_displaced", "Connections closed for a newer one"},
    [TCP_IDLE] = {"tcp_idle", "Connections closed after idle-timeout"},
    [TCP_SLOW] = {"tcp_slow", "Connections closed after request-timeout"},
    [TCP_AGED] = {"tcp_aged", "Connections closed after max-age"},
    [TCP_BAD_HEADER] = {"tcp_bad_header",
                        "Connections of proxies closed since their PROXY header was missing or wrong"},
    [TCP_RECEIVED] = {"tcp_received", "Messages received on connections"},
    [TCP_SENT] = {"tcp_sent", "Messages sent on connections"},
    [TCP_UNANSWERED] = {"tcp_unanswered", "Messages on connections to which no reply was due"},
    [TURN_ALLOCATED] = {"turn_allocated", "Allocations opened, of each family"},
    [TURN_ENDED] = {"turn_ended", "Allocations ended, of each family"},
    [TURN_UNAUTHORIZED] = {"turn_unauthorized", "Responses with code 401"},
    [TURN_STALE] = {"turn_stale", "Responses with code 438"},
    [TURN_REFUSED] = {"turn_refused", "Error responses with other codes"},
    [TURN_TO_PEER] = {"turn_to_peer", "Datagrams relayed to peers"},
    [TURN_TO_CLIENT] = {"turn_to_client", "Datagrams relayed to clients"},
    [TURN_TO_PEER_OCTETS] = {"turn_to_peer_octets", "Octets of data relayed to peers"},
    [TURN_TO_CLIENT_OCTETS] = {"turn_to_client_octets", "Octets of data relayed to clients"},
    [TURN_DROPPED] = {"turn_dropped", "Datagrams of peers without a permission"},
    [TURN_UNREAD] = {"turn_unread", "Datagrams dropped since the client does not read its connection"},
    [TURN_OVER] = {"turn_over", "Datagrams dropped over a limit of data"},
    [TURN_FAILED] = {"turn_failed", "Datagrams to peers that the system refused to send"},
    [TURN_NO_PORT] = {"turn_no_port", "Relay sockets that could not be opened"},
    [TURN_ICMP] = {"turn_icmp", "ICMP packets passed to clients"},
    [TURN_HOPS] = {"turn_hops", "Datagrams dropped since their Hop Limit was used up"},
    [TURN_IN_KERNEL] = {"turn_in_kernel", "Datagrams of those relayed that the kernel relayed"},
    [TURN_IN_KERNEL_OCTETS] = {"turn_in_kernel_octets", "Octets of data that the kernel relayed"},
    [LOG_LINES] = {"log_lines", "Lines of the log of allocations"},
    [LOG_DROPPED] = {"log_dropped", "Lines of the log of allocations that were dropped"},
    [UDP_DROPPED] = {"udp_dropped", "Datagrams of clients that found the socket's queue full"},
    [WORKERS_DIED] = {"workers_died", "Processes that died"},
    [WORKERS_HUNG] = {"workers_hung", "Processes that were ended since they hung"},
    [LINES_LOST] = {"lines_lost", "Lines of standard error that nobody read"},
};

static const struct {
    const char *name, *meaning;
} gauges[GAUGES] = {
    [ALLOCATIONS_NOW] = {"allocations", "Allocations there are, of each family"},
    [FLOWS_NOW] = {"flows", "Channels that the kernel relays"},
    [CONNECTIONS_NOW] = {"connections", "TCP connections there are"},
    [SOCKETS_READY] = {"sockets_ready", "Relay sockets that wait for the next allocations"},
    [RESERVED_NOW] = {"reserved", "Relay sockets that are reserved"},
    [USERS_KNOWN] = {"users", "Users in the file of users"},
    [MEMORY] = {"memory_bytes", "Memory that the processes have for themselves"},
    [DRAINING] = {"draining", "1 if no more allocations are made, and the server ends with the last"},
};

/* Why requests are refused, and the code of the response. Of those with one code the first is the usual. */
static const struct {
    uint32_t code;
    const char *cause;
} refusals[REFUSALS] = {
    [REFUSED_UNSIGNED] = {STUN_TYPES_CODE_UNAUTHORIZED, "unsigned"},
    [REFUSED_CREDENTIALS] = {STUN_TYPES_CODE_UNAUTHORIZED, "credentials"},
    [REFUSED_NONCE] = {STUN_TYPES_CODE_STALE_NONCE, "nonce"},
    [REFUSED_MALFORMED] = {STUN_TYPES_CODE_BAD_REQUEST, "malformed"},
    [REFUSED_PEER] = {STUN_TYPES_CODE_FORBIDDEN, "peer"},
    [REFUSED_ATTRIBUTE] = {STUN_TYPES_CODE_UNKNOWN_ATTRIBUTE, "attribute"},
    [REFUSED_MISMATCH] = {STUN_TYPES_CODE_ALLOCATION_MISMATCH, "allocation"},
    [REFUSED_FAMILY] = {STUN_TYPES_CODE_ADDRESS_FAMILY_NOT_SUPPORTED, "family"},
    [REFUSED_USER] = {STUN_TYPES_CODE_WRONG_CREDENTIALS, "user"},
    [REFUSED_TRANSPORT] = {STUN_TYPES_CODE_UNSUPPORTED_TRANSPORT_PROTOCOL, "transport"},
    [REFUSED_PEER_FAMILY] = {STUN_TYPES_CODE_PEER_ADDRESS_FAMILY_MISMATCH, "peer_family"},
    [REFUSED_QUOTA] = {STUN_TYPES_CODE_ALLOCATION_QUOTA_REACHED, "user_allocations"},
    [REFUSED_CAPACITY] = {STUN_TYPES_CODE_INSUFFICIENT_CAPACITY, "capacity"},
    [REFUSED_FULL] = {STUN_TYPES_CODE_INSUFFICIENT_CAPACITY, "allocations"},
    [REFUSED_NO_PORT] = {STUN_TYPES_CODE_INSUFFICIENT_CAPACITY, "ports"},
    [REFUSED_DRAINING] = {STUN_TYPES_CODE_INSUFFICIENT_CAPACITY, "draining"},
    [REFUSED_MOVED] = {STUN_TYPES_CODE_TRY_ALTERNATE, "draining"},
    [REFUSED_OTHERWISE] = {0, "other"},
};

int refusal_of(uint32_t code) {
    int which = 0;
    while (which < REFUSED_OTHERWISE && refusals[which].code != code) which++;
    return which;
}

void print_to(growing_text *to, const char *format, ...) {
    size_t left = to->size - to->length;
    va_list values;
    va_start(values, format);
    int written = vsnprintf(to->room + to->length, left, format, values);
    va_end(values);
    if (written > 0) to->length += (size_t)written < left ? (size_t)written : left - 1;
}

/* How many datagrams came to a socket whose queue was full. */
static uint64_t dropped_by(int number) {
    uint32_t numbers[SK_MEMINFO_VARS] = {0};
    socklen_t length = sizeof numbers;
    if (getsockopt(number, SOL_SOCKET, SO_MEMINFO, numbers, &length) != 0) return 0;
    return numbers[SK_MEMINFO_DROPS];
}

uint64_t dropped_by_all(const endpoints *of) {
    uint64_t dropped = 0;
    for (size_t i = 0; i < of->count; i++) {
        if (!of->all[i].stream) dropped += dropped_by(of->all[i].socket);
    }
    return dropped;
}

/* (its allocations have ended with it) */
void clear_gauges(tally *of) {
    raise_by(&of->numbers[TURN_ENDED],
             atomic_load_explicit(&of->gauges[ALLOCATIONS_NOW], memory_order_relaxed));
    for (int i = 0; i < GAUGES; i++) set_gauge(of, i, 0);
}

uint64_t memory_of(pid_t process) {
    char path[64];
    unsigned long long all, resident = 0, shared = 0;
    snprintf(path, sizeof path, "/proc/%ld/statm", (long)process);
    FILE *from = fopen(path, "re");
    if (from == NULL) return 0;
    bool is_read = fscanf(from, "%llu %llu %llu", &all, &resident, &shared) == 3;
    fclose(from);
    return is_read && resident > shared ? (resident - shared) * (uint64_t)sysconf(_SC_PAGESIZE) : 0;
}

static uint64_t read_number_of(const _Atomic uint64_t *number) {
    return atomic_load_explicit(number, memory_order_relaxed);
}

static uint64_t sum_of(const tally *tallies, size_t tallies_count, int which) {
    uint64_t sum = 0;
    for (size_t i = 0; i < tallies_count; i++) sum += read_number_of(&tallies[i].numbers[which]);
    return sum;
}

uint64_t sum_of_gauges(const tally *tallies, size_t tallies_count, int which) {
    uint64_t sum = 0;
    for (size_t i = 0; i < tallies_count; i++) sum += read_number_of(&tallies[i].gauges[which]);
    return sum;
}

static uint64_t sum_of_refusals(const tally *tallies, size_t tallies_count, int which) {
    uint64_t sum = 0;
    for (size_t i = 0; i < tallies_count; i++) sum += read_number_of(&tallies[i].refusals[which]);
    return sum;
}

void print_counts(const tally *tallies, size_t tallies_count, uint64_t uptime) {
    char room[COUNTS_ROOM / 2];
    growing_text line = {room, sizeof room, 0};
    print_to(&line, "event=counts uptime=%" PRIu64, uptime);
    for (int i = 0; i < COUNTS; i++) {
        print_to(&line, " %s=%" PRIu64, counts[i].name, sum_of(tallies, tallies_count, i));
    }
    print_to(&line, "\n");
    print_line(line.room, line.length);
}

/* ---- Prometheus ------------------------------------------------------------------------------ */

/* Describes a metric, whose samples follow. */
static void describe(growing_text *to, const char *name, const char *suffix, const char *kind,
                     const char *meaning) {
    print_to(to, "# HELP stun_server_%s%s %s.\n", name, suffix, meaning);
    print_to(to, "# TYPE stun_server_%s%s %s\n", name, suffix, kind);
}

static void append_gauge(growing_text *to, const char *name, const char *meaning, uint64_t number) {
    describe(to, name, "", "gauge", meaning);
    print_to(to, "stun_server_%s %" PRIu64 "\n", name, number);
}

static void append_refusals(growing_text *to, const tally *tallies, size_t tallies_count) {
    describe(to, "turn_refusals", "_total", "counter", "Error responses by code and cause");
    for (int i = 0; i < REFUSALS; i++) {
        print_to(to, "stun_server_turn_refusals_total{code=\"%u\",cause=\"%s\"} %" PRIu64 "\n",
                 (unsigned)refusals[i].code, refusals[i].cause,
                 sum_of_refusals(tallies, tallies_count, i));
    }
}

size_t write_counts(const tally *tallies, size_t tallies_count, uint64_t uptime,
                    char room[COUNTS_ROOM]) {
    growing_text made = {room, COUNTS_ROOM, 0};
    print_to(&made, "HTTP/1.0 200 OK\r\nContent-Type: text/plain; version=0.0.4\r\n\r\n");
    append_gauge(&made, "uptime_seconds", "Seconds since the start", uptime);
    for (int i = 0; i < GAUGES; i++) {
        append_gauge(&made, gauges[i].name, gauges[i].meaning, sum_of_gauges(tallies, tallies_count, i));
    }
    for (int i = 0; i < COUNTS; i++) {
        describe(&made, counts[i].name, "_total", "counter", counts[i].meaning);
        print_to(&made, "stun_server_%s_total %" PRIu64 "\n", counts[i].name,
                 sum_of(tallies, tallies_count, i));
    }
    append_refusals(&made, tallies, tallies_count);
    return made.length;
}
