/* Loads relay.bpf.c into the kernel, for stun-server, which then needs no rights for it.
 *
 *     stun-server-kernel [-U USER] [-P FOLDER] [-c FILE] [-o NAME=VALUE].. ADDRESS PORT [ADDRESS PORT]..
 *     stun-server-kernel --remove [-P FOLDER]
 *
 * The addresses, the file and the settings are those of stun-server; of the settings it takes `kernel`, `relay-address`
 * and `ports`, and leaves the others to the server. The program gets the server's own addresses, its ports and the
 * interfaces as constants, looks at what comes in by the interfaces (tc, ingress), and is replaced if it was there. The
 * maps are pinned in FOLDER, and belong to USER, a name or a number. They stay until --remove, or until the machine
 * restarts; a program whose maps no server writes relays nothing.
 *
 * It needs CAP_BPF and CAP_NET_ADMIN. The status is 0 if all is done, 3 if it couldn't be done, 64 if the arguments
 * are wrong, 78 if the file is. */
#define _GNU_SOURCE
#include <arpa/inet.h>
#include <errno.h>
#include <fcntl.h>
#include <getopt.h>
#include <ifaddrs.h>
#include <limits.h>
#include <linux/bpf.h>
#include <linux/if_ether.h>
#include <linux/pkt_cls.h>
#include <linux/rtnetlink.h>
#include <net/if.h>
#include <pwd.h>
#include <stdarg.h>
#include <stdbool.h>
#include <stddef.h>
#include <stdint.h>
#include <stdio.h>
#include <stdlib.h>
#include <string.h>
#include <sys/socket.h>
#include <sys/stat.h>
#include <sys/syscall.h>
#include <unistd.h>

#include "relay.h"

/* At which instruction of the program is the number of which map, and from where on in its value. */
struct reference {
    __u32 at, map, from;
};
#include "relay_code.h"

enum { STATUS_DONE = 0, STATUS_BROKEN = 3, STATUS_WRONG_ARGUMENTS = 64, STATUS_WRONG_SETTINGS = 78 };
enum {
    INSTRUCTIONS = sizeof relay_code / sizeof *relay_code,
    REFERENCES = sizeof relay_references / sizeof *relay_references
};
enum { FILTER_PRIORITY = 3478, FILTER_HANDLE = 1 };

static const char *const pins[RELAY_MAPS] = RELAY_PINS;

/* What is asked for. */
static struct {
    const char *folder, *file;
    uid_t user;
    bool removes, has_ports;
    struct own own;
    struct ip relayed[MOST_RELAYED_PLACES];
    uint16_t least, most;
    size_t relayed_count, listening_count, interface_count;
} asked = {.folder = RELAY_FOLDER, .user = (uid_t)-1, .least = 49152, .most = 65535};

/* Prints what is wrong. Returns false. */
__attribute__((format(printf, 1, 2))) static bool refuse(const char *format, ...) {
    va_list values;
    va_start(values, format);
    fprintf(stderr, "stun-server-kernel: ");
    vfprintf(stderr, format, values);
    fprintf(stderr, "\n");
    va_end(values);
    return false;
}

static bool cannot(const char *what) { return refuse("%s: %s", what, strerror(errno)); }

/* ---- Arguments and settings ------------------------------------------------------------------ */

static bool read_number(const char *text, unsigned long least, unsigned long most, unsigned long *read) {
    char *end;
    if (*text < '0' || *text > '9') return false;
    errno = 0;
    *read = strtoul(text, &end, 10);
    return errno == 0 && *end == 0 && *read >= least && *read <= most;
}

static bool read_ip(const char *text, struct ip *read) {
    memset(read, 0, sizeof *read);
    if (inet_pton(AF_INET6, text, read->octets) == 1) return true;
    read->octets[10] = read->octets[11] = 0xff;
    return inet_pton(AF_INET, text, read->octets + 12) == 1;
}

static bool is_four(const struct ip *of) {
    static const uint8_t first[12] = {[10] = 0xff, [11] = 0xff};
    return memcmp(of->octets, first, sizeof first) == 0;
}

/* Whether an address stands for all of its family. */
static bool is_any(const struct ip *of) {
    static const uint8_t zeros[16];
    return is_four(of) ? memcmp(of->octets + 12, zeros, 4) == 0 : memcmp(of->octets, zeros, 16) == 0;
}

static bool read_range(const char *text) {
    char low[6] = "";
    const char *dash = strchr(text, '-');
    unsigned long least, most;
    if (dash == NULL || dash - text >= (ptrdiff_t)sizeof low) return false;
    memcpy(low, text, (size_t)(dash - text));
    if (!read_number(low, 1, UINT16_MAX, &least) || !read_number(dash + 1, least, UINT16_MAX, &most)) return false;
    asked.least = (uint16_t)least;
    asked.most = (uint16_t)most;
    return asked.has_ports = true;
}

static bool add_interface(const char *name) {
    unsigned number = if_nametoindex(name);
    if (number == 0) return refuse("kernel %s: there is no such interface", name);
    if (number == if_nametoindex("lo")) return refuse("kernel %s: nothing comes in by it that is relayed", name);
    if (asked.interface_count == MOST_INTERFACES) {
        return refuse("kernel %s: one too many; %d is the most", name, MOST_INTERFACES);
    }
    asked.own.interfaces[asked.interface_count++] = number;
    return true;
}

static bool add_relayed(const char *text) {
    struct ip *added = &asked.relayed[asked.relayed_count];
    if (asked.relayed_count == MOST_RELAYED_PLACES) return refuse("relay-address %s: one too many", text);
    if (!read_ip(text, added) || is_any(added)) return refuse("relay-address %s: no address of this machine", text);
    asked.relayed_count++;
    return true;
}

/* Takes a setting; one of the server alone is left to it. */
static bool take_setting(const char *name, const char *value) {
    if (strcmp(name, "kernel") == 0) return add_interface(value);
    if (strcmp(name, "relay-address") == 0) return add_relayed(value);
    if (strcmp(name, "ports") == 0) return read_range(value) || refuse("ports %s: no LOW-HIGH from 1 to 65535", value);
    return true;
}

static bool read_setting(char *text) {
    char *equals = strchr(text, '=');
    if (equals == NULL) return refuse("-o %s: no value; NAME=VALUE is right", text);
    *equals = 0;
    return take_setting(text, equals + 1);
}

/* Reads a file of lines NAME VALUE, in which a word that begins with a # begins a comment. */
static bool read_file(const char *path) {
    static const char blanks[] = " \t\r\n";
    char line[256], *rest;
    FILE *from = fopen(path, "re");
    bool is_right = from != NULL;
    if (!is_right) cannot(path);
    while (is_right && fgets(line, sizeof line, from) != NULL) {
        const char *name = strtok_r(line, blanks, &rest);
        const char *value = name != NULL && *name != '#' ? strtok_r(NULL, blanks, &rest) : NULL;
        if (value != NULL && *value != '#') is_right = take_setting(name, value);
    }
    if (from != NULL) fclose(from);
    return is_right;
}

static bool add_listening(const struct ip *ip, uint16_t port) {
    if (asked.listening_count == MOST_LISTENING_PLACES) {
        return refuse("more than %d addresses to listen at", MOST_LISTENING_PLACES);
    }
    asked.own.listening[asked.listening_count++] = (struct own_place){*ip, port, port};
    return true;
}

static bool is_of_interface(const struct ifaddrs *of) {
    for (size_t i = 0; i < asked.interface_count; i++) {
        if (if_nametoindex(of->ifa_name) == asked.own.interfaces[i]) return true;
    }
    return false;
}

/* Adds the addresses of the interfaces: those of IPv4, and those of IPv6 if the address is `::`. */
static bool add_all(const struct ip *any, uint16_t port) {
    struct ifaddrs *all;
    bool is_right = true;
    if (getifaddrs(&all) != 0) return cannot("the addresses of the interfaces");
    for (const struct ifaddrs *at = all; at != NULL && is_right; at = at->ifa_next) {
        struct ip ip = {{[10] = 0xff, [11] = 0xff}};
        int family = at->ifa_addr != NULL ? at->ifa_addr->sa_family : AF_UNSPEC;
        if (!is_of_interface(at) || !(family == AF_INET || (family == AF_INET6 && !is_four(any)))) continue;
        const void *bytes = at->ifa_addr;
        if (family == AF_INET) memcpy(ip.octets + 12, &((const struct sockaddr_in *)bytes)->sin_addr, 4);
        else memcpy(ip.octets, &((const struct sockaddr_in6 *)bytes)->sin6_addr, 16);
        is_right = add_listening(&ip, port);
    }
    freeifaddrs(all);
    return is_right;
}

static bool read_addresses(char **words, int count) {
    for (int i = 0; i + 1 < count; i += 2) {
        struct ip ip;
        unsigned long port;
        if (!read_ip(words[i], &ip)) return refuse("%s: no IP address", words[i]);
        if (!read_number(words[i + 1], 1, UINT16_MAX, &port)) return refuse("%s: no port", words[i + 1]);
        if (is_any(&ip) ? !add_all(&ip, (uint16_t)port) : !add_listening(&ip, (uint16_t)port)) return false;
        bool is_first = asked.relayed_count == 0 && !is_any(&ip);
        for (size_t at = 0; at < asked.relayed_count && asked.relayed_count < MOST_RELAYED_PLACES; at++) {
            is_first = !is_any(&ip) && is_four(&asked.relayed[at]) != is_four(&ip);
        }
        if (is_first) asked.relayed[asked.relayed_count++] = ip;
    }
    return true;
}

/* Makes the constants of what was read. */
static bool make_own(void) {
    if (asked.interface_count == 0) return refuse("no interface; kernel=INTERFACE is missing");
    if (asked.listening_count == 0) return refuse("no address to listen at");
    if (asked.relayed_count == 0) return refuse("no relayed address; relay-address=ADDRESS is missing");
    for (size_t i = 0; i < asked.relayed_count; i++) {
        asked.own.relayed[i] = (struct own_place){asked.relayed[i], asked.least, asked.most};
    }
    return true;
}

/* ---- The kernel's calls ---------------------------------------------------------------------- */

static int call(enum bpf_cmd command, union bpf_attr *how) { return (int)syscall(SYS_bpf, command, how, sizeof *how); }

static uint64_t address_of(const void *at) { return (uint64_t)(uintptr_t)at; }

/* The maps: their kinds and sizes. */
static const struct {
    __u32 kind, key, value, entries, flags;
} kinds[RELAY_MAPS] = {
    [SLOTS] = {BPF_MAP_TYPE_HASH, sizeof(struct flow_key), sizeof(__u32), MOST_FLOWS, BPF_F_NO_PREALLOC},
    [FLOWS] = {BPF_MAP_TYPE_ARRAY, sizeof(__u32), sizeof(struct flow), MOST_FLOWS, BPF_F_MMAPABLE},
    [LEASES] = {BPF_MAP_TYPE_ARRAY, sizeof(__u32), sizeof(struct lease), MOST_LEASES, BPF_F_MMAPABLE},
    [BUCKETS] = {BPF_MAP_TYPE_ARRAY, sizeof(__u32), sizeof(struct bucket), MOST_BUCKETS, BPF_F_MMAPABLE},
    [REASONS] = {BPF_MAP_TYPE_PERCPU_ARRAY, sizeof(__u32), sizeof(__u64), REASON_COUNT, 0},
    [OWN] = {BPF_MAP_TYPE_ARRAY, sizeof(__u32), sizeof(struct own), 1, BPF_F_RDONLY_PROG},
};

static int make_map(int which) {
    union bpf_attr how;
    memset(&how, 0, sizeof how);
    how.map_type = kinds[which].kind;
    how.key_size = kinds[which].key;
    how.value_size = kinds[which].value;
    how.max_entries = kinds[which].entries;
    how.map_flags = kinds[which].flags;
    snprintf(how.map_name, sizeof how.map_name, "stun_%s", pins[which]);
    return call(BPF_MAP_CREATE, &how);
}

/* Writes the constants, which nobody can write from then on. */
static bool write_own(int map) {
    union bpf_attr how;
    __u32 zero = 0;
    memset(&how, 0, sizeof how);
    how.map_fd = (__u32)map;
    how.key = address_of(&zero);
    how.value = address_of(&asked.own);
    if (call(BPF_MAP_UPDATE_ELEM, &how) != 0) return false;
    memset(&how, 0, sizeof how);
    how.map_fd = (__u32)map;
    return call(BPF_MAP_FREEZE, &how) == 0;
}

/* Loads the program with the numbers of these maps. A refusal of the kernel's verifier is printed. */
static int load_program(const int maps[RELAY_MAPS]) {
    static char log[1 << 16];
    static __u64 words[INSTRUCTIONS];
    memcpy(words, relay_code, sizeof words);
    for (size_t i = 0; i < REFERENCES; i++) {
        const struct reference *at = &relay_references[i];
        /* (two instructions load a map: its number is the high half of the first, an offset that of the second) */
        __u64 kind = at->map == OWN ? BPF_PSEUDO_MAP_VALUE : BPF_PSEUDO_MAP_FD;
        __u64 offset = at->map == OWN ? (words[at->at] >> 32) + at->from : 0;
        words[at->at] = (words[at->at] & 0x0fff) | kind << 12 | (__u64)(__u32)maps[at->map] << 32;
        words[at->at + 1] = (words[at->at + 1] & 0xffffffff) | offset << 32;
    }
    union bpf_attr how;
    memset(&how, 0, sizeof how);
    how.prog_type = BPF_PROG_TYPE_SCHED_CLS;
    how.insns = address_of(words);
    how.insn_cnt = INSTRUCTIONS;
    how.license = address_of("Dual MIT/GPL");
    snprintf(how.prog_name, sizeof how.prog_name, "turn_relay");
    int made = call(BPF_PROG_LOAD, &how);
    if (made >= 0 || errno == EPERM) return made;
    int error = errno;
    how.log_buf = address_of(log);
    how.log_size = sizeof log;
    how.log_level = 1;
    made = call(BPF_PROG_LOAD, &how);
    if (made < 0 && *log != 0) refuse("the verifier says: %s", strlen(log) > 2000 ? log + strlen(log) - 2000 : log);
    errno = error;
    return made;
}

/* ---- Pins -------------------------------------------------------------------------------------- */

static void place(char path[PATH_MAX], const char *name) { snprintf(path, PATH_MAX, "%s/%s", asked.folder, name); }

/* Pins a map or the program, which this user may then open to read and write; -1: no other than root. */
static bool pin(int number, const char *name, uid_t user) {
    char path[PATH_MAX];
    union bpf_attr how;
    place(path, name);
    memset(&how, 0, sizeof how);
    how.bpf_fd = (__u32)number;
    how.pathname = address_of(path);
    if (call(BPF_OBJ_PIN, &how) != 0) {
        return errno == EPERM || errno == EINVAL ? refuse("%s: %s; is a file system of type bpf there?", path, strerror(errno))
                                                 : cannot(path);
    }
    return (chown(path, user, (gid_t)-1) == 0 && chmod(path, S_IRUSR | S_IWUSR) == 0) || cannot(path);
}

static int open_pin(const char *name) {
    char path[PATH_MAX];
    union bpf_attr how;
    place(path, name);
    memset(&how, 0, sizeof how);
    how.pathname = address_of(path);
    return call(BPF_OBJ_GET, &how);
}

/* ---- Interfaces (rtnetlink) ------------------------------------------------------------------ */

typedef struct {
    struct nlmsghdr head;
    struct tcmsg about;
    uint8_t parts[256];
} message;

static message made_message(uint16_t kind, uint16_t flags, uint32_t interface) {
    message made;
    memset(&made, 0, sizeof made);
    made.head.nlmsg_len = NLMSG_LENGTH(sizeof made.about);
    made.head.nlmsg_type = kind;
    made.head.nlmsg_flags = (uint16_t)(NLM_F_REQUEST | NLM_F_ACK | flags);
    made.about.tcm_family = AF_UNSPEC;
    made.about.tcm_ifindex = (int)interface;
    return made;
}

/* Appends an attribute. Returns it. */
static struct rtattr *append(message *to, uint16_t kind, const void *bytes, size_t length) {
    struct rtattr *at = (struct rtattr *)(void *)((char *)to + NLMSG_ALIGN(to->head.nlmsg_len));
    at->rta_type = kind;
    at->rta_len = (uint16_t)RTA_LENGTH(length);
    if (length > 0) memcpy(RTA_DATA(at), bytes, length);
    to->head.nlmsg_len = (uint32_t)(NLMSG_ALIGN(to->head.nlmsg_len) + RTA_ALIGN(at->rta_len));
    return at;
}

/* Sends a message. Returns 0, or the number of an error. */
static int ask(const message *of) {
    struct {
        struct nlmsghdr head;
        struct nlmsgerr error;
        uint8_t rest[1024];
    } answer;
    int number = socket(AF_NETLINK, SOCK_RAW | SOCK_CLOEXEC, NETLINK_ROUTE);
    if (number < 0) return errno;
    bool is_done = send(number, of, of->head.nlmsg_len, 0) == (ssize_t)of->head.nlmsg_len &&
                   recv(number, &answer, sizeof answer, 0) >= (ssize_t)NLMSG_LENGTH(sizeof answer.error);
    int error = is_done ? -answer.error.error : errno;
    close(number);
    return is_done && answer.head.nlmsg_type != NLMSG_ERROR ? EPROTO : error;
}

/* Has packets come by the place where filters are. It stays, since others may use it. */
static int make_place(uint32_t interface) {
    message asks = made_message(RTM_NEWQDISC, NLM_F_CREATE | NLM_F_EXCL, interface);
    asks.about.tcm_parent = TC_H_CLSACT;
    asks.about.tcm_handle = TC_H_MAKE(TC_H_CLSACT, 0);
    append(&asks, TCA_KIND, "clsact", sizeof "clsact");
    int error = ask(&asks);
    return error == EEXIST ? 0 : error;
}

static message filter_message(uint16_t kind, uint16_t flags, uint32_t interface) {
    message made = made_message(kind, flags, interface);
    made.about.tcm_parent = TC_H_MAKE(TC_H_CLSACT, TC_H_MIN_INGRESS);
    made.about.tcm_handle = FILTER_HANDLE;
    made.about.tcm_info = TC_H_MAKE((uint32_t)FILTER_PRIORITY << 16, htons(ETH_P_ALL));
    append(&made, TCA_KIND, "bpf", sizeof "bpf");
    return made;
}

static bool attach(int program, uint32_t interface) {
    char name[IF_NAMESIZE] = "?";
    __u32 number = (__u32)program, flags = TCA_BPF_FLAG_ACT_DIRECT;
    if_indextoname(interface, name);
    int error = make_place(interface);
    if (error == 0) {
        message asks = filter_message(RTM_NEWTFILTER, NLM_F_CREATE, interface);
        struct rtattr *options = append(&asks, TCA_OPTIONS, NULL, 0);
        append(&asks, TCA_BPF_FD, &number, sizeof number);
        append(&asks, TCA_BPF_NAME, "stun-server", sizeof "stun-server");
        append(&asks, TCA_BPF_FLAGS, &flags, sizeof flags);
        options->rta_len = (uint16_t)((char *)&asks + asks.head.nlmsg_len - (char *)options);
        error = ask(&asks);
    }
    return error == 0 || refuse("%s: no program is attached: %s", name, strerror(error));
}

/* Takes the program away from an interface, if both are there. */
static bool detach(uint32_t interface) {
    message asks = filter_message(RTM_DELTFILTER, 0, interface);
    int error = ask(&asks);
    bool was_gone = error == ENOENT || error == ENODEV || error == EINVAL;
    return error == 0 || was_gone || refuse("interface %u: the program stays: %s", interface, strerror(error));
}

/* ---- All ------------------------------------------------------------------------------------- */

/* Takes away what an earlier start left: the program, and the pins. */
static bool remove_all(void) {
    char path[PATH_MAX];
    union bpf_attr how;
    struct own old;
    __u32 zero = 0;
    bool is_right = true;
    int map = open_pin(pins[OWN]);
    memset(&how, 0, sizeof how);
    how.map_fd = (__u32)map;
    how.key = address_of(&zero);
    how.value = address_of(&old);
    if (map >= 0 && call(BPF_MAP_LOOKUP_ELEM, &how) == 0) {
        for (int i = 0; i < MOST_INTERFACES; i++) {
            if (old.interfaces[i] != 0) is_right = detach(old.interfaces[i]) && is_right;
        }
    } else if (map >= 0 || errno != ENOENT) {
        is_right = cannot(asked.folder);
    }
    if (map >= 0) close(map);
    for (int i = 0; i <= RELAY_MAPS && is_right; i++) {
        place(path, i < RELAY_MAPS ? pins[i] : "program");
        is_right = unlink(path) == 0 || errno == ENOENT || cannot(path);
    }
    if (is_right) is_right = rmdir(asked.folder) == 0 || errno == ENOENT || cannot(asked.folder);
    return is_right;
}

static bool pin_all(const int maps[RELAY_MAPS], int program) {
    if (mkdir(asked.folder, S_IRWXU | S_IRGRP | S_IXGRP | S_IROTH | S_IXOTH) != 0) return cannot(asked.folder);
    for (int i = 0; i < RELAY_MAPS; i++) {
        if (!pin(maps[i], pins[i], asked.user)) return false;
    }
    return pin(program, "program", (uid_t)-1);
}

static bool load(void) {
    int maps[RELAY_MAPS];
    if (!remove_all()) return false;
    for (int i = 0; i < RELAY_MAPS; i++) {
        if ((maps[i] = make_map(i)) < 0) return refuse("no map %s: %s", pins[i], strerror(errno));
    }
    if (!write_own(maps[OWN])) return cannot("the constants aren't written");
    int program = load_program(maps);
    if (program < 0) return cannot("the program isn't loaded");
    bool is_done = pin_all(maps, program);
    for (size_t i = 0; i < asked.interface_count && is_done; i++) is_done = attach(program, asked.own.interfaces[i]);
    if (!is_done) (void)remove_all();
    return is_done;
}

static bool read_user(const char *text) {
    unsigned long number;
    if (read_number(text, 0, UINT32_MAX - 1, &number)) {
        asked.user = (uid_t)number;
        return true;
    }
    const struct passwd *found = getpwnam(text);
    if (found == NULL) return refuse("-U %s: there is no such user", text);
    asked.user = found->pw_uid;
    return true;
}

static int print_usage(FILE *to) {
    fprintf(to, "usage: stun-server-kernel [-U USER] [-P FOLDER] [-c FILE] [-o NAME=VALUE].. ADDRESS PORT [ADDRESS PORT]..\n"
                "       stun-server-kernel --remove [-P FOLDER]\n"
                "       stun-server-kernel -h | -V\n");
    return to == stdout ? STATUS_DONE : STATUS_WRONG_ARGUMENTS;
}

int main(int count, char **arguments) {
    static const struct option long_options[] = {{"remove", no_argument, NULL, 'R'}, {NULL, 0, NULL, 0}};
    int option;
    while ((option = getopt_long(count, arguments, "+:U:P:c:o:hV", long_options, NULL)) != -1) {
        switch (option) {
        case 'U':
            if (!read_user(optarg)) return STATUS_WRONG_ARGUMENTS;
            break;
        case 'P': asked.folder = optarg; break;
        case 'c': asked.file = optarg; break;
        case 'o':
            if (!read_setting(optarg)) return STATUS_WRONG_ARGUMENTS;
            break;
        case 'R': asked.removes = true; break;
        case 'h': return print_usage(stdout);
        case 'V': return printf("stun-server-kernel: %s\n", RELAY_RULES), STATUS_DONE;
        default: return print_usage(stderr);
        }
    }
    int words = count - optind;
    if (asked.removes) return words > 0 ? print_usage(stderr) : remove_all() ? STATUS_DONE : STATUS_BROKEN;
    if (words == 0 || words % 2 != 0) return print_usage(stderr);
    if (asked.file != NULL && !read_file(asked.file)) return STATUS_WRONG_SETTINGS;
    if (!read_addresses(arguments + optind, words) || !make_own()) return STATUS_WRONG_ARGUMENTS;
    return load() ? STATUS_DONE : STATUS_BROKEN;
}
