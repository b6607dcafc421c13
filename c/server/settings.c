/* The settings: numbers and texts with names, by -o and by the file of -c, which is read again at SIGHUP.
 * The numbers are in memory that all processes share: workers follow a change at once. */
#include "server.h"

#include <net/if.h>
#include <sys/mman.h>

static const struct {
    const char *name;
    uint32_t least, most, usual;
    bool at_start; /* a change takes a new start */
    const char *meaning;
} known[SETTINGS] = {
    [MAX_CONNECTIONS] = {"max-connections", 1, MOST_CONNECTIONS, 1024, true,
                         "TCP connections at once"},
    [IDLE_TIMEOUT] = {"idle-timeout", 1, 86400, 30, false,
                      "seconds from one whole message to the next"},
    [REQUEST_TIMEOUT] = {"request-timeout", 1, 86400, 5, false,
                         "seconds from a message's first byte to its last"},
    [MAX_AGE] = {"max-age", 1, 864000, 600, false, "seconds that a connection may last"},
    [HANG_TIMEOUT] = {"hang-timeout", 2, 86400, 10, false,
                      "seconds until a hung process is replaced"},
    [RATE] = {"rate", 0, 1000000, 0, false,
              "answers a second over UDP to one /24 of IPv4 or /56 of IPv6; 0: any"},
    [SLIP] = {"slip", 0, 1000000, 4, false,
              "of the answers over that limit, one in so many is given; 0: none"},
    [SOFTWARE] = {"software", 0, 1, 1, false, "1: replies have a SOFTWARE"},
    [SANDBOX] = {"sandbox", 0, 2, 1, true,
                 "1: processes are confined by seccomp and Landlock, if the system can; 2: or the"
                 " server doesn't begin"},
    [LOG_LEVEL] = {"log-level", 0, 2, 2, false, "0: failures; 1: warnings too; 2: all events"},
    [TURN] = {"turn", 0, 1, 0, true, "1: clients may have data relayed (TURN)"},
    [ALLOCATIONS] = {"allocations", 1, MOST_ALLOCATIONS, 1000, true, "allocations of one process"},
    [USER_ALLOCATIONS] = {"user-allocations", 1, MOST_ALLOCATIONS, 10, false,
                          "those of them that one user may have"},
    [LIFETIME] = {"lifetime", 600, 86400, 3600, false,
                  "seconds that an allocation lasts at most until it is refreshed"},
    [NONCE_LIFETIME] = {"nonce-lifetime", 1, 86400, 600, true, "seconds that a nonce is valid"},
    [DRAIN_SECONDS] = {"drain-seconds", 0, 864000, 3600, false,
                       "seconds from SIGUSR2 until it ends, though allocations are left; 0: any"},
    [CHANNEL_PERMITS] = {"channel-permits", 0, 1, 0, true,
                         "1: the permission of a channel lasts as long as it, for aioice"},
    [OLD_CHANNELS] = {"old-channels", 0, 1, 0, true, "1: channels up to 0x7FFF too, for coturn's client"},
    [SHA256] = {"sha256", 0, 1, 1, true, "1: users may sign with SHA-256; all have a key for it"},
    [BANDWIDTH] = {"bandwidth", 0, INT32_MAX, 0, false,
                   "octets a second that are relayed for one allocation; 0: any"},
    [USER_BANDWIDTH] = {"user-bandwidth", 0, INT32_MAX, 0, false,
                        "octets a second for all of a user; 0: any"},
    [PACKET_RATE] = {"packet-rate", 0, 1000000, 0, false,
                     "datagrams a second that are relayed for one allocation; 0: any"},
    [USER_PACKET_RATE] = {"user-packet-rate", 0, 1000000, 0, false,
                          "datagrams a second for all of a user; 0: any"},
    [LOG_JSON] = {"log-json", 0, 1, 0, false, "1: lines of allocation-log are JSON"},
    [LOG_RATE] = {"log-rate", 0, 1000000, 1000, false, "lines of allocation-log a second; 0: any"},
    [RESERVATIONS] = {"reservations", 0, 10000, 0, true,
                      "ports that EVEN-PORT reserves at a time in one process; 0: none"},
    [DONT_FRAGMENT] = {"dont-fragment", 0, 1, 0, true, "1: data with DONT-FRAGMENT goes with the DF bit"},
    [ICMP] = {"icmp", 0, 1, 0, true, "1: clients learn of ICMP packets about what they sent"},
    [HEADER_FIELDS] = {"header-fields", 0, 1, 0, true,
                       "1: what is relayed has the DSCP, the ECN and over IPv6 the Hop Limit that it came with"},
};

static bool is_realm(const char *text) {
    return strlen(text) <= 128 || fault_is("%zu bytes; at most 128 are right", strlen(text));
}

static bool is_path(const char *text) { return *text != 0; }

static bool is_interface(const char *text) {
    return strlen(text) < IFNAMSIZ || fault_is("no name of an interface, which has at most %d characters", IFNAMSIZ - 1);
}

static bool is_address(const char *text) {
    stun_types_address address;
    return read_ip(text, &address) || fault_is("no IP address");
}

static bool is_end(const char *text) {
    stun_types_address end;
    return read_end(text, &end) || fault_is("no ADDRESS:PORT, as 192.0.2.7:3478 or [2001:db8::7]:3478");
}

static bool is_range(const char *text) {
    uint32_t least, most;
    return read_range(text, &least, &most) || fault_is("no LOW-HIGH of ports from 1 to 65535");
}

static bool is_log(const char *text) {
    return *text == '/' || strcmp(text, "off") == 0 || strcmp(text, "on") == 0 ||
           strcmp(text, "syslog") == 0 || fault_is("no off, on or syslog, and no path from / on");
}

static bool is_rule(const char *text) {
    stun_types_prefix rule;
    return read_rule(text, &rule);
}

static bool is_prefix(const char *text) {
    stun_types_prefix rule;
    return read_rule(text, &rule) &&
           (rule.last_port == 0 || fault_is("ports after a prefix; ADDRESS or ADDRESS/LENGTH is right"));
}

/* The settings that are texts, how often one may be given, whether a change takes a new start, and what it has
 * to be. */
static const struct {
    const char *name;
    size_t most;
    bool at_start;
    bool (*is_right)(const char *text);
    const char *meaning;
} known_texts[TEXTS] = {
    [REALM] = {"realm", 1, true, is_realm, "the realm of the users"},
    [USERS] = {"users", 1, true, is_path, "a file of lines NAME PASSWORD, NAME md5:KEY or NAME sha256:KEY"},
    [SECRET] = {"secret", 1, true, is_path, "a file of secrets, one a line, for names that are valid for a time"},
    [NONCE_SECRET] = {"nonce-secret", 1, true, is_path,
                      "a file with the secret of the nonces, the same at several servers"},
    [RELAY_ADDRESS] = {"relay-address", 2, true, is_address,
                       "the one with relayed ports, one of a family; unless it is given, the first of ADDRESS"},
    [EXTERNAL_ADDRESS] = {"external-address", 2, true, is_address,
                          "what a NAT makes of relay-address, one of a family"},
    [PORTS] = {"ports", 1, true, is_range, "LOW-HIGH, ports of relay-address (49152-65535)"},
    [DENY] = {"deny", MOST_PREFIXES, false, is_rule, "a PREFIX of peers that nobody reaches, or PREFIX:PORTS"},
    [ALLOW] = {"allow", MOST_PREFIXES, false, is_rule,
               "a PREFIX of peers that are reached, though denied else, or PREFIX:PORTS"},
    [ALTERNATE] = {"alternate", 2, false, is_end,
                   "ADDRESS:PORT of a server where clients go while this one is drained, one of a family"},
    [ALLOCATION_LOG] = {"allocation-log", 1, false, is_log,
                        "off, on (standard error), syslog or the PATH of a file: allocations and their ends"},
    [PROXY] = {"proxy", MOST_PROXIES, true, is_prefix,
               "a PREFIX of proxies over TCP, whose connections begin with a header of the PROXY protocol"},
    [KERNEL] = {"kernel", 2, true, is_interface,
                "an INTERFACE by which the kernel relays channels over UDP; a second one, for peers"},
};

/* Texts as they were given: which setting each is, and where it begins. */
typedef struct {
    size_t count, used;
    int line; /* that is read */
    struct {
        int which, line; /* of the file; 0: of the arguments */
        size_t at;
    } all[2 * MOST_PREFIXES + MOST_PROXIES + 2 * TEXTS];
    char room[1 << 16];
} text_list;

typedef struct {
    uint32_t numbers[SETTINGS];
    text_list texts;
} setting_values;

_Atomic uint32_t *settings;
static uint32_t by_arguments[SETTINGS]; /* 0: not given; otherwise one more than the number */
static text_list texts_of_arguments, texts_of_file;
static const char *file;

bool make_settings(void) {
    settings = shared_memory(SETTINGS * sizeof *settings);
    for (int i = 0; settings != NULL && i < SETTINGS; i++) settings[i] = known[i].usual;
    return settings != NULL;
}

void protect_settings(void) {
    (void)mprotect((void *)settings, SETTINGS * sizeof *settings, PROT_READ);
}

void print_settings(void) {
    for (int i = 0; i < SETTINGS; i++) {
        printf("   %-16s %s (%u to %u, %u)\n", known[i].name, known[i].meaning,
               (unsigned)known[i].least, (unsigned)known[i].most, (unsigned)known[i].usual);
    }
    for (int i = 0; i < TEXTS; i++) {
        printf("   %-16s %s\n", known_texts[i].name, known_texts[i].meaning);
    }
}

/* ---- Texts ----------------------------------------------------------------------------------- */

static const char *find_text(const text_list *in, int which, size_t turn) {
    for (size_t i = 0; i < in->count; i++) {
        if (in->all[i].which == which && turn-- == 0) return in->room + in->all[i].at;
    }
    return NULL;
}

const char *text_setting(int which, size_t turn) {
    bool by_file = find_text(&texts_of_arguments, which, 0) == NULL;
    return find_text(by_file ? &texts_of_file : &texts_of_arguments, which, turn);
}

const char *file_setting(int which) {
    static char paths[TEXTS][4096];
    const char *text = text_setting(which, 0), *folder = getenv("RUNTIME_DIRECTORY");
    if (text == NULL || folder == NULL || strchr(text, '/') != NULL) return text;
    snprintf(paths[which], sizeof paths[which], "%s/%s", folder, text);
    return paths[which];
}

void print_place(FILE *to, int which, size_t turn) {
    bool by_file = find_text(&texts_of_arguments, which, 0) == NULL;
    const text_list *in = by_file ? &texts_of_file : &texts_of_arguments;
    for (size_t i = 0; i < in->count; i++) {
        if (in->all[i].which != which || turn-- > 0) continue;
        if (by_file) fprintf(to, "%s:%d: ", file, in->all[i].line);
        fprintf(to, by_file ? "%s %s" : "-o %s=%s", known_texts[which].name, in->room + in->all[i].at);
    }
}

/* Whether two lists have the same texts of a setting. */
static bool are_same(const text_list *a, const text_list *b, int which) {
    for (size_t turn = 0;; turn++) {
        const char *first = find_text(a, which, turn), *second = find_text(b, which, turn);
        if (first == NULL || second == NULL) return first == second;
        if (strcmp(first, second) != 0) return false;
    }
}

/* Whether a text is one of its setting. */
static bool is_text(int which, const char *text) {
    fault_is("%s", "");
    if (*text == 0) return fault_is("no value");
    if (known_texts[which].is_right(text)) return true;
    return *fault_text() != 0 ? false : fault_is("a wrong value; %s is right", known_texts[which].meaning);
}

/* Whether one more text of a setting may be there: of addresses one of a family. */
static bool may_add(const text_list *to, int which, const char *text) {
    stun_types_address added, other;
    bool of_family = which == RELAY_ADDRESS || which == EXTERNAL_ADDRESS || which == ALTERNATE;
    bool (*read)(const char *text, stun_types_address *read) = which == ALTERNATE ? read_end : read_ip;
    for (size_t turn = 0; of_family && find_text(to, which, turn) != NULL; turn++) {
        bool are_read = read(text, &added) && read(find_text(to, which, turn), &other);
        if (are_read && added.family == other.family) {
            return fault_is("the second of its family, after %s; one is right", find_text(to, which, turn));
        }
    }
    size_t most = known_texts[which].most;
    return find_text(to, which, most - 1) == NULL || fault_is("one too many; %zu is the most", most);
}

/* Appends a text, if it is one of its setting, and there is room. */
static bool add_text(text_list *to, int which, const char *text) {
    size_t length = strlen(text) + 1;
    if (!is_text(which, text) || !may_add(to, which, text)) return false;
    if (length > sizeof to->room - to->used) return fault_is("more text than there is room for");
    to->all[to->count].which = which;
    to->all[to->count].line = to->line;
    to->all[to->count++].at = to->used;
    memcpy(to->room + to->used, text, length);
    to->used += length;
    return true;
}

bool read_ip(const char *text, stun_types_address *read) {
    socket_address address;
    return read_address(text, "0", SOCK_DGRAM, &address) && address_of(&address.bytes, read);
}

bool read_end(const char *text, stun_types_address *read) {
    char address[INET6_ADDRSTRLEN] = "";
    const char *colon = strrchr(text, ':');
    size_t brackets = *text == '[' ? 1 : 0, length = colon != NULL ? (size_t)(colon - text) : 0;
    uint32_t port;
    bool is_whole = length > 2 * brackets && length - 2 * brackets < sizeof address &&
                    (brackets == 0 || colon[-1] == ']');
    if (!is_whole || !read_number(colon + 1, 1, UINT16_MAX, &port)) return false;
    memcpy(address, text + brackets, length - 2 * brackets);
    bool is_read = read_ip(address, read) && (read->family == 4 || brackets == 1);
    read->port = (uint16_t)port;
    return is_read;
}

bool read_range(const char *text, uint32_t *least, uint32_t *most) {
    char low[6] = "";
    const char *dash = strchr(text, '-');
    if (dash == NULL || dash - text >= (ptrdiff_t)sizeof low) return false;
    memcpy(low, text, (size_t)(dash - text));
    return read_number(low, 1, 65535, least) && read_number(dash + 1, *least, 65535, most);
}

/* Whether the bits of an address from so many on are zeros. */
static bool ends_with_zeros(const stun_types_address *address, uint32_t from, uint32_t all) {
    for (uint32_t bit = from; bit < all; bit++) {
        if (address->octets[bit / 8] >> (7 - bit % 8) & 1) return false;
    }
    return true;
}

/* What a prefix would be without the bits after it. Returns false. */
static bool has_more_bits(const stun_types_prefix *read, uint32_t all) {
    char text[INET6_ADDRSTRLEN] = "";
    stun_types_address of = read->address;
    for (uint32_t bit = read->length; bit < all; bit++) of.octets[bit / 8] &= (uint8_t)~(0x80u >> bit % 8);
    inet_ntop(of.family == 4 ? AF_INET : AF_INET6, of.octets, text, sizeof text);
    return fault_is("the address has bits after the prefix; %s/%u is right", text, (unsigned)read->length);
}

/* ADDRESS or ADDRESS/LENGTH */
static bool read_prefix(const char *text, stun_types_prefix *read) {
    char address[INET6_ADDRSTRLEN] = "";
    size_t length = strcspn(text, "/");
    uint32_t bits = 128;
    if (length < sizeof address) memcpy(address, text, length);
    if (!read_ip(address, &read->address)) return fault_is("no IP address, or none before the /");
    uint32_t most = read->address.family == 4 ? 32 : 128;
    if (text[length] == '/' && !read_number(text + length + 1, 0, most, &bits)) {
        return fault_is("no length after the /; a number from 0 to %u is right", (unsigned)most);
    }
    read->length = (uint16_t)(bits < most ? bits : most);
    return ends_with_zeros(&read->address, read->length, most) || has_more_bits(read, most);
}

bool prefix_contains(const stun_types_prefix *prefix, const stun_types_address *address) {
    const uint8_t *own = prefix->address.octets, *given = address->octets;
    size_t whole = prefix->length / 8u, rest = prefix->length % 8u;
    if (prefix->address.family != address->family || memcmp(own, given, whole) != 0) return false;
    return rest == 0 || (own[whole] ^ given[whole]) >> (8 - rest) == 0;
}

/* The ports of a rule, which come after PREFIX: or [PREFIX]:; NULL: it has none. */
static const char *find_ports(const char *text) {
    const char *colon = strchr(text, ':'), *bracket = strstr(text, "]:");
    if (*text == '[') return bracket != NULL ? bracket + 2 : NULL;
    return colon != NULL && strchr(colon + 1, ':') == NULL ? colon + 1 : NULL;
}

bool read_rule(const char *text, stun_types_prefix *read) {
    char prefix[INET6_ADDRSTRLEN + 4] = "";
    const char *ports = find_ports(text);
    uint32_t least = 0, most = 0;
    size_t brackets = *text == '[' ? 1 : 0;
    size_t length = (ports != NULL ? (size_t)(ports - text) - 1 - brackets : strlen(text)) - brackets;
    memset(read, 0, sizeof *read);
    if (brackets != 0 && ports == NULL) return fault_is("no ports after a prefix in brackets, as in [::1]:80");
    if (length < sizeof prefix) memcpy(prefix, text + brackets, length);
    if (!read_prefix(prefix, read)) return false;
    if (ports == NULL) return true;
    if (!read_range(ports, &least, &most)) {
        if (!read_number(ports, 1, UINT16_MAX, &least)) {
            return fault_is("no port, or LOW-HIGH, from 1 to 65535 after the prefix");
        }
        most = least;
    }
    read->first_port = (uint16_t)least;
    read->last_port = (uint16_t)most;
    return true;
}

/* ---- NAME and VALUE -------------------------------------------------------------------------- */

static bool is_name(const char *name, const char *text, size_t length) {
    return strlen(name) == length && memcmp(name, text, length) == 0;
}

/* Reads the value of the setting that has a name. Returns which number it is; SETTINGS: it is a text, and
 * appended; -1: it is wrong. */
static int read_one(const char *name, size_t length, const char *value, uint32_t *number,
                    text_list *texts) {
    for (int i = 0; i < SETTINGS; i++) {
        if (!is_name(known[i].name, name, length)) continue;
        if (read_number(value, known[i].least, known[i].most, number)) return i;
        fault_is("no number from %u to %u", (unsigned)known[i].least, (unsigned)known[i].most);
        return -1;
    }
    for (int i = 0; i < TEXTS; i++) {
        if (!is_name(known_texts[i].name, name, length)) continue;
        return add_text(texts, i, value) ? SETTINGS : -1;
    }
    fault_is("no setting has this name; stun-server -h lists them");
    return -1;
}

bool read_setting(const char *text) {
    const char *equals = strchr(text, '=');
    uint32_t value;
    int which = -1;
    if (equals == NULL) fault_is("no value; NAME=VALUE is right");
    else which = read_one(text, (size_t)(equals - text), equals + 1, &value, &texts_of_arguments);
    if (which < 0) fprintf(stderr, "stun-server: -o %s: %s\n", text, fault_text());
    if (which < 0 || which == SETTINGS) return which == SETTINGS;
    settings[which] = value;
    by_arguments[which] = value + 1;
    return true;
}

/* ---- The file -------------------------------------------------------------------------------- */

static const char blanks[] = " \t\r\n";

/* Ends a line where a comment begins: at a # after a blank. */
static void cut_comment(char *line) {
    for (char *at = line; (at = strchr(at, '#')) != NULL; at++) {
        if (at != line && strchr(blanks, at[-1]) == NULL) continue;
        *at = 0;
        return;
    }
}

/* Puts what was read before what is wrong with it. Returns false. */
static bool fault_of(const char *name, const char *text) {
    char reason[256];
    snprintf(reason, sizeof reason, "%s", fault_text());
    return fault_is("%s%s%s: %s", name, *text != 0 ? " " : "", text, reason);
}

/* Reads a line: NAME VALUE, with blanks around either, or nothing, or a comment after a #. */
static bool read_line(char *line, setting_values *values) {
    char *rest = NULL;
    uint32_t value;
    cut_comment(line);
    const char *name = strtok_r(line, blanks, &rest);
    if (name == NULL) return true;
    const char *text = strtok_r(NULL, blanks, &rest), *more = strtok_r(NULL, blanks, &rest);
    int which = -1;
    if (text == NULL) fault_is("no value; NAME VALUE is right");
    else if (more != NULL) fault_is("more than a value; a comment begins with a #");
    else if (strchr(text, '#') != NULL) fault_is("a # in a value; a blank before it begins a comment");
    else which = read_one(name, strlen(name), text, &value, &values->texts);
    if (which >= 0 && which < SETTINGS) values->numbers[which] = value;
    return which >= 0 || fault_of(name, text != NULL ? text : "");
}

/* Reads the lines of a file. Returns the number of the first that is wrong, or 0. */
static int read_lines_of(FILE *from, setting_values *values) {
    char line[256];
    values->texts.line = 0;
    while (fgets(line, sizeof line, from) != NULL) {
        values->texts.line++;
        bool is_whole = strchr(line, '\n') != NULL || strlen(line) + 1 < sizeof line;
        if (!is_whole) fault_is("a line of more than %zu bytes", sizeof line - 2);
        if (!is_whole || !read_line(line, values)) return values->texts.line;
    }
    return 0;
}

/* Reads the file. Returns the number of the first line that is wrong, or 0; -1: it can't. */
static int read_lines(setting_values *values) {
    FILE *from = fopen(file, "re");
    memset(values, 0, sizeof *values);
    for (int i = 0; i < SETTINGS; i++) values->numbers[i] = known[i].usual;
    int wrong = from != NULL ? read_lines_of(from, values) : 0;
    bool failed = from == NULL || ferror(from) != 0;
    if (failed) fault_is("%s", strerror(errno));
    if (from != NULL) fclose(from);
    return failed ? -1 : wrong;
}

/* Appends the texts of a setting as another list has them. */
static bool copy_texts(text_list *to, const text_list *from, int which) {
    for (size_t i = 0; i < from->count; i++) {
        if (from->all[i].which != which) continue;
        to->line = from->all[i].line;
        if (!add_text(to, which, from->room + from->all[i].at)) return false;
    }
    return true;
}

/* Makes the texts from now on: those that change as they were read, and the others as they are. False: there is
 * no room. */
static bool mix_texts(const text_list *read, text_list *mixed) {
    memset(mixed, 0, sizeof *mixed);
    for (int i = 0; i < TEXTS; i++) {
        if (!copy_texts(mixed, known_texts[i].at_start ? &texts_of_file : read, i)) return false;
    }
    return true;
}

/* How many settings have other texts. */
static int count_other(const text_list *a, const text_list *b) {
    int count = 0;
    for (int i = 0; i < TEXTS; i++) {
        bool by_file = find_text(&texts_of_arguments, i, 0) == NULL;
        count += by_file && !are_same(a, b, i);
    }
    return count;
}

/* Takes what the file says, but for what the arguments say. Returns how many settings change. */
static int take(setting_values *values, const text_list *texts, bool at_start) {
    int changed = count_other(texts, &texts_of_file);
    texts_of_file = *texts;
    for (int i = 0; i < SETTINGS; i++) {
        if (by_arguments[i] > 0) values->numbers[i] = by_arguments[i] - 1;
        if (values->numbers[i] == settings[i] || (known[i].at_start && !at_start)) continue;
        settings[i] = values->numbers[i];
        changed++;
    }
    return changed;
}

bool read_settings(const char *path) {
    static setting_values values;
    file = path;
    int wrong = read_lines(&values);
    if (wrong != 0) return refuse_file(path, wrong);
    (void)take(&values, &values.texts, true);
    return true;
}

static void warn_of_restart(const char *name) {
    say(WARNING, "event=warning reason=needs-restart setting=%s\n", name);
}

/* Says which settings wait for a new start, once for each value. */
static void warn_of_restarts(const setting_values *read) {
    static setting_values told;
    static bool has_told;
    for (int i = 0; i < SETTINGS; i++) {
        bool is_new = !has_told || read->numbers[i] != told.numbers[i];
        if (is_new && read->numbers[i] != settings[i]) warn_of_restart(known[i].name);
    }
    for (int i = 0; i < TEXTS; i++) {
        bool by_file = find_text(&texts_of_arguments, i, 0) == NULL;
        bool is_new = !has_told || !are_same(&read->texts, &told.texts, i);
        if (by_file && is_new && !are_same(&read->texts, &texts_of_file, i)) warn_of_restart(known_texts[i].name);
    }
    told = *read;
    has_told = true;
}

bool read_settings_again(void) {
    static setting_values values;
    static text_list mixed;
    if (file == NULL) return false;
    int wrong = read_lines(&values);
    if (wrong == 0 && !mix_texts(&values.texts, &mixed)) wrong = mixed.line;
    if (wrong != 0) {
        int error = errno;
        say(FAILURE, "event=settings-refused file=%s line=%d error=%d reason=%s\n", file, wrong > 0 ? wrong : 0,
            wrong > 0 ? 0 : error, fault_word());
        return false;
    }
    say(NEWS, "event=settings-read changed=%d\n", take(&values, &mixed, false));
    warn_of_restarts(&values);
    return true;
}
