/* The agent of the library (RFC 8445), full or lite, and at a restart the one before it. */
#include "ice.h"

#include <sys/random.h>

enum { COMPONENT = 1, CHECK_ROOM = 1500, OWN_FRAGMENT = 8, OWN_PASSWORD = 24, MOST_FOUNDATIONS = MOST_CANDIDATES };
enum { CHECKS_WAIT = 39500 }; /* milliseconds, the PAC timer of RFC 8863 */
enum { LITE_INTERVAL = 1000 }; /* milliseconds, after which a lite agent's path is looked at again */

/* An agent, and the descriptions that it was made by. */
typedef struct {
    stun_types_ice agent;
    stun_types_ice_lite lite; /* the one that is used with --lite */
    char fragment[OWN_FRAGMENT + 1], password[OWN_PASSWORD + 1];
    char peer_fragment[FRAGMENT_ROOM], peer_password[FRAGMENT_ROOM];
    bool has_peer, has_all;   /* the peer's credentials, and all its candidates, are known */
    bool is_stale;            /* the description that is read is that of the agent before */
    bool has_names;           /* candidates of the peer are host names, of mDNS: their addresses come with its checks */
    bool has_ended;           /* no more candidates of either agent follow */
    size_t remotes, skipped;  /* candidates of the peer, and those that can't be used */
    char foundations[MOST_FOUNDATIONS][33];
    size_t foundation_count;
    stun_types_ice_progress progress;
    uint64_t wake; /* in nanoseconds */
    uint64_t met; /* when the peer's credentials were known */
    uint64_t connect_until;
    stun_types_ice_path path; /* a lite agent's, which was reported */
} session;

static session sessions[2];
static session *current = &sessions[0];
static bool has_former; /* the other session keeps the connection until this one has its own */

/* The bases, for the agents of restarts. */
static struct {
    bool is_there, link_local;
    stun_types_address address;
} bases[MOST_HOSTS + 1];

/* The addresses of this program's candidates. */
static stun_types_address own[MOST_CANDIDATES];
static size_t own_count;

static bool is_controlling;
static bool is_printing; /* the pairs are printed when something has changed */

static session *former(void) {
    return &sessions[current == &sessions[0]];
}

static int fails(stun_types_answer answer) {
    return say(STATUS_BROKEN, "%s", stun_types_status_text(answer.code));
}

/* ---- Making agents ---------------------------------------------------------------------------- */

/* Draws letters, digits, + and /, each of six random bits. */
static bool draw(char *text, size_t length) {
    static const char letters[] = "ABCDEFGHIJKLMNOPQRSTUVWXYZabcdefghijklmnopqrstuvwxyz0123456789+/";
    if (getrandom(text, length, 0) != (ssize_t)length) return false;
    for (size_t i = 0; i < length; i++) text[i] = letters[(uint8_t)text[i] & 63];
    text[length] = 0;
    return true;
}

static bool draw_number(uint64_t *number) {
    return getrandom(number, sizeof *number, 0) == (ssize_t)sizeof *number;
}

static void pass_base(size_t number) {
    stun_types_ice_base base;
    if (ice.lite) return;
    memset(&base, 0, sizeof base);
    candidate_kind kind = number == RELAY ? RELAYED : HOST;
    base.number = (uint32_t)number;
    base.foundation = (uint32_t)number + 1;
    base.priority = priority_of(kind, number);
    base.reflexive_priority = priority_of(PEER_REFLEXIVE, number);
    base.component = COMPONENT;
    base.family = bases[number].address.family;
    base.link_local = bases[number].link_local;
    ignore(stun_types_ice_add_base(&current->agent, now * MILLISECOND, &base));
}

/* The agent doesn't report this address as one that it has discovered. */
static void pass_address(const stun_types_address *address) {
    if (!ice.lite) ignore(stun_types_ice_add_address(&current->agent, address));
}

void add_address(const stun_types_address *address) {
    if (own_count == MOST_CANDIDATES) return;
    own[own_count++] = *address;
    pass_address(address);
}

/* Makes the current agent, a lite one, whose bases are the hosts. */
static int make_lite_agent(void) {
    stun_types_ice_lite_base places[MOST_HOSTS];
    stun_types_ice_lite_settings settings;
    memset(places, 0, sizeof places);
    memset(&settings, 0, sizeof settings);
    for (size_t i = 0; i < host_count; i++) {
        places[i].number = (uint32_t)i;
        places[i].component = COMPONENT;
    }
    settings.ufrag = current->fragment;
    settings.ufrag_length = OWN_FRAGMENT;
    settings.password = current->password;
    settings.password_length = OWN_PASSWORD;
    settings.bases = places;
    settings.base_count = host_count;
    stun_types_answer answer = stun_types_ice_lite_new(&current->lite, &settings);
    return is_fine(answer) ? STATUS_DONE : fails(answer);
}

/* Makes the current agent, which knows the bases alone. */
static int make_agent(void) {
    stun_types_ice_settings settings;
    if (ice.lite) return make_lite_agent();
    memset(&settings, 0, sizeof settings);
    settings.ufrag = current->fragment;
    settings.ufrag_length = OWN_FRAGMENT;
    settings.password = current->password;
    settings.password_length = OWN_PASSWORD;
    settings.role = is_controlling ? STUN_TYPES_ICE_CONTROLLING : STUN_TYPES_ICE_CONTROLLED;
    settings.pairs = MOST_PAIRS;
    settings.candidates = MOST_CANDIDATES;
    if (!draw_number(&settings.tiebreaker)) return say(STATUS_BROKEN, "no random bytes: %s", strerror(errno));
    stun_types_answer answer = stun_types_ice_new(&current->agent, &settings);
    if (!is_fine(answer)) return fails(answer);
    for (size_t i = 0; i <= RELAY; i++) {
        if (bases[i].is_there) pass_base(i);
    }
    for (size_t i = 0; i < own_count; i++) pass_address(&own[i]);
    return STATUS_DONE;
}

/* Makes a session, which is the current one. */
static int make_session(void) {
    memset(current, 0, sizeof *current);
    current->connect_until = NEVER;
    if (!draw(current->fragment, OWN_FRAGMENT) || !draw(current->password, OWN_PASSWORD)) {
        return say(STATUS_BROKEN, "no random bytes: %s", strerror(errno));
    }
    return make_agent();
}

int begin_session(void) {
    is_controlling = ice.controlling || ice.lite_peer;
    return make_session();
}

static void free_agents(session *of) {
    stun_types_ice_free(&of->agent);
    stun_types_ice_lite_free(&of->lite);
}

int restart_session(const char *why) {
    report("restart", "reason", why, NULL);
    if (has_former) free_agents(former());
    current = former();
    has_former = true;
    int status = make_session();
    current->connect_until = now + asked.wait;
    print_description();
    return status;
}

const char *own_fragment(void) {
    return current->fragment;
}

const char *own_password(void) {
    return current->password;
}

void add_base(size_t number, const stun_types_address *address, bool link_local) {
    bases[number].is_there = true;
    bases[number].address = *address;
    bases[number].link_local = link_local;
    pass_base(number);
}

/* Frees the agent before, which is no longer needed. */
static void end_former(void) {
    if (has_former) free_agents(former());
    has_former = false;
}

void close_session(void) {
    end_former();
    free_agents(current);
    explicit_bzero(sessions, sizeof sessions);
}

/* ---- The peer's description ------------------------------------------------------------------- */

static bool keep(char to[FRAGMENT_ROOM], const char *text, size_t length) {
    if (length == 0 || length >= FRAGMENT_ROOM) return false;
    memcpy(to, text, length);
    to[length] = 0;
    return true;
}

/* Passes the peer's credentials to a full agent. */
static stun_types_answer set_peer(session *of) {
    return stun_types_ice_set_peer(&of->agent, now * MILLISECOND, of->peer_fragment, strlen(of->peer_fragment),
                                   of->peer_password, strlen(of->peer_password));
}

/* Passes the peer's credentials to the agent, once both are known; a lite one needs none. */
static void meet(void) {
    static const stun_types_answer fine = {STUN_TYPES_OK, 0, 0, 0};
    session *of = current;
    if (of->has_peer || of->is_stale || of->peer_fragment[0] == 0 || of->peer_password[0] == 0) return;
    stun_types_answer answer = ice.lite ? fine : set_peer(of);
    of->has_peer = is_fine(answer);
    if (!of->has_peer) say(STATUS_REFUSED, "the peer's fragment or password: %s", stun_types_status_text(answer.code));
    else of->connect_until = now + asked.wait;
    of->met = now;
}

/* Another fragment than the one before begins a restart (RFC 8445, section 9). */
void take_fragment(const char *fragment, size_t length) {
    char read[FRAGMENT_ROOM];
    if (!keep(read, fragment, length)) return;
    current->is_stale = has_former && !current->has_peer && strcmp(read, former()->peer_fragment) == 0;
    if (current->is_stale) return;
    if (current->has_peer && strcmp(read, current->peer_fragment) != 0 &&
        restart_session("the peer has new credentials") != STATUS_DONE) {
        return;
    }
    memcpy(current->peer_fragment, read, sizeof read);
    current->skipped = 0;
    meet();
}

void take_password(const char *password, size_t length) {
    if (current->is_stale || current->has_peer || !keep(current->peer_password, password, length)) return;
    meet();
}

/* The peer is a lite agent, so this one controls (RFC 8445, section 6.1.1). */
void take_lite(void) {
    if (ice.lite) say(STATUS_DONE, "both agents are lite, so neither checks anything");
    if (ice.lite || is_controlling || current->is_stale || current->has_peer) return;
    is_controlling = true;
    (void)make_agent();
    meet();
}

/* The number of a foundation of the peer. */
static uint32_t number_of(const char *foundation, size_t length) {
    size_t at = 0;
    char text[33] = "";
    memcpy(text, foundation, length < 32 ? length : 32);
    while (at < current->foundation_count && strcmp(current->foundations[at], text) != 0) at++;
    if (at == current->foundation_count && at < MOST_FOUNDATIONS) {
        memcpy(current->foundations[current->foundation_count++], text, sizeof text);
    }
    return (uint32_t)at + 1;
}

void take_candidate(const stun_types_address *address, const char *foundation, size_t length, uint32_t priority) {
    stun_types_ice_remote remote;
    if (current->is_stale) return;
    memset(&remote, 0, sizeof remote);
    remote.address = *address;
    remote.foundation = number_of(foundation, length);
    remote.priority = priority;
    remote.component = COMPONENT;
    if (ice.lite) {
        current->remotes++;
        return;
    }
    stun_types_answer answer = stun_types_ice_add_remote(&current->agent, now * MILLISECOND, &remote);
    if (answer.code == STUN_TYPES_EXISTS) return;
    if (is_fine(answer)) current->remotes++;
    else skip_candidate(false);
    if (bases[RELAY].is_there && bases[RELAY].address.family == address->family) permit(address, false);
}

void skip_candidate(bool is_named) {
    current->skipped++;
    if (is_named) current->has_names = true;
}

void end_candidates(void) {
    if (!current->is_stale) current->has_all = true;
}

bool has_peer(void) {
    return current->has_peer;
}

bool has_all_candidates(void) {
    return current->has_all;
}

/* ---- Datagrams -------------------------------------------------------------------------------- */

static bool send_from(size_t base, const stun_types_address *to, const uint8_t *bytes, size_t length) {
    return base == RELAY ? send_from_relay(to, bytes, length) : send_from_host(base, to, bytes, length);
}

/* Whether a datagram is a check for a session: its USERNAME begins with the session's fragment. */
static bool is_check_for(const session *of, const uint8_t *bytes, size_t length) {
    stun_types_attribute found;
    return length >= 20 && stun_types_protocol_of(bytes[0]) == STUN_TYPES_PROTOCOL_STUN && bytes[0] == 0 &&
           bytes[1] == 1 && stun_types_find(bytes, length, STUN_TYPES_ATTRIBUTE_USERNAME, &found) &&
           found.length > OWN_FRAGMENT && bytes[found.value_at + OWN_FRAGMENT] == ':' &&
           memcmp(bytes + found.value_at, of->fragment, OWN_FRAGMENT) == 0;
}

/* Passes a datagram to the agent of a session. */
static stun_types_answer pass_to_agent(session *of, size_t base, const stun_types_address *from, const uint8_t *bytes,
                                       size_t length, uint8_t room[CHECK_ROOM], stun_types_ice_received *received) {
    uint64_t random;
    static const stun_types_answer no_random = {STUN_TYPES_BAD_ARGUMENT, 0, 0, 0};
    if (ice.lite) {
        return stun_types_ice_lite_datagram(&of->lite, now * MILLISECOND, (uint32_t)base, from, bytes, length, room,
                                            CHECK_ROOM, received);
    }
    if (!draw_number(&random)) return no_random;
    return stun_types_ice_datagram(&of->agent, now * MILLISECOND, (uint32_t)base, from, bytes, length, random, room,
                                   CHECK_ROOM, received);
}

/* Whether a session has taken a datagram. */
static bool pass_datagram(session *of, size_t base, const stun_types_address *from, const uint8_t *bytes,
                          size_t length) {
    uint8_t room[CHECK_ROOM];
    stun_types_ice_received received;
    if (!is_fine(pass_to_agent(of, base, from, bytes, length, room, &received))) return false;
    if (received.kind == STUN_TYPES_ICE_RESPONSE) (void)send_from(base, from, room, received.length);
    if (received.kind == STUN_TYPES_ICE_DATA) take_data(bytes, length);
    return received.kind != STUN_TYPES_ICE_NOTHING;
}

void take_datagram(size_t base, const stun_types_address *from, const uint8_t *bytes, size_t length) {
    if (has_former && is_check_for(former(), bytes, length)) (void)pass_datagram(former(), base, from, bytes, length);
    else if (!pass_datagram(current, base, from, bytes, length) && has_former) {
        (void)pass_datagram(former(), base, from, bytes, length);
    }
}

/* Finds where data of a session goes. */
static bool find_path(session *of, stun_types_ice_path *path) {
    if (ice.lite) return stun_types_ice_lite_route(&of->lite, now * MILLISECOND, COMPONENT, path);
    return stun_types_ice_route(&of->agent, now * MILLISECOND, COMPONENT, path);
}

bool can_send(void) {
    stun_types_ice_path path;
    return find_path(current, &path) || (has_former && find_path(former(), &path));
}

bool send_data(const uint8_t *bytes, size_t length) {
    stun_types_ice_path path;
    return (find_path(current, &path) || (has_former && find_path(former(), &path))) &&
           send_from(path.base, &path.to, bytes, length);
}

/* ---- Pairs ------------------------------------------------------------------------------------ */

static const char *name_of_base(size_t base) {
    return base == RELAY ? "relay" : "host";
}

void print_pairs(void) {
    static const char *const names[] = {"?", "frozen", "waiting", "in-progress", "succeeded", "failed", "lost"};
    stun_types_ice_checked pair;
    for (uint32_t i = 0; stun_types_ice_pair(&current->agent, i, &pair); i++) {
        char from[ADDRESS_ROOM], to[ADDRESS_ROOM], tries[12];
        snprintf(tries, sizeof tries, "%u", (unsigned)pair.tries);
        report("pair", "base", name_of_base(pair.base), "from", text_of(&bases[pair.base].address, from), "to",
               text_of(&pair.remote, to), "state", pair.state <= 6 ? names[pair.state] : names[0], "requests", tries,
               "nominated", pair.nominated ? "nominated" : "-", NULL);
    }
}

/* Says why there is no connection. Returns the status. */
static int explain(void) {
    const session *of = current;
    stun_types_ice_checked pair;
    uint32_t pairs = 0;
    unsigned tried = 0, answered = 0, most = 0;
    for (; stun_types_ice_pair(&current->agent, pairs, &pair); pairs++) {
        if (pair.tries > 0) tried++;
        if (pair.state == STUN_TYPES_ICE_PAIR_SUCCEEDED || pair.state == STUN_TYPES_ICE_PAIR_LOST) answered++;
        if (pair.tries > most) most = pair.tries;
    }
    if (!of->has_peer) return fail(STATUS_SILENT, "the peer has described nothing");
    if (ice.lite) return fail(STATUS_SILENT, "no check of the peer has nominated a pair");
    if (of->remotes == 0) return fail(STATUS_SILENT, "no candidate of the peer can be used; it has %zu", of->skipped);
    if (pairs == 0) return fail(STATUS_SILENT, "no candidate of the peer has an address family of this side's");
    if (answered > 0) {
        return fail(STATUS_SILENT, "%u of %u pairs answered, and none was nominated", answered, (unsigned)pairs);
    }
    return fail(STATUS_SILENT, "no pair answered: %u tried, each by up to %u requests", tried, most);
}

/* ---- Turns ------------------------------------------------------------------------------------ */

static void report_at(const char *event, size_t base, const stun_types_address *address) {
    char from[ADDRESS_ROOM], to[ADDRESS_ROOM];
    report(event, "base", name_of_base(base), "from", text_of(&bases[base].address, from), "to",
           text_of(address, to), NULL);
}

static void report_path(const char *event, const stun_types_ice_change *change) {
    report_at(event, change->base, &change->address);
}

/* A pair is selected. */
static void take_selection(session *of, const stun_types_ice_change *change) {
    if (of == current) end_former();
    if (change->base == RELAY) permit(&change->address, true);
    report_path("connected", change);
}

/* The connection is lost. Returns the status. */
static int lose(const char *why) {
    if (ice.peer_file != NULL) return restart_session("the peer's consent has expired");
    return fail(STATUS_SILENT, "%s: its consent has expired", why);
}

/* Another status of the connection. Returns the program's. */
static int take_status(session *of, const stun_types_ice_change *change) {
    of->progress = change->progress;
    if (change->progress == STUN_TYPES_ICE_CONNECTED) {
        of->connect_until = NEVER;
        take_selection(of, change);
    }
    if (of != current) return STATUS_DONE;
    if (change->progress == STUN_TYPES_ICE_FAILED) {
        print_pairs();
        return explain();
    }
    return change->progress == STUN_TYPES_ICE_LOST ? lose("the peer no longer answers") : STATUS_DONE;
}

static int take_change(session *of, const stun_types_ice_change *change) {
    char text[ADDRESS_ROOM];
    is_printing = true;
    switch (change->kind) {
    case STUN_TYPES_ICE_ROLE:
        is_controlling = change->role == STUN_TYPES_ICE_CONTROLLING;
        report("role", "role", is_controlling ? "controlling" : "controlled", NULL);
        break;
    case STUN_TYPES_ICE_CONSENT_LOST: report_path("consent-lost", change); break;
    case STUN_TYPES_ICE_PROGRESS: return take_status(of, change);
    case STUN_TYPES_ICE_SELECTED: take_selection(of, change); break;
    case STUN_TYPES_ICE_DISCOVERED: report("discovered", "address", text_of(&change->address, text), NULL); break;
    default: break;
    }
    return STATUS_DONE;
}

/* Sends the checks of a session that are due. */
static int send_checks(session *of) {
    uint8_t room[CHECK_ROOM];
    stun_types_ice_request check;
    stun_types_id id;
    do {
        if (!new_id(&id)) return say(STATUS_BROKEN, "no random bytes: %s", strerror(errno));
        stun_types_answer answer =
            stun_types_ice_poll(&of->agent, now * MILLISECOND, &id, room, sizeof room, &check, &of->wake);
        if (!is_fine(answer)) return fails(answer);
        if (check.length > 0) (void)send_from(check.base, &check.to, room, check.length);
    } while (check.length > 0);
    return STATUS_DONE;
}

/* Looks at the path of a lite agent, which has nothing else to do. Returns the status. */
static int turn_lite_agent(session *of) {
    stun_types_ice_path path;
    bool was_there = of->path.to.family != 0, is_there = find_path(of, &path);
    bool is_same = memcmp(&path, &of->path, sizeof path) == 0;
    of->path = path;
    of->wake = is_there ? (now + LITE_INTERVAL) * MILLISECOND : NEVER;
    if (is_same) return STATUS_DONE;
    is_printing = true;
    if (!is_there) return was_there && of == current ? lose("the peer no longer checks") : STATUS_DONE;
    of->connect_until = NEVER;
    if (of == current) end_former();
    report_at("connected", path.base, &path.to);
    return STATUS_DONE;
}

static int turn_agent(session *of) {
    stun_types_ice_change change;
    if (ice.lite) return turn_lite_agent(of);
    int status = send_checks(of);
    while (status == STATUS_DONE && stun_types_ice_changes(&of->agent, &change)) status = take_change(of, &change);
    return status;
}

/* Whether no candidates are to be waited for, if need be for those that the peer's checks may come from (RFC 8863,
 * section 4). */
static bool has_all_known(const session *of) {
    return of->has_all && is_description_ended() && (!of->has_names || (of->has_peer && now >= of->met + CHECKS_WAIT));
}

int turn_session(void) {
    session *of = current;
    if (!ice.lite && !of->has_ended && has_all_known(of)) {
        of->has_ended = is_fine(stun_types_ice_end_candidates(&of->agent, now * MILLISECOND));
    }
    int status = turn_agent(of);
    if (status == STATUS_DONE && has_former) status = turn_agent(former());
    if (status == STATUS_DONE && asked.verbose && is_printing) print_pairs();
    is_printing = false;
    if (status == STATUS_DONE && now >= current->connect_until) {
        print_pairs();
        return explain();
    }
    return status;
}

static uint64_t wake_of(const session *of) {
    return of->wake == NEVER ? NEVER : of->wake / MILLISECOND + (of->wake % MILLISECOND != 0);
}

uint64_t session_wake(void) {
    uint64_t wake = sooner(wake_of(current), current->connect_until);
    if (!current->has_ended && current->has_names && current->has_peer) {
        wake = sooner(wake, current->met + CHECKS_WAIT < now ? NEVER : current->met + CHECKS_WAIT);
    }
    return has_former ? sooner(wake, wake_of(former())) : wake;
}
