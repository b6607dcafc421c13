/* Makes calls of a TURN server many times, without sockets: for bench/relays, which counts instructions.
 *
 *     cc -O2 -I c bench/turn_calls.c libstun_types.a -o turn_calls
 *     ./turn_calls ROOM ALLOCATIONS TIMES CALL..
 *
 * It fills a server, which has room for so many relayed addresses, with allocations for IPv4, each of another
 * client. Five clients have one user, who may have no more. Clients use UDP, and sign with MESSAGE-INTEGRITY by
 * the key by MD5. Up to 1,000 of them have 16 permissions and 16 channels each, as many as one may have.
 *
 * Then each CALL, which is a name of `rows`, has a process of its own. It writes TIMES inputs, of these clients
 * in turn or of new ones, and makes the call with each; `none` makes no call. Under callgrind with
 * --instr-atstart=no only what follows the inputs is counted, and reported at the end of the process.
 *
 * The status is 0 if each call is answered as its row says, 1 if one is not, and 2 if it couldn't begin. */
#define _POSIX_C_SOURCE 200809L
#include <stdio.h>
#include <stdlib.h>
#include <string.h>
#include <sys/wait.h>
#include <unistd.h>
#include <valgrind/callgrind.h>

#include "stun_types.h"

enum {
    CHOSEN = 1000, /* clients that the calls are of */
    OF_USER = 5,
    PEERS = 16,    /* of each of them, and its channels */
    DATA = 100,    /* octets */
    MOST = 1000000,
    NEWCOMERS = 2000000, /* from this number on clients have no allocation at first */
    ROOM = 1000
};

static const uint64_t SECOND = 1000000000;
static const char REALM[] = "example.org", PASSWORD[] = "a password";

/* ---- Rows ------------------------------------------------------------------------------------ */

/* Whose input it is: a client with an allocation; the same, with the credentials of another user; a new one,
 * whose user has as many relayed addresses as allowed; or a new one of a new user. */
typedef enum { OWNER, OTHER_USER, NO_QUOTA, NEWCOMER } who;

typedef enum {
    NOTHING, /* no input: the loop alone */
    UNSIGNED,
    ALLOCATE,
    SAME_ALLOCATE,
    ALLOCATE_IPV6,
    ALLOCATE_TCP,
    ALLOCATE_BARE,
    ALLOCATE_UNKNOWN,
    REFRESH,
    PERMIT,
    PERMIT_EIGHT,
    PERMIT_DENIED,
    BIND,
    BIND_TAKEN,
    SEND,
    SEND_OTHER,
    CHANNEL,
    CHANNEL_FREE,
    BINDING,
    PEER,
    PEER_OTHER_PORT,
    PEER_OTHER,
    POLL,
    VALIDATE, /* this and what follows: the digests of an Allocate request */
    SIGN,
    MAKE_NONCE,
    JUDGE_NONCE
} what;

/* What ends the allocation that a call has made. */
typedef enum { STAYS, BY_REFRESH, BY_POLL, BY_NUMBER } ending;

typedef struct {
    const char *name;
    who from;
    what is;
    stun_types_turn_kind kind; /* of the answer */
    uint32_t code;             /* of a response; of a peer's data the length of its head */
    ending ends;
} row;

#define ANSWERED STUN_TYPES_TURN_RESPONSE
#define RELAYED STUN_TYPES_TURN_TO_PEER
#define DROPPED STUN_TYPES_TURN_NOTHING
static const row rows[] = {
    {"none", NEWCOMER, NOTHING, DROPPED, 0, STAYS},
    {"challenge", NEWCOMER, UNSIGNED, ANSWERED, 401, STAYS},
    {"allocate", NEWCOMER, ALLOCATE, ANSWERED, 0, STAYS},
    {"allocate,refresh", NEWCOMER, ALLOCATE, ANSWERED, 0, BY_REFRESH},
    {"allocate,poll", NEWCOMER, ALLOCATE, ANSWERED, 0, BY_POLL},
    {"allocate,end", NEWCOMER, ALLOCATE, ANSWERED, 0, BY_NUMBER},
    {"again", OWNER, SAME_ALLOCATE, ANSWERED, 0, STAYS},
    {"allocate,437", OWNER, ALLOCATE, ANSWERED, 437, STAYS},
    {"allocate,486", NO_QUOTA, ALLOCATE, ANSWERED, 486, STAYS},
    {"allocate,full", NEWCOMER, ALLOCATE, ANSWERED, 508, STAYS},
    {"allocate,440", NEWCOMER, ALLOCATE_IPV6, ANSWERED, 440, STAYS},
    {"allocate,442", NEWCOMER, ALLOCATE_TCP, ANSWERED, 442, STAYS},
    {"allocate,400", NEWCOMER, ALLOCATE_BARE, ANSWERED, 400, STAYS},
    {"allocate,420", NEWCOMER, ALLOCATE_UNKNOWN, ANSWERED, 420, STAYS},
    {"refresh", OWNER, REFRESH, ANSWERED, 0, STAYS},
    {"refresh,437", NEWCOMER, REFRESH, ANSWERED, 437, STAYS},
    {"refresh,441", OTHER_USER, REFRESH, ANSWERED, 441, STAYS},
    {"permit", OWNER, PERMIT, ANSWERED, 0, STAYS},
    {"permit,8", OWNER, PERMIT_EIGHT, ANSWERED, 0, STAYS},
    {"permit,403", OWNER, PERMIT_DENIED, ANSWERED, 403, STAYS},
    {"bind", OWNER, BIND, ANSWERED, 0, STAYS},
    {"bind,400", OWNER, BIND_TAKEN, ANSWERED, 400, STAYS},
    {"send", OWNER, SEND, RELAYED, 0, STAYS},
    {"send,dropped", OWNER, SEND_OTHER, DROPPED, 0, STAYS},
    {"channel", OWNER, CHANNEL, RELAYED, 0, STAYS},
    {"channel,dropped", OWNER, CHANNEL_FREE, DROPPED, 0, STAYS},
    {"peer,channel", OWNER, PEER, DROPPED, 4, STAYS},
    {"peer,indication", OWNER, PEER_OTHER_PORT, DROPPED, 36, STAYS},
    {"peer,dropped", OWNER, PEER_OTHER, DROPPED, 0, STAYS},
    {"poll", OWNER, POLL, DROPPED, 0, STAYS},
    {"binding", NEWCOMER, BINDING, ANSWERED, 0, STAYS},
    {"validate", NEWCOMER, VALIDATE, DROPPED, 0, STAYS},
    {"sign", NEWCOMER, SIGN, DROPPED, 0, STAYS},
    {"make nonce", NEWCOMER, MAKE_NONCE, DROPPED, 0, STAYS},
    {"judge nonce", NEWCOMER, JUDGE_NONCE, DROPPED, 0, STAYS}};

/* ---- The server and its clients ---------------------------------------------------------------- */

static stun_types_turn server = STUN_TYPES_TURN_INIT;
static stun_types_key secret = STUN_TYPES_KEY_INIT, none = STUN_TYPES_KEY_INIT;
static stun_types_key keys[2 * CHOSEN]; /* by MD5, of the users of the clients that are used, and of new ones */
static uint64_t now = 1000 * SECOND, window = (1ull << 36) - 1, relays[CHOSEN];
static size_t allocations, times;

/* What a call is made with. */
typedef struct {
    stun_types_turn_datagram datagram, release;
    const stun_types_key *key;
    stun_types_address peer;
    uint64_t relay;
} input;

static input *inputs;
static uint8_t reply[ROOM]; /* to an Allocate request, as it was before it was signed */
static size_t reply_length, reply_signed;

static void stop(const char *why) {
    fprintf(stderr, "turn_calls: %s\n", why);
    exit(2);
}

static void need(stun_types_answer answer) {
    if (answer.code != STUN_TYPES_OK) stop(stun_types_status_text(answer.code));
}

/* A number that looks random. */
static uint64_t spread(uint64_t number) {
    number = (number ^ number >> 30) * 0xBF58476D1CE4E5B9;
    number = (number ^ number >> 27) * 0x94D049BB133111EB;
    return number ^ number >> 31;
}

/* The clients that the calls are of. */
static size_t chosen(size_t number) { return (size_t)(spread(number % CHOSEN) % allocations); }

static stun_types_address ipv4(uint64_t address, uint16_t port) {
    stun_types_address it = {.family = 4, .port = port};
    for (int i = 0; i < 4; i++) it.octets[i] = (uint8_t)(address >> (24 - 8 * i));
    return it;
}

static stun_types_address address_of(size_t client) { return ipv4(0x0A000000 + client, 50000); }

/* A peer of each client; from PEERS on one without a permission. */
static stun_types_address peer_at(size_t at) { return ipv4(0x08080800 + at, 4000); }

static size_t place(size_t number) { return (size_t)(spread(number) >> 40) % PEERS; }

/* A lifetime of some years, in seconds. */
static uint32_t years(size_t number) { return (uint32_t)(1000000000 + spread(number) % 3000000000); }

static size_t user_of(size_t client) {
    return client < NEWCOMERS ? client / OF_USER : NEWCOMERS + client % CHOSEN;
}

static int name_of(size_t user, char name[32]) { return snprintf(name, 32, "user-%07zu", user); }

static void make_key(stun_types_key *key, size_t user) {
    char name[32];
    size_t length = (size_t)name_of(user, name);
    need(stun_types_key_long_term(key, name, length, REALM, strlen(REALM), PASSWORD, strlen(PASSWORD),
                                  STUN_TYPES_PASSWORD_MD5));
}

/* ---- Messages ---------------------------------------------------------------------------------- */

typedef struct {
    uint8_t bytes[ROOM];
    size_t length;
} message;

static void begin(message *made, stun_types_class message_class, stun_types_method method, size_t number) {
    stun_types_id id = {{0}};
    memcpy(id.bytes, &number, sizeof number);
    uint16_t type = stun_types_message_type(message_class, method);
    need(stun_types_begin(made->bytes, ROOM, type, &id, &made->length));
}

static void add_u8(message *made, uint16_t type, uint8_t number) {
    need(stun_types_add_u8(made->bytes, ROOM, &made->length, type, number));
}

static void add_u32(message *made, uint16_t type, uint32_t number) {
    need(stun_types_add_u32(made->bytes, ROOM, &made->length, type, number));
}

static void add_peer(message *made, stun_types_address peer) {
    need(stun_types_add_xor_address(made->bytes, ROOM, &made->length, STUN_TYPES_ATTRIBUTE_XOR_PEER_ADDRESS,
                                    &peer));
}

static void add(message *made, uint16_t type, const void *value, size_t length) {
    need(stun_types_add(made->bytes, ROOM, &made->length, type, value, length));
}

static void sign(message *made, size_t client, size_t user, const stun_types_key *key) {
    char name[32];
    uint8_t nonce[STUN_TYPES_NONCE_LENGTH];
    size_t length = 0;
    stun_types_address from = address_of(client);
    need(stun_types_make_nonce(&secret, 0, window, now / SECOND, &from, nonce, sizeof nonce, &length));
    add(made, STUN_TYPES_ATTRIBUTE_USERNAME, name, (size_t)name_of(user, name));
    add(made, STUN_TYPES_ATTRIBUTE_REALM, REALM, strlen(REALM));
    add(made, STUN_TYPES_ATTRIBUTE_NONCE, nonce, length);
    need(stun_types_add_integrity(made->bytes, ROOM, &made->length, key, STUN_TYPES_INTEGRITY_SHA1));
}

/* An Allocate request, and what its row is about. */
static void write_allocate(message *made, what is, size_t number, uint32_t lifetime) {
    begin(made, STUN_TYPES_CLASS_REQUEST, STUN_TYPES_METHOD_ALLOCATE, number);
    if (is != ALLOCATE_BARE)
        add_u8(made, STUN_TYPES_ATTRIBUTE_REQUESTED_TRANSPORT, is == ALLOCATE_TCP ? 6 : 17);
    add_u32(made, STUN_TYPES_ATTRIBUTE_LIFETIME, lifetime);
    if (is == ALLOCATE_IPV6) add_u8(made, STUN_TYPES_ATTRIBUTE_REQUESTED_ADDRESS_FAMILY, 2);
    if (is == ALLOCATE_UNKNOWN) add_u32(made, 0x7FFF, 0);
}

static void write_refresh(message *made, size_t number, uint32_t lifetime) {
    begin(made, STUN_TYPES_CLASS_REQUEST, STUN_TYPES_METHOD_REFRESH, number);
    add_u32(made, STUN_TYPES_ATTRIBUTE_LIFETIME, lifetime);
}

static void write_permit(message *made, what is, size_t number, size_t at) {
    begin(made, STUN_TYPES_CLASS_REQUEST, STUN_TYPES_METHOD_CREATE_PERMISSION, number);
    if (is == PERMIT) add_peer(made, peer_at(at));
    if (is == PERMIT_DENIED) add_peer(made, ipv4(0x7F000001, 4000));
    for (size_t i = 0; is == PERMIT_EIGHT && i < 8; i++) add_peer(made, peer_at(i));
}

static void write_bind(message *made, what is, size_t number, size_t at) {
    begin(made, STUN_TYPES_CLASS_REQUEST, STUN_TYPES_METHOD_CHANNEL_BIND, number);
    need(stun_types_add_u16(made->bytes, ROOM, &made->length, STUN_TYPES_ATTRIBUTE_CHANNEL_NUMBER,
                            (uint16_t)(0x4000 + at)));
    add_peer(made, peer_at(is == BIND_TAKEN ? PEERS + at : at));
}

static void write_send(message *made, what is, size_t number, size_t at) {
    static const uint8_t data[DATA] = {1};
    begin(made, STUN_TYPES_CLASS_INDICATION, STUN_TYPES_METHOD_SEND, number);
    add_peer(made, peer_at(is == SEND_OTHER ? PEERS + at : at));
    add(made, STUN_TYPES_ATTRIBUTE_DATA, data, sizeof data);
}

static void write_channel_data(message *made, what is, size_t at) {
    static const uint8_t data[DATA] = {1};
    need(stun_types_write_channel_data((uint16_t)(is == CHANNEL_FREE ? 0x4FFF : 0x4000 + at), data, sizeof data,
                                       false, made->bytes, ROOM, &made->length));
}

/* Writes what a client sends, and signs it if it is to be. number: of the transaction. */
static void write_input(message *made, what is, size_t number, size_t client, size_t user,
                        const stun_types_key *key, uint32_t lifetime) {
    size_t at = place(number);
    bool is_data = is == SEND || is == SEND_OTHER || is == CHANNEL || is == CHANNEL_FREE;
    if (is == BINDING) begin(made, STUN_TYPES_CLASS_REQUEST, STUN_TYPES_METHOD_BINDING, number);
    else if (is == REFRESH) write_refresh(made, number, lifetime);
    else if (is == PERMIT || is == PERMIT_EIGHT || is == PERMIT_DENIED) write_permit(made, is, number, at);
    else if (is == BIND || is == BIND_TAKEN) write_bind(made, is, number, at);
    else if (is == SEND || is == SEND_OTHER) write_send(made, is, number, at);
    else if (is == CHANNEL || is == CHANNEL_FREE) write_channel_data(made, is, at);
    else write_allocate(made, is, number, lifetime);
    if (is != BINDING && is != UNSIGNED && !is_data) sign(made, client, user, key);
}

/* ---- Calls ------------------------------------------------------------------------------------- */

static stun_types_turn_datagram datagram_of(size_t client, const uint8_t *bytes, size_t length) {
    stun_types_turn_datagram it = {.bytes = bytes, .length = length, .looked_up = 1};
    it.from.client = address_of(client);
    it.from.server = ipv4(0xC0000201, 3478);
    it.ready.any_ipv4 = it.ready.even_ipv4 = ipv4(0x0B000000 + client, 40000);
    return it;
}

static bool asks(const stun_types_turn_datagram *datagram, const stun_types_key *key,
                 stun_types_turn_action *does) {
    static uint8_t response[ROOM];
    return stun_types_turn_client(&server, now, datagram, key, &none, response, ROOM, does).code ==
           STUN_TYPES_OK;
}

/* Has a client make a request while the server is filled. */
static stun_types_turn_action fill_by(what is, size_t number, size_t client, const stun_types_key *key) {
    static message made;
    stun_types_turn_action does = {.code = 0};
    write_input(&made, is, number, client, user_of(client), key, years(client));
    stun_types_turn_datagram datagram = datagram_of(client, made.bytes, made.length);
    if (!asks(&datagram, key, &does) || does.kind != ANSWERED || does.code != 0)
        stop("the server isn't filled");
    return does;
}

/* Fills the server; keeps the keys of the clients that are used, and their relays. */
static void fill(void) {
    stun_types_key key = STUN_TYPES_KEY_INIT;
    uint64_t *all = calloc(allocations, sizeof *all);
    if (all == NULL) stop("out of memory");
    for (size_t client = 0; client < allocations; client++) {
        if (client % OF_USER == 0) make_key(&key, user_of(client));
        all[client] = fill_by(ALLOCATE, client, client, &key).ipv4.relay;
    }
    stun_types_key_free(&key);
    for (size_t i = 0; i < CHOSEN; i++) {
        make_key(&keys[i], user_of(chosen(i)));
        make_key(&keys[CHOSEN + i], NEWCOMERS + i);
        relays[i] = all[chosen(i)];
    }
    free(all);
    for (size_t i = 0; i < CHOSEN; i++) {
        bool bound[PEERS] = {false};
        for (size_t number = NEWCOMERS, left = PEERS; left > 0; number++) {
            if (bound[place(number)]) continue;
            bound[place(number)] = true;
            left--;
            fill_by(BIND, number, chosen(i), &keys[i]);
        }
    }
}

static uint8_t *kept(const message *made) {
    uint8_t *bytes = malloc(made->length);
    if (bytes == NULL) stop("out of memory");
    return memcpy(bytes, made->bytes, made->length);
}

/* Writes the input of a call. */
static void prepare(const row *of, size_t at) {
    static message made;
    what is = of->is >= VALIDATE || of->is == NOTHING ? ALLOCATE : of->is;
    size_t number = NEWCOMERS + at, own = chosen(at), slot = at % CHOSEN;
    size_t client = of->from == OWNER || of->from == OTHER_USER ? own : number;
    size_t user = of->from == OWNER || of->from == NO_QUOTA ? user_of(own) : NEWCOMERS + slot;
    input *it = &inputs[at];
    it->key = &keys[of->from == OWNER || of->from == NO_QUOTA ? slot : CHOSEN + slot];
    it->relay = relays[slot];
    it->peer = peer_at(is == PEER_OTHER ? PEERS + place(at) : place(at));
    if (is == PEER_OTHER_PORT) it->peer.port = 9;
    if (is >= PEER && is <= POLL) return;
    uint32_t lifetime = of->ends == BY_POLL ? 600 : years(at);
    write_input(&made, is, is == SAME_ALLOCATE ? own : number, client, user, it->key,
                is == SAME_ALLOCATE ? years(own) : lifetime);
    it->datagram = datagram_of(client, kept(&made), made.length);
    if (of->ends != BY_REFRESH) return;
    write_input(&made, REFRESH, 2 * NEWCOMERS + at, client, user, it->key, 0);
    it->release = datagram_of(client, kept(&made), made.length);
}

/* Keeps the response to the first input, up to its MESSAGE-INTEGRITY. */
static void prepare_reply(void) {
    stun_types_turn_action does = {.code = 0};
    stun_types_attribute attribute;
    if (stun_types_turn_client(&server, now, &inputs[0].datagram, inputs[0].key, &none, reply, ROOM,
                               &does).code ||
        !stun_types_find(reply, does.length, STUN_TYPES_ATTRIBUTE_MESSAGE_INTEGRITY, &attribute))
        stop("there is no response");
    reply_signed = does.length;
    reply_length = attribute.value_at - 4;
}

static bool ends(const row *of, const input *it, uint64_t relay) {
    stun_types_turn_action does = {.code = 0};
    switch (of->ends) {
    case BY_REFRESH: return asks(&it->release, it->key, &does) && does.code == 0 && does.ended == 1;
    case BY_POLL: return stun_types_turn_poll(&server, now += 600 * SECOND) == 1;
    case BY_NUMBER: return stun_types_turn_end(&server, now, relay) == 1;
    default: return true;
    }
}

/* Passes a client's datagram to the server. */
static bool is_answered(const row *of, const input *it) {
    stun_types_turn_action does = {.code = 0};
    bool takes = of->is == ALLOCATE && of->code == 0;
    return asks(&it->datagram, it->key, &does) && does.kind == of->kind && does.code == of->code &&
           does.ended == 0 && does.ipv4.took == takes && ends(of, it, does.ipv4.relay);
}

static bool is_delivered(const row *of, const input *it) {
    static const stun_types_id id = {{1}};
    static uint8_t head[STUN_TYPES_TURN_HEAD];
    stun_types_turn_delivery to = {.sends = 0};
    stun_types_answer answer =
        stun_types_turn_peer(&server, now, &it->peer, it->relay, DATA, &id, head, sizeof head, &to);
    return answer.code == STUN_TYPES_OK && to.sends == (of->code != 0) && to.head_length == of->code;
}

static bool signs(const input *it) {
    size_t length = reply_length;
    reply[2] = (uint8_t)((length - 20) >> 8);
    reply[3] = (uint8_t)(length - 20);
    stun_types_answer answer =
        stun_types_add_integrity(reply, ROOM, &length, it->key, STUN_TYPES_INTEGRITY_SHA1);
    return answer.code == STUN_TYPES_OK && length == reply_signed;
}

static bool is_nonce(what is, const input *it) {
    static uint8_t nonce[STUN_TYPES_NONCE_LENGTH];
    static size_t length;
    stun_types_nonce_state state = STUN_TYPES_NONCE_UNKNOWN;
    const stun_types_address *from = &inputs[0].datagram.from.client;
    if (is == MAKE_NONCE || length == 0)
        need(stun_types_make_nonce(&secret, 0, window, now / SECOND, from, nonce, sizeof nonce, &length));
    if (is == MAKE_NONCE) return it->key != NULL && length == sizeof nonce;
    need(stun_types_judge_nonce(&secret, 0, window, now / SECOND, from, nonce, length, &state));
    return state == STUN_TYPES_NONCE_VALID;
}

/* Makes a call; whether it is answered as its row says. */
static bool makes(const row *of, const input *it) {
    stun_types_validated validated;
    stun_types_turn_action does = {.code = 0};
    switch (of->is) {
    case NOTHING: return does.code == of->code && it->key != NULL;
    case PEER:
    case PEER_OTHER_PORT:
    case PEER_OTHER: return is_delivered(of, it);
    case POLL: return stun_types_turn_poll(&server, now) == 0;
    case VALIDATE:
        return stun_types_validate(it->datagram.bytes, it->datagram.length, it->key, &validated).code ==
               STUN_TYPES_OK;
    case SIGN: return signs(it);
    case MAKE_NONCE:
    case JUDGE_NONCE: return is_nonce(of->is, it);
    default: return is_answered(of, it);
    }
}

/* ---- The beginning ----------------------------------------------------------------------------- */

static void make_server(size_t room) {
    uint8_t random[32];
    memset(random, 7, sizeof random);
    stun_types_turn_settings settings = {.window = window, .seed = {1, 2}, .limits = STUN_TYPES_TURN_LIMITS};
    settings.realm = REALM;
    settings.realm_length = strlen(REALM);
    settings.limits.relays = (uint32_t)room;
    settings.limits.relays_per_user = OF_USER;
    settings.limits.greatest_lifetime = UINT32_MAX;
    settings.limits.ipv6 = 0;
    need(stun_types_key_from_bytes(&secret, random, sizeof random, STUN_TYPES_INTEGRITY_ANY));
    need(stun_types_turn_new(&server, &settings, &secret));
}

/* Makes the calls of a row. Whether each is answered as it says. */
static bool measure(const row *of) {
    size_t answered = 0;
    for (size_t i = 0; i < times; i++) prepare(of, i);
    if (of->is == SIGN) prepare_reply();
    CALLGRIND_START_INSTRUMENTATION;
    for (size_t i = 0; i < times; i++) answered += makes(of, &inputs[i]);
    CALLGRIND_STOP_INSTRUMENTATION;
    if (answered == times) return true;
    fprintf(stderr, "turn_calls: %s: %zu of %zu are answered so\n", of->name, answered, times);
    return false;
}

/* The same in a process of its own, which leaves the server of this one as it is. */
static bool measure_apart(const row *of) {
    int status = 0;
    pid_t child = fork();
    if (child == 0) exit(measure(of) ? 0 : 1);
    return child > 0 && waitpid(child, &status, 0) == child && status == 0;
}

static const row *row_of(const char *name) {
    for (size_t i = 0; i < sizeof rows / sizeof *rows; i++) {
        if (strcmp(rows[i].name, name) == 0) return &rows[i];
    }
    fprintf(stderr, "turn_calls: %s is no call\n", name);
    exit(2);
}

/* Reads a number of decimal digits, from 1 to MOST; 0: it is none. */
static size_t read_number(const char *text) {
    char *end;
    unsigned long read = strtoul(text, &end, 10);
    return *text >= '0' && *text <= '9' && *end == 0 && read <= MOST ? read : 0;
}

int main(int count, char **words) {
    bool right = true;
    size_t room = count > 4 ? read_number(words[1]) : 0;
    allocations = room > 0 ? read_number(words[2]) : 0;
    times = room > 0 ? read_number(words[3]) : 0;
    if (times == 0 || allocations < OF_USER || allocations > room)
        return fprintf(stderr, "usage: turn_calls ROOM ALLOCATIONS TIMES CALL..\n"), 2;
    inputs = calloc(times, sizeof *inputs);
    if (inputs == NULL) stop("out of memory");
    make_server(room);
    fill();
    for (int i = 4; i < count; i++) right &= measure_apart(row_of(words[i]));
    return right ? 0 : 1;
}
