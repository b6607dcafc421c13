/* A TURN server over UDP (RFC 8656) for one user, in one thread.
 *
 *     cc -O2 -I c c/examples/relay_server.c libstun_types.a -o relay_server
 *     ./relay_server ADDRESS PORT REALM USER PASSWORD [PEER]
 *
 * ADDRESS, which is one of this machine's, is that of the relays too; with port 0 the system chooses one.
 * PEER is an address that clients may reach although it is denied by default: 127.0.0.1 to try it out. */
#define _DEFAULT_SOURCE
#include "datagrams.h"

/* The sockets: the one that clients send to, those of the relays, and a spare one for the next relay. */
enum { RELAYS = 100, HEAD = STUN_TYPES_TURN_HEAD };
static struct pollfd sockets[1 + RELAYS], spare;
static uint64_t numbers[1 + RELAYS];  /* by which the library knows the relays */
static nfds_t count = 1;              /* of the sockets but for the spare one */
static stun_types_address own, ready; /* where clients send to, and the address of the spare socket */
static uint8_t room[HEAD + 65536 + 3], *const datagram = room + HEAD; /* between its head and padding */
static stun_types_turn server = STUN_TYPES_TURN_INIT;
static const char *user;
static stun_types_key md5 = STUN_TYPES_KEY_INIT, sha256 = STUN_TYPES_KEY_INIT, none = STUN_TYPES_KEY_INIT;

static nfds_t relay_of(uint64_t number) {
    nfds_t at = 1;
    while (at < count && numbers[at] != number) at++;
    return at;
}

static void send_to(nfds_t by, const stun_types_address *to, const uint8_t *bytes, size_t length) {
    send_datagram(sockets[by].fd, to, bytes, length);
}

static bool receive(nfds_t by, stun_types_address *from, size_t *length) {
    return receive_datagram(sockets[by].fd, from, datagram, 65536, length);
}

/* Closes the sockets of the relays that the last call ended. */
static void close_ended(void) {
    uint64_t ended;
    for (size_t first = 0; stun_types_turn_ended(&server, &ended, 1, first) == 1; first++) {
        nfds_t at = relay_of(ended);
        if (at == count) continue;
        close(sockets[at].fd);
        sockets[at] = sockets[--count];
        numbers[at] = numbers[count];
    }
}

static void keep(const stun_types_turn_opened *opened) {
    if (!opened->took) return;
    sockets[count] = spare;
    numbers[count++] = opened->relay;
    ready.family = 0;
}

static void take_from_client(void) {
    static uint8_t response[2000];
    stun_types_turn_datagram it = {.bytes = datagram, .from.server = own, .looked_up = 1};
    stun_types_turn_action does = {.ended = 0};
    stun_types_attribute name;
    if (!receive(0, &it.from.client, &it.length)) return;
    if (own.family == 4) it.ready.any_ipv4 = it.ready.even_ipv4 = ready;
    else it.ready.any_ipv6 = it.ready.even_ipv6 = ready;
    /* (a server of many users finds the keys when it is asked to, by STUN_TYPES_TURN_NEEDS_KEY) */
    bool is_user = stun_types_find(datagram, it.length, STUN_TYPES_ATTRIBUTE_USERNAME, &name) &&
                   name.length == strlen(user) && memcmp(datagram + name.value_at, user, name.length) == 0;
    if (stun_types_turn_client(&server, nanoseconds(), &it, is_user ? &md5 : &none, is_user ? &sha256 : &none,
                               response, sizeof response, &does).code) does.kind = STUN_TYPES_TURN_NOTHING;
    if (does.ended) close_ended();
    keep(&does.ipv4); /* also if the response can't be written */
    keep(&does.ipv6);
    if (does.kind == STUN_TYPES_TURN_RESPONSE) send_to(0, &it.from.client, response, does.length);
    if (does.kind == STUN_TYPES_TURN_TO_PEER)
        send_to(relay_of(does.relay), &does.peer, datagram + does.at, does.length);
}

static void take_from_peer(nfds_t by) {
    stun_types_turn_delivery to = {.sends = 0};
    stun_types_address peer;
    stun_types_id id;
    size_t length;
    if (!receive(by, &peer, &length) || !draw(&id, sizeof id)) return;
    if (stun_types_turn_peer(&server, nanoseconds(), &peer, numbers[by], length, &id, room, HEAD, &to).code)
        return;
    memset(datagram + length, 0, to.padding);
    if (to.sends) send_to(0, &to.to.client, datagram - to.head_length, to.head_length + length + to.padding);
    if (to.ended) close_ended();
}

int main(int words, char **word) {
    socket_address at, peer;
    uint8_t random[32];
    stun_types_prefix allowed = {.length = 0};
    bool allows = words == 7 && read_address(word[6], "0", SOCK_DGRAM, &peer) &&
                  address_of(&peer.bytes, &allowed.address);
    if (words - allows != 6 || !read_address(word[1], word[2], SOCK_DGRAM, &at) || !address_of(&at.bytes, &own))
        return fprintf(stderr, "usage: relay_server ADDRESS PORT REALM USER PASSWORD [PEER]\n"), 2;
    allowed.length = allowed.address.family == 6 ? 128 : 32;
    stun_types_turn_settings settings = {
        .window = 3600, .limits = STUN_TYPES_TURN_LIMITS, .features = STUN_TYPES_FEATURE_PASSWORD_ALGORITHMS,
        .realm = word[3], .realm_length = strlen(word[3]),
        .allowed = &allowed, .allowed_count = allows, .listening = &own, .listening_count = 1};
    stun_types_key secret = STUN_TYPES_KEY_INIT;
    user = word[4];
    settings.limits.relays = settings.limits.relays_per_user = RELAYS;
    settings.limits.old_channels = 1; /* of coturn's client */
    settings.limits.ipv4 = own.family == 4;
    settings.limits.ipv6 = own.family == 6;
    sockets[0] = open_socket(&own);
    if (own.family == 0 || !draw(random, sizeof random) || !draw(settings.seed, sizeof settings.seed) ||
        stun_types_key_from_bytes(&secret, random, sizeof random, STUN_TYPES_INTEGRITY_ANY).code ||
        stun_types_key_long_term(&md5, word[4], strlen(word[4]), word[3], strlen(word[3]), word[5],
                                 strlen(word[5]), STUN_TYPES_PASSWORD_MD5).code ||
        stun_types_key_long_term(&sha256, word[4], strlen(word[4]), word[3], strlen(word[3]), word[5],
                                 strlen(word[5]), STUN_TYPES_PASSWORD_SHA256).code ||
        stun_types_turn_new(&server, &settings, &secret).code) return perror("relay_server"), 2;
    printf("listening on ");
    print_address(stdout, &own);
    printf("\n"), fflush(stdout);
    for (;;) {
        for (bool is_odd = ready.family == 0; is_odd; is_odd = ready.port % 2 != 0) { /* EVEN-PORT */
            if (ready.family != 0) close(spare.fd);
            ready = own;
            ready.port = 0;
            spare = open_socket(&ready);
        }
        if (poll(sockets, count, 1000) < 0) return perror("relay_server"), 2;
        for (nfds_t by = count; by-- > 1;) if (by < count && sockets[by].revents) take_from_peer(by);
        if (sockets[0].revents) take_from_client();
        if (stun_types_turn_poll(&server, nanoseconds())) close_ended();
    }
}
