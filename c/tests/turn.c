/* A TURN server in C: making one and ending it, and which peers it relays to. What it does then is
 * asked by turn_answers.c and the rows of vectors/. */
#include <string.h>

#include "check.h"
#include "heap.h"
#include "keychain.h"
#include "reference.h"
#include "tests.h"
#include "turn_site.h"

/* ---- a struct that holds no server */

/* Whether the client has no flow on a channel, which zeros say too. */
static bool has_no_flow(uint16_t channel) {
    stun_types_flow *flow = NEW(stun_types_flow);
    memset(flow, FILL, sizeof *flow);
    return !stun_types_turn_flow(site.server, site.from, channel, flow) && is_zero(flow, sizeof *flow);
}

static void check_no_server(const char *name, uint8_t byte) {
    turn_making it;
    uint64_t *ended;
    uint8_t *head;
    stun_types_turn_delivery *delivery;
    const stun_types_id id = turn_id(5);
    site_begin_alone(name);
    memset(site.server, byte, sizeof *site.server);
    site_write_allocate(1);
    heap_allow(false);
    ANSWERS(site_take_in(site.server, 0, site_datagram(), SITE_ROOM),
            PLAIN(STUN_TYPES_BAD_ARGUMENT));
    CHECK(is_zero(site.action, sizeof *site.action));
    head = room(STUN_TYPES_TURN_HEAD);
    delivery = NEW(stun_types_turn_delivery);
    ANSWERS(
        turn_from_peer(site.server, 0, 0, &site_peer, 3, &id, head, STUN_TYPES_TURN_HEAD, delivery),
        PLAIN(STUN_TYPES_BAD_ARGUMENT));
    CHECK(is_untouched(head, STUN_TYPES_TURN_HEAD) && is_zero(delivery, sizeof *delivery));
    ANSWERS(turn_from_peer(site.server, 0, 0, &site_peer, 3, &id, room(0), 0, delivery),
            PLAIN(STUN_TYPES_BAD_ARGUMENT));
    ended = (uint64_t *)(void *)room(8);
    CHECK(stun_types_turn_poll(site.server, 0) == 0);
    CHECK(stun_types_turn_end(site.server, 0, 0) == 0);
    CHECK(site_end_user(0, "alice") == 0);
    CHECK(stun_types_turn_ended(site.server, ended, 1, 0) == 0 && is_untouched(ended, 8));
    CHECK(stun_types_turn_next_due(site.server) == UINT64_MAX);
    CHECK(stun_types_turn_count(site.server) == 0);
    CHECK(has_no_flow(0x4000));
    ANSWERS(stun_types_turn_set_alternate(site.server, &site_peer), PLAIN(STUN_TYPES_BAD_ARGUMENT));
    ANSWERS(stun_types_turn_set_limits(site.server, &site_settings.limits), PLAIN(STUN_TYPES_BAD_ARGUMENT));
    heap_allow(true);
    it = site_making();
    ANSWERS(site_set_rules(site.server, &it), PLAIN(STUN_TYPES_BAD_ARGUMENT));
    site_end();
}

static void test_no_server(void) {
    check_no_server("none, of zeros", 0);
    check_no_server("none, of a repeated byte", FILL);
    check_no_server("none, of ones", 0xFF);
    row("a TURN server", "STUN_TYPES_TURN_INIT");
    CHECK(stun_types_turn_none().at == NULL && stun_types_turn_none().held == 0);
}

/* ---- what it is made by */

/* How many bytes a text has at most. */
enum { LONGEST_TEXT = 763 };

/* Each changes what a server is made by, so that the call is refused, or isn't. */
static void no_policy(turn_making *it) { it->settings.policy.algorithm = (stun_types_integrity)1; }
static void no_hmac_length(turn_making *it) { it->settings.policy.min_hmac_length = 17; }
static void policy_reserved(turn_making *it) { it->settings.policy.reserved = 1; }
static void four_features(turn_making *it) { it->settings.features = 4; }
static void settings_reserved(turn_making *it) { it->settings.reserved = 1; }
static void settings_reserved_high(turn_making *it) { it->settings.reserved = (uint64_t)1 << 63; }
static void no_secret(turn_making *it) { it->secret = no_key(); }
static void denies(turn_making *it, uint16_t family, uint16_t length) {
    it->denied[0].address.family = family;
    it->denied[0].length = length;
    it->denied_count = 1;
}
static void allows(turn_making *it, uint16_t family, uint16_t length) {
    it->allowed[1] = it->allowed[0];
    it->allowed[0].address.family = 4;
    it->allowed[1].address.family = family;
    it->allowed[1].length = length;
    it->allowed_count = 2;
}
static void denied_33(turn_making *it) { denies(it, 4, 33); }
static void denied_129(turn_making *it) { denies(it, 6, 129); }
static void denied_264(turn_making *it) { denies(it, 6, 256 + 8); }
static void denied_family(turn_making *it) { denies(it, 5, 8); }
/* (a port of 0 is one, if it isn't the last) */
static void denied_ports(turn_making *it) {
    denies(it, 4, 8);
    it->denied[0].first_port = 2;
    it->denied[0].last_port = 1;
}
static void allowed_first_port(turn_making *it) {
    allows(it, 4, 8);
    it->allowed[1].first_port = 1;
}
static void whole_ports(turn_making *it) {
    denies(it, 4, 8);
    allows(it, 4, 8);
    it->denied[0].last_port = UINT16_MAX;
    it->allowed[1].first_port = it->allowed[1].last_port = UINT16_MAX;
}
static void allowed_33(turn_making *it) { allows(it, 4, 33); }
static void allowed_129(turn_making *it) { allows(it, 6, 129); }
static void allowed_family(turn_making *it) { allows(it, 0, 0); }
static void listening_family(turn_making *it) { it->listening[0].family = 0; }
static void second_listening(turn_making *it) { it->listening_count = 2; }
static void realm_bytes(turn_making *it) { it->realm = hex("C1BF"); }
static void software_bytes(turn_making *it) { it->software = hex("FF"); }
static void realm_764(turn_making *it) { it->realm = hex("61*764"); }
static void software_764(turn_making *it) { it->software = hex("61*764"); }
static void denied_bits(turn_making *it) {
    denies(it, 4, 30);
    it->denied[0].address.octets[3] = 6;
}
/* (of an IPv4 address only the first four octets are) */
static void denied_more_octets(turn_making *it) {
    denies(it, 4, 32);
    it->denied[0].address.octets[4] = 1;
}
static void allowed_more_octets(turn_making *it) {
    allows(it, 4, 0);
    it->allowed[1].address.octets[15] = 0x80;
}
static void listening_more_octets(turn_making *it) { it->listening[0].octets[4] = 1; }
static void allowed_bits(turn_making *it) {
    allows(it, 6, 127);
    it->allowed[1].address.octets[15] = 1;
}
static void settings_and_no_secret(turn_making *it) {
    settings_reserved(it);
    no_secret(it);
}
static void both_texts(turn_making *it) {
    realm_764(it);
    software_bytes(it);
}
static void prefix_and_no_secret(turn_making *it) {
    denied_33(it);
    no_secret(it);
}
static void prefix_and_realm(turn_making *it) {
    allowed_129(it);
    realm_bytes(it);
}
static void no_secret_and_realm(turn_making *it) {
    no_secret(it);
    realm_bytes(it);
}
static void whole_prefixes(turn_making *it) {
    denies(it, 4, 32);
    allows(it, 6, 128);
}
static void all_addresses(turn_making *it) {
    denies(it, 6, 0);
    allows(it, 4, 0);
}
static void long_texts(turn_making *it) {
    it->realm = hex("61*763");
    it->software = hex("62*763");
}
static void no_listening(turn_making *it) { it->listening_count = 0; }
static void no_features(turn_making *it) { it->settings.features = 0; }
static void many_relays(turn_making *it) { it->settings.limits.relays = 1 << 24; }
static void most_relays(turn_making *it) { it->settings.limits.relays = UINT32_MAX; }
static void many_and_no_secret(turn_making *it) {
    many_relays(it);
    no_secret(it);
}
static void nothing(turn_making *it) {
    memset(&it->settings.limits, 0, sizeof it->settings.limits);
    it->settings.window = 0;
}
static void bounded(turn_making *it) { it->settings.policy.min_hmac_length = 16; }

static const struct {
    const char *name;
    void (*change)(turn_making *it);
    uint32_t code;
    uint64_t expected, actual;
} makings[] = {
    {"another integrity algorithm", no_policy, STUN_TYPES_BAD_ARGUMENT, 0, 0},
    {"an HMAC of 17 bytes", no_hmac_length, STUN_TYPES_BAD_ARGUMENT, 0, 0},
    {"a spare word of the policy", policy_reserved, STUN_TYPES_BAD_ARGUMENT, 0, 0},
    {"another sum of features", four_features, STUN_TYPES_BAD_ARGUMENT, 0, 0},
    {"a spare word", settings_reserved, STUN_TYPES_BAD_ARGUMENT, 0, 0},
    {"the high bit of a spare word", settings_reserved_high, STUN_TYPES_BAD_ARGUMENT, 0, 0},
    {"2^24 relayed addresses", many_relays, STUN_TYPES_BAD_ARGUMENT, 0, 0},
    {"the greatest number of relayed addresses", most_relays, STUN_TYPES_BAD_ARGUMENT, 0, 0},
    {"2^24 relayed addresses, and no secret", many_and_no_secret, STUN_TYPES_BAD_ARGUMENT, 0, 0},
    {"a prefix of 33 bits", denied_33, STUN_TYPES_BAD_ARGUMENT, 0, 0},
    {"a prefix of 129 bits", denied_129, STUN_TYPES_BAD_ARGUMENT, 0, 0},
    {"a prefix of 264 bits", denied_264, STUN_TYPES_BAD_ARGUMENT, 0, 0},
    {"a prefix of another family", denied_family, STUN_TYPES_BAD_ARGUMENT, 0, 0},
    {"ports from 2 to 1", denied_ports, STUN_TYPES_BAD_ARGUMENT, 0, 0},
    {"allowed ports from 1 to 0", allowed_first_port, STUN_TYPES_BAD_ARGUMENT, 0, 0},
    {"all ports, and the last one", whole_ports, STUN_TYPES_OK, 0, 0},
    {"an allowed prefix of 33 bits", allowed_33, STUN_TYPES_BAD_ARGUMENT, 0, 0},
    {"an allowed prefix of 129 bits", allowed_129, STUN_TYPES_BAD_ARGUMENT, 0, 0},
    {"an allowed prefix of no family", allowed_family, STUN_TYPES_BAD_ARGUMENT, 0, 0},
    {"an address of another family", listening_family, STUN_TYPES_BAD_ARGUMENT, 0, 0},
    {"a second address of another family", second_listening, STUN_TYPES_BAD_ARGUMENT, 0, 0},
    {"no secret", no_secret, STUN_TYPES_NO_KEY, 0, 0},
    {"a realm that isn't UTF-8", realm_bytes, STUN_TYPES_INVALID_DATA, 0, 0},
    {"a software that isn't UTF-8", software_bytes, STUN_TYPES_INVALID_DATA, 0, 0},
    {"a realm of 764 bytes", realm_764, STUN_TYPES_TOO_LARGE, LONGEST_TEXT, 764},
    {"a software of 764 bytes", software_764, STUN_TYPES_TOO_LARGE, LONGEST_TEXT, 764},
    {"a prefix with other bits", denied_bits, STUN_TYPES_BAD_ARGUMENT, 0, 0},
    {"an allowed prefix with other bits", allowed_bits, STUN_TYPES_BAD_ARGUMENT, 0, 0},
    {"an IPv4 prefix with a fifth octet", denied_more_octets, STUN_TYPES_BAD_ARGUMENT, 0, 0},
    {"an allowed IPv4 prefix with a sixteenth octet", allowed_more_octets, STUN_TYPES_BAD_ARGUMENT, 0,
     0},
    {"an IPv4 address with a fifth octet", listening_more_octets, STUN_TYPES_OK, 0, 0},
    {"a spare word, and no secret", settings_and_no_secret, STUN_TYPES_BAD_ARGUMENT, 0, 0},
    {"a long realm, and a software that isn't UTF-8", both_texts, STUN_TYPES_TOO_LARGE,
     LONGEST_TEXT, 764},
    {"a prefix, and no secret", prefix_and_no_secret, STUN_TYPES_NO_KEY, 0, 0},
    {"a prefix, and a realm that isn't UTF-8", prefix_and_realm, STUN_TYPES_INVALID_DATA, 0, 0},
    {"no secret, and a realm that isn't UTF-8", no_secret_and_realm, STUN_TYPES_NO_KEY, 0, 0},
    {"prefixes of whole addresses", whole_prefixes, STUN_TYPES_OK, 0, 0},
    {"prefixes of no bit", all_addresses, STUN_TYPES_OK, 0, 0},
    {"texts of 763 bytes", long_texts, STUN_TYPES_OK, 0, 0},
    {"no listening address", no_listening, STUN_TYPES_OK, 0, 0},
    {"no features", no_features, STUN_TYPES_OK, 0, 0},
    {"limits of zeros, and no window", nothing, STUN_TYPES_OK, 0, 0},
    {"an HMAC of 16 bytes", bounded, STUN_TYPES_OK, 0, 0},
};

/* A call that is refused leaves the struct, whether it holds a server or none. */
static void test_making(void) {
    size_t i;
    for (i = 0; i < COUNT(makings); i++) {
        stun_types_turn *fresh, before;
        turn_making it;
        site_begin(makings[i].name);
        it = site_making();
        makings[i].change(&it);
        before = *site.server;
        CHECK(site_allocate(0, 1) == 0);
        fresh = NEW(stun_types_turn);
        *fresh = site_none;
        ANSWERS(site_make(fresh, &it),
                LENGTHS(makings[i].code, makings[i].expected, makings[i].actual));
        if (makings[i].code != STUN_TYPES_OK) {
            CHECK(memcmp(fresh, &site_none, sizeof site_none) == 0);
            ANSWERS(site_make(site.server, &it),
                    LENGTHS(makings[i].code, makings[i].expected, makings[i].actual));
            CHECK(memcmp(site.server, &before, sizeof before) == 0 && site_refresh(0, 600) == 0);
        }
        stun_types_turn_free(fresh);
        site_end();
    }
}

static void test_secrets(void) {
    size_t length;
    for (length = 15; length <= 16; length++) {
        stun_types_key *secret;
        turn_making it;
        site_begin_alone("a secret of 15 bytes, and of 16");
        secret = bytes_key(front_of(text("sixteen bytes..."), length), STUN_TYPES_INTEGRITY_ANY);
        heap_allow(true);
        it = site_making();
        it.secret = secret;
        ANSWERS(site_make(site.server, &it),
                PLAIN(length < 16 ? STUN_TYPES_BAD_ARGUMENT : STUN_TYPES_OK));
        stun_types_key_free(secret);
        site_end();
    }
}

/* The server that was there before is freed; and one is freed twice. */
static void test_lives(void) {
    turn_making it;
    long held;
    site_begin("made again, and freed twice");
    CHECK(site_allocate(0, 1) == 0);
    held = heap_held();
    it = site_making();
    ANSWERS(site_make(site.server, &it), OK_ANSWER);
    CHECK(heap_held() == held && site_refresh(0, 600) == 437 && site_allocate(0, 2) == 0);
    stun_types_turn_free(site.server);
    CHECK(memcmp(site.server, &site_none, sizeof site_none) == 0);
    held = heap_held();
    stun_types_turn_free(site.server);
    CHECK(memcmp(site.server, &site_none, sizeof site_none) == 0 && heap_held() == held);
    stun_types_turn_free(NULL);
    stun_types_turns_free(NULL, 0);
    CHECK(heap_held() == held);
    site_end();
}

/* Servers one after the other in memory; what is after them stays. */
static void test_ends_of_many(void) {
    stun_types_turn *servers;
    turn_making it;
    long held;
    site_begin("two are freed at once");
    servers = (stun_types_turn *)(void *)room(3 * sizeof *servers);
    servers[0] = servers[1] = servers[2] = site_none;
    it = site_making();
    held = heap_held();
    ANSWERS(site_make(&servers[0], &it), OK_ANSWER);
    ANSWERS(site_make(&servers[2], &it), OK_ANSWER);
    stun_types_turns_free(servers, 2);
    CHECK(memcmp(&servers[0], &site_none, sizeof site_none) == 0
          && memcmp(&servers[1], &site_none, sizeof site_none) == 0 && servers[2].at != NULL);
    stun_types_turns_free(servers + 2, 1);
    CHECK(heap_held() == held);
    site_end();
}

/* The server keeps nothing of what it is made by: all of it is overwritten, and the secret freed. */
static void test_copied(void) {
    stun_types_turn_settings settings = site_settings;
    stun_types_key secret = STUN_TYPES_KEY_INIT;
    stun_types_prefix denied = {{{198, 51, 100, 8}, 0, 4}, 32, 0, 0};
    stun_types_address second = site_own;
    slice value = {NULL, 0}, all;
    uint8_t *realm, *software;
    site_begin_alone("what a server is made by is copied");
    realm = copy(turn_realm, strlen(turn_realm));
    software = copy("a server", 8);
    ANSWERS(stun_types_key_copy(&secret, &site.nonces.secret), OK_ANSWER);
    settings.realm = realm;
    settings.realm_length = strlen(turn_realm);
    settings.software = software;
    settings.software_length = 8;
    settings.denied = &denied;
    settings.denied_count = 1;
    settings.listening = &second;
    settings.listening_count = 1;
    ANSWERS(stun_types_turn_new(site.server, &settings, &secret), OK_ANSWER);
    stun_types_key_free(&secret);
    memset(realm, FILL, strlen(turn_realm));
    memset(software, FILL, 8);
    memset(&settings, FILL, sizeof settings);
    memset(&denied, FILL, sizeof denied);
    memset(&second, FILL, sizeof second);
    CHECK(site_allocate(0, 1) == 0 && site_lifetime() == 600);
    all = site_response();
    CHECK(turn_find(all.bytes, all.length, STUN_TYPES_ATTRIBUTE_SOFTWARE, &value));
    CHECK_BYTES(value.bytes, value.length, text("a server"));
    CHECK(site_permit(0, &site_peer) == 0 && site_permit(0, &site_other_peer) == 403);
    CHECK(site_bind(0, 0x4000, &site_own) == 403);
    site_end();
}

/* No block that is given back holds the secret or the user's key, nor what an HMAC makes of them. */
static void test_overwritten(void) {
    uint8_t bytes[32];
    size_t length = 0;
    stun_types_integrity algorithm;
    int i;
    site_begin("secrets are overwritten");
    heap_forget_secrets();
    for (i = 0; i < 2; i++) {
        ANSWERS(stun_types_key_bytes(i == 0 ? &site.nonces.secret : &site.alice.md5, bytes,
                                     sizeof bytes, &length, &algorithm),
                OK_ANSWER);
        secrets_of(bytes, length, heap_add_secret);
    }
    CHECK(length == 16);
    site_write_allocate(2);
    site_take(0, site_datagram());
    CHECK(site.action->code == 401);
    CHECK(site_allocate(0, 1) == 0 && site_permit(0, &site_peer) == 0 && site_refresh(0, 600) == 0);
    site_end();
    CHECK(heap_faults() == 0);
    heap_forget_secrets();
}

/* The lifetime that is granted, by the greatest of the settings. */
static void test_lifetimes(void) {
    static const struct {
        const char *name;
        uint32_t greatest, asked, granted;
    } lifetimes[] = {
        {"a greatest lifetime of 0", 0, 3600, 600},
        {"of 599", 599, 3600, 600},
        {"of the greatest number", UINT32_MAX, UINT32_MAX, UINT32_MAX},
    };
    size_t i;
    for (i = 0; i < COUNT(lifetimes); i++) {
        turn_making it;
        site_begin_alone(lifetimes[i].name);
        it = site_making();
        it.settings.limits.greatest_lifetime = lifetimes[i].greatest;
        site_begin_by(&it);
        CHECK(site_allocate(0, 1) == 0 && site_lifetime() == 600);
        CHECK(site_refresh(0, lifetimes[i].asked) == 0 && site_lifetime() == lifetimes[i].granted);
        site_end();
    }
}

/* The limits that are recommended, as a macro and as a call. */
static void test_limits(void) {
    static const stun_types_turn_limits recommended = STUN_TYPES_TURN_LIMITS;
    const stun_types_turn_limits other = stun_types_turn_limits_default();
    row("a TURN server", "the limits that are recommended");
    CHECK(memcmp(&other, &recommended, sizeof other) == 0);
    CHECK(other.relays == 4096 && other.relays_per_user == 64 && other.greatest_lifetime == 3600);
    CHECK(other.ipv4 == 1 && other.ipv6 == 1 && other.channel_permits == 0 && other.old_channels == 0);
}

/* ---- which peers are allowed */

static const struct {
    const char *name;
    stun_types_prefix denied, allowed;
    stun_types_address peer;
    uint32_t code;
} prefixes[] = {
    {"a denied prefix",
     {{{198, 51, 100}, 0, 4}, 24, 0, 0},
     {{{0}, 0, 4}, 0, 0, 0},
     {{198, 51, 100, 7}, 1, 4},
     403},
    {"the last address of a denied prefix",
     {{{198, 51, 100, 4}, 0, 4}, 30, 0, 0},
     {{{0}, 0, 4}, 0, 0, 0},
     {{198, 51, 100, 7}, 1, 4},
     403},
    {"the address after it",
     {{{198, 51, 100, 4}, 9, 4}, 30, 0, 0},
     {{{0}, 0, 4}, 0, 0, 0},
     {{198, 51, 100, 8}, 1, 4},
     0},
    {"a longer one is allowed",
     {{{198, 51, 100}, 0, 4}, 24, 0, 0},
     {{{198, 51, 100, 7}, 0, 4}, 32, 0, 0},
     {{198, 51, 100, 7}, 1, 4},
     0},
    {"a longer one is denied",
     {{{198, 51, 100, 7}, 0, 4}, 32, 0, 0},
     {{{198, 51, 100}, 0, 4}, 24, 0, 0},
     {{198, 51, 100, 7}, 1, 4},
     403},
    {"both are the same",
     {{{198, 51, 100}, 0, 4}, 24, 0, 0},
     {{{198, 51, 100}, 0, 4}, 24, 0, 0},
     {{198, 51, 100, 7}, 1, 4},
     403},
    {"a default is allowed", {{{0}, 0, 4}, 0, 0, 0}, {{{10}, 0, 4}, 8, 0, 0}, {{10, 1, 2, 3}, 1, 4}, 0},
    {"a shorter one than the default",
     {{{198}, 0, 4}, 8, 0, 0},
     {{{10}, 0, 4}, 7, 0, 0},
     {{10, 1, 2, 3}, 1, 4},
     403},
    {"another family's prefix", {{{0}, 0, 6}, 0, 0, 0}, {{{0}, 0, 6}, 0, 0, 0}, {{198, 51, 100, 7}, 1, 4}, 0},
};

static void test_prefixes(void) {
    size_t i;
    for (i = 0; i < COUNT(prefixes); i++) {
        turn_making it;
        site_begin_alone(prefixes[i].name);
        it = site_making();
        it.denied[0] = prefixes[i].denied;
        it.allowed[0] = prefixes[i].allowed;
        it.denied_count = it.allowed_count = 1;
        site_begin_by(&it);
        CHECK(site_allocate(0, 1) == 0);
        CHECK(site_permit(0, &prefixes[i].peer) == prefixes[i].code);
        CHECK(site_sends_to(0, &prefixes[i].peer) == (prefixes[i].code == 0));
        site_end();
    }
}

/* ---- ports */

enum { IS_PERMITTED = 1, IS_SENT = 2, IS_BOUND = 4, ALL_OF_THEM = 7 };

static const struct {
    const char *name;
    stun_types_prefix denied, allowed;
    stun_types_address peer;
    int done;
} ports[] = {
    {"before denied ports", {{{198, 51, 100}, 0, 4}, 24, 10, 20}, {{{9}, 0, 4}, 8, 0, 0}, {{198, 51, 100, 7}, 9, 4}, ALL_OF_THEM},
    {"the first denied port", {{{198, 51, 100}, 0, 4}, 24, 10, 20}, {{{9}, 0, 4}, 8, 0, 0}, {{198, 51, 100, 7}, 10, 4}, IS_PERMITTED},
    {"the last denied port", {{{198, 51, 100}, 0, 4}, 24, 10, 20}, {{{9}, 0, 4}, 8, 0, 0}, {{198, 51, 100, 7}, 20, 4}, IS_PERMITTED},
    {"after denied ports", {{{198, 51, 100}, 0, 4}, 24, 10, 20}, {{{9}, 0, 4}, 8, 0, 0}, {{198, 51, 100, 7}, 21, 4}, ALL_OF_THEM},
    {"from port 0", {{{198, 51, 100}, 0, 4}, 24, 0, 20}, {{{9}, 0, 4}, 8, 0, 0}, {{198, 51, 100, 7}, 1, 4}, IS_PERMITTED},
    {"a longer one is allowed, with ports", {{{198, 51, 100}, 0, 4}, 24, 10, 20}, {{{198, 51, 100, 7}, 0, 4}, 32, 15, 15}, {{198, 51, 100, 7}, 15, 4}, ALL_OF_THEM},
    {"of an allowed prefix with ports another", {{{9}, 0, 4}, 8, 0, 0}, {{{10}, 0, 4}, 8, 5000, 6000}, {{10, 1, 2, 3}, 4999, 4}, IS_PERMITTED},
    {"of an allowed prefix with ports one", {{{9}, 0, 4}, 8, 0, 0}, {{{10}, 0, 4}, 8, 5000, 6000}, {{10, 1, 2, 3}, 5000, 4}, ALL_OF_THEM},
    {"all ports, which are written out", {{{198, 51, 100}, 0, 4}, 24, 0, 65535}, {{{9}, 0, 4}, 8, 0, 0}, {{198, 51, 100, 7}, 9, 4}, 0},
};

static int done_for(uint64_t now, const stun_types_address *peer) {
    int done = site_permit(now, peer) == 0 ? IS_PERMITTED : 0;
    if (site_sends_to(now, peer)) done |= IS_SENT;
    if (site_bind(now, 0x4000, peer) == 0) done |= IS_BOUND;
    return done;
}

static void test_ports(void) {
    size_t i;
    for (i = 0; i < COUNT(ports); i++) {
        turn_making it;
        site_begin_alone(ports[i].name);
        it = site_making();
        it.denied[0] = ports[i].denied;
        it.allowed[0] = ports[i].allowed;
        it.denied_count = it.allowed_count = 1;
        site_begin_by(&it);
        CHECK(site_allocate(0, 1) == 0);
        CHECK(done_for(0, &ports[i].peer) == ports[i].done);
        site_end();
    }
}

/* ---- what is changed of a server that runs */

/* The rules of each call are those that were set last; what is refused leaves them. */
static void test_rules(void) {
    turn_making it;
    stun_types_address other = site_peer;
    other.port++;
    site_begin("rules are replaced");
    CHECK(site_allocate(0, 1) == 0 && done_for(0, &site_peer) == ALL_OF_THEM);
    it = site_making();
    it.denied[0] = (stun_types_prefix){site_peer, 32, site_peer.port, site_peer.port};
    it.denied_count = 1;
    ANSWERS(site_set_rules(site.server, &it), OK_ANSWER);
    CHECK(!site_sends_to(0, &site_peer) && site_sends_to(0, &other));
    CHECK(site_bind(0, 0x4000, &site_peer) == 403 && site_permit(0, &site_peer) == 0);
    it.denied[0].length = 33;
    ANSWERS(site_set_rules(site.server, &it), PLAIN(STUN_TYPES_BAD_ARGUMENT));
    CHECK(!site_sends_to(0, &site_peer) && site_sends_to(0, &other));
    it.denied[0].length = 32;
    it.denied[0].first_port = it.denied[0].last_port = 0;
    ANSWERS(site_set_rules(site.server, &it), OK_ANSWER);
    CHECK(!site_sends_to(0, &other) && site_permit(0, &site_peer) == 403);
    it = site_making();
    ANSWERS(site_set_rules(site.server, &it), OK_ANSWER);
    CHECK(done_for(0, &site_peer) == ALL_OF_THEM && site_refresh(0, 600) == 0);
    site_end();
}

/* Without a socket an Allocate request is refused with 508, or with 300 if there is another server. */
static void test_alternate(void) {
    stun_types_address other = {{203, 0, 113, 9}, 3478, 4}, ipv6 = {{0x20, 1, 0xd, 0xb8}, 3478, 6}, none = {{0}, 0, 0};
    stun_types_address five = {{0}, 0, 5}, shown;
    stun_types_attribute found;
    site_begin("another server");
    memset(site.ready, 0, sizeof *site.ready);
    CHECK(site_allocate(0, 1) == 508);
    ANSWERS(stun_types_turn_set_alternate(site.server, &other), OK_ANSWER);
    CHECK(site_allocate(0, 2) == 300);
    CHECK(stun_types_find(site_response().bytes, site_response().length, 0x8023, &found));
    ANSWERS(stun_types_read_address(site_response().bytes, site_response().length, &found, &shown), OK_ANSWER);
    CHECK(memcmp(&shown, &other, sizeof shown) == 0);
    ANSWERS(stun_types_turn_set_alternate(site.server, &five), PLAIN(STUN_TYPES_BAD_ARGUMENT));
    CHECK(site_allocate(0, 3) == 300);
    ANSWERS(stun_types_turn_set_alternate(site.server, &ipv6), OK_ANSWER);
    CHECK(site_allocate(0, 4) == 508);
    ANSWERS(stun_types_turn_set_alternate(site.server, &other), OK_ANSWER);
    ANSWERS(stun_types_turn_set_alternate(site.server, &none), OK_ANSWER);
    CHECK(site_allocate(0, 5) == 508);
    site_end();
}

/* The quota of a user, the families and the lifetime are changed; the room isn't, and what was granted stays. */
static void test_new_limits(void) {
    stun_types_turn_limits limits = site_settings.limits;
    site_begin("limits are replaced");
    CHECK(site_allocate(0, 1) == 0 && site_refresh(0, 3000) == 0 && site_lifetime() == 3000);
    limits.relays_per_user = 0;
    limits.greatest_lifetime = 700;
    ANSWERS(stun_types_turn_set_limits(site.server, &limits), OK_ANSWER);
    CHECK(site_refresh(0, 3000) == 0 && site_lifetime() == 700);
    CHECK(stun_types_turn_count(site.server) == 1 && site_refresh(0, 0) == 0);
    CHECK(site_allocate(0, 2) == 486);
    limits.relays_per_user = 1;
    limits.ipv4 = 0;
    ANSWERS(stun_types_turn_set_limits(site.server, &limits), OK_ANSWER);
    CHECK(site_allocate(0, 3) == 440);
    limits.ipv4 = 1;
    limits.relays = 0;
    ANSWERS(stun_types_turn_set_limits(site.server, &limits), OK_ANSWER);
    CHECK(site_allocate(0, 4) == 0);
    site_end();
}

/* A channel is a flow, until the permission for its peer ends, and for its client alone. No other form of a
   5-tuple has one, and to ask takes no memory and ends nothing. */
static void test_flows(void) {
    stun_types_flow *flow = NEW(stun_types_flow);
    static uint16_t *wrong[3];
    size_t i;
    uint64_t relay;
    site_begin("flows");
    CHECK(site_allocate(0, 1) == 0);
    relay = site.action->ipv4.relay;
    CHECK(has_no_flow(0x4000) && site_bind(7, 0x4000, &site_peer) == 0);
    heap_allow(false);
    CHECK(stun_types_turn_flow(site.server, site.from, 0x4000, flow) && has_no_flow(0x4001));
    CHECK(flow->relay == relay && flow->expires_at == 300 * SECOND + 7);
    CHECK(turn_is_same_address(&flow->peer, &site_peer));
    wrong[0] = &site.from->client.family;
    wrong[1] = &site.from->server.family;
    wrong[2] = &site.from->stream;
    for (i = 0; i < COUNT(wrong); i++) {
        const uint16_t right = *wrong[i];
        *wrong[i] = 2;
        CHECK(has_no_flow(0x4000));
        *wrong[i] = right;
    }
    site.from->client.port++;
    CHECK(has_no_flow(0x4000));
    site.from->client.port--;
    CHECK(stun_types_turn_flow(site.server, site.from, 0x4000, flow));
    heap_allow(true);
    CHECK(stun_types_turn_poll(site.server, 300 * SECOND + 7) == 0 && has_no_flow(0x4000));
    site_end();
}

/* Each listening address is denied, by its port. */
static void test_listening(void) {
    turn_making it;
    stun_types_address second = site_own, third = site_own;
    site_begin_alone("two listening addresses");
    it = site_making();
    second.port = 5349;
    third.port = 5350;
    it.listening[1] = second;
    it.listening_count = 2;
    site_begin_by(&it);
    CHECK(site_allocate(0, 1) == 0 && site_permit(0, &site_own) == 0);
    CHECK(!site_sends_to(0, &site_own) && !site_sends_to(0, &second) && site_sends_to(0, &third));
    CHECK(site_bind(0, 0x4000, &site_own) == 403 && site_bind(0, 0x4000, &second) == 403);
    CHECK(site_bind(0, 0x4000, &third) == 0);
    site_end();
}

void test_turn(void) {
    test_no_server();
    test_making();
    test_secrets();
    test_lives();
    test_ends_of_many();
    test_copied();
    test_overwritten();
    test_lifetimes();
    test_limits();
    test_prefixes();
    test_ports();
    test_rules();
    test_alternate();
    test_new_limits();
    test_flows();
    test_listening();
}
